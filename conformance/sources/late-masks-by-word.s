# A mask of two registers, and words with the trigger's destination behind its second one: those without /V don't count, and those with it do, whether they overflow or not.
        .level 2
        .codebase 0x10000
        .segment 0x10000000
        .quad 0x0,0x0,0x0,0x0,0x0,0x0,0x0,0x0
        .quad 0x8786858483828180,0x8f8e8d8c8b8a8988,0x9796959493929190,0x9f9e9d9c9b9a9998,0x1716151413121110,0x1f1e1d1c1b1a1918,0x2726252423222120,0x2f2e2d2c2b2a2928
        .zero 256
        .code
start:
        ldah $9,0x1000($31)
        lda $0,3($31)
        clr $16
        mov $9,$17
        lda $18,64($31)
        callsys
        ldq $8,0($9)
        ldq $1,8($9)
        ldq $2,16($9)
        ldq $3,24($9)
        ldq $4,32($9)
        ldq $5,40($9)
        ldq $6,48($9)
        ldq $7,56($9)
        jmp $31,($8),0
dump:
        stq $0,128($9)
        stq $1,136($9)
        stq $2,144($9)
        stq $3,152($9)
        stq $4,160($9)
        stq $5,168($9)
        stq $6,176($9)
        stq $7,184($9)
        stq $8,192($9)
        stq $9,200($9)
        stq $10,208($9)
        stq $11,216($9)
        stq $12,224($9)
        stq $13,232($9)
        stq $14,240($9)
        stq $15,248($9)
        stq $16,256($9)
        stq $17,264($9)
        stq $18,272($9)
        stq $19,280($9)
        stq $20,288($9)
        stq $21,296($9)
        stq $22,304($9)
        stq $23,312($9)
        stq $24,320($9)
        stq $25,328($9)
        stq $26,336($9)
        stq $27,344($9)
        stq $28,352($9)
        stq $29,360($9)
        stq $30,368($9)
        stq $31,376($9)
        lda $0,4($31)
        lda $16,1($31)
        lda $17,64($9)
        lda $18,320($31)
        callsys
        clr $16
        lda $0,1($31)
        callsys
addl:
        addq/v $1,$2,$3
        addq/v $6,$31,$4
        addl $4,$6,$3
        trapb
        br dump
s4addl:
        addq/v $1,$2,$3
        addq/v $6,$31,$4
        s4addl $4,$6,$3
        trapb
        br dump
subl:
        addq/v $1,$2,$3
        addq/v $6,$31,$4
        subl $4,$6,$3
        trapb
        br dump
s4subl:
        addq/v $1,$2,$3
        addq/v $6,$31,$4
        s4subl $4,$6,$3
        trapb
        br dump
cmpbge:
        addq/v $1,$2,$3
        addq/v $6,$31,$4
        cmpbge $4,$6,$3
        trapb
        br dump
s8addl:
        addq/v $1,$2,$3
        addq/v $6,$31,$4
        s8addl $4,$6,$3
        trapb
        br dump
s8subl:
        addq/v $1,$2,$3
        addq/v $6,$31,$4
        s8subl $4,$6,$3
        trapb
        br dump
cmpult:
        addq/v $1,$2,$3
        addq/v $6,$31,$4
        cmpult $4,$6,$3
        trapb
        br dump
addq:
        addq/v $1,$2,$3
        addq/v $6,$31,$4
        addq $4,$6,$3
        trapb
        br dump
s4addq:
        addq/v $1,$2,$3
        addq/v $6,$31,$4
        s4addq $4,$6,$3
        trapb
        br dump
subq:
        addq/v $1,$2,$3
        addq/v $6,$31,$4
        subq $4,$6,$3
        trapb
        br dump
s4subq:
        addq/v $1,$2,$3
        addq/v $6,$31,$4
        s4subq $4,$6,$3
        trapb
        br dump
cmpeq:
        addq/v $1,$2,$3
        addq/v $6,$31,$4
        cmpeq $4,$6,$3
        trapb
        br dump
s8addq:
        addq/v $1,$2,$3
        addq/v $6,$31,$4
        s8addq $4,$6,$3
        trapb
        br dump
s8subq:
        addq/v $1,$2,$3
        addq/v $6,$31,$4
        s8subq $4,$6,$3
        trapb
        br dump
cmpule:
        addq/v $1,$2,$3
        addq/v $6,$31,$4
        cmpule $4,$6,$3
        trapb
        br dump
addl_v:
        addq/v $1,$2,$3
        addq/v $6,$31,$4
        addl/v $4,$6,$3
        trapb
        br dump
subl_v:
        addq/v $1,$2,$3
        addq/v $6,$31,$4
        subl/v $4,$6,$3
        trapb
        br dump
cmplt:
        addq/v $1,$2,$3
        addq/v $6,$31,$4
        cmplt $4,$6,$3
        trapb
        br dump
addq_v:
        addq/v $1,$2,$3
        addq/v $6,$31,$4
        addq/v $4,$6,$3
        trapb
        br dump
subq_v:
        addq/v $1,$2,$3
        addq/v $6,$31,$4
        subq/v $4,$6,$3
        trapb
        br dump
cmple:
        addq/v $1,$2,$3
        addq/v $6,$31,$4
        cmple $4,$6,$3
        trapb
        br dump
and:
        addq/v $1,$2,$3
        addq/v $6,$31,$4
        and $4,$6,$3
        trapb
        br dump
bic:
        addq/v $1,$2,$3
        addq/v $6,$31,$4
        bic $4,$6,$3
        trapb
        br dump
cmovlbs:
        addq/v $1,$2,$3
        addq/v $6,$31,$4
        cmovlbs $4,$6,$3
        trapb
        br dump
cmovlbc:
        addq/v $1,$2,$3
        addq/v $6,$31,$4
        cmovlbc $4,$6,$3
        trapb
        br dump
bis:
        addq/v $1,$2,$3
        addq/v $6,$31,$4
        bis $4,$6,$3
        trapb
        br dump
cmoveq:
        addq/v $1,$2,$3
        addq/v $6,$31,$4
        cmoveq $4,$6,$3
        trapb
        br dump
cmovne:
        addq/v $1,$2,$3
        addq/v $6,$31,$4
        cmovne $4,$6,$3
        trapb
        br dump
ornot:
        addq/v $1,$2,$3
        addq/v $6,$31,$4
        ornot $4,$6,$3
        trapb
        br dump
xor:
        addq/v $1,$2,$3
        addq/v $6,$31,$4
        xor $4,$6,$3
        trapb
        br dump
cmovlt:
        addq/v $1,$2,$3
        addq/v $6,$31,$4
        cmovlt $4,$6,$3
        trapb
        br dump
cmovge:
        addq/v $1,$2,$3
        addq/v $6,$31,$4
        cmovge $4,$6,$3
        trapb
        br dump
eqv:
        addq/v $1,$2,$3
        addq/v $6,$31,$4
        eqv $4,$6,$3
        trapb
        br dump
amask:
        addq/v $1,$2,$3
        addq/v $6,$31,$4
        amask $6,$3
        trapb
        br dump
cmovle:
        addq/v $1,$2,$3
        addq/v $6,$31,$4
        cmovle $4,$6,$3
        trapb
        br dump
cmovgt:
        addq/v $1,$2,$3
        addq/v $6,$31,$4
        cmovgt $4,$6,$3
        trapb
        br dump
implver:
        addq/v $1,$2,$3
        addq/v $6,$31,$4
        implver $3
        trapb
        br dump
mskbl:
        addq/v $1,$2,$3
        addq/v $6,$31,$4
        mskbl $4,$6,$3
        trapb
        br dump
extbl:
        addq/v $1,$2,$3
        addq/v $6,$31,$4
        extbl $4,$6,$3
        trapb
        br dump
insbl:
        addq/v $1,$2,$3
        addq/v $6,$31,$4
        insbl $4,$6,$3
        trapb
        br dump
mskwl:
        addq/v $1,$2,$3
        addq/v $6,$31,$4
        mskwl $4,$6,$3
        trapb
        br dump
extwl:
        addq/v $1,$2,$3
        addq/v $6,$31,$4
        extwl $4,$6,$3
        trapb
        br dump
inswl:
        addq/v $1,$2,$3
        addq/v $6,$31,$4
        inswl $4,$6,$3
        trapb
        br dump
mskll:
        addq/v $1,$2,$3
        addq/v $6,$31,$4
        mskll $4,$6,$3
        trapb
        br dump
extll:
        addq/v $1,$2,$3
        addq/v $6,$31,$4
        extll $4,$6,$3
        trapb
        br dump
insll:
        addq/v $1,$2,$3
        addq/v $6,$31,$4
        insll $4,$6,$3
        trapb
        br dump
zap:
        addq/v $1,$2,$3
        addq/v $6,$31,$4
        zap $4,$6,$3
        trapb
        br dump
zapnot:
        addq/v $1,$2,$3
        addq/v $6,$31,$4
        zapnot $4,$6,$3
        trapb
        br dump
mskql:
        addq/v $1,$2,$3
        addq/v $6,$31,$4
        mskql $4,$6,$3
        trapb
        br dump
srl:
        addq/v $1,$2,$3
        addq/v $6,$31,$4
        srl $4,$6,$3
        trapb
        br dump
extql:
        addq/v $1,$2,$3
        addq/v $6,$31,$4
        extql $4,$6,$3
        trapb
        br dump
sll:
        addq/v $1,$2,$3
        addq/v $6,$31,$4
        sll $4,$6,$3
        trapb
        br dump
insql:
        addq/v $1,$2,$3
        addq/v $6,$31,$4
        insql $4,$6,$3
        trapb
        br dump
sra:
        addq/v $1,$2,$3
        addq/v $6,$31,$4
        sra $4,$6,$3
        trapb
        br dump
mskwh:
        addq/v $1,$2,$3
        addq/v $6,$31,$4
        mskwh $4,$6,$3
        trapb
        br dump
inswh:
        addq/v $1,$2,$3
        addq/v $6,$31,$4
        inswh $4,$6,$3
        trapb
        br dump
extwh:
        addq/v $1,$2,$3
        addq/v $6,$31,$4
        extwh $4,$6,$3
        trapb
        br dump
msklh:
        addq/v $1,$2,$3
        addq/v $6,$31,$4
        msklh $4,$6,$3
        trapb
        br dump
inslh:
        addq/v $1,$2,$3
        addq/v $6,$31,$4
        inslh $4,$6,$3
        trapb
        br dump
extlh:
        addq/v $1,$2,$3
        addq/v $6,$31,$4
        extlh $4,$6,$3
        trapb
        br dump
mskqh:
        addq/v $1,$2,$3
        addq/v $6,$31,$4
        mskqh $4,$6,$3
        trapb
        br dump
insqh:
        addq/v $1,$2,$3
        addq/v $6,$31,$4
        insqh $4,$6,$3
        trapb
        br dump
extqh:
        addq/v $1,$2,$3
        addq/v $6,$31,$4
        extqh $4,$6,$3
        trapb
        br dump
mull:
        addq/v $1,$2,$3
        addq/v $6,$31,$4
        mull $4,$6,$3
        trapb
        br dump
mulq:
        addq/v $1,$2,$3
        addq/v $6,$31,$4
        mulq $4,$6,$3
        trapb
        br dump
umulh:
        addq/v $1,$2,$3
        addq/v $6,$31,$4
        umulh $4,$6,$3
        trapb
        br dump
mull_v:
        addq/v $1,$2,$3
        addq/v $6,$31,$4
        mull/v $4,$6,$3
        trapb
        br dump
mulq_v:
        addq/v $1,$2,$3
        addq/v $6,$31,$4
        mulq/v $4,$6,$3
        trapb
        br dump
sextb:
        addq/v $1,$2,$3
        addq/v $6,$31,$4
        sextb $6,$3
        trapb
        br dump
sextw:
        addq/v $1,$2,$3
        addq/v $6,$31,$4
        sextw $6,$3
        trapb
        br dump
ctpop:
        addq/v $1,$2,$3
        addq/v $6,$31,$4
        ctpop $6,$3
        trapb
        br dump
ctlz:
        addq/v $1,$2,$3
        addq/v $6,$31,$4
        ctlz $6,$3
        trapb
        br dump
cttz:
        addq/v $1,$2,$3
        addq/v $6,$31,$4
        cttz $6,$3
        trapb
        br dump
lda:
        addq/v $1,$2,$3
        addq/v $6,$31,$4
        lda $3,8($6)
        trapb
        br dump
ldah:
        addq/v $1,$2,$3
        addq/v $6,$31,$4
        ldah $3,8($6)
        trapb
        br dump
ldbu:
        addq/v $1,$2,$3
        addq/v $6,$31,$4
        ldbu $3,72($9)
        trapb
        br dump
ldwu:
        addq/v $1,$2,$3
        addq/v $6,$31,$4
        ldwu $3,72($9)
        trapb
        br dump
ldl:
        addq/v $1,$2,$3
        addq/v $6,$31,$4
        ldl $3,72($9)
        trapb
        br dump
ldq:
        addq/v $1,$2,$3
        addq/v $6,$31,$4
        ldq $3,72($9)
        trapb
        br dump
ldq_u:
        addq/v $1,$2,$3
        addq/v $6,$31,$4
        ldq_u $3,72($9)
        trapb
        br dump
ldl_l:
        addq/v $1,$2,$3
        addq/v $6,$31,$4
        ldl_l $3,72($9)
        trapb
        br dump
ldq_l:
        addq/v $1,$2,$3
        addq/v $6,$31,$4
        ldq_l $3,72($9)
        trapb
        br dump
stl_c:
        addq/v $1,$2,$3
        addq/v $6,$31,$4
        stl_c $3,72($9)
        trapb
        br dump
stq_c:
        addq/v $1,$2,$3
        addq/v $6,$31,$4
        stq_c $3,72($9)
        trapb
        br dump
bit_0:
        addq/v $1,$2,$0
        br $31,.+4
        trapb
done_0:
        addq/v $1,$2,$0
        trapb
        br dump
bit_3:
        addq/v $1,$2,$3
        br $31,.+4
        trapb
done_3:
        addq/v $1,$2,$3
        trapb
        br dump
bit_4:
        addq/v $1,$2,$4
        br $31,.+4
        trapb
done_4:
        addq/v $1,$2,$4
        trapb
        br dump
bit_5:
        addq/v $1,$2,$5
        br $31,.+4
        trapb
done_5:
        addq/v $1,$2,$5
        trapb
        br dump
bit_6:
        addq/v $1,$2,$6
        br $31,.+4
        trapb
done_6:
        addq/v $1,$2,$6
        trapb
        br dump
bit_7:
        addq/v $1,$2,$7
        br $31,.+4
        trapb
done_7:
        addq/v $1,$2,$7
        trapb
        br dump
bit_8:
        addq/v $1,$2,$8
        br $31,.+4
        trapb
done_8:
        addq/v $1,$2,$8
        trapb
        br dump
bit_10:
        addq/v $1,$2,$10
        br $31,.+4
        trapb
done_10:
        addq/v $1,$2,$10
        trapb
        br dump
bit_11:
        addq/v $1,$2,$11
        br $31,.+4
        trapb
done_11:
        addq/v $1,$2,$11
        trapb
        br dump
bit_12:
        addq/v $1,$2,$12
        br $31,.+4
        trapb
done_12:
        addq/v $1,$2,$12
        trapb
        br dump
bit_13:
        addq/v $1,$2,$13
        br $31,.+4
        trapb
done_13:
        addq/v $1,$2,$13
        trapb
        br dump
bit_14:
        addq/v $1,$2,$14
        br $31,.+4
        trapb
done_14:
        addq/v $1,$2,$14
        trapb
        br dump
bit_15:
        addq/v $1,$2,$15
        br $31,.+4
        trapb
done_15:
        addq/v $1,$2,$15
        trapb
        br dump
bit_16:
        addq/v $1,$2,$16
        br $31,.+4
        trapb
done_16:
        addq/v $1,$2,$16
        trapb
        br dump
bit_17:
        addq/v $1,$2,$17
        br $31,.+4
        trapb
done_17:
        addq/v $1,$2,$17
        trapb
        br dump
bit_18:
        addq/v $1,$2,$18
        br $31,.+4
        trapb
done_18:
        addq/v $1,$2,$18
        trapb
        br dump
bit_19:
        addq/v $1,$2,$19
        br $31,.+4
        trapb
done_19:
        addq/v $1,$2,$19
        trapb
        br dump
bit_20:
        addq/v $1,$2,$20
        br $31,.+4
        trapb
done_20:
        addq/v $1,$2,$20
        trapb
        br dump
bit_21:
        addq/v $1,$2,$21
        br $31,.+4
        trapb
done_21:
        addq/v $1,$2,$21
        trapb
        br dump
bit_22:
        addq/v $1,$2,$22
        br $31,.+4
        trapb
done_22:
        addq/v $1,$2,$22
        trapb
        br dump
bit_23:
        addq/v $1,$2,$23
        br $31,.+4
        trapb
done_23:
        addq/v $1,$2,$23
        trapb
        br dump
bit_24:
        addq/v $1,$2,$24
        br $31,.+4
        trapb
done_24:
        addq/v $1,$2,$24
        trapb
        br dump
bit_25:
        addq/v $1,$2,$25
        br $31,.+4
        trapb
done_25:
        addq/v $1,$2,$25
        trapb
        br dump
bit_26:
        addq/v $1,$2,$26
        br $31,.+4
        trapb
done_26:
        addq/v $1,$2,$26
        trapb
        br dump
bit_27:
        addq/v $1,$2,$27
        br $31,.+4
        trapb
done_27:
        addq/v $1,$2,$27
        trapb
        br dump
bit_28:
        addq/v $1,$2,$28
        br $31,.+4
        trapb
done_28:
        addq/v $1,$2,$28
        trapb
        br dump
bit_29:
        addq/v $1,$2,$29
        br $31,.+4
        trapb
done_29:
        addq/v $1,$2,$29
        trapb
        br dump
bit_30:
        addq/v $1,$2,$30
        br $31,.+4
        trapb
done_30:
        addq/v $1,$2,$30
        trapb
        mov $30,$5
        br dump
empty:
        addq/v $1,$2,$31
        nop
        trapb
second:
        addq/v $1,$2,$3
        addq/v $1,$2,$31
        trapb
        br dump
three:
        addq/v $1,$2,$3
        addq/v $1,$2,$4
        addq/v $1,$2,$5
        nop
        trapb
        br dump
nearest:
        addq/v $1,$2,$4
        addq/v $1,$2,$3
        addq/v $4,$6,$3
        addq/v $4,$6,$4
        trapb
        br dump
        .entry start
