# While a trap is pending, each instruction whose destination is $31: a value is drawn for it, and nothing keeps it.
        .level 2
        .codebase 0x10000
        .segment 0x10000000
        .quad 0x0,0x0,0x0,0x0,0x0,0x0,0x0,0x0
        .quad 0x8786858483828180,0x8f8e8d8c8b8a8988,0x9796959493929190,0x9f9e9d9c9b9a9998,0x1716151413121110,0x1f1e1d1c1b1a1918,0x2726252423222120,0x2f2e2d2c2b2a2928
        .zero 256
        .code
start:
        ldah $9,0x1000($31)
        lda $0,3($31)
        clr $16
        mov $9,$17
        lda $18,64($31)
        callsys
        ldq $8,0($9)
        ldq $1,8($9)
        ldq $2,16($9)
        ldq $3,24($9)
        ldq $4,32($9)
        ldq $5,40($9)
        ldq $6,48($9)
        ldq $7,56($9)
        jmp $31,($8),0
dump:
        stq $0,128($9)
        stq $1,136($9)
        stq $2,144($9)
        stq $3,152($9)
        stq $4,160($9)
        stq $5,168($9)
        stq $6,176($9)
        stq $7,184($9)
        stq $8,192($9)
        stq $9,200($9)
        stq $10,208($9)
        stq $11,216($9)
        stq $12,224($9)
        stq $13,232($9)
        stq $14,240($9)
        stq $15,248($9)
        stq $16,256($9)
        stq $17,264($9)
        stq $18,272($9)
        stq $19,280($9)
        stq $20,288($9)
        stq $21,296($9)
        stq $22,304($9)
        stq $23,312($9)
        stq $24,320($9)
        stq $25,328($9)
        stq $26,336($9)
        stq $27,344($9)
        stq $28,352($9)
        stq $29,360($9)
        stq $30,368($9)
        stq $31,376($9)
        lda $0,4($31)
        lda $16,1($31)
        lda $17,64($9)
        lda $18,320($31)
        callsys
        clr $16
        lda $0,1($31)
        callsys
addl:
        nop
        lda $7,16($8)
        addq/v $1,$2,$3
        addl $4,$6,$31
        addq/v $1,$2,$3
        trapb
        addq $31,$31,$5
        br dump
s4addl:
        nop
        lda $7,16($8)
        addq/v $1,$2,$3
        s4addl $4,$6,$31
        addq/v $1,$2,$3
        trapb
        addq $31,$31,$5
        br dump
subl:
        nop
        lda $7,16($8)
        addq/v $1,$2,$3
        subl $4,$6,$31
        addq/v $1,$2,$3
        trapb
        addq $31,$31,$5
        br dump
s4subl:
        nop
        lda $7,16($8)
        addq/v $1,$2,$3
        s4subl $4,$6,$31
        addq/v $1,$2,$3
        trapb
        addq $31,$31,$5
        br dump
cmpbge:
        nop
        lda $7,16($8)
        addq/v $1,$2,$3
        cmpbge $4,$6,$31
        addq/v $1,$2,$3
        trapb
        addq $31,$31,$5
        br dump
s8addl:
        nop
        lda $7,16($8)
        addq/v $1,$2,$3
        s8addl $4,$6,$31
        addq/v $1,$2,$3
        trapb
        addq $31,$31,$5
        br dump
s8subl:
        nop
        lda $7,16($8)
        addq/v $1,$2,$3
        s8subl $4,$6,$31
        addq/v $1,$2,$3
        trapb
        addq $31,$31,$5
        br dump
cmpult:
        nop
        lda $7,16($8)
        addq/v $1,$2,$3
        cmpult $4,$6,$31
        addq/v $1,$2,$3
        trapb
        addq $31,$31,$5
        br dump
addq:
        nop
        lda $7,16($8)
        addq/v $1,$2,$3
        addq $4,$6,$31
        addq/v $1,$2,$3
        trapb
        addq $31,$31,$5
        br dump
s4addq:
        nop
        lda $7,16($8)
        addq/v $1,$2,$3
        s4addq $4,$6,$31
        addq/v $1,$2,$3
        trapb
        addq $31,$31,$5
        br dump
subq:
        nop
        lda $7,16($8)
        addq/v $1,$2,$3
        subq $4,$6,$31
        addq/v $1,$2,$3
        trapb
        addq $31,$31,$5
        br dump
s4subq:
        nop
        lda $7,16($8)
        addq/v $1,$2,$3
        s4subq $4,$6,$31
        addq/v $1,$2,$3
        trapb
        addq $31,$31,$5
        br dump
cmpeq:
        nop
        lda $7,16($8)
        addq/v $1,$2,$3
        cmpeq $4,$6,$31
        addq/v $1,$2,$3
        trapb
        addq $31,$31,$5
        br dump
s8addq:
        nop
        lda $7,16($8)
        addq/v $1,$2,$3
        s8addq $4,$6,$31
        addq/v $1,$2,$3
        trapb
        addq $31,$31,$5
        br dump
s8subq:
        nop
        lda $7,16($8)
        addq/v $1,$2,$3
        s8subq $4,$6,$31
        addq/v $1,$2,$3
        trapb
        addq $31,$31,$5
        br dump
cmpule:
        nop
        lda $7,16($8)
        addq/v $1,$2,$3
        cmpule $4,$6,$31
        addq/v $1,$2,$3
        trapb
        addq $31,$31,$5
        br dump
addl_v:
        nop
        lda $7,16($8)
        addq/v $1,$2,$3
        addl/v $4,$6,$31
        addq/v $1,$2,$3
        trapb
        addq $31,$31,$5
        br dump
subl_v:
        nop
        lda $7,16($8)
        addq/v $1,$2,$3
        subl/v $4,$6,$31
        addq/v $1,$2,$3
        trapb
        addq $31,$31,$5
        br dump
cmplt:
        nop
        lda $7,16($8)
        addq/v $1,$2,$3
        cmplt $4,$6,$31
        addq/v $1,$2,$3
        trapb
        addq $31,$31,$5
        br dump
addq_v:
        nop
        lda $7,16($8)
        addq/v $1,$2,$3
        addq/v $4,$6,$31
        addq/v $1,$2,$3
        trapb
        addq $31,$31,$5
        br dump
subq_v:
        nop
        lda $7,16($8)
        addq/v $1,$2,$3
        subq/v $4,$6,$31
        addq/v $1,$2,$3
        trapb
        addq $31,$31,$5
        br dump
cmple:
        nop
        lda $7,16($8)
        addq/v $1,$2,$3
        cmple $4,$6,$31
        addq/v $1,$2,$3
        trapb
        addq $31,$31,$5
        br dump
and:
        nop
        lda $7,16($8)
        addq/v $1,$2,$3
        and $4,$6,$31
        addq/v $1,$2,$3
        trapb
        addq $31,$31,$5
        br dump
bic:
        nop
        lda $7,16($8)
        addq/v $1,$2,$3
        bic $4,$6,$31
        addq/v $1,$2,$3
        trapb
        addq $31,$31,$5
        br dump
cmovlbs:
        nop
        lda $7,16($8)
        addq/v $1,$2,$3
        cmovlbs $4,$6,$31
        addq/v $1,$2,$3
        trapb
        addq $31,$31,$5
        br dump
cmovlbc:
        nop
        lda $7,16($8)
        addq/v $1,$2,$3
        cmovlbc $4,$6,$31
        addq/v $1,$2,$3
        trapb
        addq $31,$31,$5
        br dump
bis:
        nop
        lda $7,16($8)
        addq/v $1,$2,$3
        bis $4,$6,$31
        addq/v $1,$2,$3
        trapb
        addq $31,$31,$5
        br dump
cmoveq:
        nop
        lda $7,16($8)
        addq/v $1,$2,$3
        cmoveq $4,$6,$31
        addq/v $1,$2,$3
        trapb
        addq $31,$31,$5
        br dump
cmovne:
        nop
        lda $7,16($8)
        addq/v $1,$2,$3
        cmovne $4,$6,$31
        addq/v $1,$2,$3
        trapb
        addq $31,$31,$5
        br dump
ornot:
        nop
        lda $7,16($8)
        addq/v $1,$2,$3
        ornot $4,$6,$31
        addq/v $1,$2,$3
        trapb
        addq $31,$31,$5
        br dump
xor:
        nop
        lda $7,16($8)
        addq/v $1,$2,$3
        xor $4,$6,$31
        addq/v $1,$2,$3
        trapb
        addq $31,$31,$5
        br dump
cmovlt:
        nop
        lda $7,16($8)
        addq/v $1,$2,$3
        cmovlt $4,$6,$31
        addq/v $1,$2,$3
        trapb
        addq $31,$31,$5
        br dump
cmovge:
        nop
        lda $7,16($8)
        addq/v $1,$2,$3
        cmovge $4,$6,$31
        addq/v $1,$2,$3
        trapb
        addq $31,$31,$5
        br dump
eqv:
        nop
        lda $7,16($8)
        addq/v $1,$2,$3
        eqv $4,$6,$31
        addq/v $1,$2,$3
        trapb
        addq $31,$31,$5
        br dump
amask:
        nop
        lda $7,16($8)
        addq/v $1,$2,$3
        amask $6,$31
        addq/v $1,$2,$3
        trapb
        addq $31,$31,$5
        br dump
cmovle:
        nop
        lda $7,16($8)
        addq/v $1,$2,$3
        cmovle $4,$6,$31
        addq/v $1,$2,$3
        trapb
        addq $31,$31,$5
        br dump
cmovgt:
        nop
        lda $7,16($8)
        addq/v $1,$2,$3
        cmovgt $4,$6,$31
        addq/v $1,$2,$3
        trapb
        addq $31,$31,$5
        br dump
implver:
        nop
        lda $7,16($8)
        addq/v $1,$2,$3
        implver $31
        addq/v $1,$2,$3
        trapb
        addq $31,$31,$5
        br dump
mskbl:
        nop
        lda $7,16($8)
        addq/v $1,$2,$3
        mskbl $4,$6,$31
        addq/v $1,$2,$3
        trapb
        addq $31,$31,$5
        br dump
extbl:
        nop
        lda $7,16($8)
        addq/v $1,$2,$3
        extbl $4,$6,$31
        addq/v $1,$2,$3
        trapb
        addq $31,$31,$5
        br dump
insbl:
        nop
        lda $7,16($8)
        addq/v $1,$2,$3
        insbl $4,$6,$31
        addq/v $1,$2,$3
        trapb
        addq $31,$31,$5
        br dump
mskwl:
        nop
        lda $7,16($8)
        addq/v $1,$2,$3
        mskwl $4,$6,$31
        addq/v $1,$2,$3
        trapb
        addq $31,$31,$5
        br dump
extwl:
        nop
        lda $7,16($8)
        addq/v $1,$2,$3
        extwl $4,$6,$31
        addq/v $1,$2,$3
        trapb
        addq $31,$31,$5
        br dump
inswl:
        nop
        lda $7,16($8)
        addq/v $1,$2,$3
        inswl $4,$6,$31
        addq/v $1,$2,$3
        trapb
        addq $31,$31,$5
        br dump
mskll:
        nop
        lda $7,16($8)
        addq/v $1,$2,$3
        mskll $4,$6,$31
        addq/v $1,$2,$3
        trapb
        addq $31,$31,$5
        br dump
extll:
        nop
        lda $7,16($8)
        addq/v $1,$2,$3
        extll $4,$6,$31
        addq/v $1,$2,$3
        trapb
        addq $31,$31,$5
        br dump
insll:
        nop
        lda $7,16($8)
        addq/v $1,$2,$3
        insll $4,$6,$31
        addq/v $1,$2,$3
        trapb
        addq $31,$31,$5
        br dump
zap:
        nop
        lda $7,16($8)
        addq/v $1,$2,$3
        zap $4,$6,$31
        addq/v $1,$2,$3
        trapb
        addq $31,$31,$5
        br dump
zapnot:
        nop
        lda $7,16($8)
        addq/v $1,$2,$3
        zapnot $4,$6,$31
        addq/v $1,$2,$3
        trapb
        addq $31,$31,$5
        br dump
mskql:
        nop
        lda $7,16($8)
        addq/v $1,$2,$3
        mskql $4,$6,$31
        addq/v $1,$2,$3
        trapb
        addq $31,$31,$5
        br dump
srl:
        nop
        lda $7,16($8)
        addq/v $1,$2,$3
        srl $4,$6,$31
        addq/v $1,$2,$3
        trapb
        addq $31,$31,$5
        br dump
extql:
        nop
        lda $7,16($8)
        addq/v $1,$2,$3
        extql $4,$6,$31
        addq/v $1,$2,$3
        trapb
        addq $31,$31,$5
        br dump
sll:
        nop
        lda $7,16($8)
        addq/v $1,$2,$3
        sll $4,$6,$31
        addq/v $1,$2,$3
        trapb
        addq $31,$31,$5
        br dump
insql:
        nop
        lda $7,16($8)
        addq/v $1,$2,$3
        insql $4,$6,$31
        addq/v $1,$2,$3
        trapb
        addq $31,$31,$5
        br dump
sra:
        nop
        lda $7,16($8)
        addq/v $1,$2,$3
        sra $4,$6,$31
        addq/v $1,$2,$3
        trapb
        addq $31,$31,$5
        br dump
mskwh:
        nop
        lda $7,16($8)
        addq/v $1,$2,$3
        mskwh $4,$6,$31
        addq/v $1,$2,$3
        trapb
        addq $31,$31,$5
        br dump
inswh:
        nop
        lda $7,16($8)
        addq/v $1,$2,$3
        inswh $4,$6,$31
        addq/v $1,$2,$3
        trapb
        addq $31,$31,$5
        br dump
extwh:
        nop
        lda $7,16($8)
        addq/v $1,$2,$3
        extwh $4,$6,$31
        addq/v $1,$2,$3
        trapb
        addq $31,$31,$5
        br dump
msklh:
        nop
        lda $7,16($8)
        addq/v $1,$2,$3
        msklh $4,$6,$31
        addq/v $1,$2,$3
        trapb
        addq $31,$31,$5
        br dump
inslh:
        nop
        lda $7,16($8)
        addq/v $1,$2,$3
        inslh $4,$6,$31
        addq/v $1,$2,$3
        trapb
        addq $31,$31,$5
        br dump
extlh:
        nop
        lda $7,16($8)
        addq/v $1,$2,$3
        extlh $4,$6,$31
        addq/v $1,$2,$3
        trapb
        addq $31,$31,$5
        br dump
mskqh:
        nop
        lda $7,16($8)
        addq/v $1,$2,$3
        mskqh $4,$6,$31
        addq/v $1,$2,$3
        trapb
        addq $31,$31,$5
        br dump
insqh:
        nop
        lda $7,16($8)
        addq/v $1,$2,$3
        insqh $4,$6,$31
        addq/v $1,$2,$3
        trapb
        addq $31,$31,$5
        br dump
extqh:
        nop
        lda $7,16($8)
        addq/v $1,$2,$3
        extqh $4,$6,$31
        addq/v $1,$2,$3
        trapb
        addq $31,$31,$5
        br dump
mull:
        nop
        lda $7,16($8)
        addq/v $1,$2,$3
        mull $4,$6,$31
        addq/v $1,$2,$3
        trapb
        addq $31,$31,$5
        br dump
mulq:
        nop
        lda $7,16($8)
        addq/v $1,$2,$3
        mulq $4,$6,$31
        addq/v $1,$2,$3
        trapb
        addq $31,$31,$5
        br dump
umulh:
        nop
        lda $7,16($8)
        addq/v $1,$2,$3
        umulh $4,$6,$31
        addq/v $1,$2,$3
        trapb
        addq $31,$31,$5
        br dump
mull_v:
        nop
        lda $7,16($8)
        addq/v $1,$2,$3
        mull/v $4,$6,$31
        addq/v $1,$2,$3
        trapb
        addq $31,$31,$5
        br dump
mulq_v:
        nop
        lda $7,16($8)
        addq/v $1,$2,$3
        mulq/v $4,$6,$31
        addq/v $1,$2,$3
        trapb
        addq $31,$31,$5
        br dump
sextb:
        nop
        lda $7,16($8)
        addq/v $1,$2,$3
        sextb $6,$31
        addq/v $1,$2,$3
        trapb
        addq $31,$31,$5
        br dump
sextw:
        nop
        lda $7,16($8)
        addq/v $1,$2,$3
        sextw $6,$31
        addq/v $1,$2,$3
        trapb
        addq $31,$31,$5
        br dump
ctpop:
        nop
        lda $7,16($8)
        addq/v $1,$2,$3
        ctpop $6,$31
        addq/v $1,$2,$3
        trapb
        addq $31,$31,$5
        br dump
ctlz:
        nop
        lda $7,16($8)
        addq/v $1,$2,$3
        ctlz $6,$31
        addq/v $1,$2,$3
        trapb
        addq $31,$31,$5
        br dump
cttz:
        nop
        lda $7,16($8)
        addq/v $1,$2,$3
        cttz $6,$31
        addq/v $1,$2,$3
        trapb
        addq $31,$31,$5
        br dump
lda:
        nop
        lda $7,16($8)
        addq/v $1,$2,$3
        lda $31,8($6)
        addq/v $1,$2,$3
        trapb
        addq $31,$31,$5
        br dump
ldah:
        nop
        lda $7,16($8)
        addq/v $1,$2,$3
        ldah $31,8($6)
        addq/v $1,$2,$3
        trapb
        addq $31,$31,$5
        br dump
ldbu:
        nop
        lda $7,16($8)
        addq/v $1,$2,$3
        ldbu $31,72($9)
        addq/v $1,$2,$3
        trapb
        addq $31,$31,$5
        br dump
ldwu:
        nop
        lda $7,16($8)
        addq/v $1,$2,$3
        ldwu $31,72($9)
        addq/v $1,$2,$3
        trapb
        addq $31,$31,$5
        br dump
ldl:
        nop
        lda $7,16($8)
        addq/v $1,$2,$3
        ldl $31,72($9)
        addq/v $1,$2,$3
        trapb
        addq $31,$31,$5
        br dump
ldq:
        nop
        lda $7,16($8)
        addq/v $1,$2,$3
        ldq $31,72($9)
        addq/v $1,$2,$3
        trapb
        addq $31,$31,$5
        br dump
ldq_u:
        nop
        lda $7,16($8)
        addq/v $1,$2,$3
        ldq_u $31,72($9)
        addq/v $1,$2,$3
        trapb
        addq $31,$31,$5
        br dump
ldl_l:
        nop
        lda $7,16($8)
        addq/v $1,$2,$3
        ldl_l $31,72($9)
        addq/v $1,$2,$3
        trapb
        addq $31,$31,$5
        br dump
ldq_l:
        nop
        lda $7,16($8)
        addq/v $1,$2,$3
        ldq_l $31,72($9)
        addq/v $1,$2,$3
        trapb
        addq $31,$31,$5
        br dump
stl_c:
        ldq_l $10,64($9)
        lda $7,16($8)
        addq/v $1,$2,$3
        stl_c $31,72($9)
        addq/v $1,$2,$3
        trapb
        addq $31,$31,$5
        br dump
stq_c:
        ldq_l $10,64($9)
        lda $7,16($8)
        addq/v $1,$2,$3
        stq_c $31,72($9)
        addq/v $1,$2,$3
        trapb
        addq $31,$31,$5
        br dump
br:
        nop
        lda $7,16($8)
        addq/v $1,$2,$3
        br $31,.+4
        addq/v $1,$2,$3
        trapb
        addq $31,$31,$5
        br dump
bsr:
        nop
        lda $7,16($8)
        addq/v $1,$2,$3
        bsr $31,.+4
        addq/v $1,$2,$3
        trapb
        addq $31,$31,$5
        br dump
jmp:
        nop
        lda $7,16($8)
        addq/v $1,$2,$3
        jmp $31,($7)
        addq/v $1,$2,$3
        trapb
        addq $31,$31,$5
        br dump
jsr:
        nop
        lda $7,16($8)
        addq/v $1,$2,$3
        jsr $31,($7)
        addq/v $1,$2,$3
        trapb
        addq $31,$31,$5
        br dump
ret:
        nop
        lda $7,16($8)
        addq/v $1,$2,$3
        ret $31,($7)
        addq/v $1,$2,$3
        trapb
        addq $31,$31,$5
        br dump
jsr_coroutine:
        nop
        lda $7,16($8)
        addq/v $1,$2,$3
        jsr_coroutine $31,($7)
        addq/v $1,$2,$3
        trapb
        addq $31,$31,$5
        br dump
stb:
        nop
        lda $7,16($8)
        addq/v $1,$2,$3
        stb $31,64($9)
        addq/v $1,$2,$3
        trapb
        addq $31,$31,$5
        br dump
stw:
        nop
        lda $7,16($8)
        addq/v $1,$2,$3
        stw $31,64($9)
        addq/v $1,$2,$3
        trapb
        addq $31,$31,$5
        br dump
stl:
        nop
        lda $7,16($8)
        addq/v $1,$2,$3
        stl $31,64($9)
        addq/v $1,$2,$3
        trapb
        addq $31,$31,$5
        br dump
stq:
        nop
        lda $7,16($8)
        addq/v $1,$2,$3
        stq $31,64($9)
        addq/v $1,$2,$3
        trapb
        addq $31,$31,$5
        br dump
stq_u:
        nop
        lda $7,16($8)
        addq/v $1,$2,$3
        stq_u $31,64($9)
        addq/v $1,$2,$3
        trapb
        addq $31,$31,$5
        br dump
stl_c_clear:
        nop
        addq/v $1,$2,$3
        stl_c $31,64($9)
        addq/v $1,$2,$3
        trapb
        br dump
stq_c_clear:
        nop
        addq/v $1,$2,$3
        stq_c $31,64($9)
        addq/v $1,$2,$3
        trapb
        br dump
beq_zero:
        addq/v $1,$2,$3
        beq $31,.+4
        addq/v $1,$2,$3
        trapb
        br dump
bne_zero:
        addq/v $1,$2,$3
        bne $31,.+4
        addq/v $1,$2,$3
        trapb
        br dump
blt_zero:
        addq/v $1,$2,$3
        blt $31,.+4
        addq/v $1,$2,$3
        trapb
        br dump
ble_zero:
        addq/v $1,$2,$3
        ble $31,.+4
        addq/v $1,$2,$3
        trapb
        br dump
bgt_zero:
        addq/v $1,$2,$3
        bgt $31,.+4
        addq/v $1,$2,$3
        trapb
        br dump
bge_zero:
        addq/v $1,$2,$3
        bge $31,.+4
        addq/v $1,$2,$3
        trapb
        br dump
blbs_zero:
        addq/v $1,$2,$3
        blbs $31,.+4
        addq/v $1,$2,$3
        trapb
        br dump
blbc_zero:
        addq/v $1,$2,$3
        blbc $31,.+4
        addq/v $1,$2,$3
        trapb
        br dump
        .entry start
