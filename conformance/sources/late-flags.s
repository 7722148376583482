# While a trap is pending, a word between a locked load and a conditional store: it leaves the flag.
        .level 2
        .codebase 0x10000
        .segment 0x10000000
        .quad 0x0,0x0,0x0,0x0,0x0,0x0,0x0,0x0
        .quad 0x8786858483828180,0x8f8e8d8c8b8a8988,0x9796959493929190,0x9f9e9d9c9b9a9998,0x1716151413121110,0x1f1e1d1c1b1a1918,0x2726252423222120,0x2f2e2d2c2b2a2928
        .zero 256
        .code
before:
        stq_c $4,80($9)
        addq/v $1,$2,$3
        trapb
        br dump
start:
        ldah $9,0x1000($31)
        lda $0,3($31)
        clr $16
        mov $9,$17
        lda $18,64($31)
        callsys
        ldq $8,0($9)
        ldq $1,8($9)
        ldq $2,16($9)
        ldq $3,24($9)
        ldq $4,32($9)
        ldq $5,40($9)
        ldq $6,48($9)
        ldq $7,56($9)
        jmp $31,($8),0
dump:
        stq $0,128($9)
        stq $1,136($9)
        stq $2,144($9)
        stq $3,152($9)
        stq $4,160($9)
        stq $5,168($9)
        stq $6,176($9)
        stq $7,184($9)
        stq $8,192($9)
        stq $9,200($9)
        stq $10,208($9)
        stq $11,216($9)
        stq $12,224($9)
        stq $13,232($9)
        stq $14,240($9)
        stq $15,248($9)
        stq $16,256($9)
        stq $17,264($9)
        stq $18,272($9)
        stq $19,280($9)
        stq $20,288($9)
        stq $21,296($9)
        stq $22,304($9)
        stq $23,312($9)
        stq $24,320($9)
        stq $25,328($9)
        stq $26,336($9)
        stq $27,344($9)
        stq $28,352($9)
        stq $29,360($9)
        stq $30,368($9)
        stq $31,376($9)
        lda $0,4($31)
        lda $16,1($31)
        lda $17,64($9)
        lda $18,320($31)
        callsys
        clr $16
        lda $0,1($31)
        callsys
addl:
        ldq_l $10,80($9)
        lda $7,16($8)
        addq/v $1,$2,$3
        addl $4,$6,$5
        stq_c $4,80($9)
        addq/v $1,$2,$3
        trapb
        br dump
s4addl:
        ldq_l $10,80($9)
        lda $7,16($8)
        addq/v $1,$2,$3
        s4addl $4,$6,$5
        stq_c $4,80($9)
        addq/v $1,$2,$3
        trapb
        br dump
subl:
        ldq_l $10,80($9)
        lda $7,16($8)
        addq/v $1,$2,$3
        subl $4,$6,$5
        stq_c $4,80($9)
        addq/v $1,$2,$3
        trapb
        br dump
s4subl:
        ldq_l $10,80($9)
        lda $7,16($8)
        addq/v $1,$2,$3
        s4subl $4,$6,$5
        stq_c $4,80($9)
        addq/v $1,$2,$3
        trapb
        br dump
cmpbge:
        ldq_l $10,80($9)
        lda $7,16($8)
        addq/v $1,$2,$3
        cmpbge $4,$6,$5
        stq_c $4,80($9)
        addq/v $1,$2,$3
        trapb
        br dump
s8addl:
        ldq_l $10,80($9)
        lda $7,16($8)
        addq/v $1,$2,$3
        s8addl $4,$6,$5
        stq_c $4,80($9)
        addq/v $1,$2,$3
        trapb
        br dump
s8subl:
        ldq_l $10,80($9)
        lda $7,16($8)
        addq/v $1,$2,$3
        s8subl $4,$6,$5
        stq_c $4,80($9)
        addq/v $1,$2,$3
        trapb
        br dump
cmpult:
        ldq_l $10,80($9)
        lda $7,16($8)
        addq/v $1,$2,$3
        cmpult $4,$6,$5
        stq_c $4,80($9)
        addq/v $1,$2,$3
        trapb
        br dump
addq:
        ldq_l $10,80($9)
        lda $7,16($8)
        addq/v $1,$2,$3
        addq $4,$6,$5
        stq_c $4,80($9)
        addq/v $1,$2,$3
        trapb
        br dump
s4addq:
        ldq_l $10,80($9)
        lda $7,16($8)
        addq/v $1,$2,$3
        s4addq $4,$6,$5
        stq_c $4,80($9)
        addq/v $1,$2,$3
        trapb
        br dump
subq:
        ldq_l $10,80($9)
        lda $7,16($8)
        addq/v $1,$2,$3
        subq $4,$6,$5
        stq_c $4,80($9)
        addq/v $1,$2,$3
        trapb
        br dump
s4subq:
        ldq_l $10,80($9)
        lda $7,16($8)
        addq/v $1,$2,$3
        s4subq $4,$6,$5
        stq_c $4,80($9)
        addq/v $1,$2,$3
        trapb
        br dump
cmpeq:
        ldq_l $10,80($9)
        lda $7,16($8)
        addq/v $1,$2,$3
        cmpeq $4,$6,$5
        stq_c $4,80($9)
        addq/v $1,$2,$3
        trapb
        br dump
s8addq:
        ldq_l $10,80($9)
        lda $7,16($8)
        addq/v $1,$2,$3
        s8addq $4,$6,$5
        stq_c $4,80($9)
        addq/v $1,$2,$3
        trapb
        br dump
s8subq:
        ldq_l $10,80($9)
        lda $7,16($8)
        addq/v $1,$2,$3
        s8subq $4,$6,$5
        stq_c $4,80($9)
        addq/v $1,$2,$3
        trapb
        br dump
cmpule:
        ldq_l $10,80($9)
        lda $7,16($8)
        addq/v $1,$2,$3
        cmpule $4,$6,$5
        stq_c $4,80($9)
        addq/v $1,$2,$3
        trapb
        br dump
addl_v:
        ldq_l $10,80($9)
        lda $7,16($8)
        addq/v $1,$2,$3
        addl/v $4,$6,$5
        stq_c $4,80($9)
        addq/v $1,$2,$3
        trapb
        br dump
subl_v:
        ldq_l $10,80($9)
        lda $7,16($8)
        addq/v $1,$2,$3
        subl/v $4,$6,$5
        stq_c $4,80($9)
        addq/v $1,$2,$3
        trapb
        br dump
cmplt:
        ldq_l $10,80($9)
        lda $7,16($8)
        addq/v $1,$2,$3
        cmplt $4,$6,$5
        stq_c $4,80($9)
        addq/v $1,$2,$3
        trapb
        br dump
addq_v:
        ldq_l $10,80($9)
        lda $7,16($8)
        addq/v $1,$2,$3
        addq/v $4,$6,$5
        stq_c $4,80($9)
        addq/v $1,$2,$3
        trapb
        br dump
subq_v:
        ldq_l $10,80($9)
        lda $7,16($8)
        addq/v $1,$2,$3
        subq/v $4,$6,$5
        stq_c $4,80($9)
        addq/v $1,$2,$3
        trapb
        br dump
cmple:
        ldq_l $10,80($9)
        lda $7,16($8)
        addq/v $1,$2,$3
        cmple $4,$6,$5
        stq_c $4,80($9)
        addq/v $1,$2,$3
        trapb
        br dump
and:
        ldq_l $10,80($9)
        lda $7,16($8)
        addq/v $1,$2,$3
        and $4,$6,$5
        stq_c $4,80($9)
        addq/v $1,$2,$3
        trapb
        br dump
bic:
        ldq_l $10,80($9)
        lda $7,16($8)
        addq/v $1,$2,$3
        bic $4,$6,$5
        stq_c $4,80($9)
        addq/v $1,$2,$3
        trapb
        br dump
cmovlbs:
        ldq_l $10,80($9)
        lda $7,16($8)
        addq/v $1,$2,$3
        cmovlbs $4,$6,$5
        stq_c $4,80($9)
        addq/v $1,$2,$3
        trapb
        br dump
cmovlbc:
        ldq_l $10,80($9)
        lda $7,16($8)
        addq/v $1,$2,$3
        cmovlbc $4,$6,$5
        stq_c $4,80($9)
        addq/v $1,$2,$3
        trapb
        br dump
bis:
        ldq_l $10,80($9)
        lda $7,16($8)
        addq/v $1,$2,$3
        bis $4,$6,$5
        stq_c $4,80($9)
        addq/v $1,$2,$3
        trapb
        br dump
cmoveq:
        ldq_l $10,80($9)
        lda $7,16($8)
        addq/v $1,$2,$3
        cmoveq $4,$6,$5
        stq_c $4,80($9)
        addq/v $1,$2,$3
        trapb
        br dump
cmovne:
        ldq_l $10,80($9)
        lda $7,16($8)
        addq/v $1,$2,$3
        cmovne $4,$6,$5
        stq_c $4,80($9)
        addq/v $1,$2,$3
        trapb
        br dump
ornot:
        ldq_l $10,80($9)
        lda $7,16($8)
        addq/v $1,$2,$3
        ornot $4,$6,$5
        stq_c $4,80($9)
        addq/v $1,$2,$3
        trapb
        br dump
xor:
        ldq_l $10,80($9)
        lda $7,16($8)
        addq/v $1,$2,$3
        xor $4,$6,$5
        stq_c $4,80($9)
        addq/v $1,$2,$3
        trapb
        br dump
cmovlt:
        ldq_l $10,80($9)
        lda $7,16($8)
        addq/v $1,$2,$3
        cmovlt $4,$6,$5
        stq_c $4,80($9)
        addq/v $1,$2,$3
        trapb
        br dump
cmovge:
        ldq_l $10,80($9)
        lda $7,16($8)
        addq/v $1,$2,$3
        cmovge $4,$6,$5
        stq_c $4,80($9)
        addq/v $1,$2,$3
        trapb
        br dump
eqv:
        ldq_l $10,80($9)
        lda $7,16($8)
        addq/v $1,$2,$3
        eqv $4,$6,$5
        stq_c $4,80($9)
        addq/v $1,$2,$3
        trapb
        br dump
amask:
        ldq_l $10,80($9)
        lda $7,16($8)
        addq/v $1,$2,$3
        amask $6,$5
        stq_c $4,80($9)
        addq/v $1,$2,$3
        trapb
        br dump
cmovle:
        ldq_l $10,80($9)
        lda $7,16($8)
        addq/v $1,$2,$3
        cmovle $4,$6,$5
        stq_c $4,80($9)
        addq/v $1,$2,$3
        trapb
        br dump
cmovgt:
        ldq_l $10,80($9)
        lda $7,16($8)
        addq/v $1,$2,$3
        cmovgt $4,$6,$5
        stq_c $4,80($9)
        addq/v $1,$2,$3
        trapb
        br dump
implver:
        ldq_l $10,80($9)
        lda $7,16($8)
        addq/v $1,$2,$3
        implver $5
        stq_c $4,80($9)
        addq/v $1,$2,$3
        trapb
        br dump
mskbl:
        ldq_l $10,80($9)
        lda $7,16($8)
        addq/v $1,$2,$3
        mskbl $4,$6,$5
        stq_c $4,80($9)
        addq/v $1,$2,$3
        trapb
        br dump
extbl:
        ldq_l $10,80($9)
        lda $7,16($8)
        addq/v $1,$2,$3
        extbl $4,$6,$5
        stq_c $4,80($9)
        addq/v $1,$2,$3
        trapb
        br dump
insbl:
        ldq_l $10,80($9)
        lda $7,16($8)
        addq/v $1,$2,$3
        insbl $4,$6,$5
        stq_c $4,80($9)
        addq/v $1,$2,$3
        trapb
        br dump
mskwl:
        ldq_l $10,80($9)
        lda $7,16($8)
        addq/v $1,$2,$3
        mskwl $4,$6,$5
        stq_c $4,80($9)
        addq/v $1,$2,$3
        trapb
        br dump
extwl:
        ldq_l $10,80($9)
        lda $7,16($8)
        addq/v $1,$2,$3
        extwl $4,$6,$5
        stq_c $4,80($9)
        addq/v $1,$2,$3
        trapb
        br dump
inswl:
        ldq_l $10,80($9)
        lda $7,16($8)
        addq/v $1,$2,$3
        inswl $4,$6,$5
        stq_c $4,80($9)
        addq/v $1,$2,$3
        trapb
        br dump
mskll:
        ldq_l $10,80($9)
        lda $7,16($8)
        addq/v $1,$2,$3
        mskll $4,$6,$5
        stq_c $4,80($9)
        addq/v $1,$2,$3
        trapb
        br dump
extll:
        ldq_l $10,80($9)
        lda $7,16($8)
        addq/v $1,$2,$3
        extll $4,$6,$5
        stq_c $4,80($9)
        addq/v $1,$2,$3
        trapb
        br dump
insll:
        ldq_l $10,80($9)
        lda $7,16($8)
        addq/v $1,$2,$3
        insll $4,$6,$5
        stq_c $4,80($9)
        addq/v $1,$2,$3
        trapb
        br dump
zap:
        ldq_l $10,80($9)
        lda $7,16($8)
        addq/v $1,$2,$3
        zap $4,$6,$5
        stq_c $4,80($9)
        addq/v $1,$2,$3
        trapb
        br dump
zapnot:
        ldq_l $10,80($9)
        lda $7,16($8)
        addq/v $1,$2,$3
        zapnot $4,$6,$5
        stq_c $4,80($9)
        addq/v $1,$2,$3
        trapb
        br dump
mskql:
        ldq_l $10,80($9)
        lda $7,16($8)
        addq/v $1,$2,$3
        mskql $4,$6,$5
        stq_c $4,80($9)
        addq/v $1,$2,$3
        trapb
        br dump
srl:
        ldq_l $10,80($9)
        lda $7,16($8)
        addq/v $1,$2,$3
        srl $4,$6,$5
        stq_c $4,80($9)
        addq/v $1,$2,$3
        trapb
        br dump
extql:
        ldq_l $10,80($9)
        lda $7,16($8)
        addq/v $1,$2,$3
        extql $4,$6,$5
        stq_c $4,80($9)
        addq/v $1,$2,$3
        trapb
        br dump
sll:
        ldq_l $10,80($9)
        lda $7,16($8)
        addq/v $1,$2,$3
        sll $4,$6,$5
        stq_c $4,80($9)
        addq/v $1,$2,$3
        trapb
        br dump
insql:
        ldq_l $10,80($9)
        lda $7,16($8)
        addq/v $1,$2,$3
        insql $4,$6,$5
        stq_c $4,80($9)
        addq/v $1,$2,$3
        trapb
        br dump
sra:
        ldq_l $10,80($9)
        lda $7,16($8)
        addq/v $1,$2,$3
        sra $4,$6,$5
        stq_c $4,80($9)
        addq/v $1,$2,$3
        trapb
        br dump
mskwh:
        ldq_l $10,80($9)
        lda $7,16($8)
        addq/v $1,$2,$3
        mskwh $4,$6,$5
        stq_c $4,80($9)
        addq/v $1,$2,$3
        trapb
        br dump
inswh:
        ldq_l $10,80($9)
        lda $7,16($8)
        addq/v $1,$2,$3
        inswh $4,$6,$5
        stq_c $4,80($9)
        addq/v $1,$2,$3
        trapb
        br dump
extwh:
        ldq_l $10,80($9)
        lda $7,16($8)
        addq/v $1,$2,$3
        extwh $4,$6,$5
        stq_c $4,80($9)
        addq/v $1,$2,$3
        trapb
        br dump
msklh:
        ldq_l $10,80($9)
        lda $7,16($8)
        addq/v $1,$2,$3
        msklh $4,$6,$5
        stq_c $4,80($9)
        addq/v $1,$2,$3
        trapb
        br dump
inslh:
        ldq_l $10,80($9)
        lda $7,16($8)
        addq/v $1,$2,$3
        inslh $4,$6,$5
        stq_c $4,80($9)
        addq/v $1,$2,$3
        trapb
        br dump
extlh:
        ldq_l $10,80($9)
        lda $7,16($8)
        addq/v $1,$2,$3
        extlh $4,$6,$5
        stq_c $4,80($9)
        addq/v $1,$2,$3
        trapb
        br dump
mskqh:
        ldq_l $10,80($9)
        lda $7,16($8)
        addq/v $1,$2,$3
        mskqh $4,$6,$5
        stq_c $4,80($9)
        addq/v $1,$2,$3
        trapb
        br dump
insqh:
        ldq_l $10,80($9)
        lda $7,16($8)
        addq/v $1,$2,$3
        insqh $4,$6,$5
        stq_c $4,80($9)
        addq/v $1,$2,$3
        trapb
        br dump
extqh:
        ldq_l $10,80($9)
        lda $7,16($8)
        addq/v $1,$2,$3
        extqh $4,$6,$5
        stq_c $4,80($9)
        addq/v $1,$2,$3
        trapb
        br dump
mull:
        ldq_l $10,80($9)
        lda $7,16($8)
        addq/v $1,$2,$3
        mull $4,$6,$5
        stq_c $4,80($9)
        addq/v $1,$2,$3
        trapb
        br dump
mulq:
        ldq_l $10,80($9)
        lda $7,16($8)
        addq/v $1,$2,$3
        mulq $4,$6,$5
        stq_c $4,80($9)
        addq/v $1,$2,$3
        trapb
        br dump
umulh:
        ldq_l $10,80($9)
        lda $7,16($8)
        addq/v $1,$2,$3
        umulh $4,$6,$5
        stq_c $4,80($9)
        addq/v $1,$2,$3
        trapb
        br dump
mull_v:
        ldq_l $10,80($9)
        lda $7,16($8)
        addq/v $1,$2,$3
        mull/v $4,$6,$5
        stq_c $4,80($9)
        addq/v $1,$2,$3
        trapb
        br dump
mulq_v:
        ldq_l $10,80($9)
        lda $7,16($8)
        addq/v $1,$2,$3
        mulq/v $4,$6,$5
        stq_c $4,80($9)
        addq/v $1,$2,$3
        trapb
        br dump
sextb:
        ldq_l $10,80($9)
        lda $7,16($8)
        addq/v $1,$2,$3
        sextb $6,$5
        stq_c $4,80($9)
        addq/v $1,$2,$3
        trapb
        br dump
sextw:
        ldq_l $10,80($9)
        lda $7,16($8)
        addq/v $1,$2,$3
        sextw $6,$5
        stq_c $4,80($9)
        addq/v $1,$2,$3
        trapb
        br dump
ctpop:
        ldq_l $10,80($9)
        lda $7,16($8)
        addq/v $1,$2,$3
        ctpop $6,$5
        stq_c $4,80($9)
        addq/v $1,$2,$3
        trapb
        br dump
ctlz:
        ldq_l $10,80($9)
        lda $7,16($8)
        addq/v $1,$2,$3
        ctlz $6,$5
        stq_c $4,80($9)
        addq/v $1,$2,$3
        trapb
        br dump
cttz:
        ldq_l $10,80($9)
        lda $7,16($8)
        addq/v $1,$2,$3
        cttz $6,$5
        stq_c $4,80($9)
        addq/v $1,$2,$3
        trapb
        br dump
lda:
        ldq_l $10,80($9)
        lda $7,16($8)
        addq/v $1,$2,$3
        lda $5,8($6)
        stq_c $4,80($9)
        addq/v $1,$2,$3
        trapb
        br dump
ldah:
        ldq_l $10,80($9)
        lda $7,16($8)
        addq/v $1,$2,$3
        ldah $5,8($6)
        stq_c $4,80($9)
        addq/v $1,$2,$3
        trapb
        br dump
ldbu:
        ldq_l $10,80($9)
        lda $7,16($8)
        addq/v $1,$2,$3
        ldbu $5,72($9)
        stq_c $4,80($9)
        addq/v $1,$2,$3
        trapb
        br dump
ldwu:
        ldq_l $10,80($9)
        lda $7,16($8)
        addq/v $1,$2,$3
        ldwu $5,72($9)
        stq_c $4,80($9)
        addq/v $1,$2,$3
        trapb
        br dump
ldl:
        ldq_l $10,80($9)
        lda $7,16($8)
        addq/v $1,$2,$3
        ldl $5,72($9)
        stq_c $4,80($9)
        addq/v $1,$2,$3
        trapb
        br dump
ldq:
        ldq_l $10,80($9)
        lda $7,16($8)
        addq/v $1,$2,$3
        ldq $5,72($9)
        stq_c $4,80($9)
        addq/v $1,$2,$3
        trapb
        br dump
ldq_u:
        ldq_l $10,80($9)
        lda $7,16($8)
        addq/v $1,$2,$3
        ldq_u $5,72($9)
        stq_c $4,80($9)
        addq/v $1,$2,$3
        trapb
        br dump
br:
        ldq_l $10,80($9)
        lda $7,16($8)
        addq/v $1,$2,$3
        br $5,.+4
        stq_c $4,80($9)
        addq/v $1,$2,$3
        trapb
        br dump
bsr:
        ldq_l $10,80($9)
        lda $7,16($8)
        addq/v $1,$2,$3
        bsr $5,.+4
        stq_c $4,80($9)
        addq/v $1,$2,$3
        trapb
        br dump
jmp:
        ldq_l $10,80($9)
        lda $7,16($8)
        addq/v $1,$2,$3
        jmp $5,($7)
        stq_c $4,80($9)
        addq/v $1,$2,$3
        trapb
        br dump
jsr:
        ldq_l $10,80($9)
        lda $7,16($8)
        addq/v $1,$2,$3
        jsr $5,($7)
        stq_c $4,80($9)
        addq/v $1,$2,$3
        trapb
        br dump
ret:
        ldq_l $10,80($9)
        lda $7,16($8)
        addq/v $1,$2,$3
        ret $5,($7)
        stq_c $4,80($9)
        addq/v $1,$2,$3
        trapb
        br dump
jsr_coroutine:
        ldq_l $10,80($9)
        lda $7,16($8)
        addq/v $1,$2,$3
        jsr_coroutine $5,($7)
        stq_c $4,80($9)
        addq/v $1,$2,$3
        trapb
        br dump
stb:
        ldq_l $10,80($9)
        lda $7,16($8)
        addq/v $1,$2,$3
        stb $4,64($9)
        stq_c $4,80($9)
        addq/v $1,$2,$3
        trapb
        br dump
stw:
        ldq_l $10,80($9)
        lda $7,16($8)
        addq/v $1,$2,$3
        stw $4,64($9)
        stq_c $4,80($9)
        addq/v $1,$2,$3
        trapb
        br dump
stl:
        ldq_l $10,80($9)
        lda $7,16($8)
        addq/v $1,$2,$3
        stl $4,64($9)
        stq_c $4,80($9)
        addq/v $1,$2,$3
        trapb
        br dump
stq:
        ldq_l $10,80($9)
        lda $7,16($8)
        addq/v $1,$2,$3
        stq $4,64($9)
        stq_c $4,80($9)
        addq/v $1,$2,$3
        trapb
        br dump
stq_u:
        ldq_l $10,80($9)
        lda $7,16($8)
        addq/v $1,$2,$3
        stq_u $4,64($9)
        stq_c $4,80($9)
        addq/v $1,$2,$3
        trapb
        br dump
beq:
        ldq_l $10,80($9)
        lda $7,16($8)
        addq/v $1,$2,$3
        beq $6,.+4
        stq_c $4,80($9)
        addq/v $1,$2,$3
        trapb
        br dump
bne:
        ldq_l $10,80($9)
        lda $7,16($8)
        addq/v $1,$2,$3
        bne $6,.+4
        stq_c $4,80($9)
        addq/v $1,$2,$3
        trapb
        br dump
blt:
        ldq_l $10,80($9)
        lda $7,16($8)
        addq/v $1,$2,$3
        blt $6,.+4
        stq_c $4,80($9)
        addq/v $1,$2,$3
        trapb
        br dump
ble:
        ldq_l $10,80($9)
        lda $7,16($8)
        addq/v $1,$2,$3
        ble $6,.+4
        stq_c $4,80($9)
        addq/v $1,$2,$3
        trapb
        br dump
bgt:
        ldq_l $10,80($9)
        lda $7,16($8)
        addq/v $1,$2,$3
        bgt $6,.+4
        stq_c $4,80($9)
        addq/v $1,$2,$3
        trapb
        br dump
bge:
        ldq_l $10,80($9)
        lda $7,16($8)
        addq/v $1,$2,$3
        bge $6,.+4
        stq_c $4,80($9)
        addq/v $1,$2,$3
        trapb
        br dump
blbs:
        ldq_l $10,80($9)
        lda $7,16($8)
        addq/v $1,$2,$3
        blbs $6,.+4
        stq_c $4,80($9)
        addq/v $1,$2,$3
        trapb
        br dump
blbc:
        ldq_l $10,80($9)
        lda $7,16($8)
        addq/v $1,$2,$3
        blbc $6,.+4
        stq_c $4,80($9)
        addq/v $1,$2,$3
        trapb
        br dump
mb:
        ldq_l $10,80($9)
        lda $7,16($8)
        addq/v $1,$2,$3
        mb
        stq_c $4,80($9)
        addq/v $1,$2,$3
        trapb
        br dump
wmb:
        ldq_l $10,80($9)
        lda $7,16($8)
        addq/v $1,$2,$3
        wmb
        stq_c $4,80($9)
        addq/v $1,$2,$3
        trapb
        br dump
fetch:
        ldq_l $10,80($9)
        lda $7,16($8)
        addq/v $1,$2,$3
        fetch 0($9)
        stq_c $4,80($9)
        addq/v $1,$2,$3
        trapb
        br dump
fetch_m:
        ldq_l $10,80($9)
        lda $7,16($8)
        addq/v $1,$2,$3
        fetch_m 0($9)
        stq_c $4,80($9)
        addq/v $1,$2,$3
        trapb
        br dump
br_back:
        ldq_l $10,80($9)
        addq/v $1,$2,$3
        br $6,before
        trapb
bsr_back:
        ldq_l $10,80($9)
        addq/v $1,$2,$3
        bsr $6,before
        trapb
jmp_back:
        ldq_l $10,80($9)
        addq/v $1,$2,$3
        jmp $6,($7)
        trapb
jsr_back:
        ldq_l $10,80($9)
        addq/v $1,$2,$3
        jsr $6,($7)
        trapb
ret_back:
        ldq_l $10,80($9)
        addq/v $1,$2,$3
        ret $6,($7)
        trapb
jsr_coroutine_back:
        ldq_l $10,80($9)
        addq/v $1,$2,$3
        jsr_coroutine $6,($7)
        trapb
beq_back:
        ldq_l $10,80($9)
        addq/v $1,$2,$3
        beq $6,before
        trapb
bne_back:
        ldq_l $10,80($9)
        addq/v $1,$2,$3
        bne $6,before
        trapb
blt_back:
        ldq_l $10,80($9)
        addq/v $1,$2,$3
        blt $6,before
        trapb
ble_back:
        ldq_l $10,80($9)
        addq/v $1,$2,$3
        ble $6,before
        trapb
bgt_back:
        ldq_l $10,80($9)
        addq/v $1,$2,$3
        bgt $6,before
        trapb
bge_back:
        ldq_l $10,80($9)
        addq/v $1,$2,$3
        bge $6,before
        trapb
blbs_back:
        ldq_l $10,80($9)
        addq/v $1,$2,$3
        blbs $6,before
        trapb
blbc_back:
        ldq_l $10,80($9)
        addq/v $1,$2,$3
        blbc $6,before
        trapb
        .entry start
