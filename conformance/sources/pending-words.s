# A trigger, and each word behind it: what can't be done there.
        .level 2
        .codebase 0x10000
        .segment 0x10000000
        .quad 0x0,0x0,0x0,0x0,0x0,0x0,0x0,0x0
        .quad 0x8786858483828180,0x8f8e8d8c8b8a8988,0x9796959493929190,0x9f9e9d9c9b9a9998,0x1716151413121110,0x1f1e1d1c1b1a1918,0x2726252423222120,0x2f2e2d2c2b2a2928
        .zero 256
        .code
start:
        ldah $9,0x1000($31)
        lda $0,3($31)
        clr $16
        mov $9,$17
        lda $18,64($31)
        callsys
        ldq $8,0($9)
        ldq $1,8($9)
        ldq $2,16($9)
        ldq $3,24($9)
        ldq $4,32($9)
        ldq $5,40($9)
        ldq $6,48($9)
        ldq $7,56($9)
        jmp $31,($8),0
dump:
        stq $0,128($9)
        stq $1,136($9)
        stq $2,144($9)
        stq $3,152($9)
        stq $4,160($9)
        stq $5,168($9)
        stq $6,176($9)
        stq $7,184($9)
        stq $8,192($9)
        stq $9,200($9)
        stq $10,208($9)
        stq $11,216($9)
        stq $12,224($9)
        stq $13,232($9)
        stq $14,240($9)
        stq $15,248($9)
        stq $16,256($9)
        stq $17,264($9)
        stq $18,272($9)
        stq $19,280($9)
        stq $20,288($9)
        stq $21,296($9)
        stq $22,304($9)
        stq $23,312($9)
        stq $24,320($9)
        stq $25,328($9)
        stq $26,336($9)
        stq $27,344($9)
        stq $28,352($9)
        stq $29,360($9)
        stq $30,368($9)
        stq $31,376($9)
        lda $0,4($31)
        lda $16,1($31)
        lda $17,64($9)
        lda $18,320($31)
        callsys
        clr $16
        lda $0,1($31)
        callsys
addl:
        lda $7,12($8)
        addq/v $1,$2,$3
        addl $4,$6,$5
        trapb
        br dump
s4addl:
        lda $7,12($8)
        addq/v $1,$2,$3
        s4addl $4,$6,$5
        trapb
        br dump
subl:
        lda $7,12($8)
        addq/v $1,$2,$3
        subl $4,$6,$5
        trapb
        br dump
s4subl:
        lda $7,12($8)
        addq/v $1,$2,$3
        s4subl $4,$6,$5
        trapb
        br dump
cmpbge:
        lda $7,12($8)
        addq/v $1,$2,$3
        cmpbge $4,$6,$5
        trapb
        br dump
s8addl:
        lda $7,12($8)
        addq/v $1,$2,$3
        s8addl $4,$6,$5
        trapb
        br dump
s8subl:
        lda $7,12($8)
        addq/v $1,$2,$3
        s8subl $4,$6,$5
        trapb
        br dump
cmpult:
        lda $7,12($8)
        addq/v $1,$2,$3
        cmpult $4,$6,$5
        trapb
        br dump
addq:
        lda $7,12($8)
        addq/v $1,$2,$3
        addq $4,$6,$5
        trapb
        br dump
s4addq:
        lda $7,12($8)
        addq/v $1,$2,$3
        s4addq $4,$6,$5
        trapb
        br dump
subq:
        lda $7,12($8)
        addq/v $1,$2,$3
        subq $4,$6,$5
        trapb
        br dump
s4subq:
        lda $7,12($8)
        addq/v $1,$2,$3
        s4subq $4,$6,$5
        trapb
        br dump
cmpeq:
        lda $7,12($8)
        addq/v $1,$2,$3
        cmpeq $4,$6,$5
        trapb
        br dump
s8addq:
        lda $7,12($8)
        addq/v $1,$2,$3
        s8addq $4,$6,$5
        trapb
        br dump
s8subq:
        lda $7,12($8)
        addq/v $1,$2,$3
        s8subq $4,$6,$5
        trapb
        br dump
cmpule:
        lda $7,12($8)
        addq/v $1,$2,$3
        cmpule $4,$6,$5
        trapb
        br dump
addl_v:
        lda $7,12($8)
        addq/v $1,$2,$3
        addl/v $4,$6,$5
        trapb
        br dump
subl_v:
        lda $7,12($8)
        addq/v $1,$2,$3
        subl/v $4,$6,$5
        trapb
        br dump
cmplt:
        lda $7,12($8)
        addq/v $1,$2,$3
        cmplt $4,$6,$5
        trapb
        br dump
addq_v:
        lda $7,12($8)
        addq/v $1,$2,$3
        addq/v $4,$6,$5
        trapb
        br dump
subq_v:
        lda $7,12($8)
        addq/v $1,$2,$3
        subq/v $4,$6,$5
        trapb
        br dump
cmple:
        lda $7,12($8)
        addq/v $1,$2,$3
        cmple $4,$6,$5
        trapb
        br dump
and:
        lda $7,12($8)
        addq/v $1,$2,$3
        and $4,$6,$5
        trapb
        br dump
bic:
        lda $7,12($8)
        addq/v $1,$2,$3
        bic $4,$6,$5
        trapb
        br dump
cmovlbs:
        lda $7,12($8)
        addq/v $1,$2,$3
        cmovlbs $4,$6,$5
        trapb
        br dump
cmovlbc:
        lda $7,12($8)
        addq/v $1,$2,$3
        cmovlbc $4,$6,$5
        trapb
        br dump
bis:
        lda $7,12($8)
        addq/v $1,$2,$3
        bis $4,$6,$5
        trapb
        br dump
cmoveq:
        lda $7,12($8)
        addq/v $1,$2,$3
        cmoveq $4,$6,$5
        trapb
        br dump
cmovne:
        lda $7,12($8)
        addq/v $1,$2,$3
        cmovne $4,$6,$5
        trapb
        br dump
ornot:
        lda $7,12($8)
        addq/v $1,$2,$3
        ornot $4,$6,$5
        trapb
        br dump
xor:
        lda $7,12($8)
        addq/v $1,$2,$3
        xor $4,$6,$5
        trapb
        br dump
cmovlt:
        lda $7,12($8)
        addq/v $1,$2,$3
        cmovlt $4,$6,$5
        trapb
        br dump
cmovge:
        lda $7,12($8)
        addq/v $1,$2,$3
        cmovge $4,$6,$5
        trapb
        br dump
eqv:
        lda $7,12($8)
        addq/v $1,$2,$3
        eqv $4,$6,$5
        trapb
        br dump
amask:
        lda $7,12($8)
        addq/v $1,$2,$3
        amask $6,$5
        trapb
        br dump
cmovle:
        lda $7,12($8)
        addq/v $1,$2,$3
        cmovle $4,$6,$5
        trapb
        br dump
cmovgt:
        lda $7,12($8)
        addq/v $1,$2,$3
        cmovgt $4,$6,$5
        trapb
        br dump
implver:
        lda $7,12($8)
        addq/v $1,$2,$3
        implver $5
        trapb
        br dump
mskbl:
        lda $7,12($8)
        addq/v $1,$2,$3
        mskbl $4,$6,$5
        trapb
        br dump
extbl:
        lda $7,12($8)
        addq/v $1,$2,$3
        extbl $4,$6,$5
        trapb
        br dump
insbl:
        lda $7,12($8)
        addq/v $1,$2,$3
        insbl $4,$6,$5
        trapb
        br dump
mskwl:
        lda $7,12($8)
        addq/v $1,$2,$3
        mskwl $4,$6,$5
        trapb
        br dump
extwl:
        lda $7,12($8)
        addq/v $1,$2,$3
        extwl $4,$6,$5
        trapb
        br dump
inswl:
        lda $7,12($8)
        addq/v $1,$2,$3
        inswl $4,$6,$5
        trapb
        br dump
mskll:
        lda $7,12($8)
        addq/v $1,$2,$3
        mskll $4,$6,$5
        trapb
        br dump
extll:
        lda $7,12($8)
        addq/v $1,$2,$3
        extll $4,$6,$5
        trapb
        br dump
insll:
        lda $7,12($8)
        addq/v $1,$2,$3
        insll $4,$6,$5
        trapb
        br dump
zap:
        lda $7,12($8)
        addq/v $1,$2,$3
        zap $4,$6,$5
        trapb
        br dump
zapnot:
        lda $7,12($8)
        addq/v $1,$2,$3
        zapnot $4,$6,$5
        trapb
        br dump
mskql:
        lda $7,12($8)
        addq/v $1,$2,$3
        mskql $4,$6,$5
        trapb
        br dump
srl:
        lda $7,12($8)
        addq/v $1,$2,$3
        srl $4,$6,$5
        trapb
        br dump
extql:
        lda $7,12($8)
        addq/v $1,$2,$3
        extql $4,$6,$5
        trapb
        br dump
sll:
        lda $7,12($8)
        addq/v $1,$2,$3
        sll $4,$6,$5
        trapb
        br dump
insql:
        lda $7,12($8)
        addq/v $1,$2,$3
        insql $4,$6,$5
        trapb
        br dump
sra:
        lda $7,12($8)
        addq/v $1,$2,$3
        sra $4,$6,$5
        trapb
        br dump
mskwh:
        lda $7,12($8)
        addq/v $1,$2,$3
        mskwh $4,$6,$5
        trapb
        br dump
inswh:
        lda $7,12($8)
        addq/v $1,$2,$3
        inswh $4,$6,$5
        trapb
        br dump
extwh:
        lda $7,12($8)
        addq/v $1,$2,$3
        extwh $4,$6,$5
        trapb
        br dump
msklh:
        lda $7,12($8)
        addq/v $1,$2,$3
        msklh $4,$6,$5
        trapb
        br dump
inslh:
        lda $7,12($8)
        addq/v $1,$2,$3
        inslh $4,$6,$5
        trapb
        br dump
extlh:
        lda $7,12($8)
        addq/v $1,$2,$3
        extlh $4,$6,$5
        trapb
        br dump
mskqh:
        lda $7,12($8)
        addq/v $1,$2,$3
        mskqh $4,$6,$5
        trapb
        br dump
insqh:
        lda $7,12($8)
        addq/v $1,$2,$3
        insqh $4,$6,$5
        trapb
        br dump
extqh:
        lda $7,12($8)
        addq/v $1,$2,$3
        extqh $4,$6,$5
        trapb
        br dump
mull:
        lda $7,12($8)
        addq/v $1,$2,$3
        mull $4,$6,$5
        trapb
        br dump
mulq:
        lda $7,12($8)
        addq/v $1,$2,$3
        mulq $4,$6,$5
        trapb
        br dump
umulh:
        lda $7,12($8)
        addq/v $1,$2,$3
        umulh $4,$6,$5
        trapb
        br dump
mull_v:
        lda $7,12($8)
        addq/v $1,$2,$3
        mull/v $4,$6,$5
        trapb
        br dump
mulq_v:
        lda $7,12($8)
        addq/v $1,$2,$3
        mulq/v $4,$6,$5
        trapb
        br dump
sextb:
        lda $7,12($8)
        addq/v $1,$2,$3
        sextb $6,$5
        trapb
        br dump
sextw:
        lda $7,12($8)
        addq/v $1,$2,$3
        sextw $6,$5
        trapb
        br dump
ctpop:
        lda $7,12($8)
        addq/v $1,$2,$3
        ctpop $6,$5
        trapb
        br dump
ctlz:
        lda $7,12($8)
        addq/v $1,$2,$3
        ctlz $6,$5
        trapb
        br dump
cttz:
        lda $7,12($8)
        addq/v $1,$2,$3
        cttz $6,$5
        trapb
        br dump
lda:
        lda $7,12($8)
        addq/v $1,$2,$3
        lda $5,8($6)
        trapb
        br dump
ldah:
        lda $7,12($8)
        addq/v $1,$2,$3
        ldah $5,8($6)
        trapb
        br dump
ldbu:
        lda $7,12($8)
        addq/v $1,$2,$3
        ldbu $5,72($9)
        trapb
        br dump
ldwu:
        lda $7,12($8)
        addq/v $1,$2,$3
        ldwu $5,72($9)
        trapb
        br dump
ldl:
        lda $7,12($8)
        addq/v $1,$2,$3
        ldl $5,72($9)
        trapb
        br dump
ldq:
        lda $7,12($8)
        addq/v $1,$2,$3
        ldq $5,72($9)
        trapb
        br dump
ldq_u:
        lda $7,12($8)
        addq/v $1,$2,$3
        ldq_u $5,72($9)
        trapb
        br dump
ldl_l:
        lda $7,12($8)
        addq/v $1,$2,$3
        ldl_l $5,72($9)
        trapb
        br dump
ldq_l:
        lda $7,12($8)
        addq/v $1,$2,$3
        ldq_l $5,72($9)
        trapb
        br dump
stl_c:
        lda $7,12($8)
        addq/v $1,$2,$3
        stl_c $5,72($9)
        trapb
        br dump
stq_c:
        lda $7,12($8)
        addq/v $1,$2,$3
        stq_c $5,72($9)
        trapb
        br dump
br:
        lda $7,12($8)
        addq/v $1,$2,$3
        br $5,.+4
        trapb
        br dump
bsr:
        lda $7,12($8)
        addq/v $1,$2,$3
        bsr $5,.+4
        trapb
        br dump
jmp:
        lda $7,12($8)
        addq/v $1,$2,$3
        jmp $5,($7)
        trapb
        br dump
jsr:
        lda $7,12($8)
        addq/v $1,$2,$3
        jsr $5,($7)
        trapb
        br dump
ret:
        lda $7,12($8)
        addq/v $1,$2,$3
        ret $5,($7)
        trapb
        br dump
jsr_coroutine:
        lda $7,12($8)
        addq/v $1,$2,$3
        jsr_coroutine $5,($7)
        trapb
        br dump
stb:
        lda $7,12($8)
        addq/v $1,$2,$3
        stb $4,64($9)
        trapb
        br dump
stw:
        lda $7,12($8)
        addq/v $1,$2,$3
        stw $4,64($9)
        trapb
        br dump
stl:
        lda $7,12($8)
        addq/v $1,$2,$3
        stl $4,64($9)
        trapb
        br dump
stq:
        lda $7,12($8)
        addq/v $1,$2,$3
        stq $4,64($9)
        trapb
        br dump
stq_u:
        lda $7,12($8)
        addq/v $1,$2,$3
        stq_u $4,64($9)
        trapb
        br dump
beq:
        lda $7,12($8)
        addq/v $1,$2,$3
        beq $6,.+4
        trapb
        br dump
bne:
        lda $7,12($8)
        addq/v $1,$2,$3
        bne $6,.+4
        trapb
        br dump
blt:
        lda $7,12($8)
        addq/v $1,$2,$3
        blt $6,.+4
        trapb
        br dump
ble:
        lda $7,12($8)
        addq/v $1,$2,$3
        ble $6,.+4
        trapb
        br dump
bgt:
        lda $7,12($8)
        addq/v $1,$2,$3
        bgt $6,.+4
        trapb
        br dump
bge:
        lda $7,12($8)
        addq/v $1,$2,$3
        bge $6,.+4
        trapb
        br dump
blbs:
        lda $7,12($8)
        addq/v $1,$2,$3
        blbs $6,.+4
        trapb
        br dump
blbc:
        lda $7,12($8)
        addq/v $1,$2,$3
        blbc $6,.+4
        trapb
        br dump
mb:
        lda $7,12($8)
        addq/v $1,$2,$3
        mb
        trapb
        br dump
wmb:
        lda $7,12($8)
        addq/v $1,$2,$3
        wmb
        trapb
        br dump
fetch:
        lda $7,12($8)
        addq/v $1,$2,$3
        fetch 0($9)
        trapb
        br dump
fetch_m:
        lda $7,12($8)
        addq/v $1,$2,$3
        fetch_m 0($9)
        trapb
        br dump
addl_v_31:
        lda $7,12($8)
        addq/v $1,$2,$3
        addl/v $4,$6,$31
        trapb
        br dump
addq_v_31:
        lda $7,12($8)
        addq/v $1,$2,$3
        addq/v $4,$6,$31
        trapb
        br dump
subl_v_31:
        lda $7,12($8)
        addq/v $1,$2,$3
        subl/v $4,$6,$31
        trapb
        br dump
subq_v_31:
        lda $7,12($8)
        addq/v $1,$2,$3
        subq/v $4,$6,$31
        trapb
        br dump
mull_v_31:
        lda $7,12($8)
        addq/v $1,$2,$3
        mull/v $4,$6,$31
        trapb
        br dump
mulq_v_31:
        lda $7,12($8)
        addq/v $1,$2,$3
        mulq/v $4,$6,$31
        trapb
        br dump
at_trapb:
        addq/v $1,$2,$3
        trapb
        trapb
        br dump
at_excb:
        addq/v $1,$2,$3
        excb
        trapb
        br dump
at_imb:
        addq/v $1,$2,$3
        imb
        trapb
        br dump
at_rdunique:
        addq/v $1,$2,$3
        rdunique
        trapb
        br dump
at_wrunique:
        addq/v $1,$2,$3
        wrunique
        trapb
        br dump
at_callsys:
        addq/v $1,$2,$3
        callsys
        trapb
        br dump
at_bpt:
        addq/v $1,$2,$3
        bpt
        trapb
        br dump
at_bugchk:
        addq/v $1,$2,$3
        bugchk
        trapb
        br dump
at_gentrap:
        addq/v $1,$2,$3
        gentrap
        trapb
        br dump
jumps:
        addq/v $1,$2,$3
        jmp $31,($6)
faults:
        addq/v $1,$2,$3
        stq $5,0($6)
        trapb
empty:
        addq/v $1,$2,$31
        addq/v $1,$2,$3
        addq/v $4,$6,$5
        trapb
last:
        addq/v $1,$2,$3
        .entry start
