# While a trap is pending, words whose registers are one or R31, and those with a literal: $5 gets the drawn value.
        .level 2
        .codebase 0x10000
        .segment 0x10000000
        .quad 0x0,0x0,0x0,0x0,0x0,0x0,0x0,0x0
        .quad 0x8786858483828180,0x8f8e8d8c8b8a8988,0x9796959493929190,0x9f9e9d9c9b9a9998,0x1716151413121110,0x1f1e1d1c1b1a1918,0x2726252423222120,0x2f2e2d2c2b2a2928
        .zero 256
        .code
start:
        ldah $9,0x1000($31)
        lda $0,3($31)
        clr $16
        mov $9,$17
        lda $18,64($31)
        callsys
        ldq $8,0($9)
        ldq $1,8($9)
        ldq $2,16($9)
        ldq $3,24($9)
        ldq $4,32($9)
        ldq $5,40($9)
        ldq $6,48($9)
        ldq $7,56($9)
        jmp $31,($8),0
dump:
        stq $0,128($9)
        stq $1,136($9)
        stq $2,144($9)
        stq $3,152($9)
        stq $4,160($9)
        stq $5,168($9)
        stq $6,176($9)
        stq $7,184($9)
        stq $8,192($9)
        stq $9,200($9)
        stq $10,208($9)
        stq $11,216($9)
        stq $12,224($9)
        stq $13,232($9)
        stq $14,240($9)
        stq $15,248($9)
        stq $16,256($9)
        stq $17,264($9)
        stq $18,272($9)
        stq $19,280($9)
        stq $20,288($9)
        stq $21,296($9)
        stq $22,304($9)
        stq $23,312($9)
        stq $24,320($9)
        stq $25,328($9)
        stq $26,336($9)
        stq $27,344($9)
        stq $28,352($9)
        stq $29,360($9)
        stq $30,368($9)
        stq $31,376($9)
        lda $0,4($31)
        lda $16,1($31)
        lda $17,64($9)
        lda $18,320($31)
        callsys
        clr $16
        lda $0,1($31)
        callsys
mov:
        lda $5,85($31)
        addq/v $1,$2,$3
        mov $6,$5
        addq/v $1,$2,$3
        trapb
        br dump
clr:
        lda $5,85($31)
        addq/v $1,$2,$3
        clr $5
        addq/v $1,$2,$3
        trapb
        br dump
mov_literal:
        lda $5,85($31)
        addq/v $1,$2,$3
        mov 7,$5
        addq/v $1,$2,$3
        trapb
        br dump
mov_zero:
        lda $5,85($31)
        addq/v $1,$2,$3
        bis $6,0,$5
        addq/v $1,$2,$3
        trapb
        br dump
lda_own:
        lda $5,85($31)
        addq/v $1,$2,$3
        lda $5,0($5)
        addq/v $1,$2,$3
        trapb
        br dump
lda_zero:
        lda $5,85($31)
        addq/v $1,$2,$3
        lda $5,0($31)
        addq/v $1,$2,$3
        trapb
        br dump
lda_move:
        lda $5,85($31)
        addq/v $1,$2,$3
        lda $5,0($6)
        addq/v $1,$2,$3
        trapb
        br dump
ldah_own:
        lda $5,85($31)
        addq/v $1,$2,$3
        ldah $5,0($5)
        addq/v $1,$2,$3
        trapb
        br dump
ldah_zero:
        lda $5,85($31)
        addq/v $1,$2,$3
        ldah $5,1($31)
        addq/v $1,$2,$3
        trapb
        br dump
addl_own:
        lda $5,85($31)
        addq/v $1,$2,$3
        addl $5,$5,$5
        addq/v $1,$2,$3
        trapb
        br dump
addl_literal:
        lda $5,85($31)
        addq/v $1,$2,$3
        addl $4,1,$5
        addq/v $1,$2,$3
        trapb
        br dump
s4addl_own:
        lda $5,85($31)
        addq/v $1,$2,$3
        s4addl $5,$5,$5
        addq/v $1,$2,$3
        trapb
        br dump
s4addl_literal:
        lda $5,85($31)
        addq/v $1,$2,$3
        s4addl $4,1,$5
        addq/v $1,$2,$3
        trapb
        br dump
subl_own:
        lda $5,85($31)
        addq/v $1,$2,$3
        subl $5,$5,$5
        addq/v $1,$2,$3
        trapb
        br dump
subl_literal:
        lda $5,85($31)
        addq/v $1,$2,$3
        subl $4,1,$5
        addq/v $1,$2,$3
        trapb
        br dump
s4subl_own:
        lda $5,85($31)
        addq/v $1,$2,$3
        s4subl $5,$5,$5
        addq/v $1,$2,$3
        trapb
        br dump
s4subl_literal:
        lda $5,85($31)
        addq/v $1,$2,$3
        s4subl $4,1,$5
        addq/v $1,$2,$3
        trapb
        br dump
cmpbge_own:
        lda $5,85($31)
        addq/v $1,$2,$3
        cmpbge $5,$5,$5
        addq/v $1,$2,$3
        trapb
        br dump
cmpbge_literal:
        lda $5,85($31)
        addq/v $1,$2,$3
        cmpbge $4,1,$5
        addq/v $1,$2,$3
        trapb
        br dump
s8addl_own:
        lda $5,85($31)
        addq/v $1,$2,$3
        s8addl $5,$5,$5
        addq/v $1,$2,$3
        trapb
        br dump
s8addl_literal:
        lda $5,85($31)
        addq/v $1,$2,$3
        s8addl $4,1,$5
        addq/v $1,$2,$3
        trapb
        br dump
s8subl_own:
        lda $5,85($31)
        addq/v $1,$2,$3
        s8subl $5,$5,$5
        addq/v $1,$2,$3
        trapb
        br dump
s8subl_literal:
        lda $5,85($31)
        addq/v $1,$2,$3
        s8subl $4,1,$5
        addq/v $1,$2,$3
        trapb
        br dump
cmpult_own:
        lda $5,85($31)
        addq/v $1,$2,$3
        cmpult $5,$5,$5
        addq/v $1,$2,$3
        trapb
        br dump
cmpult_literal:
        lda $5,85($31)
        addq/v $1,$2,$3
        cmpult $4,1,$5
        addq/v $1,$2,$3
        trapb
        br dump
addq_own:
        lda $5,85($31)
        addq/v $1,$2,$3
        addq $5,$5,$5
        addq/v $1,$2,$3
        trapb
        br dump
addq_literal:
        lda $5,85($31)
        addq/v $1,$2,$3
        addq $4,1,$5
        addq/v $1,$2,$3
        trapb
        br dump
s4addq_own:
        lda $5,85($31)
        addq/v $1,$2,$3
        s4addq $5,$5,$5
        addq/v $1,$2,$3
        trapb
        br dump
s4addq_literal:
        lda $5,85($31)
        addq/v $1,$2,$3
        s4addq $4,1,$5
        addq/v $1,$2,$3
        trapb
        br dump
subq_own:
        lda $5,85($31)
        addq/v $1,$2,$3
        subq $5,$5,$5
        addq/v $1,$2,$3
        trapb
        br dump
subq_literal:
        lda $5,85($31)
        addq/v $1,$2,$3
        subq $4,1,$5
        addq/v $1,$2,$3
        trapb
        br dump
s4subq_own:
        lda $5,85($31)
        addq/v $1,$2,$3
        s4subq $5,$5,$5
        addq/v $1,$2,$3
        trapb
        br dump
s4subq_literal:
        lda $5,85($31)
        addq/v $1,$2,$3
        s4subq $4,1,$5
        addq/v $1,$2,$3
        trapb
        br dump
cmpeq_own:
        lda $5,85($31)
        addq/v $1,$2,$3
        cmpeq $5,$5,$5
        addq/v $1,$2,$3
        trapb
        br dump
cmpeq_literal:
        lda $5,85($31)
        addq/v $1,$2,$3
        cmpeq $4,1,$5
        addq/v $1,$2,$3
        trapb
        br dump
s8addq_own:
        lda $5,85($31)
        addq/v $1,$2,$3
        s8addq $5,$5,$5
        addq/v $1,$2,$3
        trapb
        br dump
s8addq_literal:
        lda $5,85($31)
        addq/v $1,$2,$3
        s8addq $4,1,$5
        addq/v $1,$2,$3
        trapb
        br dump
s8subq_own:
        lda $5,85($31)
        addq/v $1,$2,$3
        s8subq $5,$5,$5
        addq/v $1,$2,$3
        trapb
        br dump
s8subq_literal:
        lda $5,85($31)
        addq/v $1,$2,$3
        s8subq $4,1,$5
        addq/v $1,$2,$3
        trapb
        br dump
cmpule_own:
        lda $5,85($31)
        addq/v $1,$2,$3
        cmpule $5,$5,$5
        addq/v $1,$2,$3
        trapb
        br dump
cmpule_literal:
        lda $5,85($31)
        addq/v $1,$2,$3
        cmpule $4,1,$5
        addq/v $1,$2,$3
        trapb
        br dump
addl_v_own:
        lda $5,85($31)
        addq/v $1,$2,$3
        addl/v $5,$5,$5
        addq/v $1,$2,$3
        trapb
        br dump
addl_v_literal:
        lda $5,85($31)
        addq/v $1,$2,$3
        addl/v $4,1,$5
        addq/v $1,$2,$3
        trapb
        br dump
subl_v_own:
        lda $5,85($31)
        addq/v $1,$2,$3
        subl/v $5,$5,$5
        addq/v $1,$2,$3
        trapb
        br dump
subl_v_literal:
        lda $5,85($31)
        addq/v $1,$2,$3
        subl/v $4,1,$5
        addq/v $1,$2,$3
        trapb
        br dump
cmplt_own:
        lda $5,85($31)
        addq/v $1,$2,$3
        cmplt $5,$5,$5
        addq/v $1,$2,$3
        trapb
        br dump
cmplt_literal:
        lda $5,85($31)
        addq/v $1,$2,$3
        cmplt $4,1,$5
        addq/v $1,$2,$3
        trapb
        br dump
addq_v_own:
        lda $5,85($31)
        addq/v $1,$2,$3
        addq/v $5,$5,$5
        addq/v $1,$2,$3
        trapb
        br dump
addq_v_literal:
        lda $5,85($31)
        addq/v $1,$2,$3
        addq/v $4,1,$5
        addq/v $1,$2,$3
        trapb
        br dump
subq_v_own:
        lda $5,85($31)
        addq/v $1,$2,$3
        subq/v $5,$5,$5
        addq/v $1,$2,$3
        trapb
        br dump
subq_v_literal:
        lda $5,85($31)
        addq/v $1,$2,$3
        subq/v $4,1,$5
        addq/v $1,$2,$3
        trapb
        br dump
cmple_own:
        lda $5,85($31)
        addq/v $1,$2,$3
        cmple $5,$5,$5
        addq/v $1,$2,$3
        trapb
        br dump
cmple_literal:
        lda $5,85($31)
        addq/v $1,$2,$3
        cmple $4,1,$5
        addq/v $1,$2,$3
        trapb
        br dump
and_own:
        lda $5,85($31)
        addq/v $1,$2,$3
        and $5,$5,$5
        addq/v $1,$2,$3
        trapb
        br dump
and_literal:
        lda $5,85($31)
        addq/v $1,$2,$3
        and $4,1,$5
        addq/v $1,$2,$3
        trapb
        br dump
bic_own:
        lda $5,85($31)
        addq/v $1,$2,$3
        bic $5,$5,$5
        addq/v $1,$2,$3
        trapb
        br dump
bic_literal:
        lda $5,85($31)
        addq/v $1,$2,$3
        bic $4,1,$5
        addq/v $1,$2,$3
        trapb
        br dump
cmovlbs_own:
        lda $5,85($31)
        addq/v $1,$2,$3
        cmovlbs $5,$5,$5
        addq/v $1,$2,$3
        trapb
        br dump
cmovlbs_literal:
        lda $5,85($31)
        addq/v $1,$2,$3
        cmovlbs $4,1,$5
        addq/v $1,$2,$3
        trapb
        br dump
cmovlbc_own:
        lda $5,85($31)
        addq/v $1,$2,$3
        cmovlbc $5,$5,$5
        addq/v $1,$2,$3
        trapb
        br dump
cmovlbc_literal:
        lda $5,85($31)
        addq/v $1,$2,$3
        cmovlbc $4,1,$5
        addq/v $1,$2,$3
        trapb
        br dump
bis_own:
        lda $5,85($31)
        addq/v $1,$2,$3
        bis $5,$5,$5
        addq/v $1,$2,$3
        trapb
        br dump
bis_literal:
        lda $5,85($31)
        addq/v $1,$2,$3
        bis $4,1,$5
        addq/v $1,$2,$3
        trapb
        br dump
cmoveq_own:
        lda $5,85($31)
        addq/v $1,$2,$3
        cmoveq $5,$5,$5
        addq/v $1,$2,$3
        trapb
        br dump
cmoveq_literal:
        lda $5,85($31)
        addq/v $1,$2,$3
        cmoveq $4,1,$5
        addq/v $1,$2,$3
        trapb
        br dump
cmovne_own:
        lda $5,85($31)
        addq/v $1,$2,$3
        cmovne $5,$5,$5
        addq/v $1,$2,$3
        trapb
        br dump
cmovne_literal:
        lda $5,85($31)
        addq/v $1,$2,$3
        cmovne $4,1,$5
        addq/v $1,$2,$3
        trapb
        br dump
ornot_own:
        lda $5,85($31)
        addq/v $1,$2,$3
        ornot $5,$5,$5
        addq/v $1,$2,$3
        trapb
        br dump
ornot_literal:
        lda $5,85($31)
        addq/v $1,$2,$3
        ornot $4,1,$5
        addq/v $1,$2,$3
        trapb
        br dump
xor_own:
        lda $5,85($31)
        addq/v $1,$2,$3
        xor $5,$5,$5
        addq/v $1,$2,$3
        trapb
        br dump
xor_literal:
        lda $5,85($31)
        addq/v $1,$2,$3
        xor $4,1,$5
        addq/v $1,$2,$3
        trapb
        br dump
cmovlt_own:
        lda $5,85($31)
        addq/v $1,$2,$3
        cmovlt $5,$5,$5
        addq/v $1,$2,$3
        trapb
        br dump
cmovlt_literal:
        lda $5,85($31)
        addq/v $1,$2,$3
        cmovlt $4,1,$5
        addq/v $1,$2,$3
        trapb
        br dump
cmovge_own:
        lda $5,85($31)
        addq/v $1,$2,$3
        cmovge $5,$5,$5
        addq/v $1,$2,$3
        trapb
        br dump
cmovge_literal:
        lda $5,85($31)
        addq/v $1,$2,$3
        cmovge $4,1,$5
        addq/v $1,$2,$3
        trapb
        br dump
eqv_own:
        lda $5,85($31)
        addq/v $1,$2,$3
        eqv $5,$5,$5
        addq/v $1,$2,$3
        trapb
        br dump
eqv_literal:
        lda $5,85($31)
        addq/v $1,$2,$3
        eqv $4,1,$5
        addq/v $1,$2,$3
        trapb
        br dump
amask_own:
        lda $5,85($31)
        addq/v $1,$2,$3
        amask $5,$5
        addq/v $1,$2,$3
        trapb
        br dump
cmovle_own:
        lda $5,85($31)
        addq/v $1,$2,$3
        cmovle $5,$5,$5
        addq/v $1,$2,$3
        trapb
        br dump
cmovle_literal:
        lda $5,85($31)
        addq/v $1,$2,$3
        cmovle $4,1,$5
        addq/v $1,$2,$3
        trapb
        br dump
cmovgt_own:
        lda $5,85($31)
        addq/v $1,$2,$3
        cmovgt $5,$5,$5
        addq/v $1,$2,$3
        trapb
        br dump
cmovgt_literal:
        lda $5,85($31)
        addq/v $1,$2,$3
        cmovgt $4,1,$5
        addq/v $1,$2,$3
        trapb
        br dump
mskbl_own:
        lda $5,85($31)
        addq/v $1,$2,$3
        mskbl $5,$5,$5
        addq/v $1,$2,$3
        trapb
        br dump
mskbl_literal:
        lda $5,85($31)
        addq/v $1,$2,$3
        mskbl $4,1,$5
        addq/v $1,$2,$3
        trapb
        br dump
extbl_own:
        lda $5,85($31)
        addq/v $1,$2,$3
        extbl $5,$5,$5
        addq/v $1,$2,$3
        trapb
        br dump
extbl_literal:
        lda $5,85($31)
        addq/v $1,$2,$3
        extbl $4,1,$5
        addq/v $1,$2,$3
        trapb
        br dump
insbl_own:
        lda $5,85($31)
        addq/v $1,$2,$3
        insbl $5,$5,$5
        addq/v $1,$2,$3
        trapb
        br dump
insbl_literal:
        lda $5,85($31)
        addq/v $1,$2,$3
        insbl $4,1,$5
        addq/v $1,$2,$3
        trapb
        br dump
mskwl_own:
        lda $5,85($31)
        addq/v $1,$2,$3
        mskwl $5,$5,$5
        addq/v $1,$2,$3
        trapb
        br dump
mskwl_literal:
        lda $5,85($31)
        addq/v $1,$2,$3
        mskwl $4,1,$5
        addq/v $1,$2,$3
        trapb
        br dump
extwl_own:
        lda $5,85($31)
        addq/v $1,$2,$3
        extwl $5,$5,$5
        addq/v $1,$2,$3
        trapb
        br dump
extwl_literal:
        lda $5,85($31)
        addq/v $1,$2,$3
        extwl $4,1,$5
        addq/v $1,$2,$3
        trapb
        br dump
inswl_own:
        lda $5,85($31)
        addq/v $1,$2,$3
        inswl $5,$5,$5
        addq/v $1,$2,$3
        trapb
        br dump
inswl_literal:
        lda $5,85($31)
        addq/v $1,$2,$3
        inswl $4,1,$5
        addq/v $1,$2,$3
        trapb
        br dump
mskll_own:
        lda $5,85($31)
        addq/v $1,$2,$3
        mskll $5,$5,$5
        addq/v $1,$2,$3
        trapb
        br dump
mskll_literal:
        lda $5,85($31)
        addq/v $1,$2,$3
        mskll $4,1,$5
        addq/v $1,$2,$3
        trapb
        br dump
extll_own:
        lda $5,85($31)
        addq/v $1,$2,$3
        extll $5,$5,$5
        addq/v $1,$2,$3
        trapb
        br dump
extll_literal:
        lda $5,85($31)
        addq/v $1,$2,$3
        extll $4,1,$5
        addq/v $1,$2,$3
        trapb
        br dump
insll_own:
        lda $5,85($31)
        addq/v $1,$2,$3
        insll $5,$5,$5
        addq/v $1,$2,$3
        trapb
        br dump
insll_literal:
        lda $5,85($31)
        addq/v $1,$2,$3
        insll $4,1,$5
        addq/v $1,$2,$3
        trapb
        br dump
zap_own:
        lda $5,85($31)
        addq/v $1,$2,$3
        zap $5,$5,$5
        addq/v $1,$2,$3
        trapb
        br dump
zap_literal:
        lda $5,85($31)
        addq/v $1,$2,$3
        zap $4,1,$5
        addq/v $1,$2,$3
        trapb
        br dump
zapnot_own:
        lda $5,85($31)
        addq/v $1,$2,$3
        zapnot $5,$5,$5
        addq/v $1,$2,$3
        trapb
        br dump
zapnot_literal:
        lda $5,85($31)
        addq/v $1,$2,$3
        zapnot $4,1,$5
        addq/v $1,$2,$3
        trapb
        br dump
mskql_own:
        lda $5,85($31)
        addq/v $1,$2,$3
        mskql $5,$5,$5
        addq/v $1,$2,$3
        trapb
        br dump
mskql_literal:
        lda $5,85($31)
        addq/v $1,$2,$3
        mskql $4,1,$5
        addq/v $1,$2,$3
        trapb
        br dump
srl_own:
        lda $5,85($31)
        addq/v $1,$2,$3
        srl $5,$5,$5
        addq/v $1,$2,$3
        trapb
        br dump
srl_literal:
        lda $5,85($31)
        addq/v $1,$2,$3
        srl $4,1,$5
        addq/v $1,$2,$3
        trapb
        br dump
extql_own:
        lda $5,85($31)
        addq/v $1,$2,$3
        extql $5,$5,$5
        addq/v $1,$2,$3
        trapb
        br dump
extql_literal:
        lda $5,85($31)
        addq/v $1,$2,$3
        extql $4,1,$5
        addq/v $1,$2,$3
        trapb
        br dump
sll_own:
        lda $5,85($31)
        addq/v $1,$2,$3
        sll $5,$5,$5
        addq/v $1,$2,$3
        trapb
        br dump
sll_literal:
        lda $5,85($31)
        addq/v $1,$2,$3
        sll $4,1,$5
        addq/v $1,$2,$3
        trapb
        br dump
insql_own:
        lda $5,85($31)
        addq/v $1,$2,$3
        insql $5,$5,$5
        addq/v $1,$2,$3
        trapb
        br dump
insql_literal:
        lda $5,85($31)
        addq/v $1,$2,$3
        insql $4,1,$5
        addq/v $1,$2,$3
        trapb
        br dump
sra_own:
        lda $5,85($31)
        addq/v $1,$2,$3
        sra $5,$5,$5
        addq/v $1,$2,$3
        trapb
        br dump
sra_literal:
        lda $5,85($31)
        addq/v $1,$2,$3
        sra $4,1,$5
        addq/v $1,$2,$3
        trapb
        br dump
mskwh_own:
        lda $5,85($31)
        addq/v $1,$2,$3
        mskwh $5,$5,$5
        addq/v $1,$2,$3
        trapb
        br dump
mskwh_literal:
        lda $5,85($31)
        addq/v $1,$2,$3
        mskwh $4,1,$5
        addq/v $1,$2,$3
        trapb
        br dump
inswh_own:
        lda $5,85($31)
        addq/v $1,$2,$3
        inswh $5,$5,$5
        addq/v $1,$2,$3
        trapb
        br dump
inswh_literal:
        lda $5,85($31)
        addq/v $1,$2,$3
        inswh $4,1,$5
        addq/v $1,$2,$3
        trapb
        br dump
extwh_own:
        lda $5,85($31)
        addq/v $1,$2,$3
        extwh $5,$5,$5
        addq/v $1,$2,$3
        trapb
        br dump
extwh_literal:
        lda $5,85($31)
        addq/v $1,$2,$3
        extwh $4,1,$5
        addq/v $1,$2,$3
        trapb
        br dump
msklh_own:
        lda $5,85($31)
        addq/v $1,$2,$3
        msklh $5,$5,$5
        addq/v $1,$2,$3
        trapb
        br dump
msklh_literal:
        lda $5,85($31)
        addq/v $1,$2,$3
        msklh $4,1,$5
        addq/v $1,$2,$3
        trapb
        br dump
inslh_own:
        lda $5,85($31)
        addq/v $1,$2,$3
        inslh $5,$5,$5
        addq/v $1,$2,$3
        trapb
        br dump
inslh_literal:
        lda $5,85($31)
        addq/v $1,$2,$3
        inslh $4,1,$5
        addq/v $1,$2,$3
        trapb
        br dump
extlh_own:
        lda $5,85($31)
        addq/v $1,$2,$3
        extlh $5,$5,$5
        addq/v $1,$2,$3
        trapb
        br dump
extlh_literal:
        lda $5,85($31)
        addq/v $1,$2,$3
        extlh $4,1,$5
        addq/v $1,$2,$3
        trapb
        br dump
mskqh_own:
        lda $5,85($31)
        addq/v $1,$2,$3
        mskqh $5,$5,$5
        addq/v $1,$2,$3
        trapb
        br dump
mskqh_literal:
        lda $5,85($31)
        addq/v $1,$2,$3
        mskqh $4,1,$5
        addq/v $1,$2,$3
        trapb
        br dump
insqh_own:
        lda $5,85($31)
        addq/v $1,$2,$3
        insqh $5,$5,$5
        addq/v $1,$2,$3
        trapb
        br dump
insqh_literal:
        lda $5,85($31)
        addq/v $1,$2,$3
        insqh $4,1,$5
        addq/v $1,$2,$3
        trapb
        br dump
extqh_own:
        lda $5,85($31)
        addq/v $1,$2,$3
        extqh $5,$5,$5
        addq/v $1,$2,$3
        trapb
        br dump
extqh_literal:
        lda $5,85($31)
        addq/v $1,$2,$3
        extqh $4,1,$5
        addq/v $1,$2,$3
        trapb
        br dump
mull_own:
        lda $5,85($31)
        addq/v $1,$2,$3
        mull $5,$5,$5
        addq/v $1,$2,$3
        trapb
        br dump
mull_literal:
        lda $5,85($31)
        addq/v $1,$2,$3
        mull $4,1,$5
        addq/v $1,$2,$3
        trapb
        br dump
mulq_own:
        lda $5,85($31)
        addq/v $1,$2,$3
        mulq $5,$5,$5
        addq/v $1,$2,$3
        trapb
        br dump
mulq_literal:
        lda $5,85($31)
        addq/v $1,$2,$3
        mulq $4,1,$5
        addq/v $1,$2,$3
        trapb
        br dump
umulh_own:
        lda $5,85($31)
        addq/v $1,$2,$3
        umulh $5,$5,$5
        addq/v $1,$2,$3
        trapb
        br dump
umulh_literal:
        lda $5,85($31)
        addq/v $1,$2,$3
        umulh $4,1,$5
        addq/v $1,$2,$3
        trapb
        br dump
mull_v_own:
        lda $5,85($31)
        addq/v $1,$2,$3
        mull/v $5,$5,$5
        addq/v $1,$2,$3
        trapb
        br dump
mull_v_literal:
        lda $5,85($31)
        addq/v $1,$2,$3
        mull/v $4,1,$5
        addq/v $1,$2,$3
        trapb
        br dump
mulq_v_own:
        lda $5,85($31)
        addq/v $1,$2,$3
        mulq/v $5,$5,$5
        addq/v $1,$2,$3
        trapb
        br dump
mulq_v_literal:
        lda $5,85($31)
        addq/v $1,$2,$3
        mulq/v $4,1,$5
        addq/v $1,$2,$3
        trapb
        br dump
sextb_own:
        lda $5,85($31)
        addq/v $1,$2,$3
        sextb $5,$5
        addq/v $1,$2,$3
        trapb
        br dump
sextw_own:
        lda $5,85($31)
        addq/v $1,$2,$3
        sextw $5,$5
        addq/v $1,$2,$3
        trapb
        br dump
ctpop_own:
        lda $5,85($31)
        addq/v $1,$2,$3
        ctpop $5,$5
        addq/v $1,$2,$3
        trapb
        br dump
ctlz_own:
        lda $5,85($31)
        addq/v $1,$2,$3
        ctlz $5,$5
        addq/v $1,$2,$3
        trapb
        br dump
cttz_own:
        lda $5,85($31)
        addq/v $1,$2,$3
        cttz $5,$5
        addq/v $1,$2,$3
        trapb
        br dump
        .entry start
