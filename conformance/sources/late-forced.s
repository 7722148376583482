# Behind a report that is forced a second trigger draws the next word, and is completed from it.
        .level 2
        .codebase 0x10000
        .segment 0x10000000
        .quad 0x0,0x0,0x0,0x0,0x0,0x0,0x0,0x0
        .quad 0x8786858483828180,0x8f8e8d8c8b8a8988,0x9796959493929190,0x9f9e9d9c9b9a9998,0x1716151413121110,0x1f1e1d1c1b1a1918,0x2726252423222120,0x2f2e2d2c2b2a2928
        .zero 256
        .code
start:
        ldah $9,0x1000($31)
        lda $0,3($31)
        clr $16
        mov $9,$17
        lda $18,64($31)
        callsys
        ldq $8,0($9)
        ldq $1,8($9)
        ldq $2,16($9)
        ldq $3,24($9)
        ldq $4,32($9)
        ldq $5,40($9)
        ldq $6,48($9)
        ldq $7,56($9)
        jmp $31,($8),0
dump:
        stq $0,128($9)
        stq $1,136($9)
        stq $2,144($9)
        stq $3,152($9)
        stq $4,160($9)
        stq $5,168($9)
        stq $6,176($9)
        stq $7,184($9)
        stq $8,192($9)
        stq $9,200($9)
        stq $10,208($9)
        stq $11,216($9)
        stq $12,224($9)
        stq $13,232($9)
        stq $14,240($9)
        stq $15,248($9)
        stq $16,256($9)
        stq $17,264($9)
        stq $18,272($9)
        stq $19,280($9)
        stq $20,288($9)
        stq $21,296($9)
        stq $22,304($9)
        stq $23,312($9)
        stq $24,320($9)
        stq $25,328($9)
        stq $26,336($9)
        stq $27,344($9)
        stq $28,352($9)
        stq $29,360($9)
        stq $30,368($9)
        stq $31,376($9)
        lda $0,4($31)
        lda $16,1($31)
        lda $17,64($9)
        lda $18,320($31)
        callsys
        clr $16
        lda $0,1($31)
        callsys
limit:
        addq/v $1,$2,$3
again:
        lda $5,0($31)
        blbs $5,again
        trapb
        addq/v $7,$2,$7
        trapb
        br dump
ldbu:
        addq/v $1,$2,$3
        addq $4,0,$6
        ldbu $5,0($6)
        trapb
        addq/v $7,$2,$7
        trapb
        br dump
ldwu:
        addq/v $1,$2,$3
        addq $4,0,$6
        ldwu $5,0($6)
        trapb
        addq/v $7,$2,$7
        trapb
        br dump
ldl:
        addq/v $1,$2,$3
        addq $4,0,$6
        ldl $5,0($6)
        trapb
        addq/v $7,$2,$7
        trapb
        br dump
ldq:
        addq/v $1,$2,$3
        addq $4,0,$6
        ldq $5,0($6)
        trapb
        addq/v $7,$2,$7
        trapb
        br dump
ldq_u:
        addq/v $1,$2,$3
        addq $4,0,$6
        ldq_u $5,0($6)
        trapb
        addq/v $7,$2,$7
        trapb
        br dump
ldl_l:
        addq/v $1,$2,$3
        addq $4,0,$6
        ldl_l $5,0($6)
        trapb
        addq/v $7,$2,$7
        trapb
        br dump
ldq_l:
        addq/v $1,$2,$3
        addq $4,0,$6
        ldq_l $5,0($6)
        trapb
        addq/v $7,$2,$7
        trapb
        br dump
stb:
        addq/v $1,$2,$3
        addq $4,0,$6
        stb $5,0($6)
        trapb
        addq/v $7,$2,$7
        trapb
        br dump
stw:
        addq/v $1,$2,$3
        addq $4,0,$6
        stw $5,0($6)
        trapb
        addq/v $7,$2,$7
        trapb
        br dump
stl:
        addq/v $1,$2,$3
        addq $4,0,$6
        stl $5,0($6)
        trapb
        addq/v $7,$2,$7
        trapb
        br dump
stq:
        addq/v $1,$2,$3
        addq $4,0,$6
        stq $5,0($6)
        trapb
        addq/v $7,$2,$7
        trapb
        br dump
stq_u:
        addq/v $1,$2,$3
        addq $4,0,$6
        stq_u $5,0($6)
        trapb
        addq/v $7,$2,$7
        trapb
        br dump
stl_c:
        addq/v $1,$2,$3
        addq $4,0,$6
        stl_c $5,0($6)
        trapb
        addq/v $7,$2,$7
        trapb
        br dump
stq_c:
        addq/v $1,$2,$3
        addq $4,0,$6
        stq_c $5,0($6)
        trapb
        addq/v $7,$2,$7
        trapb
        br dump
trapb:
        addq/v $1,$2,$3
        trapb
        addq/v $7,$2,$7
        trapb
        br dump
excb:
        addq/v $1,$2,$3
        excb
        addq/v $7,$2,$7
        trapb
        br dump
imb:
        addq/v $1,$2,$3
        imb
        addq/v $7,$2,$7
        trapb
        br dump
rdunique:
        addq/v $1,$2,$3
        rdunique
        addq/v $7,$2,$7
        trapb
        br dump
wrunique:
        addq/v $1,$2,$3
        wrunique
        addq/v $7,$2,$7
        trapb
        br dump
callsys:
        addq/v $1,$2,$3
        callsys
        addq/v $7,$2,$7
        trapb
        br dump
lost:
        addq/v $1,$2,$0
        addq/v $1,$2,$16
        addq/v $1,$2,$30
again_lost:
        lda $5,0($31)
        br $31,.+4
        blbs $5,again_lost
        trapb
own:
        addq/v $7,$2,$7
        trapb
        mov $1,$6
        addq/v $6,$2,$6
        trapb
        br dump
addl_v_own:
        addq/v $1,$2,$3
        addl/v $5,$5,$5
        addq/v $1,$2,$3
        trapb
        br dump
addl_v_first:
        addq/v $1,$2,$3
        addl/v $5,$6,$5
        addq/v $1,$2,$3
        trapb
        br dump
addl_v_second:
        addq/v $1,$2,$3
        addl/v $4,$5,$5
        addq/v $1,$2,$3
        trapb
        br dump
addl_v_literal:
        addq/v $1,$2,$3
        addl/v $5,129,$5
        addq/v $1,$2,$3
        trapb
        br dump
addl_v_other:
        addq/v $1,$2,$3
        addl/v $4,129,$5
        addq/v $1,$2,$3
        trapb
        br dump
addq_v_own:
        addq/v $1,$2,$3
        addq/v $5,$5,$5
        addq/v $1,$2,$3
        trapb
        br dump
addq_v_first:
        addq/v $1,$2,$3
        addq/v $5,$6,$5
        addq/v $1,$2,$3
        trapb
        br dump
addq_v_second:
        addq/v $1,$2,$3
        addq/v $4,$5,$5
        addq/v $1,$2,$3
        trapb
        br dump
addq_v_literal:
        addq/v $1,$2,$3
        addq/v $5,129,$5
        addq/v $1,$2,$3
        trapb
        br dump
addq_v_other:
        addq/v $1,$2,$3
        addq/v $4,129,$5
        addq/v $1,$2,$3
        trapb
        br dump
subl_v_own:
        addq/v $1,$2,$3
        subl/v $5,$5,$5
        addq/v $1,$2,$3
        trapb
        br dump
subl_v_first:
        addq/v $1,$2,$3
        subl/v $5,$6,$5
        addq/v $1,$2,$3
        trapb
        br dump
subl_v_second:
        addq/v $1,$2,$3
        subl/v $4,$5,$5
        addq/v $1,$2,$3
        trapb
        br dump
subl_v_literal:
        addq/v $1,$2,$3
        subl/v $5,129,$5
        addq/v $1,$2,$3
        trapb
        br dump
subl_v_other:
        addq/v $1,$2,$3
        subl/v $4,129,$5
        addq/v $1,$2,$3
        trapb
        br dump
subq_v_own:
        addq/v $1,$2,$3
        subq/v $5,$5,$5
        addq/v $1,$2,$3
        trapb
        br dump
subq_v_first:
        addq/v $1,$2,$3
        subq/v $5,$6,$5
        addq/v $1,$2,$3
        trapb
        br dump
subq_v_second:
        addq/v $1,$2,$3
        subq/v $4,$5,$5
        addq/v $1,$2,$3
        trapb
        br dump
subq_v_literal:
        addq/v $1,$2,$3
        subq/v $5,129,$5
        addq/v $1,$2,$3
        trapb
        br dump
subq_v_other:
        addq/v $1,$2,$3
        subq/v $4,129,$5
        addq/v $1,$2,$3
        trapb
        br dump
mull_v_own:
        addq/v $1,$2,$3
        mull/v $5,$5,$5
        addq/v $1,$2,$3
        trapb
        br dump
mull_v_first:
        addq/v $1,$2,$3
        mull/v $5,$6,$5
        addq/v $1,$2,$3
        trapb
        br dump
mull_v_second:
        addq/v $1,$2,$3
        mull/v $4,$5,$5
        addq/v $1,$2,$3
        trapb
        br dump
mull_v_literal:
        addq/v $1,$2,$3
        mull/v $5,129,$5
        addq/v $1,$2,$3
        trapb
        br dump
mull_v_other:
        addq/v $1,$2,$3
        mull/v $4,129,$5
        addq/v $1,$2,$3
        trapb
        br dump
mulq_v_own:
        addq/v $1,$2,$3
        mulq/v $5,$5,$5
        addq/v $1,$2,$3
        trapb
        br dump
mulq_v_first:
        addq/v $1,$2,$3
        mulq/v $5,$6,$5
        addq/v $1,$2,$3
        trapb
        br dump
mulq_v_second:
        addq/v $1,$2,$3
        mulq/v $4,$5,$5
        addq/v $1,$2,$3
        trapb
        br dump
mulq_v_literal:
        addq/v $1,$2,$3
        mulq/v $5,129,$5
        addq/v $1,$2,$3
        trapb
        br dump
mulq_v_other:
        addq/v $1,$2,$3
        mulq/v $4,129,$5
        addq/v $1,$2,$3
        trapb
        br dump
empty:
        addq/v $1,$2,$31
        nop
        trapb
        br dump
addl_v_literal_far:
        addq/v $1,$2,$3
        trapb
        addq/v $1,$2,$3
        addl/v $5,129,$5
        nop
        nop
        nop
        addq/v $1,$2,$3
        trapb
        br dump
addl_v_own_far:
        addq/v $1,$2,$3
        trapb
        addq/v $1,$2,$3
        addl/v $5,$5,$5
        nop
        nop
        nop
        addq/v $1,$2,$3
        trapb
        br dump
addq_v_literal_far:
        addq/v $1,$2,$3
        trapb
        addq/v $1,$2,$3
        addq/v $5,129,$5
        nop
        nop
        nop
        addq/v $1,$2,$3
        trapb
        br dump
addq_v_own_far:
        addq/v $1,$2,$3
        trapb
        addq/v $1,$2,$3
        addq/v $5,$5,$5
        nop
        nop
        nop
        addq/v $1,$2,$3
        trapb
        br dump
subl_v_literal_far:
        addq/v $1,$2,$3
        trapb
        addq/v $1,$2,$3
        subl/v $5,129,$5
        nop
        nop
        nop
        addq/v $1,$2,$3
        trapb
        br dump
subl_v_own_far:
        addq/v $1,$2,$3
        trapb
        addq/v $1,$2,$3
        subl/v $5,$5,$5
        nop
        nop
        nop
        addq/v $1,$2,$3
        trapb
        br dump
subq_v_literal_far:
        addq/v $1,$2,$3
        trapb
        addq/v $1,$2,$3
        subq/v $5,129,$5
        nop
        nop
        nop
        addq/v $1,$2,$3
        trapb
        br dump
subq_v_own_far:
        addq/v $1,$2,$3
        trapb
        addq/v $1,$2,$3
        subq/v $5,$5,$5
        nop
        nop
        nop
        addq/v $1,$2,$3
        trapb
        br dump
mull_v_literal_far:
        addq/v $1,$2,$3
        trapb
        addq/v $1,$2,$3
        mull/v $5,129,$5
        nop
        nop
        nop
        addq/v $1,$2,$3
        trapb
        br dump
mull_v_own_far:
        addq/v $1,$2,$3
        trapb
        addq/v $1,$2,$3
        mull/v $5,$5,$5
        nop
        nop
        nop
        addq/v $1,$2,$3
        trapb
        br dump
mulq_v_literal_far:
        addq/v $1,$2,$3
        trapb
        addq/v $1,$2,$3
        mulq/v $5,129,$5
        nop
        nop
        nop
        addq/v $1,$2,$3
        trapb
        br dump
mulq_v_own_far:
        addq/v $1,$2,$3
        trapb
        addq/v $1,$2,$3
        mulq/v $5,$5,$5
        nop
        nop
        nop
        addq/v $1,$2,$3
        trapb
        br dump
last:
        addq/v $1,$2,$3
        addq/v $1,$2,$4
        addq/v $1,$2,$4
        .entry start
