# A branch by what a trigger left, which decides where its trap is lost.
        .level 2
        .codebase 0x10000
        .segment 0x10000000
        .quad 0x0,0x0,0x0,0x0,0x0,0x0,0x0,0x0
        .quad 0x8786858483828180,0x8f8e8d8c8b8a8988,0x9796959493929190,0x9f9e9d9c9b9a9998,0x1716151413121110,0x1f1e1d1c1b1a1918,0x2726252423222120,0x2f2e2d2c2b2a2928
        .zero 256
        .code
start:
        ldah $9,0x1000($31)
        lda $0,3($31)
        clr $16
        mov $9,$17
        lda $18,64($31)
        callsys
        ldq $8,0($9)
        ldq $1,8($9)
        ldq $2,16($9)
        ldq $3,24($9)
        ldq $4,32($9)
        ldq $5,40($9)
        ldq $6,48($9)
        ldq $7,56($9)
        jmp $31,($8),0
dump:
        stq $0,128($9)
        stq $1,136($9)
        stq $2,144($9)
        stq $3,152($9)
        stq $4,160($9)
        stq $5,168($9)
        stq $6,176($9)
        stq $7,184($9)
        stq $8,192($9)
        stq $9,200($9)
        stq $10,208($9)
        stq $11,216($9)
        stq $12,224($9)
        stq $13,232($9)
        stq $14,240($9)
        stq $15,248($9)
        stq $16,256($9)
        stq $17,264($9)
        stq $18,272($9)
        stq $19,280($9)
        stq $20,288($9)
        stq $21,296($9)
        stq $22,304($9)
        stq $23,312($9)
        stq $24,320($9)
        stq $25,328($9)
        stq $26,336($9)
        stq $27,344($9)
        stq $28,352($9)
        stq $29,360($9)
        stq $30,368($9)
        stq $31,376($9)
        lda $0,4($31)
        lda $16,1($31)
        lda $17,64($9)
        lda $18,320($31)
        callsys
        clr $16
        lda $0,1($31)
        callsys
addl_v_beq:
        addl/v $4,$6,$5
        beq $5,.+12
        nop
        trapb
        trapb
addl_v_bne:
        addl/v $4,$6,$5
        bne $5,.+12
        nop
        trapb
        trapb
addl_v_blt:
        addl/v $4,$6,$5
        blt $5,.+12
        nop
        trapb
        trapb
addl_v_ble:
        addl/v $4,$6,$5
        ble $5,.+12
        nop
        trapb
        trapb
addl_v_bgt:
        addl/v $4,$6,$5
        bgt $5,.+12
        nop
        trapb
        trapb
addl_v_bge:
        addl/v $4,$6,$5
        bge $5,.+12
        nop
        trapb
        trapb
addl_v_blbs:
        addl/v $4,$6,$5
        blbs $5,.+12
        nop
        trapb
        trapb
addl_v_blbc:
        addl/v $4,$6,$5
        blbc $5,.+12
        nop
        trapb
        trapb
addq_v_beq:
        addq/v $4,$6,$5
        beq $5,.+12
        nop
        trapb
        trapb
addq_v_bne:
        addq/v $4,$6,$5
        bne $5,.+12
        nop
        trapb
        trapb
addq_v_blt:
        addq/v $4,$6,$5
        blt $5,.+12
        nop
        trapb
        trapb
addq_v_ble:
        addq/v $4,$6,$5
        ble $5,.+12
        nop
        trapb
        trapb
addq_v_bgt:
        addq/v $4,$6,$5
        bgt $5,.+12
        nop
        trapb
        trapb
addq_v_bge:
        addq/v $4,$6,$5
        bge $5,.+12
        nop
        trapb
        trapb
addq_v_blbs:
        addq/v $4,$6,$5
        blbs $5,.+12
        nop
        trapb
        trapb
addq_v_blbc:
        addq/v $4,$6,$5
        blbc $5,.+12
        nop
        trapb
        trapb
subl_v_beq:
        subl/v $4,$6,$5
        beq $5,.+12
        nop
        trapb
        trapb
subl_v_bne:
        subl/v $4,$6,$5
        bne $5,.+12
        nop
        trapb
        trapb
subl_v_blt:
        subl/v $4,$6,$5
        blt $5,.+12
        nop
        trapb
        trapb
subl_v_ble:
        subl/v $4,$6,$5
        ble $5,.+12
        nop
        trapb
        trapb
subl_v_bgt:
        subl/v $4,$6,$5
        bgt $5,.+12
        nop
        trapb
        trapb
subl_v_bge:
        subl/v $4,$6,$5
        bge $5,.+12
        nop
        trapb
        trapb
subl_v_blbs:
        subl/v $4,$6,$5
        blbs $5,.+12
        nop
        trapb
        trapb
subl_v_blbc:
        subl/v $4,$6,$5
        blbc $5,.+12
        nop
        trapb
        trapb
subq_v_beq:
        subq/v $4,$6,$5
        beq $5,.+12
        nop
        trapb
        trapb
subq_v_bne:
        subq/v $4,$6,$5
        bne $5,.+12
        nop
        trapb
        trapb
subq_v_blt:
        subq/v $4,$6,$5
        blt $5,.+12
        nop
        trapb
        trapb
subq_v_ble:
        subq/v $4,$6,$5
        ble $5,.+12
        nop
        trapb
        trapb
subq_v_bgt:
        subq/v $4,$6,$5
        bgt $5,.+12
        nop
        trapb
        trapb
subq_v_bge:
        subq/v $4,$6,$5
        bge $5,.+12
        nop
        trapb
        trapb
subq_v_blbs:
        subq/v $4,$6,$5
        blbs $5,.+12
        nop
        trapb
        trapb
subq_v_blbc:
        subq/v $4,$6,$5
        blbc $5,.+12
        nop
        trapb
        trapb
mull_v_beq:
        mull/v $4,$6,$5
        beq $5,.+12
        nop
        trapb
        trapb
mull_v_bne:
        mull/v $4,$6,$5
        bne $5,.+12
        nop
        trapb
        trapb
mull_v_blt:
        mull/v $4,$6,$5
        blt $5,.+12
        nop
        trapb
        trapb
mull_v_ble:
        mull/v $4,$6,$5
        ble $5,.+12
        nop
        trapb
        trapb
mull_v_bgt:
        mull/v $4,$6,$5
        bgt $5,.+12
        nop
        trapb
        trapb
mull_v_bge:
        mull/v $4,$6,$5
        bge $5,.+12
        nop
        trapb
        trapb
mull_v_blbs:
        mull/v $4,$6,$5
        blbs $5,.+12
        nop
        trapb
        trapb
mull_v_blbc:
        mull/v $4,$6,$5
        blbc $5,.+12
        nop
        trapb
        trapb
mulq_v_beq:
        mulq/v $4,$6,$5
        beq $5,.+12
        nop
        trapb
        trapb
mulq_v_bne:
        mulq/v $4,$6,$5
        bne $5,.+12
        nop
        trapb
        trapb
mulq_v_blt:
        mulq/v $4,$6,$5
        blt $5,.+12
        nop
        trapb
        trapb
mulq_v_ble:
        mulq/v $4,$6,$5
        ble $5,.+12
        nop
        trapb
        trapb
mulq_v_bgt:
        mulq/v $4,$6,$5
        bgt $5,.+12
        nop
        trapb
        trapb
mulq_v_bge:
        mulq/v $4,$6,$5
        bge $5,.+12
        nop
        trapb
        trapb
mulq_v_blbs:
        mulq/v $4,$6,$5
        blbs $5,.+12
        nop
        trapb
        trapb
mulq_v_blbc:
        mulq/v $4,$6,$5
        blbc $5,.+12
        nop
        trapb
        trapb
        .entry start
