# A jump or a branch between a locked load and its conditional store, back or far: it leaves the flag.
        .level 2
        .codebase 0x10000
        .segment 0x10000000
        .quad 0x0,0x0,0x0,0x0,0x0,0x0,0x0,0x0
        .quad 0x8786858483828180,0x8f8e8d8c8b8a8988,0x9796959493929190,0x9f9e9d9c9b9a9998,0x1716151413121110,0x1f1e1d1c1b1a1918,0x2726252423222120,0x2f2e2d2c2b2a2928
        .zero 256
        .code
before:
        stq_c $5,64($9)
        trapb
        br dump
start:
        ldah $9,0x1000($31)
        lda $0,3($31)
        clr $16
        mov $9,$17
        lda $18,64($31)
        callsys
        ldq $8,0($9)
        ldq $1,8($9)
        ldq $2,16($9)
        ldq $3,24($9)
        ldq $4,32($9)
        ldq $5,40($9)
        ldq $6,48($9)
        ldq $7,56($9)
        jmp $31,($8),0
dump:
        stq $0,128($9)
        stq $1,136($9)
        stq $2,144($9)
        stq $3,152($9)
        stq $4,160($9)
        stq $5,168($9)
        stq $6,176($9)
        stq $7,184($9)
        stq $8,192($9)
        stq $9,200($9)
        stq $10,208($9)
        stq $11,216($9)
        stq $12,224($9)
        stq $13,232($9)
        stq $14,240($9)
        stq $15,248($9)
        stq $16,256($9)
        stq $17,264($9)
        stq $18,272($9)
        stq $19,280($9)
        stq $20,288($9)
        stq $21,296($9)
        stq $22,304($9)
        stq $23,312($9)
        stq $24,320($9)
        stq $25,328($9)
        stq $26,336($9)
        stq $27,344($9)
        stq $28,352($9)
        stq $29,360($9)
        stq $30,368($9)
        stq $31,376($9)
        lda $0,4($31)
        lda $16,1($31)
        lda $17,64($9)
        lda $18,320($31)
        callsys
        clr $16
        lda $0,1($31)
        callsys
br_back:
        ldq_l $5,64($9)
        br $6,before
        stq_c $5,64($9)
        trapb
        br dump
br_far:
        ldq_l $5,64($9)
        br $6,behind
        stq_c $5,64($9)
        trapb
        br dump
br_near:
        ldq_l $10,64($9)
        br $31,.+12
there_br:
        stq_c $5,64($9)
        br $31,.+8
        br $6,there_br
        trapb
        br dump
bsr_back:
        ldq_l $5,64($9)
        bsr $6,before
        stq_c $5,64($9)
        trapb
        br dump
bsr_far:
        ldq_l $5,64($9)
        bsr $6,behind
        stq_c $5,64($9)
        trapb
        br dump
bsr_near:
        ldq_l $10,64($9)
        br $31,.+12
there_bsr:
        stq_c $5,64($9)
        br $31,.+8
        bsr $6,there_bsr
        trapb
        br dump
jmp_back:
        ldq_l $5,64($9)
        jmp $6,($7)
        stq_c $5,64($9)
        trapb
        br dump
jmp_far:
        ldq_l $5,64($9)
        jmp $6,($7)
        stq_c $5,64($9)
        trapb
        br dump
jmp_near:
        ldq_l $10,64($9)
        br $31,.+12
there_jmp:
        stq_c $5,64($9)
        br $31,.+8
        jmp $6,($7)
        trapb
        br dump
jsr_back:
        ldq_l $5,64($9)
        jsr $6,($7)
        stq_c $5,64($9)
        trapb
        br dump
jsr_far:
        ldq_l $5,64($9)
        jsr $6,($7)
        stq_c $5,64($9)
        trapb
        br dump
jsr_near:
        ldq_l $10,64($9)
        br $31,.+12
there_jsr:
        stq_c $5,64($9)
        br $31,.+8
        jsr $6,($7)
        trapb
        br dump
ret_back:
        ldq_l $5,64($9)
        ret $6,($7)
        stq_c $5,64($9)
        trapb
        br dump
ret_far:
        ldq_l $5,64($9)
        ret $6,($7)
        stq_c $5,64($9)
        trapb
        br dump
ret_near:
        ldq_l $10,64($9)
        br $31,.+12
there_ret:
        stq_c $5,64($9)
        br $31,.+8
        ret $6,($7)
        trapb
        br dump
jsr_coroutine_back:
        ldq_l $5,64($9)
        jsr_coroutine $6,($7)
        stq_c $5,64($9)
        trapb
        br dump
jsr_coroutine_far:
        ldq_l $5,64($9)
        jsr_coroutine $6,($7)
        stq_c $5,64($9)
        trapb
        br dump
jsr_coroutine_near:
        ldq_l $10,64($9)
        br $31,.+12
there_jsr_coroutine:
        stq_c $5,64($9)
        br $31,.+8
        jsr_coroutine $6,($7)
        trapb
        br dump
beq_back:
        ldq_l $5,64($9)
        beq $6,before
        stq_c $5,64($9)
        trapb
        br dump
beq_far:
        ldq_l $5,64($9)
        beq $6,behind
        stq_c $5,64($9)
        trapb
        br dump
beq_near:
        ldq_l $10,64($9)
        br $31,.+12
there_beq:
        stq_c $5,64($9)
        br $31,.+8
        beq $6,there_beq
        trapb
        br dump
bne_back:
        ldq_l $5,64($9)
        bne $6,before
        stq_c $5,64($9)
        trapb
        br dump
bne_far:
        ldq_l $5,64($9)
        bne $6,behind
        stq_c $5,64($9)
        trapb
        br dump
bne_near:
        ldq_l $10,64($9)
        br $31,.+12
there_bne:
        stq_c $5,64($9)
        br $31,.+8
        bne $6,there_bne
        trapb
        br dump
blt_back:
        ldq_l $5,64($9)
        blt $6,before
        stq_c $5,64($9)
        trapb
        br dump
blt_far:
        ldq_l $5,64($9)
        blt $6,behind
        stq_c $5,64($9)
        trapb
        br dump
blt_near:
        ldq_l $10,64($9)
        br $31,.+12
there_blt:
        stq_c $5,64($9)
        br $31,.+8
        blt $6,there_blt
        trapb
        br dump
ble_back:
        ldq_l $5,64($9)
        ble $6,before
        stq_c $5,64($9)
        trapb
        br dump
ble_far:
        ldq_l $5,64($9)
        ble $6,behind
        stq_c $5,64($9)
        trapb
        br dump
ble_near:
        ldq_l $10,64($9)
        br $31,.+12
there_ble:
        stq_c $5,64($9)
        br $31,.+8
        ble $6,there_ble
        trapb
        br dump
bgt_back:
        ldq_l $5,64($9)
        bgt $6,before
        stq_c $5,64($9)
        trapb
        br dump
bgt_far:
        ldq_l $5,64($9)
        bgt $6,behind
        stq_c $5,64($9)
        trapb
        br dump
bgt_near:
        ldq_l $10,64($9)
        br $31,.+12
there_bgt:
        stq_c $5,64($9)
        br $31,.+8
        bgt $6,there_bgt
        trapb
        br dump
bge_back:
        ldq_l $5,64($9)
        bge $6,before
        stq_c $5,64($9)
        trapb
        br dump
bge_far:
        ldq_l $5,64($9)
        bge $6,behind
        stq_c $5,64($9)
        trapb
        br dump
bge_near:
        ldq_l $10,64($9)
        br $31,.+12
there_bge:
        stq_c $5,64($9)
        br $31,.+8
        bge $6,there_bge
        trapb
        br dump
blbs_back:
        ldq_l $5,64($9)
        blbs $6,before
        stq_c $5,64($9)
        trapb
        br dump
blbs_far:
        ldq_l $5,64($9)
        blbs $6,behind
        stq_c $5,64($9)
        trapb
        br dump
blbs_near:
        ldq_l $10,64($9)
        br $31,.+12
there_blbs:
        stq_c $5,64($9)
        br $31,.+8
        blbs $6,there_blbs
        trapb
        br dump
blbc_back:
        ldq_l $5,64($9)
        blbc $6,before
        stq_c $5,64($9)
        trapb
        br dump
blbc_far:
        ldq_l $5,64($9)
        blbc $6,behind
        stq_c $5,64($9)
        trapb
        br dump
blbc_near:
        ldq_l $10,64($9)
        br $31,.+12
there_blbc:
        stq_c $5,64($9)
        br $31,.+8
        blbc $6,there_blbc
        trapb
        br dump
space:
        nop
        nop
        nop
        nop
        nop
        nop
        nop
        nop
        nop
        nop
        nop
        nop
        nop
        nop
        nop
        nop
        nop
        nop
        nop
        nop
        nop
        nop
        nop
        nop
        nop
        nop
        nop
        nop
        nop
        nop
        nop
        nop
        nop
        nop
        nop
        nop
        nop
        nop
        nop
        nop
        nop
        nop
        nop
        nop
        nop
        nop
        nop
        nop
        nop
        nop
        nop
        nop
        nop
        nop
        nop
        nop
        nop
        nop
        nop
        nop
        nop
        nop
        nop
        nop
        nop
        nop
        nop
        nop
        nop
        nop
        nop
        nop
        nop
        nop
        nop
        nop
        nop
        nop
        nop
        nop
        nop
        nop
        nop
        nop
        nop
        nop
        nop
        nop
        nop
        nop
        nop
        nop
        nop
        nop
        nop
        nop
        nop
        nop
        nop
        nop
        nop
        nop
        nop
        nop
        nop
        nop
        nop
        nop
        nop
        nop
        nop
        nop
        nop
        nop
        nop
        nop
        nop
        nop
        nop
        nop
        nop
        nop
        nop
        nop
        nop
        nop
        nop
        nop
        nop
        nop
        nop
        nop
        nop
        nop
        nop
        nop
        nop
        nop
        nop
        nop
        nop
        nop
        nop
        nop
        nop
        nop
        nop
        nop
        nop
        nop
        nop
        nop
        nop
        nop
        nop
        nop
        nop
        nop
        nop
        nop
        nop
        nop
        nop
        nop
        nop
        nop
        nop
        nop
        nop
        nop
        nop
        nop
        nop
        nop
        nop
        nop
        nop
        nop
        nop
        nop
        nop
        nop
        nop
        nop
        nop
        nop
        nop
        nop
        nop
        nop
        nop
        nop
        nop
        nop
        nop
        nop
        nop
        nop
        nop
        nop
        nop
        nop
        nop
        nop
        nop
        nop
        nop
        nop
        nop
        nop
        nop
        nop
        nop
        nop
        nop
        nop
        nop
        nop
        nop
        nop
        nop
        nop
        nop
        nop
        nop
        nop
        nop
        nop
        nop
        nop
        nop
        nop
        nop
        nop
        nop
        nop
        nop
        nop
        nop
        nop
        nop
        nop
        nop
        nop
        nop
        nop
        nop
        nop
        nop
        nop
        nop
        nop
        nop
        nop
        nop
        nop
        nop
        nop
        nop
        nop
        nop
        nop
        nop
        nop
        nop
        nop
        nop
        nop
        nop
        nop
        nop
        nop
        nop
        nop
        nop
        nop
        nop
        nop
        nop
        nop
        nop
        nop
        nop
        nop
        nop
        nop
        nop
        nop
        nop
        nop
        nop
        nop
        nop
        nop
        nop
        nop
        nop
        nop
        nop
        nop
        nop
        nop
        nop
        nop
        nop
        nop
        nop
        nop
        nop
        nop
        nop
        nop
        nop
        nop
        nop
        nop
        nop
        nop
        nop
        nop
        nop
        nop
        nop
        nop
        nop
        nop
        nop
        nop
        nop
        nop
        nop
        nop
        nop
        nop
        nop
        nop
        nop
        nop
        nop
        nop
        nop
        nop
        nop
        nop
        nop
        nop
        nop
        nop
        nop
        nop
        nop
        nop
        nop
        nop
        nop
        nop
        nop
        nop
        nop
        nop
        nop
        nop
        nop
        nop
        nop
        nop
        nop
        nop
        nop
        nop
        nop
        nop
        nop
        nop
        nop
        nop
        nop
        nop
        nop
        nop
        nop
        nop
        nop
        nop
        nop
        nop
        nop
        nop
        nop
        nop
        nop
        nop
        nop
        nop
        nop
        nop
        nop
        nop
        nop
        nop
        nop
        nop
        nop
        nop
        nop
        nop
        nop
        nop
        nop
        nop
        nop
        nop
        nop
        nop
        nop
        nop
        nop
        nop
        nop
        nop
        nop
        nop
        nop
        nop
        nop
        nop
        nop
        nop
        nop
        nop
        nop
        nop
        nop
        nop
        nop
        nop
        nop
        nop
        nop
        nop
        nop
        nop
        nop
        nop
        nop
        nop
        nop
        nop
        nop
        nop
        nop
        nop
        nop
        nop
        nop
        nop
        nop
        nop
        nop
        nop
        nop
        nop
        nop
        nop
        nop
        nop
        nop
        nop
        nop
        nop
        nop
        nop
        nop
        nop
        nop
        nop
        nop
        nop
        nop
        nop
        nop
        nop
        nop
        nop
        nop
        nop
        nop
        nop
        nop
        nop
        nop
        nop
        nop
        nop
        nop
        nop
        nop
        nop
        nop
        nop
        nop
        nop
        nop
        nop
        nop
        nop
        nop
        nop
        nop
        nop
        nop
        nop
        nop
        nop
        nop
        nop
        nop
        nop
        nop
        nop
        nop
        nop
        nop
        nop
        nop
        nop
        nop
        nop
        nop
        nop
        nop
        nop
        nop
        nop
        nop
        nop
        nop
        nop
        nop
        nop
        nop
        nop
        nop
        nop
        nop
        nop
        nop
        nop
        nop
        nop
        nop
        nop
        nop
        nop
        nop
        nop
        nop
        nop
        nop
        nop
        nop
        nop
        nop
        nop
        nop
        nop
        nop
        nop
        nop
        nop
        nop
        nop
        nop
        nop
        nop
        nop
        nop
        nop
        nop
        nop
        nop
        nop
        nop
        nop
        nop
        nop
        nop
        nop
        nop
        nop
        nop
        nop
        nop
        nop
        nop
        nop
        nop
        nop
        nop
        nop
behind:
        stq_c $5,64($9)
        trapb
        br dump
        .entry start
