# A few steps, among them an overflow, a barrier, calls and the exit, by other numbers of steps.
        .level 2
        .codebase 0x10000
        .segment 0x10000000
        .quad 0x0,0x0,0x0,0x0,0x0,0x0,0x0,0x0
        .quad 0x8786858483828180,0x8f8e8d8c8b8a8988,0x9796959493929190,0x9f9e9d9c9b9a9998,0x1716151413121110,0x1f1e1d1c1b1a1918,0x2726252423222120,0x2f2e2d2c2b2a2928
        .zero 256
        .code
start:
        ldah $9,0x1000($31)
        lda $0,3($31)
        clr $16
        mov $9,$17
        lda $18,64($31)
        callsys
        ldq $8,0($9)
        ldq $1,8($9)
        ldq $2,16($9)
        ldq $3,24($9)
        ldq $4,32($9)
        ldq $5,40($9)
        ldq $6,48($9)
        ldq $7,56($9)
        jmp $31,($8),0
dump:
        stq $0,128($9)
        stq $1,136($9)
        stq $2,144($9)
        stq $3,152($9)
        stq $4,160($9)
        stq $5,168($9)
        stq $6,176($9)
        stq $7,184($9)
        stq $8,192($9)
        stq $9,200($9)
        stq $10,208($9)
        stq $11,216($9)
        stq $12,224($9)
        stq $13,232($9)
        stq $14,240($9)
        stq $15,248($9)
        stq $16,256($9)
        stq $17,264($9)
        stq $18,272($9)
        stq $19,280($9)
        stq $20,288($9)
        stq $21,296($9)
        stq $22,304($9)
        stq $23,312($9)
        stq $24,320($9)
        stq $25,328($9)
        stq $26,336($9)
        stq $27,344($9)
        stq $28,352($9)
        stq $29,360($9)
        stq $30,368($9)
        stq $31,376($9)
        lda $0,4($31)
        lda $16,1($31)
        lda $17,64($9)
        lda $18,320($31)
        callsys
        clr $16
        lda $0,1($31)
        callsys
few:
        addq/v $1,$2,$3
        trapb
        br .+4
        lda $0,9($31)
        callsys
        stq $3,64($9)
        mov $3,$16
        lda $0,1($31)
        callsys
stops:
        addq/v $1,$2,$3
        trapb
faults:
        nop
        ldq $5,1($31)
counts:
again:
        subq $4,1,$4
        bgt $4,again
        mov $5,$16
        lda $0,1($31)
        callsys
        .entry start
