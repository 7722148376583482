# An image of version 2 at level 2 with eight segments, one of them without bytes. It writes what it finds in each.
        .level 2
        .codebase 0x20000
        .stack 32
        .segment 0x2000
first:  .quad 0x0101010101010101
        .segment 0x4000
        .zero 8
        .segment 0x6000
        .segment 0x8000
        .byte 1,2,3
        .zero 5
        .segment 0x10000000
        .long -2,2
        .segment 0x10002000
        .quad first
        .segment 0x20000000
        .ascii "text\x80\n\0\""
        .segment 0x3ff00000
last:   .quad start

        .code
start:  lda $9,0x2000($31)
        ldq $1,0($9)
        ldq $2,8192($9)
        ldq $3,24576($9)
        ldah $10,0x1000($31)
        ldq $4,0($10)
        ldq $5,8192($10)
        ldah $11,0x2000($31)
        ldq $6,0($11)
        ldah $12,0x3ff0($31)
        ldq $7,0($12)
        ctpop $3,$8
        ctlz $3,$13
        cttz $4,$14
        amask 255,$15
        implver $20
        trapb
        stq $8,8192($9)
        lda $0,4($31)
        lda $16,1($31)
        mov $11,$17
        lda $18,8($31)
        callsys
        lda $0,4($31)
        lda $17,8192($9)
        callsys
        ldq $21,16384($9)       # the segment without bytes
        .entry start
