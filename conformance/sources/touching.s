# An image of version 2 at level 1, whose first two segments touch. Each byte of both may be accessed, and a system call's
# range lies within one of them. A third one has zeroed bytes alone.
        .level 1
        .segment 0x10000000
low:    .zero 8192
        .segment 0x10002000
high:   .quad 0x1122334455667788,0x99aabbccddeeff00
        .segment 0x20000000
        .zero 24

        .code
start:  ldah $9,%hi(high)($31)
        lda $9,%lo(high)($9)
        ldq $1,0($9)
        stq $1,-8($9)
        ldq $2,-8($9)
        trapb
        lda $0,4($31)           # 14: a write over both
        lda $16,1($31)
        lda $17,-4($9)
        lda $18,8($31)
        callsys
        lda $0,3($31)           # 14: a read over both
        clr $16
        callsys
        lda $0,4($31)           # within each
        lda $16,1($31)
        lda $17,-8($9)
        callsys
        lda $0,4($31)
        lda $17,8($9)
        callsys
        ldah $10,0x2000($31)
        ldq $3,16($10)
        stl $1,20($10)
        ldq $4,16($10)
        amask 7,$5
        implver $6
        trapb
        lda $0,4($31)
        lda $17,16($10)
        callsys
        clr $16
        lda $0,1($31)
        callsys
        .entry start
