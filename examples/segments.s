# A source of version 2, at level 2, with two segments: the code counts the ones in the first and
# adds them to the number in the second.
        .level 2
        .segment 0x10000000
ones:   .quad 0xff

        .segment 0x10002000
number: .quad 34

        .code
start:  ldah $1,%hi(ones)($31)
        ldq $2,%lo(ones)($1)
        ctpop $2,$2
        ldah $3,%hi(number)($31)
        ldq $4,%lo(number)($3)
        addq $2,$4,$16          # exit(8 + 34)
        lda $0,1($31)
        callsys
        .entry start
