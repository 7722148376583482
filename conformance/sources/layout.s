# An image of version 1 with other bases, the smallest stack, an entry amid the code, and bytes of data that are no multiple
# of 8.
        .codebase 0x3fffa000
        .database 0x2000
        .stack 16
        .data
bytes:  .byte 1,2,3,4,5,6,7,8,9,10,11
        .zero 6

        .code
behind: ldq $3,-16($30)
        ldbu $4,10($1)
        ldbu $5,16($1)
        trapb
        ldbu $6,17($1)          # behind the zeroed bytes
start:  ldah $1,%hi(bytes)($31)
        lda $1,%lo(bytes)($1)
        ldq $2,0($1)
        trapb
        stq $2,-16($30)
        br behind
        .entry start
