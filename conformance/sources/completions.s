# Each /V instruction in both directions, and at its bounds. Under `stop` the first overflow ends the program.
        .data
least:  .quad 0x8000000000000000,0x7fffffffffffffff,0x123456780000000,0xabcdef017fffffff,0x100000001,3

        .code
start:  ldah $9,%hi(least)($31)
        lda $9,%lo(least)($9)
        ldq $1,0($9)            # -2^63
        ldq $2,8($9)            # 2^63 - 1
        clr $10
        lda $11,-1($31)
        ldah $12,-32768($31)    # -2^31, sign-extended
        ldah $13,32767($31)
        lda $13,32767($13)
        ldq $14,24($9)          # its low 32 bits are 2^31 - 1
        addq/v $2,$10,$3        # at the bounds, without an overflow
        subq/v $1,$10,$4
        addl/v $14,0,$5
        subl/v $12,0,$6
        mulq/v $1,1,$7
        mull/v $12,1,$8
        trapb
        addq/v $2,1,$3          # over the upper bound
        trapb
        addq/v $1,$11,$3        # under the lower one
        trapb
        subq/v $1,1,$3
        trapb
        subq/v $2,$11,$3
        trapb
        subq/v $31,$1,$3        # the lower bound has no opposite
        trapb
        mulq/v $1,$11,$3
        trapb
        mulq/v $2,$2,$3
        trapb
        mulq/v $2,$1,$3
        trapb
        addl/v $14,1,$3
        trapb
        addl/v $12,$11,$3
        trapb
        subl/v $12,1,$3
        trapb
        subl/v $14,$11,$3
        trapb
        subl/v $31,$12,$3
        trapb
        mull/v $12,$11,$3
        trapb
        mull/v $14,$14,$3
        trapb
        mull/v $14,$12,$3
        trapb
        addl/v $2,$2,$3         # their low halves are -1: no overflow
        addq/v $14,$14,$4
        trapb
        mov $3,$16
        lda $0,1($31)
        callsys
        .entry start
