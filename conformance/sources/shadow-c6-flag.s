# C6: two conditional stores in a shadow. The first one, to other 16 bytes, clears the lock flag also while a trap is pending, so
# neither stores.
        .code
start:  lda $1,-1($31)
        srl $1,1,$1             # 2^63 - 1
        lda $2,1($31)
        lda $5,-32($30)
        ldq_l $4,0($5)
        addq/v $1,$2,$3
        stq_c $6,16($5)
        stq_c $7,0($5)
        trapb
        ldq $16,0($5)
        lda $0,1($31)
        callsys
        .entry start
