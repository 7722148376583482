# C5: a store after a load of the same bytes. Running again, the load gets what the store left.
        .code
start:  lda $1,-1($31)
        srl $1,1,$1             # 2^63 - 1
        lda $2,1($31)
        lda $5,-32($30)
        addq/v $1,$2,$3
        ldq $4,0($5)
        stq $2,0($5)
        trapb
        addq $3,$4,$16
        lda $0,1($31)
        callsys
        .entry start
