# As shadow-c5, with the load before the trigger; a store and then a load of the same bytes breaks nothing.
        .code
start:  lda $1,-1($31)
        srl $1,1,$1             # 2^63 - 1
        lda $2,1($31)
        lda $5,-32($30)
        ldq $4,0($5)
        addq/v $1,$2,$3
        stq $2,0($5)
        ldq $6,0($5)
        trapb
        addq $3,$4,$16
        addq $6,$16,$16
        lda $0,1($31)
        callsys
        .entry start
