# As late-two, which exits with its ninth step, by 8 steps.
start:  lda $1,-1($31)
        srl $1,1,$1
        lda $2,1($31)
        addq/v $1,$2,$3
        addq/v $1,$1,$4
        trapb
        xor $3,$4,$16
        lda $0,1($31)
        callsys
        .entry start
