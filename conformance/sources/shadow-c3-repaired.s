# As shadow-c3, with two destinations.
        .code
start:  lda $1,-1($31)
        srl $1,1,$1             # 2^63 - 1
        lda $2,1($31)
        addq/v $1,$2,$3
        addl/v $2,$2,$4
        trapb
        addq $3,$4,$16
        lda $0,1($31)
        callsys
        .entry start
