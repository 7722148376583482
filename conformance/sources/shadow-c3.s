# C3: a second trigger with the same destination. The handler completes that one.
        .code
start:  lda $1,-1($31)
        srl $1,1,$1             # 2^63 - 1
        lda $2,1($31)
        addq/v $1,$2,$3
        addl/v $2,$2,$3
        trapb
        mov $3,$16
        lda $0,1($31)
        callsys
        .entry start
