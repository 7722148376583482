# As shadow-c2, with a destination of its own.
        .code
start:  lda $1,-1($31)
        srl $1,1,$1             # 2^63 - 1
        lda $2,1($31)
        addq/v $1,$2,$3
        trapb
        mov $3,$16
        lda $0,1($31)
        callsys
        .entry start
