# The greatest number plus 1, and that number plus itself: both sums overflow, in one shadow. It exits with the exclusive or
# of the two.
start:  lda $1,-1($31)
        srl $1,1,$1
        lda $2,1($31)
        addq/v $1,$2,$3
        addq/v $1,$1,$4
        trapb
        xor $3,$4,$16
        lda $0,1($31)
        callsys
        .entry start
