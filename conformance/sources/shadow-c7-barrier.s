# C7: a branch in a shadow, over a /V word and a barrier. The handler doesn't look behind the barrier, so the trap is lost.
        .code
start:  lda $1,-1($31)
        srl $1,1,$1             # 2^63 - 1
        lda $2,1($31)
        addq/v $1,$2,$3
        br over
        addq/v $1,$1,$3
        trapb
over:   addq $2,$2,$4
        trapb
        mov $3,$16
        lda $0,1($31)
        callsys
        .entry start
