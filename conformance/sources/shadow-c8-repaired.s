# As shadow-c8, with a barrier as the last word.
        .code
start:  lda $1,-1($31)
        srl $1,1,$1             # 2^63 - 1
        lda $2,1($31)
        addq/v $1,$2,$3
        lda $4,4($31)
        callsys
        .entry start
