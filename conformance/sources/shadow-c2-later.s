# C2: a later word overwrites a source of the trigger.
        .code
start:  lda $1,-1($31)
        srl $1,1,$1             # 2^63 - 1
        lda $2,1($31)
        addq/v $1,$2,$3
        lda $2,8($2)
        trapb
        xor $3,$2,$16
        lda $0,1($31)
        callsys
        .entry start
