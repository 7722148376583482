# C2: the trigger overwrites its own source. Completed late it adds to what is there then.
        .code
start:  lda $1,-1($31)
        srl $1,1,$1             # 2^63 - 1
        lda $2,1($31)
        addq/v $1,$2,$1
        trapb
        mov $1,$16
        lda $0,1($31)
        callsys
        .entry start
