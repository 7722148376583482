# C7: a call, which leaves the next address: while the trap waits, any value.
        .code
start:  lda $1,-1($31)
        srl $1,1,$1             # 2^63 - 1
        lda $2,1($31)
        addq/v $1,$2,$3
        bsr $26,join
join:  lda $4,4($31)
        trapb
        subq $26,$27,$16
        lda $0,1($31)
        callsys
        .entry start
