# C7: a branch. Reported behind it, the trap is lost.
        .code
start:  lda $1,-1($31)
        srl $1,1,$1             # 2^63 - 1
        lda $2,1($31)
        addq/v $1,$2,$3
        beq $31,join
        gentrap
join:  lda $4,4($31)
        trapb
        addq $3,$4,$16
        lda $0,1($31)
        callsys
        .entry start
