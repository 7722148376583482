# A trap waits at orders, hints and a load from nowhere into R31, and the handler looks behind them. The report clears the lock
# flag: $5 is 0 where the store behind it wasn't made.
        .code
start:  lda $1,-1($31)
        srl $1,1,$1             # 2^63 - 1
        lda $2,1($31)
        lda $9,-32($30)
        lda $5,7($31)
        ldq_l $4,0($9)
        addq/v $1,$2,$3
        mb
        wmb
        fetch 0($31)
        fetch_m 0($31)
        ldq $31,0($31)
        trapb
        stq_c $5,0($9)
        ldq $6,0($9)
        sll $5,4,$5
        addq $3,$5,$3
        addq $3,$6,$16
        lda $0,1($31)
        callsys
        .entry start
