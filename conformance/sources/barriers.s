# The barriers, the orders and the hints, and the unique value.
        .code
start:  lda $1,5($31)
        trapb
        lda $1,6($31)
        excb
        lda $1,7($31)
        mb
        wmb
        fetch 0($1)             # no access is made, wherever it points
        fetch_m 0($31)
        imb
        rdunique                # 0 at the start
        lda $16,-9($31)
        wrunique
        clr $16
        lda $0,3($31)
        rdunique
        lda $16,11($31)
        wrunique
        rdunique
        mov $0,$16
        lda $0,1($31)
        callsys
        .entry start
