# C6: a conditional store in a shadow, which can't be done twice.
        .code
start:  lda $1,-1($31)
        srl $1,1,$1             # 2^63 - 1
        lda $2,1($31)
        lda $5,-32($30)
        addq/v $1,$2,$3
        ldq_l $4,0($5)
        addq $4,1,$6
        stq_c $6,0($5)
        trapb
        ldq $7,0($5)
        sll $6,8,$6
        addq $6,$7,$16
        lda $0,1($31)
        callsys
        .entry start
