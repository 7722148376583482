# C1: the trigger's destination is R31, so the mask has no register, and each report is a lost trap.
        .code
start:  lda $1,-1($31)
        srl $1,1,$1             # 2^63 - 1
        lda $2,1($31)
        addq/v $1,$2,$31
        trapb
        lda $16,7($31)
        lda $0,1($31)
        callsys
        .entry start
