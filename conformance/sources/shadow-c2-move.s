# C2: a conditional move may leave its destination, which is spoilt by then.
        .code
start:  lda $1,-1($31)
        srl $1,1,$1             # 2^63 - 1
        lda $2,1($31)
        lda $6,6($31)
        addq/v $1,$2,$3
        cmovne $31,$2,$6
        trapb
        xor $3,$6,$16
        lda $0,1($31)
        callsys
        .entry start
