# As shadow-c2-move, into a copy of its destination.
        .code
start:  lda $1,-1($31)
        srl $1,1,$1             # 2^63 - 1
        lda $2,1($31)
        lda $6,6($31)
        addq/v $1,$2,$3
        mov $6,$7
        cmovne $31,$2,$7
        trapb
        mov $7,$6
        xor $3,$6,$16
        lda $0,1($31)
        callsys
        .entry start
