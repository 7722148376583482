# C3: a second trigger of one destination, and a third with another between them. Whether that one has joined the mask says which
# of them the handler completes: it leaves what is drawn in the destination of the other.
        .code
start:  lda $1,-1($31)
        srl $1,1,$1             # 2^63 - 1
        lda $2,1($31)
        addq/v $1,$2,$3
        addq/v $1,$1,$4
        addl/v $2,$2,$3
        trapb
        sll $3,8,$3
        xor $3,$4,$16
        lda $0,1($31)
        callsys
        .entry start
