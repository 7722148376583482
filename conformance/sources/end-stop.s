# An overflow under stop: nothing is logged, and the state is that before it.
        .code
start:  lda $1,-1($31)
        srl $1,1,$1
        addq/v $1,0,$2
        trapb
        subq/v $2,0,$3
        addq/v $1,1,$4
        trapb
        trapb
        gentrap
        .entry start
