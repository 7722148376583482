# A branch behind overflows into $30, $17, $29.
        .code
start:  lda $1,-1($31)
        srl $1,1,$1
        lda $2,1($31)
        addq/v $1,$2,$30
        addq/v $1,$2,$17
        addq/v $1,$2,$29
        br $31,.+4
        trapb
        lda $16,7($31)
        lda $0,1($31)
        callsys
        .entry start
