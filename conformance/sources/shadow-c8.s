# C8: the code ends in a shadow. The trap is reported where the run ends, at the address behind the code.
        .code
start:  lda $1,-1($31)
        srl $1,1,$1             # 2^63 - 1
        lda $2,1($31)
        addq/v $1,$2,$3
        lda $4,4($31)
        .entry start
