# A load from address 0.
        .code
start:  lda $1,7($31)
        ldq $1,0($31)
        .entry start
