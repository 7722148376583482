# No code behind the last word.
        .code
start:  lda $1,5($31)
        trapb
        nop
        .entry start
