# An exit with the greatest value.
        .code
start:  lda $16,-1($31)
        lda $0,1($31)
        callsys
        .entry start
