# A jump to 2^64 - 8, with its low bits cleared.
        .code
start:  lda $1,-5($31)
        jsr $26,($1)
        .entry start
