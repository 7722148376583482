# A signal: bpt is 0. The step that ends a program changes nothing.
        .code
start:  lda $1,5($31)
        trapb
        bpt
        .entry start
