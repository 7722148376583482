# The same, to nowhere.
        .code
start:  lda $1,7($31)
        stl_c $1,4($31)
        .entry start
