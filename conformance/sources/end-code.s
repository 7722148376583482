# A store into code.
        .code
start:  lda $1,7($31)
        stl $1,8($27)
        trapb
        .entry start
