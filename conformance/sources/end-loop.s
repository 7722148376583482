# No end: the steps are used up.
        .code
start:  addq $1,1,$1
        trapb
        br start
        .entry start
