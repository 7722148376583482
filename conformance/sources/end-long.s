# No end, by more steps than 16 bits count: the items of its journal are one.
        .code
start:  addq $1,1,$1
        br start
        .entry start
