# A conditional store that wouldn't store is looked at all the same.
        .code
start:  stq_c $1,4($30)
        .entry start
