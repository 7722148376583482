# A load at the end of the stack.
        .code
start:  ldq_u $1,-1($30)
        trapb
        ldq_u $1,0($30)
        .entry start
