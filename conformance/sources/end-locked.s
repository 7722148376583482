# A locked load into R31 makes its access, and other loads into R31 don't.
        .code
start:  ldq $31,0($31)
        trapb
        ldq_l $31,0($31)
        .entry start
