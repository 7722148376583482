# The first word overflows.
        .level 2
        .segment 0x10000000
        .zero 8
        .code
start:  addl/v $30,$30,$3
        nop
        addl/v $30,$30,$3
        trapb
        bpt
        .entry start
