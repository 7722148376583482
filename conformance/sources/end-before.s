# A branch to the address before the code.
        .code
start:  br $1,.-4
        .entry start
