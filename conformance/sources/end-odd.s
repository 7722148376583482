# A load at an address that is no multiple of 8.
        .code
start:  ldl $1,-4($30)
        trapb
        ldq $1,-4($30)
        .entry start
