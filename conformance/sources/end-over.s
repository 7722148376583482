# A quadword whose last bytes are behind the data: 12 bytes are there.
        .code
start:  ldah $1,0x1000($31)
        ldl $2,8($1)
        trapb
        ldq $3,8($1)
        .data
        .long 1,2,3
        .entry start
