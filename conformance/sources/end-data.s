# A jump into data, which is no code.
        .code
start:  ldah $1,0x1000($31)
        jmp $31,($1)
        .data
        .quad 0
        .entry start
