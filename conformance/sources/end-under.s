# A store of a byte below the stack.
        .code
start:  ldah $1,-1($30)
        stb $1,0($1)
        trapb
        stb $1,-1($1)
        .entry start
