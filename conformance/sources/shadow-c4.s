# C4: a store by a register that the shadow has set. 2^28 times 2^36 + 1 wraps to the address of the data.
        .code
start:  lda $1,-1($31)
        srl $1,1,$1             # 2^63 - 1
        lda $2,1($31)
        lda $5,5($31)
        sll $2,28,$6
        sll $2,36,$7
        addq $7,1,$7
        mulq/v $6,$7,$3
        stq $5,0($3)
        trapb
        ldq $8,0($6)
        ldq $16,8($6)
        sll $16,8,$16
        addq $16,$8,$16
        lda $0,1($31)
        callsys
        .entry start
        .data
        .quad 0,0
