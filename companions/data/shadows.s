# Three shadows that overlap, and what breaks them.
        addq/v $1,$2,$3
        addq/v $4,$5,$6
        ldq    $7,0($3)         # by a register that the first shadow set
        lda    $2,8($2)         # sets what the first shadow has used, and its own source
        addq/v $1,$7,$8
        beq    $7,.+8           # a branch before the barrier
        trapb
        callsys
        .entry 0x10000
