# Four triggers share a barrier. Three overflow; two use a sum of the shadow. While a trap waits a word may add to the mask.
        .code
start:  lda $1,-1($31)
        srl $1,1,$1             # 2^63 - 1
        lda $2,1($31)
        lda $9,-1($31)
        sll $9,63,$9
        addq/v $1,$2,$3
        subq/v $9,$2,$4
        addl/v $3,$2,$5
        mulq/v $4,$1,$6
        stq $6,-8($30)
        ldq $7,-8($30)
        lda $10,1($31)
        cmovlt $7,$3,$10
        trapb
        xor $3,$4,$16
        xor $16,$5,$16
        xor $16,$6,$16
        xor $16,$10,$16
        lda $0,1($31)
        callsys
        .entry start
