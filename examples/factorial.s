# Multiplies the numbers from 21 down to 1. The product passes the signed range
# of a quadword, so some multiplications overflow, each in a shadow of its own.
start:  lda $1,1($31)           # the product so far
        lda $2,21($31)
loop:   mulq/v $1,$2,$3         # not into $1: a late trap needs it again
        subq $2,1,$4            # nor may the shadow change $2
        trapb
        mov $3,$1
        mov $4,$2
        bgt $2,loop
        mov $1,$16              # exit($1)
        lda $0,1($31)
        callsys
        .entry start
