# A loop over the quadwords of the input: sums, products and greatest values, each with stores and loads in its shadow, a
# barrier in each pass. Its output is a record of 32 bytes for each quadword.
        .data
cells:  .quad 0,0,0,0,0

        .code
start:  ldah $9,%hi(cells)($31)
        lda $9,%lo(cells)($9)
        mov 3,$11               # the product so far
        clr $12                 # the sum so far
next:   lda $0,3($31)
        clr $16
        mov $9,$17
        lda $18,8($31)
        callsys
        subq $0,8,$1
        bne $1,end
        ldq $2,0($9)
        addq/v $12,$2,$3        # a shadow over stores, loads and a second and a third trigger
        stq $3,8($9)
        mulq/v $11,$2,$4
        ldl $5,8($9)
        stl $5,16($9)
        subl/v $2,$12,$6
        ldwu $7,16($9)
        stb $7,24($9)
        zapnot $6,15,$8
        trapb
        mov $3,$12
        mov $4,$11
        stq $4,16($9)
        stl $8,28($9)
        lda $0,4($31)
        lda $16,1($31)
        lda $17,8($9)
        lda $18,24($31)
        callsys
        br next
end:    xor $11,$12,$16
        lda $0,1($31)
        callsys
        .entry start
