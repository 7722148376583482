# dot.s repaired: both results go to registers that nothing else uses, the two `/V` words share one
# barrier, and the sum is moved to its place behind it. `check` accepts it.
        .data
left:   .quad 3,0x4000000000000000,5
right:  .quad 7,4,11

        .code
start:  ldah $16,%hi(left)($31)
        lda $16,%lo(left)($16)
        ldah $17,%hi(right)($31)
        lda $17,%lo(right)($17)
        lda $18,3($31)
        bsr $26,dot
        mov $0,$16              # exit(dot(left, right, 3))
        lda $0,1($31)
        callsys

dot:    mov $31,$0
        ble $18,L1
        s8addq $18,$16,$18
L3:     ldq $1,0($16)
        lda $16,8($16)
        ldq $2,0($17)
        cmpeq $16,$18,$3
        lda $17,8($17)
        mulq/v $1,$2,$4         # not into its source $1
        addq/v $0,$4,$5         # nor into its source $0
        trapb
        mov $5,$0
        beq $3,L3
L1:     ret $31,($26),1
        .entry start
