# C2: words of several kinds overwrite a source of the trigger, by a value that the machine draws. What is completed then shows
# that value: a quadword of output for each shadow, from byte 16 on.
        .data
cells:  .quad 3,4
sums:   .zero 72

        .code
start:  ldah $9,%hi(cells)($31)
        lda $9,%lo(cells)($9)
        lda $1,-1($31)
        srl $1,1,$1             # 2^63 - 1
        lda $4,5($31)
        lda $2,1($31)
        addq/v $1,$2,$3
        ldq $2,0($9)            # sum 0: a load
        trapb
        stq $3,16($9)
        lda $2,1($31)
        addq/v $1,$2,$3
        ldl_l $2,0($9)          # sum 1: a locked load
        trapb
        stq $3,24($9)
        ldq_l $2,0($9)
        lda $2,1($31)
        addq/v $1,$2,$3
        stq_c $2,8($9)          # sum 2: a conditional store, whose bytes in the second cell are drawn too
        trapb
        stq $3,32($9)
        lda $2,1($31)
        addq/v $1,$2,$3
        addl/v $4,$4,$2         # sum 3: another /V word
        trapb
        stq $3,40($9)
        lda $2,1($31)
        addq/v $1,$2,$3
        s4addq $4,$4,$2         # sum 4: an operate instruction
        trapb
        stq $3,48($9)
        lda $2,1($31)
        addq/v $1,$2,$3
        ldah $2,1($31)          # sum 5: an address
        trapb
        stq $3,56($9)
        lda $2,1($31)
        addq/v $1,$2,$3
        cmovne $31,$4,$2        # sum 6: a conditional move that doesn't move
        trapb
        stq $3,64($9)
        lda $2,1($31)
        addq/v $1,$2,$3
        bsr $2,over             # sum 7: the next address, behind which the handler finds another /V word
        addq/v $1,$2,$3
over:   trapb
        stq $3,72($9)
        lda $2,1($31)
        ldah $5,%hi(there)($31)
        lda $5,%lo(there)($5)
        addq/v $1,$2,$3
        jsr $2,($5),0           # sum 8: the same of a jump
        addq/v $1,$2,$3
there:  trapb
        stq $3,80($9)
        lda $0,4($31)
        lda $16,1($31)
        mov $9,$17
        lda $18,88($31)
        callsys
        clr $16
        lda $0,1($31)
        callsys
        .entry start
