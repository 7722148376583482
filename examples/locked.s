# Adds 1, 2, 3 and so on to 10 to a counter in memory, each by a locked load and a conditional store
# that is tried again until it is made. The sum that may overflow has its barrier before them.
        .data
counter:
        .quad 0

        .code
start:  ldah $9,%hi(counter)($31)
        lda $9,%lo(counter)($9)
        clr $10
next:   addq/v $10,1,$11        # what is added
        trapb                   # no locked access in a shadow
again:  ldq_l $1,0($9)
        addq $1,$11,$1
        stq_c $1,0($9)
        beq $1,again            # 0: it was not made
        mov $11,$10
        cmplt $10,10,$2
        bne $2,next
        ldq $16,0($9)           # exit(counter)
        lda $0,1($31)
        callsys
        .entry start
