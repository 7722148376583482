# Conditional stores: $1 is 1 where one has stored. The flag has the number of 16 bytes.
        .data
cell:   .quad 3,4,5,6

        .code
start:  ldah $9,%hi(cell)($31)
        lda $9,%lo(cell)($9)
        lda $1,70($31)
        stq_c $1,0($9)          # no flag at the start
        trapb
        ldq_l $2,0($9)
        lda $1,71($31)
        stq_c $1,0($9)          # stored
        trapb
        lda $1,72($31)
        stq_c $1,0($9)          # the flag is clear behind a conditional store
        trapb
        ldl_l $2,4($9)
        lda $1,73($31)
        stq_c $1,8($9)          # the same 16 bytes: stored
        trapb
        ldq_l $2,0($9)
        lda $1,74($31)
        stl_c $1,16($9)         # the next 16: not, and the flag is clear
        lda $2,75($31)
        stl_c $2,0($9)
        trapb
        ldq_l $2,0($9)
        ldq_l $3,16($9)         # the last one counts
        lda $1,76($31)
        stl_c $1,20($9)
        trapb
        ldq_l $2,0($9)
        stq $31,8($9)           # a store leaves it
        lda $1,77($31)
        trapb                   # and a barrier
        excb
        imb
        rdunique
        wrunique
        stl_c $1,0($9)
        trapb
        ldq_l $31,0($9)         # a locked load into R31 sets it
        lda $1,78($31)
        stq_c $1,0($9)
        trapb
        ldq_l $2,0($9)
        lda $0,99($31)
        callsys                 # a system call clears it, with an error too
        lda $1,79($31)
        stq_c $1,0($9)
        trapb
        lda $4,-1($31)
        srl $4,1,$4
        ldq_l $2,0($9)
        addq/v $4,1,$5          # and an overflow, but by `stop`, where the program ends
        trapb
        lda $1,80($31)
        stq_c $1,0($9)
        trapb
        ldq_l $2,0($9)
        addq/v $31,1,$5         # and without one it stays
        trapb
        lda $1,81($31)
        stq_c $1,0($9)
        trapb
        ldq_l $2,0($9)
        stq_c $31,0($9)         # R31 as its register: 0 is stored, and nothing is told
        ldq $3,0($9)
        trapb
        lda $0,4($31)
        lda $16,1($31)
        mov $9,$17
        lda $18,32($31)
        callsys
        clr $16
        lda $0,1($31)
        callsys
        .entry start
