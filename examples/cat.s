# Writes what it reads, in pieces of up to 4,096 bytes, and exits with the number of bytes.
        .data
piece:  .zero 4096

        .code
start:  ldah $9,%hi(piece)($31)
        lda $9,%lo(piece)($9)
        clr $10                 # bytes so far

next:   clr $16                 # read(0, piece, 4096)
        mov $9,$17
        lda $18,4096($31)
        lda $0,3($31)
        callsys
        beq $0,done             # the input has ended

        addq $10,$0,$10
        mov $0,$18              # write(1, piece, as many)
        lda $16,1($31)
        mov $9,$17
        lda $0,4($31)
        callsys
        br next

done:   mov $10,$16             # exit(the number)
        lda $0,1($31)
        callsys
        .entry start
