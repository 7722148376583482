# Reads: of bytes that are there, of none, of more than are left, and at the end of the input.
        .data
bytes:  .quad -1,-1,-1
        .zero 8

        .code
start:  ldah $9,%hi(bytes)($31)
        lda $9,%lo(bytes)($9)
        lda $0,3($31)
        clr $16
        lda $17,1($9)
        lda $18,8($31)
        callsys
        lda $0,3($31)
        clr $18
        callsys
        lda $0,3($31)
        lda $17,12($9)
        lda $18,20($31)         # more than are left
        callsys
        ldq $1,0($9)
        ldq $2,8($9)
        ldq $3,16($9)
        ldq $4,24($9)
        trapb
        lda $0,3($31)           # at the end
        callsys
        lda $0,4($31)
        lda $16,1($31)
        mov $9,$17
        lda $18,32($31)
        callsys
        clr $16
        lda $0,1($31)
        callsys
        .entry start
