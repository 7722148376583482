# Adds two digits by a routine of another module, and writes the sum as a digit, and a line feed, by a
# second one.
start:  lda $17,2($31)
        lda $18,3($31)
        bsr $26,sum
        lda $1,2608($16)
        ldah $16,%hi(text)($31)
        lda $16,%lo(text)($16)
        stq $1,0($16)
        lda $17,2($31)
        bsr $26,put
        clr $16
        lda $0,1($31)
        callsys
        .data
text:   .quad 0
