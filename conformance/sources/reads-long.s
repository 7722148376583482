# Reads 150,000 bytes by one call, and writes them again.
        .level 2
        .segment 0x10000000
        .zero 200000
        .code
start:  ldah $9,0x1000($31)
        lda $0,3($31)
        clr $16
        mov $9,$17
        ldah $18,2($31)
        lda $18,18928($18)
        callsys
        mov $0,$18
        trapb
        lda $0,4($31)
        lda $16,1($31)
        callsys
        mov $0,$20
        lda $0,3($31)           # and once more, at the end of the input
        clr $16
        callsys
        trapb
        subq $20,$0,$16
        lda $0,1($31)
        callsys
        .entry start
