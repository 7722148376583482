# Reads 8,388,608 bytes by one call, and writes 2,200,000 of them.
        .level 2
        .segment 0x10000000
        .zero 8388708
        .code
start:  ldah $9,0x1000($31)
        lda $0,3($31)
        clr $16
        mov $9,$17
        ldah $18,128($31)
        lda $18,1($18)
        callsys
        mov $0,$20
        trapb
        lda $0,4($31)
        lda $16,1($31)
        ldah $18,34($31)
        lda $18,-28224($18)
        callsys
        trapb
        s4addq $20,$0,$16
        lda $0,1($31)
        callsys
        .entry start
