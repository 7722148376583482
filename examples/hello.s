# Writes a line and exits with 0.
        .data
text:   .ascii "Hello, Alpha\n"

        .code
start:  lda $16,1($31)          # write(1, text, 13)
        ldah $17,%hi(text)($31)
        lda $17,%lo(text)($17)
        lda $18,13($31)
        lda $0,4($31)
        callsys
        clr $16                 # exit(0)
        lda $0,1($31)
        callsys
        .entry start
