# Adds two numbers by a routine of another module, and exits with the sum.
start:  lda $17,2($31)
        lda $18,3($31)
        bsr $26,sum
        lda $0,1($31)
        callsys
