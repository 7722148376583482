# Barriers of code at a high address: the notes tell the PC behind each, and what links and overflows leave.
        .level 2
        .codebase 0x3ffc0000
        .segment 0x10000000
        .zero 16
        .code
start:  mov $27,$16
        wrunique
        rdunique
        trapb
        lda $1,-1($31)
        srl $1,1,$1
        bsr $26,there
        excb
        lda $0,9($31)
        callsys                 # 78: no such call
        subq/v $31,$1,$4
        subq/v $4,2,$5          # overflows
        trapb
        clr $16
        lda $0,1($31)
        callsys
there:  addq/v $1,1,$3          # overflows
        imb
        ret $25,($26),1
        .entry start
