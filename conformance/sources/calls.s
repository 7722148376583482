# System calls: the three errors, their order, and ranges. $0 and $19 have each answer.
        .data
cell:   .ascii "some bytes\n"
        .zero 5

        .code
start:  ldah $9,%hi(cell)($31)
        lda $9,%lo(cell)($9)    # 16 bytes from here on
        mov $9,$17
        clr $0                  # 78: no such call
        callsys
        lda $0,2($31)
        callsys
        lda $0,1($31)
        sll $0,32,$0
        bis $0,1,$0             # 2^32 + 1 isn't exit
        callsys
        lda $0,3($31)           # 9: a read of another descriptor than 0
        lda $16,1($31)
        lda $18,4($31)
        callsys
        lda $0,3($31)
        lda $16,1($31)
        sll $16,32,$16
        callsys
        lda $0,4($31)           # a write to another than 1
        clr $16
        callsys
        lda $0,4($31)
        lda $16,2($31)
        callsys
        lda $0,3($31)           # the descriptor is looked at before the range
        clr $17
        callsys
        lda $0,3($31)           # 14: a read to nowhere
        clr $16
        callsys
        lda $0,3($31)           # to code
        mov $27,$17
        callsys
        lda $0,3($31)           # to a byte behind the data
        lda $17,15($9)
        lda $18,2($31)
        callsys
        lda $0,4($31)           # and a write from there
        lda $16,1($31)
        callsys
        lda $0,4($31)           # a range that wraps
        mov $9,$17
        lda $18,-1($31)
        callsys
        lda $0,4($31)           # and one before the data
        lda $17,-1($9)
        lda $18,2($31)
        callsys
        lda $0,4($31)           # no bytes need no range
        clr $17
        clr $18
        callsys
        lda $0,3($31)
        clr $16
        callsys
        lda $0,4($31)           # the descriptor is looked at all the same
        callsys
        lda $0,4($31)           # bytes of the data, and of the code
        lda $16,1($31)
        mov $9,$17
        lda $18,11($31)
        callsys
        lda $0,4($31)
        mov $27,$17
        lda $18,4($31)
        callsys
        lda $0,4($31)           # and of the stack, up to its end
        lda $17,-3($30)
        lda $18,3($31)
        callsys
        clr $16
        lda $0,1($31)
        callsys
        .entry start
