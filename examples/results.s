# Ten instructions on the two numbers at `operands`, each with a result of its own, in $3 to $12.
# The program ends by a breakpoint, so that the debugger shows the registers; `run --watch` shows
# them at the barrier.
        .data
operands:
        .quad 0x8000000000000001,5

        .code
start:  ldah $28,%hi(operands)($31)
        lda $28,%lo(operands)($28)
        ldq $1,0($28)
        ldq $2,8($28)
        addl $1,$2,$3
        subq/v $1,$2,$4         # overflows
        mulq $1,$2,$5
        umulh $1,$2,$6
        sra $1,$2,$7
        extwl $1,$2,$8
        inslh $1,$2,$9
        zapnot $1,$2,$10
        cmpult $2,$1,$11
        cmpbge $1,$2,$12
        trapb
        bpt
        .entry start
