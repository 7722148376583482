# Registers that are alike, R31, and literals. With a, b and c of each 24 bytes of the input in $1, $2 and $3, a quadword of output for each of these lines:
# amask $3,$3; amask $31,$3; amask 0,$3; amask 127,$3; amask 128,$3; amask 255,$3
# amask $2,$31; implver $3; ctpop $3,$3; ctpop $31,$3; ctpop $2,$31; ctlz $3,$3
# ctlz $31,$3; ctlz $2,$31; cttz $3,$3; cttz $31,$3; cttz $2,$31
        .level 2
        .segment 0x10000000
        .zero 160
        .code
start: ldah $9,0x1000($31)
next: lda $0,3($31)
        clr $16
        mov $9,$17
        lda $18,24($31)
        callsys
        subq $0,24,$4
        bne $4,end
        ldq $1,0($9)
        ldq $2,8($9)
        ldq $3,16($9)
        amask $3,$3
        stq $3,24($9)
        ldq $3,16($9)
        amask $31,$3
        stq $3,32($9)
        ldq $3,16($9)
        amask 0,$3
        stq $3,40($9)
        ldq $3,16($9)
        amask 127,$3
        stq $3,48($9)
        ldq $3,16($9)
        amask 128,$3
        stq $3,56($9)
        ldq $3,16($9)
        amask 255,$3
        stq $3,64($9)
        ldq $3,16($9)
        amask $2,$31
        bis $31,$31,$3
        stq $3,72($9)
        ldq $3,16($9)
        implver $3
        stq $3,80($9)
        ldq $3,16($9)
        ctpop $3,$3
        stq $3,88($9)
        ldq $3,16($9)
        ctpop $31,$3
        stq $3,96($9)
        ldq $3,16($9)
        ctpop $2,$31
        bis $31,$31,$3
        stq $3,104($9)
        ldq $3,16($9)
        ctlz $3,$3
        stq $3,112($9)
        ldq $3,16($9)
        ctlz $31,$3
        stq $3,120($9)
        ldq $3,16($9)
        ctlz $2,$31
        bis $31,$31,$3
        stq $3,128($9)
        ldq $3,16($9)
        cttz $3,$3
        stq $3,136($9)
        ldq $3,16($9)
        cttz $31,$3
        stq $3,144($9)
        ldq $3,16($9)
        cttz $2,$31
        bis $31,$31,$3
        stq $3,152($9)
        lda $0,4($31)
        lda $16,1($31)
        lda $17,24($9)
        lda $18,136($31)
        callsys
        br next
end: clr $16
        lda $0,1($31)
        callsys
        .entry start
