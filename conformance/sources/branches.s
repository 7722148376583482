# Each conditional branch on each of nine values: a bit for each branch, 1 where it isn't taken. Then br and bsr, forward and
# backward, with the addresses that they leave.
        .data
values: .quad 0,1,2,-1,-2,0x8000000000000000,0x7fffffffffffffff,0x100000000,0x80000000
bits:   .zero 80

        .code
start:  ldah $9,%hi(values)($31)
        lda $9,%lo(values)($9)
        lda $10,72($9)
        lda $11,9($31)
next:   ldq $1,0($9)
        clr $2
        beq $1,.+8
        bis $2,1,$2
        bne $1,.+8
        bis $2,2,$2
        blt $1,.+8
        bis $2,4,$2
        ble $1,.+8
        bis $2,8,$2
        bgt $1,.+8
        bis $2,16,$2
        bge $1,.+8
        bis $2,32,$2
        blbs $1,.+8
        bis $2,64,$2
        blbc $1,.+8
        bis $2,128,$2
        trapb
        stq $2,0($10)
        lda $9,8($9)
        lda $10,8($10)
        subq $11,1,$11
        bgt $11,next
        beq $31,ahead           # R31 is 0
        br wrong
back:   trapb
        br $4,end
ahead:  br $1,there
        br wrong
there:  trapb
        bsr $26,.+8
        br wrong
        bsr $31,.+8
        br wrong
        bsr $3,back
wrong:  gentrap
end:    trapb
        stq $4,0($10)
        lda $0,4($31)
        lda $16,1($31)
        lda $17,-72($10)
        lda $18,80($31)
        callsys
        clr $16
        lda $0,1($31)
        callsys
        .entry start
