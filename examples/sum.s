# Reads up to 4,096 bytes of the input, adds them up, and writes the sum as
# eight bytes, the lowest first. A trap barrier stands behind each addition.
        .data
buf:    .zero 4096
sum:    .zero 8

        .code
start:  ldah $9,%hi(buf)($31)
        lda $9,%lo(buf)($9)
        bis $31,$31,$16         # read(0, buf, 4096)
        mov $9,$17
        lda $18,4096($31)
        lda $0,3($31)
        callsys

        mov $0,$10              # bytes left
        mov $9,$11              # where the next one stands
        clr $12                 # the sum so far
loop:   ble $10,done
        ldbu $1,0($11)
        addq/v $12,$1,$13       # not into $12: a late trap needs it again
        trapb
        mov $13,$12
        lda $11,1($11)
        subq $10,1,$10
        br loop

done:   stq $12,4096($9)
        lda $16,1($31)          # write(1, sum, 8)
        lda $17,4096($9)
        lda $18,8($31)
        lda $0,4($31)
        callsys
        clr $16                 # exit(0)
        lda $0,1($31)
        callsys
        .entry start
