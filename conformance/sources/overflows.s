# An overflow into each register.
        .level 2
        .codebase 0x10000
        .segment 0x10000000
        .quad 0x0,0x0,0x0,0x0,0x0,0x0,0x0,0x0
        .quad 0x8786858483828180,0x8f8e8d8c8b8a8988,0x9796959493929190,0x9f9e9d9c9b9a9998,0x1716151413121110,0x1f1e1d1c1b1a1918,0x2726252423222120,0x2f2e2d2c2b2a2928
        .zero 256
        .code
start:
        ldah $9,0x1000($31)
        lda $0,3($31)
        clr $16
        mov $9,$17
        lda $18,64($31)
        callsys
        ldq $8,0($9)
        ldq $1,8($9)
        ldq $2,16($9)
        ldq $3,24($9)
        ldq $4,32($9)
        ldq $5,40($9)
        ldq $6,48($9)
        ldq $7,56($9)
        jmp $31,($8),0
dump:
        stq $0,128($9)
        stq $1,136($9)
        stq $2,144($9)
        stq $3,152($9)
        stq $4,160($9)
        stq $5,168($9)
        stq $6,176($9)
        stq $7,184($9)
        stq $8,192($9)
        stq $9,200($9)
        stq $10,208($9)
        stq $11,216($9)
        stq $12,224($9)
        stq $13,232($9)
        stq $14,240($9)
        stq $15,248($9)
        stq $16,256($9)
        stq $17,264($9)
        stq $18,272($9)
        stq $19,280($9)
        stq $20,288($9)
        stq $21,296($9)
        stq $22,304($9)
        stq $23,312($9)
        stq $24,320($9)
        stq $25,328($9)
        stq $26,336($9)
        stq $27,344($9)
        stq $28,352($9)
        stq $29,360($9)
        stq $30,368($9)
        stq $31,376($9)
        lda $0,4($31)
        lda $16,1($31)
        lda $17,64($9)
        lda $18,320($31)
        callsys
        clr $16
        lda $0,1($31)
        callsys
to_0:
        addq/v $1,$2,$0
        trapb
        br dump
from_0:
        mov $1,$3
        mov $1,$0
        addq/v $0,1,$4
        subq/v $4,$0,$5
        trapb
        br dump
to_1:
        addq/v $1,$2,$1
        trapb
        br dump
from_1:
        mov $1,$3
        mov $1,$1
        addq/v $1,1,$4
        subq/v $4,$1,$5
        trapb
        br dump
to_2:
        addq/v $1,$2,$2
        trapb
        br dump
from_2:
        mov $1,$3
        mov $1,$2
        addq/v $2,1,$4
        subq/v $4,$2,$5
        trapb
        br dump
to_3:
        addq/v $1,$2,$3
        trapb
        br dump
from_3:
        mov $1,$3
        mov $1,$3
        addq/v $3,1,$4
        subq/v $4,$3,$5
        trapb
        br dump
to_4:
        addq/v $1,$2,$4
        trapb
        br dump
from_4:
        mov $1,$3
        mov $1,$4
        addq/v $4,1,$4
        subq/v $4,$4,$5
        trapb
        br dump
to_5:
        addq/v $1,$2,$5
        trapb
        br dump
from_5:
        mov $1,$3
        mov $1,$5
        addq/v $5,1,$4
        subq/v $4,$5,$5
        trapb
        br dump
to_6:
        addq/v $1,$2,$6
        trapb
        br dump
from_6:
        mov $1,$3
        mov $1,$6
        addq/v $6,1,$4
        subq/v $4,$6,$5
        trapb
        br dump
to_7:
        addq/v $1,$2,$7
        trapb
        br dump
from_7:
        mov $1,$3
        mov $1,$7
        addq/v $7,1,$4
        subq/v $4,$7,$5
        trapb
        br dump
to_8:
        addq/v $1,$2,$8
        trapb
        br dump
from_8:
        mov $1,$3
        mov $1,$8
        addq/v $8,1,$4
        subq/v $4,$8,$5
        trapb
        br dump
to_9:
        addq/v $1,$2,$9
        trapb
        ldah $9,0x1000($31)
        br dump
from_9:
        mov $1,$3
        mov $1,$9
        addq/v $9,1,$4
        subq/v $4,$9,$5
        ldah $9,0x1000($31)
        trapb
        br dump
to_10:
        addq/v $1,$2,$10
        trapb
        br dump
from_10:
        mov $1,$3
        mov $1,$10
        addq/v $10,1,$4
        subq/v $4,$10,$5
        trapb
        br dump
to_11:
        addq/v $1,$2,$11
        trapb
        br dump
from_11:
        mov $1,$3
        mov $1,$11
        addq/v $11,1,$4
        subq/v $4,$11,$5
        trapb
        br dump
to_12:
        addq/v $1,$2,$12
        trapb
        br dump
from_12:
        mov $1,$3
        mov $1,$12
        addq/v $12,1,$4
        subq/v $4,$12,$5
        trapb
        br dump
to_13:
        addq/v $1,$2,$13
        trapb
        br dump
from_13:
        mov $1,$3
        mov $1,$13
        addq/v $13,1,$4
        subq/v $4,$13,$5
        trapb
        br dump
to_14:
        addq/v $1,$2,$14
        trapb
        br dump
from_14:
        mov $1,$3
        mov $1,$14
        addq/v $14,1,$4
        subq/v $4,$14,$5
        trapb
        br dump
to_15:
        addq/v $1,$2,$15
        trapb
        br dump
from_15:
        mov $1,$3
        mov $1,$15
        addq/v $15,1,$4
        subq/v $4,$15,$5
        trapb
        br dump
to_16:
        addq/v $1,$2,$16
        trapb
        br dump
from_16:
        mov $1,$3
        mov $1,$16
        addq/v $16,1,$4
        subq/v $4,$16,$5
        trapb
        br dump
to_17:
        addq/v $1,$2,$17
        trapb
        br dump
from_17:
        mov $1,$3
        mov $1,$17
        addq/v $17,1,$4
        subq/v $4,$17,$5
        trapb
        br dump
to_18:
        addq/v $1,$2,$18
        trapb
        br dump
from_18:
        mov $1,$3
        mov $1,$18
        addq/v $18,1,$4
        subq/v $4,$18,$5
        trapb
        br dump
to_19:
        addq/v $1,$2,$19
        trapb
        br dump
from_19:
        mov $1,$3
        mov $1,$19
        addq/v $19,1,$4
        subq/v $4,$19,$5
        trapb
        br dump
to_20:
        addq/v $1,$2,$20
        trapb
        br dump
from_20:
        mov $1,$3
        mov $1,$20
        addq/v $20,1,$4
        subq/v $4,$20,$5
        trapb
        br dump
to_21:
        addq/v $1,$2,$21
        trapb
        br dump
from_21:
        mov $1,$3
        mov $1,$21
        addq/v $21,1,$4
        subq/v $4,$21,$5
        trapb
        br dump
to_22:
        addq/v $1,$2,$22
        trapb
        br dump
from_22:
        mov $1,$3
        mov $1,$22
        addq/v $22,1,$4
        subq/v $4,$22,$5
        trapb
        br dump
to_23:
        addq/v $1,$2,$23
        trapb
        br dump
from_23:
        mov $1,$3
        mov $1,$23
        addq/v $23,1,$4
        subq/v $4,$23,$5
        trapb
        br dump
to_24:
        addq/v $1,$2,$24
        trapb
        br dump
from_24:
        mov $1,$3
        mov $1,$24
        addq/v $24,1,$4
        subq/v $4,$24,$5
        trapb
        br dump
to_25:
        addq/v $1,$2,$25
        trapb
        br dump
from_25:
        mov $1,$3
        mov $1,$25
        addq/v $25,1,$4
        subq/v $4,$25,$5
        trapb
        br dump
to_26:
        addq/v $1,$2,$26
        trapb
        br dump
from_26:
        mov $1,$3
        mov $1,$26
        addq/v $26,1,$4
        subq/v $4,$26,$5
        trapb
        br dump
to_27:
        addq/v $1,$2,$27
        trapb
        br dump
from_27:
        mov $1,$3
        mov $1,$27
        addq/v $27,1,$4
        subq/v $4,$27,$5
        trapb
        br dump
to_28:
        addq/v $1,$2,$28
        trapb
        br dump
from_28:
        mov $1,$3
        mov $1,$28
        addq/v $28,1,$4
        subq/v $4,$28,$5
        trapb
        br dump
to_29:
        addq/v $1,$2,$29
        trapb
        br dump
from_29:
        mov $1,$3
        mov $1,$29
        addq/v $29,1,$4
        subq/v $4,$29,$5
        trapb
        br dump
to_30:
        addq/v $1,$2,$30
        trapb
        br dump
from_30:
        mov $1,$3
        mov $1,$30
        addq/v $30,1,$4
        subq/v $4,$30,$5
        trapb
        br dump
to_31:
        addq/v $1,$2,$31
        trapb
        br dump
from_31:
        mov $1,$3
        addq/v $31,1,$4
        subq/v $4,$31,$5
        trapb
        br dump
        .entry start
