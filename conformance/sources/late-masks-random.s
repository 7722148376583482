# Shadows of /V words whose registers come again, and masks of some of them.
        .level 2
        .codebase 0x10000
        .segment 0x10000000
        .quad 0x0,0x0,0x0,0x0,0x0,0x0,0x0,0x0
        .quad 0x8786858483828180,0x8f8e8d8c8b8a8988,0x9796959493929190,0x9f9e9d9c9b9a9998,0x1716151413121110,0x1f1e1d1c1b1a1918,0x2726252423222120,0x2f2e2d2c2b2a2928
        .zero 256
        .code
start:
        ldah $9,0x1000($31)
        lda $0,3($31)
        clr $16
        mov $9,$17
        lda $18,64($31)
        callsys
        ldq $8,0($9)
        ldq $1,8($9)
        ldq $2,16($9)
        ldq $3,24($9)
        ldq $4,32($9)
        ldq $5,40($9)
        ldq $6,48($9)
        ldq $7,56($9)
        jmp $31,($8),0
dump:
        stq $0,128($9)
        stq $1,136($9)
        stq $2,144($9)
        stq $3,152($9)
        stq $4,160($9)
        stq $5,168($9)
        stq $6,176($9)
        stq $7,184($9)
        stq $8,192($9)
        stq $9,200($9)
        stq $10,208($9)
        stq $11,216($9)
        stq $12,224($9)
        stq $13,232($9)
        stq $14,240($9)
        stq $15,248($9)
        stq $16,256($9)
        stq $17,264($9)
        stq $18,272($9)
        stq $19,280($9)
        stq $20,288($9)
        stq $21,296($9)
        stq $22,304($9)
        stq $23,312($9)
        stq $24,320($9)
        stq $25,328($9)
        stq $26,336($9)
        stq $27,344($9)
        stq $28,352($9)
        stq $29,360($9)
        stq $30,368($9)
        stq $31,376($9)
        lda $0,4($31)
        lda $16,1($31)
        lda $17,64($9)
        lda $18,320($31)
        callsys
        clr $16
        lda $0,1($31)
        callsys
block_0:
        addq/v $1,$2,$21
        addq/v $4,$6,$22
        addq $4,$6,$22
        addq/v $1,$2,$21
        addq/v $1,$2,$22
        addq/v $1,$2,$21
        addq $4,$6,$22
        addq/v $1,$2,$21
        addq/v $1,$2,$21
        addq/v $4,$6,$22
        addq/v $1,$2,$21
        addq/v $4,$6,$21
        addq/v $4,$6,$23
        trapb
        br dump
block_1:
        addq/v $1,$2,$30
        addq/v $1,$2,$22
        addq/v $1,$2,$11
        addq/v $1,$2,$27
        addq/v $4,$6,$22
        addq/v $1,$2,$30
        addq/v $4,$6,$27
        trapb
        br dump
block_2:
        addq/v $1,$2,$26
        addq/v $1,$2,$26
        addq/v $1,$2,$26
        addq/v $1,$2,$17
        addq/v $4,$6,$26
        addq/v $1,$2,$17
        addq/v $1,$2,$26
        addq/v $1,$2,$26
        addq/v $4,$6,$17
        addq/v $1,$2,$17
        addq/v $1,$2,$17
        addq/v $4,$6,$17
        trapb
        br dump
block_3:
        addq/v $1,$2,$0
        nop
        addq/v $4,$6,$17
        mb
        addq/v $4,$6,$0
        mb
        addq/v $4,$6,$30
        addq/v $4,$6,$23
        addq/v $1,$2,$17
        addq/v $1,$2,$30
        addq/v $4,$6,$0
        addq $4,$6,$17
        mb
        addq $4,$6,$17
        trapb
        br dump
block_4:
        addq/v $1,$2,$10
        addq/v $1,$2,$23
        addq/v $1,$2,$0
        addq/v $1,$2,$10
        addq/v $1,$2,$10
        addq/v $1,$2,$20
        mb
        addq/v $4,$6,$10
        trapb
        br dump
block_5:
        addq/v $1,$2,$20
        addq/v $1,$2,$20
        addq/v $1,$2,$20
        addq/v $1,$2,$16
        addq/v $1,$2,$16
        trapb
        br dump
block_6:
        addq/v $1,$2,$17
        addq/v $1,$2,$14
        addq/v $4,$6,$14
        mb
        nop
        addq $4,$6,$17
        mb
        addq/v $1,$2,$14
        addq/v $1,$2,$17
        addq/v $1,$2,$17
        addq/v $1,$2,$14
        nop
        addq/v $4,$6,$17
        trapb
        br dump
block_7:
        addq/v $1,$2,$15
        nop
        addq/v $1,$2,$15
        addq $4,$6,$19
        nop
        addq/v $1,$2,$15
        trapb
        br dump
block_8:
        addq/v $1,$2,$27
        addq/v $4,$6,$15
        addq/v $1,$2,$23
        addq/v $1,$2,$15
        addq/v $4,$6,$15
        addq $4,$6,$15
        addq/v $1,$2,$27
        addq/v $1,$2,$15
        addq $4,$6,$23
        nop
        mb
        addq/v $1,$2,$23
        addq/v $1,$2,$23
        trapb
        br dump
block_9:
        addq/v $1,$2,$23
        mb
        addq/v $1,$2,$22
        addq/v $1,$2,$23
        addq/v $1,$2,$10
        addq/v $1,$2,$10
        addq/v $4,$6,$22
        addq/v $1,$2,$22
        nop
        mb
        mb
        addq/v $4,$6,$10
        addq/v $4,$6,$31
        trapb
        br dump
block_10:
        addq/v $1,$2,$23
        addq/v $4,$6,$23
        mb
        mb
        addq/v $1,$2,$12
        addq/v $4,$6,$12
        addq/v $1,$2,$12
        addq/v $1,$2,$12
        addq/v $4,$6,$23
        addq/v $1,$2,$12
        addq/v $4,$6,$23
        addq/v $1,$2,$12
        addq/v $1,$2,$23
        trapb
        br dump
block_11:
        addq/v $1,$2,$19
        addq/v $4,$6,$30
        addq/v $4,$6,$30
        nop
        addq/v $1,$2,$30
        addq/v $1,$2,$19
        mb
        addq/v $1,$2,$19
        addq/v $1,$2,$30
        trapb
        br dump
block_12:
        addq/v $1,$2,$30
        addq/v $1,$2,$29
        addq $4,$6,$29
        addq/v $1,$2,$29
        addq/v $1,$2,$29
        trapb
        br dump
block_13:
        addq/v $1,$2,$22
        addq/v $1,$2,$16
        addq/v $4,$6,$13
        addq/v $4,$6,$13
        addq/v $1,$2,$16
        addq $4,$6,$13
        addq/v $1,$2,$16
        addq/v $1,$2,$16
        addq $4,$6,$16
        nop
        mb
        trapb
        br dump
block_14:
        addq/v $1,$2,$16
        addq/v $1,$2,$16
        nop
        addq/v $1,$2,$7
        mb
        addq $4,$6,$7
        addq/v $1,$2,$16
        nop
        addq/v $1,$2,$16
        trapb
        br dump
block_15:
        addq/v $1,$2,$21
        addq/v $1,$2,$21
        nop
        addq/v $4,$6,$29
        mb
        addq/v $4,$6,$21
        addq/v $4,$6,$21
        addq/v $1,$2,$21
        nop
        trapb
        br dump
block_16:
        addq/v $1,$2,$13
        addq/v $1,$2,$13
        addq/v $4,$6,$13
        addq/v $1,$2,$13
        mb
        addq/v $4,$6,$13
        addq/v $1,$2,$25
        addq/v $1,$2,$13
        addq/v $1,$2,$14
        addq/v $4,$6,$13
        addq/v $1,$2,$3
        trapb
        br dump
block_17:
        addq/v $1,$2,$21
        addq/v $1,$2,$21
        addq/v $1,$2,$21
        mb
        addq/v $4,$6,$21
        addq/v $1,$2,$29
        addq $4,$6,$29
        addq/v $1,$2,$29
        addq/v $4,$6,$21
        addq/v $1,$2,$29
        addq/v $4,$6,$21
        addq/v $4,$6,$21
        addq/v $1,$2,$29
        trapb
        br dump
block_18:
        addq/v $1,$2,$19
        addq/v $4,$6,$30
        addq/v $4,$6,$19
        addq/v $1,$2,$30
        addq/v $4,$6,$19
        addq/v $1,$2,$17
        addq/v $1,$2,$30
        addq/v $1,$2,$19
        addq/v $4,$6,$17
        addq/v $4,$6,$30
        trapb
        br dump
block_19:
        addq/v $1,$2,$18
        addq/v $1,$2,$8
        addq/v $1,$2,$0
        nop
        addq/v $4,$6,$8
        mb
        addq/v $1,$2,$0
        addq/v $1,$2,$0
        addq/v $4,$6,$18
        addq/v $1,$2,$20
        mb
        addq/v $4,$6,$8
        nop
        addq $4,$6,$20
        trapb
        br dump
block_20:
        addq/v $1,$2,$11
        addq/v $4,$6,$13
        addq/v $1,$2,$11
        addq/v $4,$6,$13
        addq/v $1,$2,$11
        addq/v $4,$6,$13
        addq/v $1,$2,$11
        addq/v $1,$2,$13
        addq/v $1,$2,$13
        mb
        addq/v $4,$6,$24
        addq/v $4,$6,$24
        trapb
        br dump
block_21:
        addq/v $1,$2,$18
        addq/v $1,$2,$26
        addq $4,$6,$26
        addq/v $4,$6,$7
        mb
        addq/v $1,$2,$26
        addq/v $1,$2,$24
        addq/v $4,$6,$24
        trapb
        br dump
block_22:
        addq/v $1,$2,$25
        addq/v $1,$2,$7
        addq/v $1,$2,$25
        addq/v $1,$2,$7
        addq/v $1,$2,$27
        addq/v $1,$2,$27
        addq/v $1,$2,$27
        addq/v $4,$6,$25
        addq/v $1,$2,$27
        addq/v $1,$2,$7
        addq/v $1,$2,$25
        addq/v $1,$2,$7
        addq/v $1,$2,$7
        trapb
        br dump
block_23:
        addq/v $1,$2,$12
        addq/v $1,$2,$12
        mb
        addq/v $1,$2,$11
        addq/v $4,$6,$11
        addq $4,$6,$12
        addq/v $1,$2,$12
        addq/v $1,$2,$11
        addq/v $1,$2,$12
        addq/v $4,$6,$11
        nop
        addq/v $1,$2,$12
        trapb
        br dump
block_24:
        addq/v $1,$2,$21
        addq/v $1,$2,$10
        mb
        addq/v $1,$2,$16
        addq/v $1,$2,$21
        trapb
        br dump
block_25:
        addq/v $1,$2,$13
        addq/v $1,$2,$13
        nop
        nop
        addq/v $4,$6,$13
        addq/v $1,$2,$13
        addq/v $1,$2,$14
        addq/v $1,$2,$13
        addq/v $1,$2,$14
        addq/v $4,$6,$13
        addq/v $1,$2,$13
        addq/v $4,$6,$14
        addq/v $1,$2,$14
        trapb
        br dump
block_26:
        addq/v $1,$2,$3
        addq/v $1,$2,$7
        addq/v $4,$6,$3
        addq/v $4,$6,$3
        addq/v $4,$6,$15
        addq/v $1,$2,$3
        addq/v $4,$6,$25
        nop
        addq/v $1,$2,$25
        addq/v $1,$2,$3
        addq/v $1,$2,$25
        addq/v $1,$2,$7
        trapb
        br dump
block_27:
        addq/v $1,$2,$17
        addq/v $1,$2,$12
        mb
        addq/v $4,$6,$17
        addq/v $4,$6,$17
        addq/v $1,$2,$10
        addq $4,$6,$12
        addq/v $1,$2,$17
        addq/v $4,$6,$13
        addq/v $1,$2,$12
        addq/v $4,$6,$10
        trapb
        br dump
block_28:
        addq/v $1,$2,$10
        addq/v $1,$2,$22
        nop
        addq/v $4,$6,$20
        addq/v $1,$2,$10
        addq/v $4,$6,$20
        addq/v $1,$2,$20
        addq/v $1,$2,$22
        nop
        addq/v $1,$2,$10
        trapb
        br dump
block_29:
        addq/v $1,$2,$25
        addq/v $1,$2,$31
        addq/v $1,$2,$25
        addq/v $1,$2,$11
        addq/v $4,$6,$19
        mb
        trapb
        br dump
block_30:
        addq/v $1,$2,$0
        nop
        addq/v $4,$6,$0
        addq/v $4,$6,$21
        addq/v $1,$2,$21
        addq/v $4,$6,$31
        addq/v $4,$6,$0
        trapb
        br dump
block_31:
        addq/v $1,$2,$7
        nop
        addq/v $1,$2,$14
        addq/v $1,$2,$7
        addq/v $1,$2,$14
        addq/v $1,$2,$7
        addq $4,$6,$14
        addq $4,$6,$7
        addq/v $4,$6,$14
        addq/v $1,$2,$7
        addq/v $1,$2,$7
        addq/v $4,$6,$7
        addq/v $1,$2,$14
        trapb
        br dump
block_32:
        addq/v $1,$2,$29
        addq/v $4,$6,$5
        addq/v $1,$2,$14
        addq/v $1,$2,$29
        mb
        addq/v $1,$2,$29
        addq/v $1,$2,$16
        addq/v $1,$2,$14
        addq/v $4,$6,$16
        addq/v $1,$2,$5
        addq/v $1,$2,$29
        addq/v $1,$2,$14
        addq/v $1,$2,$14
        addq/v $1,$2,$5
        trapb
        br dump
block_33:
        addq/v $1,$2,$27
        addq/v $4,$6,$27
        addq/v $1,$2,$27
        addq $4,$6,$14
        addq/v $1,$2,$14
        addq/v $4,$6,$27
        addq/v $1,$2,$27
        addq/v $4,$6,$27
        addq/v $1,$2,$27
        addq $4,$6,$27
        addq/v $1,$2,$14
        nop
        mb
        addq/v $4,$6,$14
        trapb
        br dump
block_34:
        addq/v $1,$2,$25
        addq/v $1,$2,$29
        mb
        addq/v $1,$2,$29
        addq $4,$6,$25
        addq/v $1,$2,$25
        addq $4,$6,$29
        trapb
        br dump
block_35:
        addq/v $1,$2,$8
        addq/v $1,$2,$17
        addq/v $1,$2,$8
        addq/v $1,$2,$8
        addq/v $1,$2,$17
        addq/v $4,$6,$8
        addq/v $4,$6,$8
        addq/v $4,$6,$8
        addq/v $1,$2,$17
        trapb
        br dump
        .entry start
