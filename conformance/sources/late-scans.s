# A branch goes from a shadow behind a word that stands behind another /V word: a barrier, a branch or a jump there ends the handler's way back, and others don't.
        .level 2
        .codebase 0x10000
        .segment 0x10000000
        .quad 0x0,0x0,0x0,0x0,0x0,0x0,0x0,0x0
        .quad 0x8786858483828180,0x8f8e8d8c8b8a8988,0x9796959493929190,0x9f9e9d9c9b9a9998,0x1716151413121110,0x1f1e1d1c1b1a1918,0x2726252423222120,0x2f2e2d2c2b2a2928
        .zero 256
        .code
start:
        ldah $9,0x1000($31)
        lda $0,3($31)
        clr $16
        mov $9,$17
        lda $18,64($31)
        callsys
        ldq $8,0($9)
        ldq $1,8($9)
        ldq $2,16($9)
        ldq $3,24($9)
        ldq $4,32($9)
        ldq $5,40($9)
        ldq $6,48($9)
        ldq $7,56($9)
        jmp $31,($8),0
dump:
        stq $0,128($9)
        stq $1,136($9)
        stq $2,144($9)
        stq $3,152($9)
        stq $4,160($9)
        stq $5,168($9)
        stq $6,176($9)
        stq $7,184($9)
        stq $8,192($9)
        stq $9,200($9)
        stq $10,208($9)
        stq $11,216($9)
        stq $12,224($9)
        stq $13,232($9)
        stq $14,240($9)
        stq $15,248($9)
        stq $16,256($9)
        stq $17,264($9)
        stq $18,272($9)
        stq $19,280($9)
        stq $20,288($9)
        stq $21,296($9)
        stq $22,304($9)
        stq $23,312($9)
        stq $24,320($9)
        stq $25,328($9)
        stq $26,336($9)
        stq $27,344($9)
        stq $28,352($9)
        stq $29,360($9)
        stq $30,368($9)
        stq $31,376($9)
        lda $0,4($31)
        lda $16,1($31)
        lda $17,64($9)
        lda $18,320($31)
        callsys
        clr $16
        lda $0,1($31)
        callsys
over_0:
        br trigger_0
        addq/v $1,$2,$3
        trapb
behind_0:
        nop
        trapb
        br dump
trigger_0:
        addq/v $1,$2,$3
        br behind_0
over_1:
        br trigger_1
        addq/v $1,$2,$3
        excb
behind_1:
        nop
        trapb
        br dump
trigger_1:
        addq/v $1,$2,$3
        br behind_1
over_2:
        br trigger_2
        addq/v $1,$2,$3
        imb
behind_2:
        nop
        trapb
        br dump
trigger_2:
        addq/v $1,$2,$3
        br behind_2
over_3:
        br trigger_3
        addq/v $1,$2,$3
        rdunique
behind_3:
        nop
        trapb
        br dump
trigger_3:
        addq/v $1,$2,$3
        br behind_3
over_4:
        br trigger_4
        addq/v $1,$2,$3
        wrunique
behind_4:
        nop
        trapb
        br dump
trigger_4:
        addq/v $1,$2,$3
        br behind_4
over_5:
        br trigger_5
        addq/v $1,$2,$3
        callsys
behind_5:
        nop
        trapb
        br dump
trigger_5:
        addq/v $1,$2,$3
        br behind_5
over_6:
        br trigger_6
        addq/v $1,$2,$3
        bpt
behind_6:
        nop
        trapb
        br dump
trigger_6:
        addq/v $1,$2,$3
        br behind_6
over_7:
        br trigger_7
        addq/v $1,$2,$3
        bugchk
behind_7:
        nop
        trapb
        br dump
trigger_7:
        addq/v $1,$2,$3
        br behind_7
over_8:
        br trigger_8
        addq/v $1,$2,$3
        gentrap
behind_8:
        nop
        trapb
        br dump
trigger_8:
        addq/v $1,$2,$3
        br behind_8
over_9:
        br trigger_9
        addq/v $1,$2,$3
        br $31,.+4
behind_9:
        nop
        trapb
        br dump
trigger_9:
        addq/v $1,$2,$3
        br behind_9
over_10:
        br trigger_10
        addq/v $1,$2,$3
        bsr $31,.+4
behind_10:
        nop
        trapb
        br dump
trigger_10:
        addq/v $1,$2,$3
        br behind_10
over_11:
        br trigger_11
        addq/v $1,$2,$3
        beq $6,.+4
behind_11:
        nop
        trapb
        br dump
trigger_11:
        addq/v $1,$2,$3
        br behind_11
over_12:
        br trigger_12
        addq/v $1,$2,$3
        bne $6,.+4
behind_12:
        nop
        trapb
        br dump
trigger_12:
        addq/v $1,$2,$3
        br behind_12
over_13:
        br trigger_13
        addq/v $1,$2,$3
        blt $6,.+4
behind_13:
        nop
        trapb
        br dump
trigger_13:
        addq/v $1,$2,$3
        br behind_13
over_14:
        br trigger_14
        addq/v $1,$2,$3
        ble $6,.+4
behind_14:
        nop
        trapb
        br dump
trigger_14:
        addq/v $1,$2,$3
        br behind_14
over_15:
        br trigger_15
        addq/v $1,$2,$3
        bgt $6,.+4
behind_15:
        nop
        trapb
        br dump
trigger_15:
        addq/v $1,$2,$3
        br behind_15
over_16:
        br trigger_16
        addq/v $1,$2,$3
        bge $6,.+4
behind_16:
        nop
        trapb
        br dump
trigger_16:
        addq/v $1,$2,$3
        br behind_16
over_17:
        br trigger_17
        addq/v $1,$2,$3
        blbs $6,.+4
behind_17:
        nop
        trapb
        br dump
trigger_17:
        addq/v $1,$2,$3
        br behind_17
over_18:
        br trigger_18
        addq/v $1,$2,$3
        blbc $6,.+4
behind_18:
        nop
        trapb
        br dump
trigger_18:
        addq/v $1,$2,$3
        br behind_18
over_19:
        br trigger_19
        addq/v $1,$2,$3
        jmp $31,($8)
behind_19:
        nop
        trapb
        br dump
trigger_19:
        addq/v $1,$2,$3
        br behind_19
over_20:
        br trigger_20
        addq/v $1,$2,$3
        jsr $31,($8)
behind_20:
        nop
        trapb
        br dump
trigger_20:
        addq/v $1,$2,$3
        br behind_20
over_21:
        br trigger_21
        addq/v $1,$2,$3
        ret $31,($8)
behind_21:
        nop
        trapb
        br dump
trigger_21:
        addq/v $1,$2,$3
        br behind_21
over_22:
        br trigger_22
        addq/v $1,$2,$3
        jsr_coroutine $31,($8)
behind_22:
        nop
        trapb
        br dump
trigger_22:
        addq/v $1,$2,$3
        br behind_22
over_23:
        br trigger_23
        addq/v $1,$2,$3
        mb
behind_23:
        nop
        trapb
        br dump
trigger_23:
        addq/v $1,$2,$3
        br behind_23
over_24:
        br trigger_24
        addq/v $1,$2,$3
        wmb
behind_24:
        nop
        trapb
        br dump
trigger_24:
        addq/v $1,$2,$3
        br behind_24
over_25:
        br trigger_25
        addq/v $1,$2,$3
        fetch 0($9)
behind_25:
        nop
        trapb
        br dump
trigger_25:
        addq/v $1,$2,$3
        br behind_25
over_26:
        br trigger_26
        addq/v $1,$2,$3
        fetch_m 0($9)
behind_26:
        nop
        trapb
        br dump
trigger_26:
        addq/v $1,$2,$3
        br behind_26
over_27:
        br trigger_27
        addq/v $1,$2,$3
        lda $5,1($31)
behind_27:
        nop
        trapb
        br dump
trigger_27:
        addq/v $1,$2,$3
        br behind_27
over_28:
        br trigger_28
        addq/v $1,$2,$3
        ldq $5,64($9)
behind_28:
        nop
        trapb
        br dump
trigger_28:
        addq/v $1,$2,$3
        br behind_28
over_29:
        br trigger_29
        addq/v $1,$2,$3
        ldq_u $31,64($9)
behind_29:
        nop
        trapb
        br dump
trigger_29:
        addq/v $1,$2,$3
        br behind_29
over_30:
        br trigger_30
        addq/v $1,$2,$3
        stq $4,64($9)
behind_30:
        nop
        trapb
        br dump
trigger_30:
        addq/v $1,$2,$3
        br behind_30
over_31:
        br trigger_31
        addq/v $1,$2,$3
        ldq_l $5,64($9)
behind_31:
        nop
        trapb
        br dump
trigger_31:
        addq/v $1,$2,$3
        br behind_31
over_32:
        br trigger_32
        addq/v $1,$2,$3
        stq_c $5,64($9)
behind_32:
        nop
        trapb
        br dump
trigger_32:
        addq/v $1,$2,$3
        br behind_32
over_33:
        br trigger_33
        addq/v $1,$2,$3
        addq $4,$6,$5
behind_33:
        nop
        trapb
        br dump
trigger_33:
        addq/v $1,$2,$3
        br behind_33
over_34:
        br trigger_34
        addq/v $1,$2,$3
        addq/v $4,$6,$5
behind_34:
        nop
        trapb
        br dump
trigger_34:
        addq/v $1,$2,$3
        br behind_34
over_35:
        br trigger_35
        addq/v $1,$2,$3
        cmovne $4,$6,$5
behind_35:
        nop
        trapb
        br dump
trigger_35:
        addq/v $1,$2,$3
        br behind_35
        .entry start
