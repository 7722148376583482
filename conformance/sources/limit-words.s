# A loop in a shadow, so that the 1,025th word is of each kind.
        .level 2
        .codebase 0x10000
        .segment 0x10000000
        .quad 0x0,0x0,0x0,0x0,0x0,0x0,0x0,0x0
        .quad 0x8786858483828180,0x8f8e8d8c8b8a8988,0x9796959493929190,0x9f9e9d9c9b9a9998,0x1716151413121110,0x1f1e1d1c1b1a1918,0x2726252423222120,0x2f2e2d2c2b2a2928
        .zero 256
        .code
start:
        ldah $9,0x1000($31)
        lda $0,3($31)
        clr $16
        mov $9,$17
        lda $18,64($31)
        callsys
        ldq $8,0($9)
        ldq $1,8($9)
        ldq $2,16($9)
        ldq $3,24($9)
        ldq $4,32($9)
        ldq $5,40($9)
        ldq $6,48($9)
        ldq $7,56($9)
        jmp $31,($8),0
dump:
        stq $0,128($9)
        stq $1,136($9)
        stq $2,144($9)
        stq $3,152($9)
        stq $4,160($9)
        stq $5,168($9)
        stq $6,176($9)
        stq $7,184($9)
        stq $8,192($9)
        stq $9,200($9)
        stq $10,208($9)
        stq $11,216($9)
        stq $12,224($9)
        stq $13,232($9)
        stq $14,240($9)
        stq $15,248($9)
        stq $16,256($9)
        stq $17,264($9)
        stq $18,272($9)
        stq $19,280($9)
        stq $20,288($9)
        stq $21,296($9)
        stq $22,304($9)
        stq $23,312($9)
        stq $24,320($9)
        stq $25,328($9)
        stq $26,336($9)
        stq $27,344($9)
        stq $28,352($9)
        stq $29,360($9)
        stq $30,368($9)
        stq $31,376($9)
        lda $0,4($31)
        lda $16,1($31)
        lda $17,64($9)
        lda $18,320($31)
        callsys
        clr $16
        lda $0,1($31)
        callsys
adding:
        addq/v $1,$2,$3
        nop
again_adding:
        addq/v $6,$31,$7
        addq $4,0,$5
        blbs $5,again_adding
        trapb
        br dump
trapping:
        addq/v $1,$2,$3
        nop
again_trapping:
        addq/v $6,$31,$31
        addq $4,0,$5
        blbs $5,again_trapping
        trapb
        br dump
plain:
        addq/v $1,$2,$3
        nop
again_plain:
        addq $4,$6,$7
        addq $4,0,$5
        blbs $5,again_plain
        trapb
        br dump
lda:
        addq/v $1,$2,$3
        nop
again_lda:
        lda $7,1($31)
        addq $4,0,$5
        blbs $5,again_lda
        trapb
        br dump
load:
        addq/v $1,$2,$3
        nop
again_load:
        ldq $7,64($9)
        addq $4,0,$5
        blbs $5,again_load
        trapb
        br dump
store:
        addq/v $1,$2,$3
        nop
again_store:
        stq $4,64($9)
        addq $4,0,$5
        blbs $5,again_store
        trapb
        br dump
locked:
        addq/v $1,$2,$3
        nop
again_locked:
        ldq_l $7,64($9)
        addq $4,0,$5
        blbs $5,again_locked
        trapb
        br dump
conditional:
        addq/v $1,$2,$3
        nop
again_conditional:
        stq_c $7,64($9)
        addq $4,0,$5
        blbs $5,again_conditional
        trapb
        br dump
order:
        addq/v $1,$2,$3
        nop
again_order:
        mb
        addq $4,0,$5
        blbs $5,again_order
        trapb
        br dump
fetch:
        addq/v $1,$2,$3
        nop
again_fetch:
        fetch 0($9)
        addq $4,0,$5
        blbs $5,again_fetch
        trapb
        br dump
unused:
        addq/v $1,$2,$3
        nop
again_unused:
        ldq $31,1($31)
        addq $4,0,$5
        blbs $5,again_unused
        trapb
        br dump
turn:
        addq/v $1,$2,$3
        nop
again_turn:
        br $31,.+4
        addq $4,0,$5
        blbs $5,again_turn
        trapb
        br dump
ldah:
        addq/v $1,$2,$3
        nop
again_ldah:
        ldah $7,1($31)
        addq $4,0,$5
        blbs $5,again_ldah
        trapb
        br dump
ldbu:
        addq/v $1,$2,$3
        nop
again_ldbu:
        ldbu $7,64($9)
        addq $4,0,$5
        blbs $5,again_ldbu
        trapb
        br dump
bis:
        addq/v $1,$2,$3
        nop
again_bis:
        bis $31,$6,$7
        addq $4,0,$5
        blbs $5,again_bis
        trapb
        br dump
sll:
        addq/v $1,$2,$3
        nop
again_sll:
        sll $6,1,$7
        addq $4,0,$5
        blbs $5,again_sll
        trapb
        br dump
mulq:
        addq/v $1,$2,$3
        nop
again_mulq:
        mulq $6,3,$7
        addq $4,0,$5
        blbs $5,again_mulq
        trapb
        br dump
jmp:
        br $8,.+4
        lda $8,16($8)
        addq/v $1,$2,$3
        nop
again_jmp:
        jmp $31,($8)
        addq $4,0,$5
        blbs $5,again_jmp
        trapb
        br dump
sextb:
        addq/v $1,$2,$3
        nop
again_sextb:
        sextb $6,$7
        addq $4,0,$5
        blbs $5,again_sextb
        trapb
        br dump
ldl:
        addq/v $1,$2,$3
        nop
again_ldl:
        ldl $7,64($9)
        addq $4,0,$5
        blbs $5,again_ldl
        trapb
        br dump
ldl_l:
        addq/v $1,$2,$3
        nop
again_ldl_l:
        ldl_l $7,64($9)
        addq $4,0,$5
        blbs $5,again_ldl_l
        trapb
        br dump
beq:
        addq/v $1,$2,$3
        nop
again_beq:
        beq $4,.+4
        addq $4,0,$5
        blbs $5,again_beq
        trapb
        br dump
        .entry start
