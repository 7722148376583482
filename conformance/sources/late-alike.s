# While a trap is pending: accesses whose two registers are one, and values of 0 that are drawn.
        .level 2
        .codebase 0x10000
        .segment 0x0
        .zero 128
        .segment 0x10000000
        .quad 0x0,0x0,0x0,0x0,0x0,0x0,0x0,0x0
        .quad 0x8786858483828180,0x8f8e8d8c8b8a8988,0x9796959493929190,0x9f9e9d9c9b9a9998,0x1716151413121110,0x1f1e1d1c1b1a1918,0x2726252423222120,0x2f2e2d2c2b2a2928
        .zero 256
        .code
start:
        ldah $9,0x1000($31)
        lda $0,3($31)
        clr $16
        mov $9,$17
        lda $18,64($31)
        callsys
        ldq $8,0($9)
        ldq $1,8($9)
        ldq $2,16($9)
        ldq $3,24($9)
        ldq $4,32($9)
        ldq $5,40($9)
        ldq $6,48($9)
        ldq $7,56($9)
        jmp $31,($8),0
dump:
        stq $0,128($9)
        stq $1,136($9)
        stq $2,144($9)
        stq $3,152($9)
        stq $4,160($9)
        stq $5,168($9)
        stq $6,176($9)
        stq $7,184($9)
        stq $8,192($9)
        stq $9,200($9)
        stq $10,208($9)
        stq $11,216($9)
        stq $12,224($9)
        stq $13,232($9)
        stq $14,240($9)
        stq $15,248($9)
        stq $16,256($9)
        stq $17,264($9)
        stq $18,272($9)
        stq $19,280($9)
        stq $20,288($9)
        stq $21,296($9)
        stq $22,304($9)
        stq $23,312($9)
        stq $24,320($9)
        stq $25,328($9)
        stq $26,336($9)
        stq $27,344($9)
        stq $28,352($9)
        stq $29,360($9)
        stq $30,368($9)
        stq $31,376($9)
        lda $0,4($31)
        lda $16,1($31)
        lda $17,64($9)
        lda $18,320($31)
        callsys
        clr $16
        lda $0,1($31)
        callsys
ldbu_plain:
        nop
        addq/v $1,$2,$3
        ldbu $6,8($6)
        addq/v $1,$2,$3
        trapb
        br dump
ldwu_plain:
        nop
        addq/v $1,$2,$3
        ldwu $6,8($6)
        addq/v $1,$2,$3
        trapb
        br dump
ldl_plain:
        nop
        addq/v $1,$2,$3
        ldl $6,8($6)
        addq/v $1,$2,$3
        trapb
        br dump
ldq_plain:
        nop
        addq/v $1,$2,$3
        ldq $6,8($6)
        addq/v $1,$2,$3
        trapb
        br dump
ldq_u_plain:
        nop
        addq/v $1,$2,$3
        ldq_u $6,8($6)
        addq/v $1,$2,$3
        trapb
        br dump
ldl_l_plain:
        nop
        addq/v $1,$2,$3
        ldl_l $6,8($6)
        addq/v $1,$2,$3
        trapb
        br dump
ldq_l_plain:
        nop
        addq/v $1,$2,$3
        ldq_l $6,8($6)
        addq/v $1,$2,$3
        trapb
        br dump
stb_plain:
        nop
        addq/v $1,$2,$3
        stb $6,8($6)
        addq/v $1,$2,$3
        trapb
        br dump
stw_plain:
        nop
        addq/v $1,$2,$3
        stw $6,8($6)
        addq/v $1,$2,$3
        trapb
        br dump
stl_plain:
        nop
        addq/v $1,$2,$3
        stl $6,8($6)
        addq/v $1,$2,$3
        trapb
        br dump
stq_plain:
        nop
        addq/v $1,$2,$3
        stq $6,8($6)
        addq/v $1,$2,$3
        trapb
        br dump
stq_u_plain:
        nop
        addq/v $1,$2,$3
        stq_u $6,8($6)
        addq/v $1,$2,$3
        trapb
        br dump
stl_c_locked:
        ldq_l $7,64($9)
        addq/v $1,$2,$3
        stl_c $6,8($6)
        addq/v $1,$2,$3
        trapb
        br dump
stl_c_plain:
        nop
        addq/v $1,$2,$3
        stl_c $6,8($6)
        addq/v $1,$2,$3
        trapb
        br dump
stq_c_locked:
        ldq_l $7,64($9)
        addq/v $1,$2,$3
        stq_c $6,8($6)
        addq/v $1,$2,$3
        trapb
        br dump
stq_c_plain:
        nop
        addq/v $1,$2,$3
        stq_c $6,8($6)
        addq/v $1,$2,$3
        trapb
        br dump
ldl_l_stl_c:
        ldq_l $7,112($9)
        addq/v $1,$2,$3
        ldl_l $6,8($6)
        stl_c $4,72($9)
        addq/v $1,$2,$3
        trapb
        br dump
ldl_l_stq_c:
        ldq_l $7,112($9)
        addq/v $1,$2,$3
        ldl_l $6,8($6)
        stq_c $4,72($9)
        addq/v $1,$2,$3
        trapb
        br dump
ldq_l_stl_c:
        ldq_l $7,112($9)
        addq/v $1,$2,$3
        ldq_l $6,8($6)
        stl_c $4,72($9)
        addq/v $1,$2,$3
        trapb
        br dump
ldq_l_stq_c:
        ldq_l $7,112($9)
        addq/v $1,$2,$3
        ldq_l $6,8($6)
        stq_c $4,72($9)
        addq/v $1,$2,$3
        trapb
        br dump
zero_addq:
        lda $7,16($8)
        lda $5,85($31)
        addq/v $1,$2,$3
        addq $4,$6,$5
        addq/v $1,$2,$3
        trapb
        br dump
zero_addl_v:
        lda $7,16($8)
        lda $5,85($31)
        addq/v $1,$2,$3
        addl/v $4,$6,$5
        addq/v $1,$2,$3
        trapb
        br dump
zero_cmoveq:
        lda $7,16($8)
        lda $5,85($31)
        addq/v $1,$2,$3
        cmoveq $4,$6,$5
        addq/v $1,$2,$3
        trapb
        br dump
zero_cmovne:
        lda $7,16($8)
        lda $5,85($31)
        addq/v $1,$2,$3
        cmovne $4,$6,$5
        addq/v $1,$2,$3
        trapb
        br dump
zero_implver:
        lda $7,16($8)
        lda $5,85($31)
        addq/v $1,$2,$3
        implver $5
        addq/v $1,$2,$3
        trapb
        br dump
zero_mulq:
        lda $7,16($8)
        lda $5,85($31)
        addq/v $1,$2,$3
        mulq $4,$6,$5
        addq/v $1,$2,$3
        trapb
        br dump
zero_sextb:
        lda $7,16($8)
        lda $5,85($31)
        addq/v $1,$2,$3
        sextb $6,$5
        addq/v $1,$2,$3
        trapb
        br dump
zero_lda:
        lda $7,16($8)
        lda $5,85($31)
        addq/v $1,$2,$3
        lda $5,8($6)
        addq/v $1,$2,$3
        trapb
        br dump
zero_ldah:
        lda $7,16($8)
        lda $5,85($31)
        addq/v $1,$2,$3
        ldah $5,8($6)
        addq/v $1,$2,$3
        trapb
        br dump
zero_br:
        lda $7,16($8)
        lda $5,85($31)
        addq/v $1,$2,$3
        br $5,.+4
        addq/v $1,$2,$3
        trapb
        br dump
zero_jsr:
        lda $7,16($8)
        lda $5,85($31)
        addq/v $1,$2,$3
        jsr $5,($7)
        addq/v $1,$2,$3
        trapb
        br dump
own:
        addq/v $3,$2,$3
        nop
        trapb
        br dump
ldbu_own:
        ldq_l $7,80($9)
        addq/v $1,$2,$3
        ldbu $5,88($9)
        stq_c $4,80($9)
        addq/v $1,$2,$3
        trapb
        br dump
ldwu_own:
        ldq_l $7,80($9)
        addq/v $1,$2,$3
        ldwu $5,88($9)
        stq_c $4,80($9)
        addq/v $1,$2,$3
        trapb
        br dump
ldl_own:
        ldq_l $7,80($9)
        addq/v $1,$2,$3
        ldl $5,88($9)
        stq_c $4,80($9)
        addq/v $1,$2,$3
        trapb
        br dump
ldq_own:
        ldq_l $7,80($9)
        addq/v $1,$2,$3
        ldq $5,88($9)
        stq_c $4,80($9)
        addq/v $1,$2,$3
        trapb
        br dump
ldq_u_own:
        ldq_l $7,80($9)
        addq/v $1,$2,$3
        ldq_u $5,88($9)
        stq_c $4,80($9)
        addq/v $1,$2,$3
        trapb
        br dump
stb_own:
        ldq_l $7,80($9)
        addq/v $1,$2,$3
        stb $5,88($9)
        stq_c $4,80($9)
        addq/v $1,$2,$3
        trapb
        br dump
stw_own:
        ldq_l $7,80($9)
        addq/v $1,$2,$3
        stw $5,88($9)
        stq_c $4,80($9)
        addq/v $1,$2,$3
        trapb
        br dump
stl_own:
        ldq_l $7,80($9)
        addq/v $1,$2,$3
        stl $5,88($9)
        stq_c $4,80($9)
        addq/v $1,$2,$3
        trapb
        br dump
stq_own:
        ldq_l $7,80($9)
        addq/v $1,$2,$3
        stq $5,88($9)
        stq_c $4,80($9)
        addq/v $1,$2,$3
        trapb
        br dump
stq_u_own:
        ldq_l $7,80($9)
        addq/v $1,$2,$3
        stq_u $5,88($9)
        stq_c $4,80($9)
        addq/v $1,$2,$3
        trapb
        br dump
ldl_l_stl_c_low:
        ldl_l $7,8($31)
        addq/v $1,$2,$3
        stl_c $4,0($31)
        addq/v $1,$2,$3
        trapb
        ldq $6,0($31)
        br dump
ldl_l_stq_c_low:
        ldl_l $7,8($31)
        addq/v $1,$2,$3
        stq_c $4,0($31)
        addq/v $1,$2,$3
        trapb
        ldq $6,0($31)
        br dump
ldq_l_stl_c_low:
        ldq_l $7,8($31)
        addq/v $1,$2,$3
        stl_c $4,0($31)
        addq/v $1,$2,$3
        trapb
        ldq $6,0($31)
        br dump
ldq_l_stq_c_low:
        ldq_l $7,8($31)
        addq/v $1,$2,$3
        stq_c $4,0($31)
        addq/v $1,$2,$3
        trapb
        ldq $6,0($31)
        br dump
low_late:
        addq/v $1,$2,$3
        ldq_l $7,8($31)
        stq_c $4,0($31)
        addq/v $1,$2,$3
        trapb
        ldq $6,0($31)
        br dump
unique:
        mov $4,$16
        wrunique
        addq/v $1,$2,$3
        nop
        trapb
        rdunique
        mov $0,$7
        br dump
anew:
        addq/v $1,$2,$3
        trapb
        mov $4,$1
        subq $6,1,$6
        bgt $6,anew
        br dump
same:
        addq/v $1,$2,$3
        addq/v $4,$6,$3
        addq/v $4,$6,$3
        trapb
        br dump
        .entry start
