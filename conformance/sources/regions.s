# Two accesses to one region: to the code, of which the second would write, to what may be written, and over the ends.
        .level 2
        .codebase 0x10000
        .segment 0x0
        .zero 128
        .segment 0x10000000
        .quad 0x0,0x0,0x0,0x0,0x0,0x0,0x0,0x0
        .quad 0x8786858483828180,0x8f8e8d8c8b8a8988,0x9796959493929190,0x9f9e9d9c9b9a9998,0x1716151413121110,0x1f1e1d1c1b1a1918,0x2726252423222120,0x2f2e2d2c2b2a2928
        .zero 256
        .segment 0x10002000
        .byte 1,2,3
        .zero 10
        .code
start:
        ldah $9,0x1000($31)
        lda $0,3($31)
        clr $16
        mov $9,$17
        lda $18,64($31)
        callsys
        ldq $8,0($9)
        ldq $1,8($9)
        ldq $2,16($9)
        ldq $3,24($9)
        ldq $4,32($9)
        ldq $5,40($9)
        ldq $6,48($9)
        ldq $7,56($9)
        jmp $31,($8),0
dump:
        stq $0,128($9)
        stq $1,136($9)
        stq $2,144($9)
        stq $3,152($9)
        stq $4,160($9)
        stq $5,168($9)
        stq $6,176($9)
        stq $7,184($9)
        stq $8,192($9)
        stq $9,200($9)
        stq $10,208($9)
        stq $11,216($9)
        stq $12,224($9)
        stq $13,232($9)
        stq $14,240($9)
        stq $15,248($9)
        stq $16,256($9)
        stq $17,264($9)
        stq $18,272($9)
        stq $19,280($9)
        stq $20,288($9)
        stq $21,296($9)
        stq $22,304($9)
        stq $23,312($9)
        stq $24,320($9)
        stq $25,328($9)
        stq $26,336($9)
        stq $27,344($9)
        stq $28,352($9)
        stq $29,360($9)
        stq $30,368($9)
        stq $31,376($9)
        lda $0,4($31)
        lda $16,1($31)
        lda $17,64($9)
        lda $18,320($31)
        callsys
        clr $16
        lda $0,1($31)
        callsys
ldbu_stb:
        ldbu $7,0($6)
        mov $5,$10
        stb $10,0($6)
        br dump
ldbu_stw:
        ldbu $7,0($6)
        mov $5,$10
        stw $10,0($6)
        br dump
ldbu_stl:
        ldbu $7,0($6)
        mov $5,$10
        stl $10,0($6)
        br dump
ldbu_stq:
        ldbu $7,0($6)
        mov $5,$10
        stq $10,0($6)
        br dump
ldbu_stq_u:
        ldbu $7,0($6)
        mov $5,$10
        stq_u $10,0($6)
        br dump
ldbu_stl_c:
        ldbu $7,0($6)
        mov $5,$10
        stl_c $10,0($6)
        br dump
ldbu_stq_c:
        ldbu $7,0($6)
        mov $5,$10
        stq_c $10,0($6)
        br dump
ldbu_read:
        ldbu $7,0($6)
        lda $0,3($31)
        lda $16,0($31)
        mov $6,$17
        lda $18,8($31)
        callsys
        br dump
ldwu_stb:
        ldwu $7,0($6)
        mov $5,$10
        stb $10,0($6)
        br dump
ldwu_stw:
        ldwu $7,0($6)
        mov $5,$10
        stw $10,0($6)
        br dump
ldwu_stl:
        ldwu $7,0($6)
        mov $5,$10
        stl $10,0($6)
        br dump
ldwu_stq:
        ldwu $7,0($6)
        mov $5,$10
        stq $10,0($6)
        br dump
ldwu_stq_u:
        ldwu $7,0($6)
        mov $5,$10
        stq_u $10,0($6)
        br dump
ldwu_stl_c:
        ldwu $7,0($6)
        mov $5,$10
        stl_c $10,0($6)
        br dump
ldwu_stq_c:
        ldwu $7,0($6)
        mov $5,$10
        stq_c $10,0($6)
        br dump
ldwu_read:
        ldwu $7,0($6)
        lda $0,3($31)
        lda $16,0($31)
        mov $6,$17
        lda $18,8($31)
        callsys
        br dump
ldl_stb:
        ldl $7,0($6)
        mov $5,$10
        stb $10,0($6)
        br dump
ldl_stw:
        ldl $7,0($6)
        mov $5,$10
        stw $10,0($6)
        br dump
ldl_stl:
        ldl $7,0($6)
        mov $5,$10
        stl $10,0($6)
        br dump
ldl_stq:
        ldl $7,0($6)
        mov $5,$10
        stq $10,0($6)
        br dump
ldl_stq_u:
        ldl $7,0($6)
        mov $5,$10
        stq_u $10,0($6)
        br dump
ldl_stl_c:
        ldl $7,0($6)
        mov $5,$10
        stl_c $10,0($6)
        br dump
ldl_stq_c:
        ldl $7,0($6)
        mov $5,$10
        stq_c $10,0($6)
        br dump
ldl_read:
        ldl $7,0($6)
        lda $0,3($31)
        lda $16,0($31)
        mov $6,$17
        lda $18,8($31)
        callsys
        br dump
ldq_stb:
        ldq $7,0($6)
        mov $5,$10
        stb $10,0($6)
        br dump
ldq_stw:
        ldq $7,0($6)
        mov $5,$10
        stw $10,0($6)
        br dump
ldq_stl:
        ldq $7,0($6)
        mov $5,$10
        stl $10,0($6)
        br dump
ldq_stq:
        ldq $7,0($6)
        mov $5,$10
        stq $10,0($6)
        br dump
ldq_stq_u:
        ldq $7,0($6)
        mov $5,$10
        stq_u $10,0($6)
        br dump
ldq_stl_c:
        ldq $7,0($6)
        mov $5,$10
        stl_c $10,0($6)
        br dump
ldq_stq_c:
        ldq $7,0($6)
        mov $5,$10
        stq_c $10,0($6)
        br dump
ldq_read:
        ldq $7,0($6)
        lda $0,3($31)
        lda $16,0($31)
        mov $6,$17
        lda $18,8($31)
        callsys
        br dump
ldq_u_stb:
        ldq_u $7,0($6)
        mov $5,$10
        stb $10,0($6)
        br dump
ldq_u_stw:
        ldq_u $7,0($6)
        mov $5,$10
        stw $10,0($6)
        br dump
ldq_u_stl:
        ldq_u $7,0($6)
        mov $5,$10
        stl $10,0($6)
        br dump
ldq_u_stq:
        ldq_u $7,0($6)
        mov $5,$10
        stq $10,0($6)
        br dump
ldq_u_stq_u:
        ldq_u $7,0($6)
        mov $5,$10
        stq_u $10,0($6)
        br dump
ldq_u_stl_c:
        ldq_u $7,0($6)
        mov $5,$10
        stl_c $10,0($6)
        br dump
ldq_u_stq_c:
        ldq_u $7,0($6)
        mov $5,$10
        stq_c $10,0($6)
        br dump
ldq_u_read:
        ldq_u $7,0($6)
        lda $0,3($31)
        lda $16,0($31)
        mov $6,$17
        lda $18,8($31)
        callsys
        br dump
ldl_l_stb:
        ldl_l $7,0($6)
        mov $5,$10
        stb $10,0($6)
        br dump
ldl_l_stw:
        ldl_l $7,0($6)
        mov $5,$10
        stw $10,0($6)
        br dump
ldl_l_stl:
        ldl_l $7,0($6)
        mov $5,$10
        stl $10,0($6)
        br dump
ldl_l_stq:
        ldl_l $7,0($6)
        mov $5,$10
        stq $10,0($6)
        br dump
ldl_l_stq_u:
        ldl_l $7,0($6)
        mov $5,$10
        stq_u $10,0($6)
        br dump
ldl_l_stl_c:
        ldl_l $7,0($6)
        mov $5,$10
        stl_c $10,0($6)
        br dump
ldl_l_stq_c:
        ldl_l $7,0($6)
        mov $5,$10
        stq_c $10,0($6)
        br dump
ldl_l_read:
        ldl_l $7,0($6)
        lda $0,3($31)
        lda $16,0($31)
        mov $6,$17
        lda $18,8($31)
        callsys
        br dump
ldq_l_stb:
        ldq_l $7,0($6)
        mov $5,$10
        stb $10,0($6)
        br dump
ldq_l_stw:
        ldq_l $7,0($6)
        mov $5,$10
        stw $10,0($6)
        br dump
ldq_l_stl:
        ldq_l $7,0($6)
        mov $5,$10
        stl $10,0($6)
        br dump
ldq_l_stq:
        ldq_l $7,0($6)
        mov $5,$10
        stq $10,0($6)
        br dump
ldq_l_stq_u:
        ldq_l $7,0($6)
        mov $5,$10
        stq_u $10,0($6)
        br dump
ldq_l_stl_c:
        ldq_l $7,0($6)
        mov $5,$10
        stl_c $10,0($6)
        br dump
ldq_l_stq_c:
        ldq_l $7,0($6)
        mov $5,$10
        stq_c $10,0($6)
        br dump
ldq_l_read:
        ldq_l $7,0($6)
        lda $0,3($31)
        lda $16,0($31)
        mov $6,$17
        lda $18,8($31)
        callsys
        br dump
write_stb:
        lda $0,4($31)
        lda $16,1($31)
        mov $6,$17
        lda $18,8($31)
        callsys
        mov $5,$10
        stb $10,0($6)
        br dump
write_stw:
        lda $0,4($31)
        lda $16,1($31)
        mov $6,$17
        lda $18,8($31)
        callsys
        mov $5,$10
        stw $10,0($6)
        br dump
write_stl:
        lda $0,4($31)
        lda $16,1($31)
        mov $6,$17
        lda $18,8($31)
        callsys
        mov $5,$10
        stl $10,0($6)
        br dump
write_stq:
        lda $0,4($31)
        lda $16,1($31)
        mov $6,$17
        lda $18,8($31)
        callsys
        mov $5,$10
        stq $10,0($6)
        br dump
write_stq_u:
        lda $0,4($31)
        lda $16,1($31)
        mov $6,$17
        lda $18,8($31)
        callsys
        mov $5,$10
        stq_u $10,0($6)
        br dump
write_stl_c:
        lda $0,4($31)
        lda $16,1($31)
        mov $6,$17
        lda $18,8($31)
        callsys
        mov $5,$10
        stl_c $10,0($6)
        br dump
write_stq_c:
        lda $0,4($31)
        lda $16,1($31)
        mov $6,$17
        lda $18,8($31)
        callsys
        mov $5,$10
        stq_c $10,0($6)
        br dump
write_read:
        lda $0,4($31)
        lda $16,1($31)
        mov $6,$17
        lda $18,8($31)
        callsys
        lda $0,3($31)
        lda $16,0($31)
        mov $6,$17
        lda $18,8($31)
        callsys
        br dump
all_stb:
        ldbu $7,0($6)
        mov $5,$10
        stb $10,0($6)
        ldq $7,0($6)
        s4addq $1,$7,$1
        lda $5,77($5)
        ldwu $7,0($6)
        mov $5,$10
        stb $10,0($6)
        ldq $7,0($6)
        s4addq $1,$7,$1
        lda $5,77($5)
        ldl $7,0($6)
        mov $5,$10
        stb $10,0($6)
        ldq $7,0($6)
        s4addq $1,$7,$1
        lda $5,77($5)
        ldq $7,0($6)
        mov $5,$10
        stb $10,0($6)
        ldq $7,0($6)
        s4addq $1,$7,$1
        lda $5,77($5)
        ldq_u $7,0($6)
        mov $5,$10
        stb $10,0($6)
        ldq $7,0($6)
        s4addq $1,$7,$1
        lda $5,77($5)
        ldl_l $7,0($6)
        mov $5,$10
        stb $10,0($6)
        ldq $7,0($6)
        s4addq $1,$7,$1
        lda $5,77($5)
        ldq_l $7,0($6)
        mov $5,$10
        stb $10,0($6)
        ldq $7,0($6)
        s4addq $1,$7,$1
        lda $5,77($5)
        lda $0,4($31)
        lda $16,1($31)
        mov $6,$17
        lda $18,8($31)
        callsys
        mov $5,$10
        stb $10,0($6)
        ldq $7,0($6)
        s4addq $1,$7,$1
        lda $5,77($5)
        mov $5,$10
        stb $10,0($6)
        mov $5,$10
        stb $10,0($6)
        ldq $7,0($6)
        s4addq $1,$7,$1
        lda $5,77($5)
        mov $5,$10
        stw $10,0($6)
        mov $5,$10
        stb $10,0($6)
        ldq $7,0($6)
        s4addq $1,$7,$1
        lda $5,77($5)
        mov $5,$10
        stl $10,0($6)
        mov $5,$10
        stb $10,0($6)
        ldq $7,0($6)
        s4addq $1,$7,$1
        lda $5,77($5)
        mov $5,$10
        stq $10,0($6)
        mov $5,$10
        stb $10,0($6)
        ldq $7,0($6)
        s4addq $1,$7,$1
        lda $5,77($5)
        mov $5,$10
        stq_u $10,0($6)
        mov $5,$10
        stb $10,0($6)
        ldq $7,0($6)
        s4addq $1,$7,$1
        lda $5,77($5)
        mov $5,$10
        stl_c $10,0($6)
        mov $5,$10
        stb $10,0($6)
        ldq $7,0($6)
        s4addq $1,$7,$1
        lda $5,77($5)
        mov $5,$10
        stq_c $10,0($6)
        mov $5,$10
        stb $10,0($6)
        ldq $7,0($6)
        s4addq $1,$7,$1
        lda $5,77($5)
        lda $0,3($31)
        lda $16,0($31)
        mov $6,$17
        lda $18,8($31)
        callsys
        mov $5,$10
        stb $10,0($6)
        ldq $7,0($6)
        s4addq $1,$7,$1
        lda $5,77($5)
        br dump
all_stw:
        ldbu $7,0($6)
        mov $5,$10
        stw $10,0($6)
        ldq $7,0($6)
        s4addq $1,$7,$1
        lda $5,77($5)
        ldwu $7,0($6)
        mov $5,$10
        stw $10,0($6)
        ldq $7,0($6)
        s4addq $1,$7,$1
        lda $5,77($5)
        ldl $7,0($6)
        mov $5,$10
        stw $10,0($6)
        ldq $7,0($6)
        s4addq $1,$7,$1
        lda $5,77($5)
        ldq $7,0($6)
        mov $5,$10
        stw $10,0($6)
        ldq $7,0($6)
        s4addq $1,$7,$1
        lda $5,77($5)
        ldq_u $7,0($6)
        mov $5,$10
        stw $10,0($6)
        ldq $7,0($6)
        s4addq $1,$7,$1
        lda $5,77($5)
        ldl_l $7,0($6)
        mov $5,$10
        stw $10,0($6)
        ldq $7,0($6)
        s4addq $1,$7,$1
        lda $5,77($5)
        ldq_l $7,0($6)
        mov $5,$10
        stw $10,0($6)
        ldq $7,0($6)
        s4addq $1,$7,$1
        lda $5,77($5)
        lda $0,4($31)
        lda $16,1($31)
        mov $6,$17
        lda $18,8($31)
        callsys
        mov $5,$10
        stw $10,0($6)
        ldq $7,0($6)
        s4addq $1,$7,$1
        lda $5,77($5)
        mov $5,$10
        stb $10,0($6)
        mov $5,$10
        stw $10,0($6)
        ldq $7,0($6)
        s4addq $1,$7,$1
        lda $5,77($5)
        mov $5,$10
        stw $10,0($6)
        mov $5,$10
        stw $10,0($6)
        ldq $7,0($6)
        s4addq $1,$7,$1
        lda $5,77($5)
        mov $5,$10
        stl $10,0($6)
        mov $5,$10
        stw $10,0($6)
        ldq $7,0($6)
        s4addq $1,$7,$1
        lda $5,77($5)
        mov $5,$10
        stq $10,0($6)
        mov $5,$10
        stw $10,0($6)
        ldq $7,0($6)
        s4addq $1,$7,$1
        lda $5,77($5)
        mov $5,$10
        stq_u $10,0($6)
        mov $5,$10
        stw $10,0($6)
        ldq $7,0($6)
        s4addq $1,$7,$1
        lda $5,77($5)
        mov $5,$10
        stl_c $10,0($6)
        mov $5,$10
        stw $10,0($6)
        ldq $7,0($6)
        s4addq $1,$7,$1
        lda $5,77($5)
        mov $5,$10
        stq_c $10,0($6)
        mov $5,$10
        stw $10,0($6)
        ldq $7,0($6)
        s4addq $1,$7,$1
        lda $5,77($5)
        lda $0,3($31)
        lda $16,0($31)
        mov $6,$17
        lda $18,8($31)
        callsys
        mov $5,$10
        stw $10,0($6)
        ldq $7,0($6)
        s4addq $1,$7,$1
        lda $5,77($5)
        br dump
all_stl:
        ldbu $7,0($6)
        mov $5,$10
        stl $10,0($6)
        ldq $7,0($6)
        s4addq $1,$7,$1
        lda $5,77($5)
        ldwu $7,0($6)
        mov $5,$10
        stl $10,0($6)
        ldq $7,0($6)
        s4addq $1,$7,$1
        lda $5,77($5)
        ldl $7,0($6)
        mov $5,$10
        stl $10,0($6)
        ldq $7,0($6)
        s4addq $1,$7,$1
        lda $5,77($5)
        ldq $7,0($6)
        mov $5,$10
        stl $10,0($6)
        ldq $7,0($6)
        s4addq $1,$7,$1
        lda $5,77($5)
        ldq_u $7,0($6)
        mov $5,$10
        stl $10,0($6)
        ldq $7,0($6)
        s4addq $1,$7,$1
        lda $5,77($5)
        ldl_l $7,0($6)
        mov $5,$10
        stl $10,0($6)
        ldq $7,0($6)
        s4addq $1,$7,$1
        lda $5,77($5)
        ldq_l $7,0($6)
        mov $5,$10
        stl $10,0($6)
        ldq $7,0($6)
        s4addq $1,$7,$1
        lda $5,77($5)
        lda $0,4($31)
        lda $16,1($31)
        mov $6,$17
        lda $18,8($31)
        callsys
        mov $5,$10
        stl $10,0($6)
        ldq $7,0($6)
        s4addq $1,$7,$1
        lda $5,77($5)
        mov $5,$10
        stb $10,0($6)
        mov $5,$10
        stl $10,0($6)
        ldq $7,0($6)
        s4addq $1,$7,$1
        lda $5,77($5)
        mov $5,$10
        stw $10,0($6)
        mov $5,$10
        stl $10,0($6)
        ldq $7,0($6)
        s4addq $1,$7,$1
        lda $5,77($5)
        mov $5,$10
        stl $10,0($6)
        mov $5,$10
        stl $10,0($6)
        ldq $7,0($6)
        s4addq $1,$7,$1
        lda $5,77($5)
        mov $5,$10
        stq $10,0($6)
        mov $5,$10
        stl $10,0($6)
        ldq $7,0($6)
        s4addq $1,$7,$1
        lda $5,77($5)
        mov $5,$10
        stq_u $10,0($6)
        mov $5,$10
        stl $10,0($6)
        ldq $7,0($6)
        s4addq $1,$7,$1
        lda $5,77($5)
        mov $5,$10
        stl_c $10,0($6)
        mov $5,$10
        stl $10,0($6)
        ldq $7,0($6)
        s4addq $1,$7,$1
        lda $5,77($5)
        mov $5,$10
        stq_c $10,0($6)
        mov $5,$10
        stl $10,0($6)
        ldq $7,0($6)
        s4addq $1,$7,$1
        lda $5,77($5)
        lda $0,3($31)
        lda $16,0($31)
        mov $6,$17
        lda $18,8($31)
        callsys
        mov $5,$10
        stl $10,0($6)
        ldq $7,0($6)
        s4addq $1,$7,$1
        lda $5,77($5)
        br dump
all_stq:
        ldbu $7,0($6)
        mov $5,$10
        stq $10,0($6)
        ldq $7,0($6)
        s4addq $1,$7,$1
        lda $5,77($5)
        ldwu $7,0($6)
        mov $5,$10
        stq $10,0($6)
        ldq $7,0($6)
        s4addq $1,$7,$1
        lda $5,77($5)
        ldl $7,0($6)
        mov $5,$10
        stq $10,0($6)
        ldq $7,0($6)
        s4addq $1,$7,$1
        lda $5,77($5)
        ldq $7,0($6)
        mov $5,$10
        stq $10,0($6)
        ldq $7,0($6)
        s4addq $1,$7,$1
        lda $5,77($5)
        ldq_u $7,0($6)
        mov $5,$10
        stq $10,0($6)
        ldq $7,0($6)
        s4addq $1,$7,$1
        lda $5,77($5)
        ldl_l $7,0($6)
        mov $5,$10
        stq $10,0($6)
        ldq $7,0($6)
        s4addq $1,$7,$1
        lda $5,77($5)
        ldq_l $7,0($6)
        mov $5,$10
        stq $10,0($6)
        ldq $7,0($6)
        s4addq $1,$7,$1
        lda $5,77($5)
        lda $0,4($31)
        lda $16,1($31)
        mov $6,$17
        lda $18,8($31)
        callsys
        mov $5,$10
        stq $10,0($6)
        ldq $7,0($6)
        s4addq $1,$7,$1
        lda $5,77($5)
        mov $5,$10
        stb $10,0($6)
        mov $5,$10
        stq $10,0($6)
        ldq $7,0($6)
        s4addq $1,$7,$1
        lda $5,77($5)
        mov $5,$10
        stw $10,0($6)
        mov $5,$10
        stq $10,0($6)
        ldq $7,0($6)
        s4addq $1,$7,$1
        lda $5,77($5)
        mov $5,$10
        stl $10,0($6)
        mov $5,$10
        stq $10,0($6)
        ldq $7,0($6)
        s4addq $1,$7,$1
        lda $5,77($5)
        mov $5,$10
        stq $10,0($6)
        mov $5,$10
        stq $10,0($6)
        ldq $7,0($6)
        s4addq $1,$7,$1
        lda $5,77($5)
        mov $5,$10
        stq_u $10,0($6)
        mov $5,$10
        stq $10,0($6)
        ldq $7,0($6)
        s4addq $1,$7,$1
        lda $5,77($5)
        mov $5,$10
        stl_c $10,0($6)
        mov $5,$10
        stq $10,0($6)
        ldq $7,0($6)
        s4addq $1,$7,$1
        lda $5,77($5)
        mov $5,$10
        stq_c $10,0($6)
        mov $5,$10
        stq $10,0($6)
        ldq $7,0($6)
        s4addq $1,$7,$1
        lda $5,77($5)
        lda $0,3($31)
        lda $16,0($31)
        mov $6,$17
        lda $18,8($31)
        callsys
        mov $5,$10
        stq $10,0($6)
        ldq $7,0($6)
        s4addq $1,$7,$1
        lda $5,77($5)
        br dump
all_stq_u:
        ldbu $7,0($6)
        mov $5,$10
        stq_u $10,0($6)
        ldq $7,0($6)
        s4addq $1,$7,$1
        lda $5,77($5)
        ldwu $7,0($6)
        mov $5,$10
        stq_u $10,0($6)
        ldq $7,0($6)
        s4addq $1,$7,$1
        lda $5,77($5)
        ldl $7,0($6)
        mov $5,$10
        stq_u $10,0($6)
        ldq $7,0($6)
        s4addq $1,$7,$1
        lda $5,77($5)
        ldq $7,0($6)
        mov $5,$10
        stq_u $10,0($6)
        ldq $7,0($6)
        s4addq $1,$7,$1
        lda $5,77($5)
        ldq_u $7,0($6)
        mov $5,$10
        stq_u $10,0($6)
        ldq $7,0($6)
        s4addq $1,$7,$1
        lda $5,77($5)
        ldl_l $7,0($6)
        mov $5,$10
        stq_u $10,0($6)
        ldq $7,0($6)
        s4addq $1,$7,$1
        lda $5,77($5)
        ldq_l $7,0($6)
        mov $5,$10
        stq_u $10,0($6)
        ldq $7,0($6)
        s4addq $1,$7,$1
        lda $5,77($5)
        lda $0,4($31)
        lda $16,1($31)
        mov $6,$17
        lda $18,8($31)
        callsys
        mov $5,$10
        stq_u $10,0($6)
        ldq $7,0($6)
        s4addq $1,$7,$1
        lda $5,77($5)
        mov $5,$10
        stb $10,0($6)
        mov $5,$10
        stq_u $10,0($6)
        ldq $7,0($6)
        s4addq $1,$7,$1
        lda $5,77($5)
        mov $5,$10
        stw $10,0($6)
        mov $5,$10
        stq_u $10,0($6)
        ldq $7,0($6)
        s4addq $1,$7,$1
        lda $5,77($5)
        mov $5,$10
        stl $10,0($6)
        mov $5,$10
        stq_u $10,0($6)
        ldq $7,0($6)
        s4addq $1,$7,$1
        lda $5,77($5)
        mov $5,$10
        stq $10,0($6)
        mov $5,$10
        stq_u $10,0($6)
        ldq $7,0($6)
        s4addq $1,$7,$1
        lda $5,77($5)
        mov $5,$10
        stq_u $10,0($6)
        mov $5,$10
        stq_u $10,0($6)
        ldq $7,0($6)
        s4addq $1,$7,$1
        lda $5,77($5)
        mov $5,$10
        stl_c $10,0($6)
        mov $5,$10
        stq_u $10,0($6)
        ldq $7,0($6)
        s4addq $1,$7,$1
        lda $5,77($5)
        mov $5,$10
        stq_c $10,0($6)
        mov $5,$10
        stq_u $10,0($6)
        ldq $7,0($6)
        s4addq $1,$7,$1
        lda $5,77($5)
        lda $0,3($31)
        lda $16,0($31)
        mov $6,$17
        lda $18,8($31)
        callsys
        mov $5,$10
        stq_u $10,0($6)
        ldq $7,0($6)
        s4addq $1,$7,$1
        lda $5,77($5)
        br dump
all_stl_c:
        ldbu $7,0($6)
        mov $5,$10
        stl_c $10,0($6)
        ldq $7,0($6)
        s4addq $1,$7,$1
        lda $5,77($5)
        ldwu $7,0($6)
        mov $5,$10
        stl_c $10,0($6)
        ldq $7,0($6)
        s4addq $1,$7,$1
        lda $5,77($5)
        ldl $7,0($6)
        mov $5,$10
        stl_c $10,0($6)
        ldq $7,0($6)
        s4addq $1,$7,$1
        lda $5,77($5)
        ldq $7,0($6)
        mov $5,$10
        stl_c $10,0($6)
        ldq $7,0($6)
        s4addq $1,$7,$1
        lda $5,77($5)
        ldq_u $7,0($6)
        mov $5,$10
        stl_c $10,0($6)
        ldq $7,0($6)
        s4addq $1,$7,$1
        lda $5,77($5)
        ldl_l $7,0($6)
        mov $5,$10
        stl_c $10,0($6)
        ldq $7,0($6)
        s4addq $1,$7,$1
        lda $5,77($5)
        ldq_l $7,0($6)
        mov $5,$10
        stl_c $10,0($6)
        ldq $7,0($6)
        s4addq $1,$7,$1
        lda $5,77($5)
        lda $0,4($31)
        lda $16,1($31)
        mov $6,$17
        lda $18,8($31)
        callsys
        mov $5,$10
        stl_c $10,0($6)
        ldq $7,0($6)
        s4addq $1,$7,$1
        lda $5,77($5)
        mov $5,$10
        stb $10,0($6)
        mov $5,$10
        stl_c $10,0($6)
        ldq $7,0($6)
        s4addq $1,$7,$1
        lda $5,77($5)
        mov $5,$10
        stw $10,0($6)
        mov $5,$10
        stl_c $10,0($6)
        ldq $7,0($6)
        s4addq $1,$7,$1
        lda $5,77($5)
        mov $5,$10
        stl $10,0($6)
        mov $5,$10
        stl_c $10,0($6)
        ldq $7,0($6)
        s4addq $1,$7,$1
        lda $5,77($5)
        mov $5,$10
        stq $10,0($6)
        mov $5,$10
        stl_c $10,0($6)
        ldq $7,0($6)
        s4addq $1,$7,$1
        lda $5,77($5)
        mov $5,$10
        stq_u $10,0($6)
        mov $5,$10
        stl_c $10,0($6)
        ldq $7,0($6)
        s4addq $1,$7,$1
        lda $5,77($5)
        mov $5,$10
        stl_c $10,0($6)
        mov $5,$10
        stl_c $10,0($6)
        ldq $7,0($6)
        s4addq $1,$7,$1
        lda $5,77($5)
        mov $5,$10
        stq_c $10,0($6)
        mov $5,$10
        stl_c $10,0($6)
        ldq $7,0($6)
        s4addq $1,$7,$1
        lda $5,77($5)
        lda $0,3($31)
        lda $16,0($31)
        mov $6,$17
        lda $18,8($31)
        callsys
        mov $5,$10
        stl_c $10,0($6)
        ldq $7,0($6)
        s4addq $1,$7,$1
        lda $5,77($5)
        br dump
all_stq_c:
        ldbu $7,0($6)
        mov $5,$10
        stq_c $10,0($6)
        ldq $7,0($6)
        s4addq $1,$7,$1
        lda $5,77($5)
        ldwu $7,0($6)
        mov $5,$10
        stq_c $10,0($6)
        ldq $7,0($6)
        s4addq $1,$7,$1
        lda $5,77($5)
        ldl $7,0($6)
        mov $5,$10
        stq_c $10,0($6)
        ldq $7,0($6)
        s4addq $1,$7,$1
        lda $5,77($5)
        ldq $7,0($6)
        mov $5,$10
        stq_c $10,0($6)
        ldq $7,0($6)
        s4addq $1,$7,$1
        lda $5,77($5)
        ldq_u $7,0($6)
        mov $5,$10
        stq_c $10,0($6)
        ldq $7,0($6)
        s4addq $1,$7,$1
        lda $5,77($5)
        ldl_l $7,0($6)
        mov $5,$10
        stq_c $10,0($6)
        ldq $7,0($6)
        s4addq $1,$7,$1
        lda $5,77($5)
        ldq_l $7,0($6)
        mov $5,$10
        stq_c $10,0($6)
        ldq $7,0($6)
        s4addq $1,$7,$1
        lda $5,77($5)
        lda $0,4($31)
        lda $16,1($31)
        mov $6,$17
        lda $18,8($31)
        callsys
        mov $5,$10
        stq_c $10,0($6)
        ldq $7,0($6)
        s4addq $1,$7,$1
        lda $5,77($5)
        mov $5,$10
        stb $10,0($6)
        mov $5,$10
        stq_c $10,0($6)
        ldq $7,0($6)
        s4addq $1,$7,$1
        lda $5,77($5)
        mov $5,$10
        stw $10,0($6)
        mov $5,$10
        stq_c $10,0($6)
        ldq $7,0($6)
        s4addq $1,$7,$1
        lda $5,77($5)
        mov $5,$10
        stl $10,0($6)
        mov $5,$10
        stq_c $10,0($6)
        ldq $7,0($6)
        s4addq $1,$7,$1
        lda $5,77($5)
        mov $5,$10
        stq $10,0($6)
        mov $5,$10
        stq_c $10,0($6)
        ldq $7,0($6)
        s4addq $1,$7,$1
        lda $5,77($5)
        mov $5,$10
        stq_u $10,0($6)
        mov $5,$10
        stq_c $10,0($6)
        ldq $7,0($6)
        s4addq $1,$7,$1
        lda $5,77($5)
        mov $5,$10
        stl_c $10,0($6)
        mov $5,$10
        stq_c $10,0($6)
        ldq $7,0($6)
        s4addq $1,$7,$1
        lda $5,77($5)
        mov $5,$10
        stq_c $10,0($6)
        mov $5,$10
        stq_c $10,0($6)
        ldq $7,0($6)
        s4addq $1,$7,$1
        lda $5,77($5)
        lda $0,3($31)
        lda $16,0($31)
        mov $6,$17
        lda $18,8($31)
        callsys
        mov $5,$10
        stq_c $10,0($6)
        ldq $7,0($6)
        s4addq $1,$7,$1
        lda $5,77($5)
        br dump
all_read:
        ldbu $7,0($6)
        lda $0,3($31)
        lda $16,0($31)
        mov $6,$17
        lda $18,8($31)
        callsys
        ldq $7,0($6)
        s4addq $1,$7,$1
        lda $5,77($5)
        ldwu $7,0($6)
        lda $0,3($31)
        lda $16,0($31)
        mov $6,$17
        lda $18,8($31)
        callsys
        ldq $7,0($6)
        s4addq $1,$7,$1
        lda $5,77($5)
        ldl $7,0($6)
        lda $0,3($31)
        lda $16,0($31)
        mov $6,$17
        lda $18,8($31)
        callsys
        ldq $7,0($6)
        s4addq $1,$7,$1
        lda $5,77($5)
        ldq $7,0($6)
        lda $0,3($31)
        lda $16,0($31)
        mov $6,$17
        lda $18,8($31)
        callsys
        ldq $7,0($6)
        s4addq $1,$7,$1
        lda $5,77($5)
        ldq_u $7,0($6)
        lda $0,3($31)
        lda $16,0($31)
        mov $6,$17
        lda $18,8($31)
        callsys
        ldq $7,0($6)
        s4addq $1,$7,$1
        lda $5,77($5)
        ldl_l $7,0($6)
        lda $0,3($31)
        lda $16,0($31)
        mov $6,$17
        lda $18,8($31)
        callsys
        ldq $7,0($6)
        s4addq $1,$7,$1
        lda $5,77($5)
        ldq_l $7,0($6)
        lda $0,3($31)
        lda $16,0($31)
        mov $6,$17
        lda $18,8($31)
        callsys
        ldq $7,0($6)
        s4addq $1,$7,$1
        lda $5,77($5)
        lda $0,4($31)
        lda $16,1($31)
        mov $6,$17
        lda $18,8($31)
        callsys
        lda $0,3($31)
        lda $16,0($31)
        mov $6,$17
        lda $18,8($31)
        callsys
        ldq $7,0($6)
        s4addq $1,$7,$1
        lda $5,77($5)
        mov $5,$10
        stb $10,0($6)
        lda $0,3($31)
        lda $16,0($31)
        mov $6,$17
        lda $18,8($31)
        callsys
        ldq $7,0($6)
        s4addq $1,$7,$1
        lda $5,77($5)
        mov $5,$10
        stw $10,0($6)
        lda $0,3($31)
        lda $16,0($31)
        mov $6,$17
        lda $18,8($31)
        callsys
        ldq $7,0($6)
        s4addq $1,$7,$1
        lda $5,77($5)
        mov $5,$10
        stl $10,0($6)
        lda $0,3($31)
        lda $16,0($31)
        mov $6,$17
        lda $18,8($31)
        callsys
        ldq $7,0($6)
        s4addq $1,$7,$1
        lda $5,77($5)
        mov $5,$10
        stq $10,0($6)
        lda $0,3($31)
        lda $16,0($31)
        mov $6,$17
        lda $18,8($31)
        callsys
        ldq $7,0($6)
        s4addq $1,$7,$1
        lda $5,77($5)
        mov $5,$10
        stq_u $10,0($6)
        lda $0,3($31)
        lda $16,0($31)
        mov $6,$17
        lda $18,8($31)
        callsys
        ldq $7,0($6)
        s4addq $1,$7,$1
        lda $5,77($5)
        mov $5,$10
        stl_c $10,0($6)
        lda $0,3($31)
        lda $16,0($31)
        mov $6,$17
        lda $18,8($31)
        callsys
        ldq $7,0($6)
        s4addq $1,$7,$1
        lda $5,77($5)
        mov $5,$10
        stq_c $10,0($6)
        lda $0,3($31)
        lda $16,0($31)
        mov $6,$17
        lda $18,8($31)
        callsys
        ldq $7,0($6)
        s4addq $1,$7,$1
        lda $5,77($5)
        lda $0,3($31)
        lda $16,0($31)
        mov $6,$17
        lda $18,8($31)
        callsys
        lda $0,3($31)
        lda $16,0($31)
        mov $6,$17
        lda $18,8($31)
        callsys
        ldq $7,0($6)
        s4addq $1,$7,$1
        lda $5,77($5)
        br dump
ldbu_behind:
        ldbu $7,-1($6)
        ldbu $5,0($6)
        br dump
ldbu_before:
        ldbu $7,0($6)
        ldbu $5,-8($6)
        br dump
ldwu_behind:
        ldbu $7,-1($6)
        ldwu $5,0($6)
        br dump
ldwu_before:
        ldbu $7,0($6)
        ldwu $5,-8($6)
        br dump
ldl_behind:
        ldbu $7,-1($6)
        ldl $5,0($6)
        br dump
ldl_before:
        ldbu $7,0($6)
        ldl $5,-8($6)
        br dump
ldq_behind:
        ldbu $7,-1($6)
        ldq $5,0($6)
        br dump
ldq_before:
        ldbu $7,0($6)
        ldq $5,-8($6)
        br dump
ldq_u_behind:
        ldbu $7,-1($6)
        ldq_u $5,0($6)
        br dump
ldq_u_before:
        ldbu $7,0($6)
        ldq_u $5,-8($6)
        br dump
ldl_l_behind:
        ldbu $7,-1($6)
        ldl_l $5,0($6)
        br dump
ldl_l_before:
        ldbu $7,0($6)
        ldl_l $5,-8($6)
        br dump
ldq_l_behind:
        ldbu $7,-1($6)
        ldq_l $5,0($6)
        br dump
ldq_l_before:
        ldbu $7,0($6)
        ldq_l $5,-8($6)
        br dump
stb_behind:
        ldbu $7,-1($6)
        stb $5,0($6)
        br dump
stb_before:
        ldbu $7,0($6)
        stb $5,-8($6)
        br dump
stw_behind:
        ldbu $7,-1($6)
        stw $5,0($6)
        br dump
stw_before:
        ldbu $7,0($6)
        stw $5,-8($6)
        br dump
stl_behind:
        ldbu $7,-1($6)
        stl $5,0($6)
        br dump
stl_before:
        ldbu $7,0($6)
        stl $5,-8($6)
        br dump
stq_behind:
        ldbu $7,-1($6)
        stq $5,0($6)
        br dump
stq_before:
        ldbu $7,0($6)
        stq $5,-8($6)
        br dump
stq_u_behind:
        ldbu $7,-1($6)
        stq_u $5,0($6)
        br dump
stq_u_before:
        ldbu $7,0($6)
        stq_u $5,-8($6)
        br dump
stl_c_behind:
        ldbu $7,-1($6)
        stl_c $5,0($6)
        br dump
stl_c_before:
        ldbu $7,0($6)
        stl_c $5,-8($6)
        br dump
stq_c_behind:
        ldbu $7,-1($6)
        stq_c $5,0($6)
        br dump
stq_c_before:
        ldbu $7,0($6)
        stq_c $5,-8($6)
        br dump
twice_ldbu:
        ldbu $7,0($6)
        mov $2,$6
        subq $4,1,$4
        bgt $4,twice_ldbu
        br dump
twice_ldwu:
        ldwu $7,0($6)
        mov $2,$6
        subq $4,1,$4
        bgt $4,twice_ldwu
        br dump
twice_ldl:
        ldl $7,0($6)
        mov $2,$6
        subq $4,1,$4
        bgt $4,twice_ldl
        br dump
twice_ldq:
        ldq $7,0($6)
        mov $2,$6
        subq $4,1,$4
        bgt $4,twice_ldq
        br dump
twice_ldq_u:
        ldq_u $7,0($6)
        mov $2,$6
        subq $4,1,$4
        bgt $4,twice_ldq_u
        br dump
twice_ldl_l:
        ldl_l $7,0($6)
        mov $2,$6
        subq $4,1,$4
        bgt $4,twice_ldl_l
        br dump
twice_ldq_l:
        ldq_l $7,0($6)
        mov $2,$6
        subq $4,1,$4
        bgt $4,twice_ldq_l
        br dump
twice_write:
        lda $0,4($31)
        lda $16,1($31)
        mov $6,$17
        lda $18,8($31)
        callsys
        mov $2,$6
        subq $4,1,$4
        bgt $4,twice_write
        br dump
twice_stb:
        mov $5,$10
        stb $10,0($6)
        mov $2,$6
        subq $4,1,$4
        bgt $4,twice_stb
        br dump
twice_stw:
        mov $5,$10
        stw $10,0($6)
        mov $2,$6
        subq $4,1,$4
        bgt $4,twice_stw
        br dump
twice_stl:
        mov $5,$10
        stl $10,0($6)
        mov $2,$6
        subq $4,1,$4
        bgt $4,twice_stl
        br dump
twice_stq:
        mov $5,$10
        stq $10,0($6)
        mov $2,$6
        subq $4,1,$4
        bgt $4,twice_stq
        br dump
twice_stq_u:
        mov $5,$10
        stq_u $10,0($6)
        mov $2,$6
        subq $4,1,$4
        bgt $4,twice_stq_u
        br dump
twice_stl_c:
        mov $5,$10
        stl_c $10,0($6)
        mov $2,$6
        subq $4,1,$4
        bgt $4,twice_stl_c
        br dump
twice_stq_c:
        mov $5,$10
        stq_c $10,0($6)
        mov $2,$6
        subq $4,1,$4
        bgt $4,twice_stq_c
        br dump
twice_read:
        lda $0,3($31)
        lda $16,0($31)
        mov $6,$17
        lda $18,8($31)
        callsys
        mov $2,$6
        subq $4,1,$4
        bgt $4,twice_read
        br dump
        .entry start
