# A segment at address 0, and displacements: each bit of one, both bounds, and sums that wrap.
        .level 2
        .codebase 0x10000
        .segment 0x0
        .quad 0x0102030405060708,0x1112131415161718,0x2122232425262728
        .zero 32760
        .segment 0x10000000
        .quad 0x0,0x0,0x0,0x0,0x0,0x0,0x0,0x0
        .quad 0x8786858483828180,0x8f8e8d8c8b8a8988,0x9796959493929190,0x9f9e9d9c9b9a9998,0x1716151413121110,0x1f1e1d1c1b1a1918,0x2726252423222120,0x2f2e2d2c2b2a2928
        .zero 256
        .code
start:
        ldah $9,0x1000($31)
        lda $0,3($31)
        clr $16
        mov $9,$17
        lda $18,64($31)
        callsys
        ldq $8,0($9)
        ldq $1,8($9)
        ldq $2,16($9)
        ldq $3,24($9)
        ldq $4,32($9)
        ldq $5,40($9)
        ldq $6,48($9)
        ldq $7,56($9)
        jmp $31,($8),0
dump:
        stq $0,128($9)
        stq $1,136($9)
        stq $2,144($9)
        stq $3,152($9)
        stq $4,160($9)
        stq $5,168($9)
        stq $6,176($9)
        stq $7,184($9)
        stq $8,192($9)
        stq $9,200($9)
        stq $10,208($9)
        stq $11,216($9)
        stq $12,224($9)
        stq $13,232($9)
        stq $14,240($9)
        stq $15,248($9)
        stq $16,256($9)
        stq $17,264($9)
        stq $18,272($9)
        stq $19,280($9)
        stq $20,288($9)
        stq $21,296($9)
        stq $22,304($9)
        stq $23,312($9)
        stq $24,320($9)
        stq $25,328($9)
        stq $26,336($9)
        stq $27,344($9)
        stq $28,352($9)
        stq $29,360($9)
        stq $30,368($9)
        stq $31,376($9)
        lda $0,4($31)
        lda $16,1($31)
        lda $17,64($9)
        lda $18,320($31)
        callsys
        clr $16
        lda $0,1($31)
        callsys
ldbu_8:
        ldbu $5,8($6)
        trapb
        ldq $7,8($31)
        br dump
ldbu_m8:
        ldbu $5,-8($6)
        trapb
        ldq $7,8($31)
        br dump
ldbu_32760:
        ldbu $5,32760($6)
        trapb
        ldq $7,8($31)
        br dump
ldbu_m32768:
        ldbu $5,-32768($6)
        trapb
        ldq $7,8($31)
        br dump
ldbu_256:
        ldbu $5,256($6)
        trapb
        ldq $7,8($31)
        br dump
ldbu_m256:
        ldbu $5,-256($6)
        trapb
        ldq $7,8($31)
        br dump
ldwu_8:
        ldwu $5,8($6)
        trapb
        ldq $7,8($31)
        br dump
ldwu_m8:
        ldwu $5,-8($6)
        trapb
        ldq $7,8($31)
        br dump
ldwu_32760:
        ldwu $5,32760($6)
        trapb
        ldq $7,8($31)
        br dump
ldwu_m32768:
        ldwu $5,-32768($6)
        trapb
        ldq $7,8($31)
        br dump
ldwu_256:
        ldwu $5,256($6)
        trapb
        ldq $7,8($31)
        br dump
ldwu_m256:
        ldwu $5,-256($6)
        trapb
        ldq $7,8($31)
        br dump
ldwu_31:
        ldwu $5,16($31)
        trapb
        br dump
ldl_8:
        ldl $5,8($6)
        trapb
        ldq $7,8($31)
        br dump
ldl_m8:
        ldl $5,-8($6)
        trapb
        ldq $7,8($31)
        br dump
ldl_32760:
        ldl $5,32760($6)
        trapb
        ldq $7,8($31)
        br dump
ldl_m32768:
        ldl $5,-32768($6)
        trapb
        ldq $7,8($31)
        br dump
ldl_256:
        ldl $5,256($6)
        trapb
        ldq $7,8($31)
        br dump
ldl_m256:
        ldl $5,-256($6)
        trapb
        ldq $7,8($31)
        br dump
ldl_31:
        ldl $5,16($31)
        trapb
        br dump
ldq_8:
        ldq $5,8($6)
        trapb
        ldq $7,8($31)
        br dump
ldq_m8:
        ldq $5,-8($6)
        trapb
        ldq $7,8($31)
        br dump
ldq_32760:
        ldq $5,32760($6)
        trapb
        ldq $7,8($31)
        br dump
ldq_m32768:
        ldq $5,-32768($6)
        trapb
        ldq $7,8($31)
        br dump
ldq_256:
        ldq $5,256($6)
        trapb
        ldq $7,8($31)
        br dump
ldq_m256:
        ldq $5,-256($6)
        trapb
        ldq $7,8($31)
        br dump
ldq_31:
        ldq $5,16($31)
        trapb
        br dump
ldq_u_8:
        ldq_u $5,8($6)
        trapb
        ldq $7,8($31)
        br dump
ldq_u_m8:
        ldq_u $5,-8($6)
        trapb
        ldq $7,8($31)
        br dump
ldq_u_32760:
        ldq_u $5,32760($6)
        trapb
        ldq $7,8($31)
        br dump
ldq_u_m32768:
        ldq_u $5,-32768($6)
        trapb
        ldq $7,8($31)
        br dump
ldq_u_256:
        ldq_u $5,256($6)
        trapb
        ldq $7,8($31)
        br dump
ldq_u_m256:
        ldq_u $5,-256($6)
        trapb
        ldq $7,8($31)
        br dump
ldq_u_31:
        ldq_u $5,16($31)
        trapb
        br dump
ldl_l_8:
        ldl_l $5,8($6)
        trapb
        ldq $7,8($31)
        br dump
ldl_l_m8:
        ldl_l $5,-8($6)
        trapb
        ldq $7,8($31)
        br dump
ldl_l_32760:
        ldl_l $5,32760($6)
        trapb
        ldq $7,8($31)
        br dump
ldl_l_m32768:
        ldl_l $5,-32768($6)
        trapb
        ldq $7,8($31)
        br dump
ldl_l_256:
        ldl_l $5,256($6)
        trapb
        ldq $7,8($31)
        br dump
ldl_l_m256:
        ldl_l $5,-256($6)
        trapb
        ldq $7,8($31)
        br dump
ldl_l_31:
        ldl_l $5,16($31)
        trapb
        br dump
ldq_l_8:
        ldq_l $5,8($6)
        trapb
        ldq $7,8($31)
        br dump
ldq_l_m8:
        ldq_l $5,-8($6)
        trapb
        ldq $7,8($31)
        br dump
ldq_l_32760:
        ldq_l $5,32760($6)
        trapb
        ldq $7,8($31)
        br dump
ldq_l_m32768:
        ldq_l $5,-32768($6)
        trapb
        ldq $7,8($31)
        br dump
ldq_l_256:
        ldq_l $5,256($6)
        trapb
        ldq $7,8($31)
        br dump
ldq_l_m256:
        ldq_l $5,-256($6)
        trapb
        ldq $7,8($31)
        br dump
ldq_l_31:
        ldq_l $5,16($31)
        trapb
        br dump
stb_8:
        stb $5,8($6)
        trapb
        ldq $7,8($31)
        br dump
stb_m8:
        stb $5,-8($6)
        trapb
        ldq $7,8($31)
        br dump
stb_32760:
        stb $5,32760($6)
        trapb
        ldq $7,8($31)
        br dump
stb_m32768:
        stb $5,-32768($6)
        trapb
        ldq $7,8($31)
        br dump
stb_256:
        stb $5,256($6)
        trapb
        ldq $7,8($31)
        br dump
stb_m256:
        stb $5,-256($6)
        trapb
        ldq $7,8($31)
        br dump
stw_8:
        stw $5,8($6)
        trapb
        ldq $7,8($31)
        br dump
stw_m8:
        stw $5,-8($6)
        trapb
        ldq $7,8($31)
        br dump
stw_32760:
        stw $5,32760($6)
        trapb
        ldq $7,8($31)
        br dump
stw_m32768:
        stw $5,-32768($6)
        trapb
        ldq $7,8($31)
        br dump
stw_256:
        stw $5,256($6)
        trapb
        ldq $7,8($31)
        br dump
stw_m256:
        stw $5,-256($6)
        trapb
        ldq $7,8($31)
        br dump
stw_31:
        stw $5,16($31)
        trapb
        br dump
stl_8:
        stl $5,8($6)
        trapb
        ldq $7,8($31)
        br dump
stl_m8:
        stl $5,-8($6)
        trapb
        ldq $7,8($31)
        br dump
stl_32760:
        stl $5,32760($6)
        trapb
        ldq $7,8($31)
        br dump
stl_m32768:
        stl $5,-32768($6)
        trapb
        ldq $7,8($31)
        br dump
stl_256:
        stl $5,256($6)
        trapb
        ldq $7,8($31)
        br dump
stl_m256:
        stl $5,-256($6)
        trapb
        ldq $7,8($31)
        br dump
stl_31:
        stl $5,16($31)
        trapb
        br dump
stq_8:
        stq $5,8($6)
        trapb
        ldq $7,8($31)
        br dump
stq_m8:
        stq $5,-8($6)
        trapb
        ldq $7,8($31)
        br dump
stq_32760:
        stq $5,32760($6)
        trapb
        ldq $7,8($31)
        br dump
stq_m32768:
        stq $5,-32768($6)
        trapb
        ldq $7,8($31)
        br dump
stq_256:
        stq $5,256($6)
        trapb
        ldq $7,8($31)
        br dump
stq_m256:
        stq $5,-256($6)
        trapb
        ldq $7,8($31)
        br dump
stq_31:
        stq $5,16($31)
        trapb
        br dump
stq_u_8:
        stq_u $5,8($6)
        trapb
        ldq $7,8($31)
        br dump
stq_u_m8:
        stq_u $5,-8($6)
        trapb
        ldq $7,8($31)
        br dump
stq_u_32760:
        stq_u $5,32760($6)
        trapb
        ldq $7,8($31)
        br dump
stq_u_m32768:
        stq_u $5,-32768($6)
        trapb
        ldq $7,8($31)
        br dump
stq_u_256:
        stq_u $5,256($6)
        trapb
        ldq $7,8($31)
        br dump
stq_u_m256:
        stq_u $5,-256($6)
        trapb
        ldq $7,8($31)
        br dump
stq_u_31:
        stq_u $5,16($31)
        trapb
        br dump
stl_c_8:
        stl_c $5,8($6)
        trapb
        ldq $7,8($31)
        br dump
stl_c_m8:
        stl_c $5,-8($6)
        trapb
        ldq $7,8($31)
        br dump
stl_c_32760:
        stl_c $5,32760($6)
        trapb
        ldq $7,8($31)
        br dump
stl_c_m32768:
        stl_c $5,-32768($6)
        trapb
        ldq $7,8($31)
        br dump
stl_c_256:
        stl_c $5,256($6)
        trapb
        ldq $7,8($31)
        br dump
stl_c_m256:
        stl_c $5,-256($6)
        trapb
        ldq $7,8($31)
        br dump
stl_c_31:
        stl_c $5,16($31)
        trapb
        br dump
stq_c_8:
        stq_c $5,8($6)
        trapb
        ldq $7,8($31)
        br dump
stq_c_m8:
        stq_c $5,-8($6)
        trapb
        ldq $7,8($31)
        br dump
stq_c_32760:
        stq_c $5,32760($6)
        trapb
        ldq $7,8($31)
        br dump
stq_c_m32768:
        stq_c $5,-32768($6)
        trapb
        ldq $7,8($31)
        br dump
stq_c_256:
        stq_c $5,256($6)
        trapb
        ldq $7,8($31)
        br dump
stq_c_m256:
        stq_c $5,-256($6)
        trapb
        ldq $7,8($31)
        br dump
stq_c_31:
        stq_c $5,16($31)
        trapb
        br dump
bit_0:
        ldbu $5,1($31)
        ldbu $7,-1($6)
        trapb
        br dump
far_0:
        ldbu $5,1($6)
bit_1:
        ldbu $5,2($31)
        ldbu $7,-2($6)
        trapb
        br dump
far_1:
        ldbu $5,2($6)
bit_2:
        ldbu $5,4($31)
        ldbu $7,-4($6)
        trapb
        br dump
far_2:
        ldbu $5,4($6)
bit_3:
        ldbu $5,8($31)
        ldbu $7,-8($6)
        trapb
        br dump
far_3:
        ldbu $5,8($6)
bit_4:
        ldbu $5,16($31)
        ldbu $7,-16($6)
        trapb
        br dump
far_4:
        ldbu $5,16($6)
bit_5:
        ldbu $5,32($31)
        ldbu $7,-32($6)
        trapb
        br dump
far_5:
        ldbu $5,32($6)
bit_6:
        ldbu $5,64($31)
        ldbu $7,-64($6)
        trapb
        br dump
far_6:
        ldbu $5,64($6)
bit_7:
        ldbu $5,128($31)
        ldbu $7,-128($6)
        trapb
        br dump
far_7:
        ldbu $5,128($6)
bit_8:
        ldbu $5,256($31)
        ldbu $7,-256($6)
        trapb
        br dump
far_8:
        ldbu $5,256($6)
bit_9:
        ldbu $5,512($31)
        ldbu $7,-512($6)
        trapb
        br dump
far_9:
        ldbu $5,512($6)
bit_10:
        ldbu $5,1024($31)
        ldbu $7,-1024($6)
        trapb
        br dump
far_10:
        ldbu $5,1024($6)
bit_11:
        ldbu $5,2048($31)
        ldbu $7,-2048($6)
        trapb
        br dump
far_11:
        ldbu $5,2048($6)
bit_12:
        ldbu $5,4096($31)
        ldbu $7,-4096($6)
        trapb
        br dump
far_12:
        ldbu $5,4096($6)
bit_13:
        ldbu $5,8192($31)
        ldbu $7,-8192($6)
        trapb
        br dump
far_13:
        ldbu $5,8192($6)
bit_14:
        ldbu $5,16384($31)
        ldbu $7,-16384($6)
        trapb
        br dump
far_14:
        ldbu $5,16384($6)
        .entry start
