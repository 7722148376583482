# Each load and each store, with a barrier behind it; then the bytes that the stores left go to the output.
        .data
cells:  .byte 0x80,0x81,0x82,0x83,0x84,0x85,0x86,0x87,0x88,0x89,0x8a,0x8b,0x8c,0x8d,0x8e,0x8f
        .quad 0x0123456789abcdef
area:   .byte 0x11,0x12,0x13,0x14,0x15,0x16,0x17,0x18,0x19,0x1a,0x1b,0x1c,0x1d,0x1e,0x1f,0x20
        .byte 0x21,0x22,0x23,0x24,0x25,0x26,0x27,0x28,0x29,0x2a,0x2b,0x2c,0x2d,0x2e,0x2f,0x30
        .byte 0x31,0x32,0x33,0x34,0x35,0x36,0x37,0x38,0x39,0x3a,0x3b,0x3c,0x3d,0x3e,0x3f,0x40
        .zero 24

        .code
start:  ldah $9,%hi(cells)($31)
        lda $9,%lo(cells)($9)
        lda $10,24($9)          # the area of the stores
        trapb
        lda $1,-8($30)
        ldah $2,-1($30)
        lda $3,32767($31)
        lda $4,-32768($31)
        ldah $5,32767($31)
        ldah $6,-32768($31)
        trapb
        ldbu $1,1($9)
        ldbu $2,15($9)
        trapb
        ldwu $1,2($9)
        ldwu $2,14($9)
        trapb
        ldl $1,4($9)            # its sign bit is set
        ldl $2,20($9)           # this one's isn't
        trapb
        ldq $1,8($9)
        ldq $2,-8($10)
        trapb
        ldq_u $1,11($9)
        ldq_u $2,0($9)
        ldq_u $3,7($9)
        lda $4,5($9)
        ldq_u $5,-3($4)
        trapb
        ldl_l $1,4($9)
        ldl_l $2,20($9)
        ldq_l $3,8($9)
        trapb
        ldbu $31,0($31)         # a load into R31 makes no access, wherever it points
        ldwu $31,1($31)
        ldl $31,2($31)
        ldq $31,3($31)
        ldq_u $31,0($31)
        trapb
        ldq $1,48($10)          # bytes behind the data are zeros
        ldl $2,0($27)           # code can be read
        ldq $3,-8($30)
        trapb
        ldq $1,16($9)
        stb $1,1($10)
        stb $31,2($10)
        trapb
        stw $1,4($10)
        stw $1,6($10)
        trapb
        stl $1,8($10)
        trapb
        stq $1,16($10)
        trapb
        stq_u $1,29($10)
        stq_u $31,32($10)
        trapb
        stq $1,-8($30)
        stl $1,-16($30)
        ldq $2,-8($30)
        ldq $3,-16($30)
        ldah $4,-1($30)         # the lowest bytes of the stack
        stq $1,0($4)
        ldq $5,0($4)
        trapb
        ldq $6,0($10)
        ldq $7,8($10)
        ldq $8,16($10)
        ldq $11,24($10)
        ldq $12,32($10)
        trapb
        lda $0,4($31)
        lda $16,1($31)
        mov $10,$17
        lda $18,64($31)
        callsys
        clr $16
        lda $0,1($31)
        callsys
        .entry start
