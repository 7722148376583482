# Words of all kinds in shadows, which check refuses: number 4 of 6.
        .data
cells:  .quad 0x1b38eefa6bced784,0xb8004092f9e22b92,0x8a2962679cffeb71,0xab4d6d46b16b38cb,0xa3327f4a8244d5ac,0xc5cc618b30146b25,0xe92d124dd482dde9,0xc662866ad84cf328
        .zero 160
        .code
start:  ldah $9,0x1000($31)
        lda $11,-1($31)
        srl $11,1,$11
        lda $12,2($31)
again:  mov $11,$1
        lda $2,1($31)
        lda $3,-3($11)
w0:     ldq_l $1,40($9)
w1:     addl/v $2,78,$1
w2:     cmpule $2,$6,$7
w3:     excb
w4:     imb
w5:     addq/v $7,$5,$10
w6:     excb
w7:     and $10,$3,$4
w8:     sextb $3,$1
w9:     srl $1,$6,$3
w10:     mov $11,$4
w11:     mov $11,$2
w12:     mulq/v $10,$7,$4
w13:     mull $4,$3,$7
w14:     s8subq $1,$2,$4
w15:     imb
w16:     mov $11,$6
w17:     ldl $6,0($9)
w18:     ldbu $10,0($9)
w19:     cmpult $7,$4,$6
w20:     mulq/v $1,$1,$4
w21:     mov $11,$6
w22:     amask 172,$5
w23:     ldbu $4,0($9)
w24:     s4addq $6,86,$2
w25:     sextb 253,$5
w26:     ldbu $4,40($9)
w27:     excb
w28:     imb
w29:     ldq_u $1,8($9)
w30:     mulq/v $2,$6,$6
w31:     cmpeq $3,$2,$7
w32:     lda $10,30804($3)
w33:     subl/v $7,170,$5
w34:     mulq/v $1,122,$4
w35:     excb
w36:     subl $7,$5,$1
w37:     ldbu $5,16($9)
w38:     fetch 0($9)
w39:     mb
w40:     imb
w41:     ldl_l $6,24($9)
w42:     ldl $10,16($9)
w43:     ldbu $7,48($9)
w44:     imb
w45:     mull/v $2,$10,$1
w46:     extwh $10,$4,$4
w47:     cmpbge $1,203,$6
w48:     cmovlt $2,4,$3
w49:     sll $4,$4,$4
w50:     addq/v $1,222,$2
w51:     subl/v $1,15,$2
w52:     cmovle $6,$7,$31
w53:     addq/v $4,$7,$10
w54:     mov $11,$10
w55:     stq $1,48($9)
w56:     extll $10,$3,$5
w57:     mskll $1,$10,$4
w58:     cmovlbs $1,99,$3
w59:     addq/v $10,$7,$1
w60:     wmb
w61:     stq_u $2,8($9)
w62:     ldwu $6,16($9)
w63:     ldah $3,8836($6)
w64:     mov $11,$2
w65:     bsr $26,w66
w66:     addl/v $6,188,$2
w67:     addq/v $7,$2,$3
w68:     mov $11,$6
w69:     mull/v $4,$10,$5
w70:     stq_c $3,24($9)
w71:     stq_c $1,40($9)
w72:     imb
w73:     imb
w74:     ldah $1,15475($1)
w75:     mulq $2,$5,$31
w76:     mov $11,$3
w77:     stl $6,32($9)
w78:     subl/v $1,$2,$2
w79:     stq_c $3,32($9)
w80:     mull $10,180,$4
w81:     subq/v $2,110,$10
w82:     mulq/v $6,$3,$10
w83:     addl/v $10,$10,$7
w84:     stl_c $1,40($9)
w85:     mskll $6,114,$3
w86:     ldah $3,-11784($2)
w87:     ornot $5,$4,$5
w88:     subq/v $10,$7,$4
w89:     ldq $6,40($9)
w90:     mov $11,$4
w91:     wmb
w92:     trapb
w93:     addl/v $2,97,$2
w94:     ldl $4,48($9)
w95:     ldwu $4,56($9)
w96:     subl/v $4,$4,$4
w97:     mskll $4,191,$4
w98:     ldl $5,32($9)
w99:     ldbu $10,40($9)
w100:     addl/v $7,$3,$3
w101:     stq_u $7,8($9)
w102:     subq/v $4,196,$7
w103:     subq/v $4,91,$2
w104:     addl $10,$5,$1
w105:     imb
w106:     addl/v $4,68,$10
w107:     addl/v $4,$1,$5
w108:     cmoveq $7,$5,$5
w109:     eqv $3,$1,$5
w110:   trapb
        subq $12,1,$12
        bgt $12,again
        stq $0,64($9)
        stq $1,72($9)
        stq $2,80($9)
        stq $3,88($9)
        stq $4,96($9)
        stq $5,104($9)
        stq $6,112($9)
        stq $7,120($9)
        stq $10,128($9)
        stq $11,136($9)
        stq $12,144($9)
        stq $26,152($9)
        lda $0,4($31)
        lda $16,1($31)
        mov $9,$17
        lda $18,160($31)
        callsys
        xor $3,$4,$16
        lda $0,1($31)
        callsys
        .entry start
