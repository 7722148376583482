# Words of all kinds in shadows, which check refuses: number 1 of 6.
        .data
cells:  .quad 0xedb7f1d5cbf15150,0xc2b9546e0f0220f3,0x32b27cadc29f12fb,0xf1d5effedcda26fb,0x8e3b7512175dbc22,0x60973af4e709be9c,0x290464c5c9307bec,0xb8d3af23681c2889
        .zero 160
        .code
start:  ldah $9,0x1000($31)
        lda $11,-1($31)
        srl $11,1,$11
        lda $12,2($31)
again:  mov $11,$1
        lda $2,1($31)
        lda $3,-3($11)
w0:     ldbu $4,0($9)
w1:     addl/v $10,$4,$3
w2:     excb
w3:     subl/v $7,204,$7
w4:     ldbu $2,48($9)
w5:     lda $3,-27723($6)
w6:     addl/v $1,$6,$7
w7:     ldwu $1,40($9)
w8:     addq/v $10,62,$10
w9:     trapb
w10:     mull/v $1,$4,$2
w11:     ldah $6,-29072($2)
w12:     extbl $10,$5,$6
w13:     wmb
w14:     excb
w15:     addl/v $5,126,$2
w16:     cmpule $2,$4,$31
w17:     imb
w18:     cmovlbc $1,$2,$2
w19:     ldl $3,32($9)
w20:     mov $11,$2
w21:     insql $10,$2,$5
w22:     addl/v $10,$1,$3
w23:     imb
w24:     addq/v $6,77,$10
w25:     addl $5,231,$5
w26:     addl/v $5,$5,$6
w27:     cmple $10,9,$7
w28:     s8subl $5,$7,$6
w29:     excb
w30:     extwh $10,2,$4
w31:     addq/v $10,53,$10
w32:     cmovlbc $6,$1,$3
w33:     addq/v $2,47,$2
w34:     stl_c $3,8($9)
w35:     cmovlbc $10,$5,$7
w36:     mull/v $1,52,$10
w37:     mulq/v $6,$10,$1
w38:     mull/v $2,$6,$2
w39:     imb
w40:     ldwu $4,24($9)
w41:     subq/v $10,$2,$5
w42:     sextb $3,$2
w43:     s8subl $5,135,$6
w44:     mov $11,$2
w45:     imb
w46:     mov $11,$2
w47:     sextw 244,$10
w48:     mskqh $7,$1,$7
w49:     sextw 248,$4
w50:     ldq_u $5,16($9)
w51:     subl/v $4,224,$3
w52:     addq/v $3,$10,$6
w53:     addq/v $6,150,$2
w54:     extbl $3,$4,$1
w55:     mull $3,88,$5
w56:     inslh $10,$10,$3
w57:     subl/v $3,$4,$2
w58:     subl/v $2,$2,$4
w59:     mull/v $5,$4,$7
w60:     ldq $3,40($9)
w61:     trapb
w62:     stq_u $10,48($9)
w63:     addq/v $7,$7,$2
w64:     ldwu $2,16($9)
w65:     imb
w66:     addq/v $5,$5,$2
w67:     msklh $6,$4,$6
w68:     mull/v $2,$3,$1
w69:     sextb $5,$4
w70:     mull/v $2,$6,$2
w71:     excb
w72:     ldq_l $7,8($9)
w73:     stw $5,32($9)
w74:     subl/v $3,$4,$2
w75:     excb
w76:     ldl $4,24($9)
w77:     imb
w78:     extwl $1,72,$31
w79:     lda $6,28839($2)
w80:     mov $11,$6
w81:     ornot $7,$4,$3
w82:     ornot $3,$10,$7
w83:     mull/v $10,$7,$3
w84:     mov $11,$10
w85:     excb
w86:     mov $11,$10
w87:     ldwu $7,24($9)
w88:     ldwu $3,8($9)
w89:     cmovle $2,163,$31
w90:     ldl_l $5,32($9)
w91:     s8subq $5,65,$2
w92:     mov $11,$5
w93:     cmple $10,200,$6
w94:     trapb
w95:     zapnot $2,$10,$6
w96:     mulq/v $6,$2,$4
w97:     mull $3,$7,$5
w98:     ldwu $10,0($9)
w99:     trapb
w100:     trapb
w101:     zap $4,$3,$2
w102:     addq/v $10,$6,$4
w103:     addq/v $10,$5,$1
w104:     mull/v $6,$6,$2
w105:     subq/v $7,46,$10
w106:     mull/v $10,$1,$2
w107:     subl/v $2,$10,$1
w108:     ldbu $10,8($9)
w109:     subq/v $2,$6,$5
w110:   trapb
        subq $12,1,$12
        bgt $12,again
        stq $0,64($9)
        stq $1,72($9)
        stq $2,80($9)
        stq $3,88($9)
        stq $4,96($9)
        stq $5,104($9)
        stq $6,112($9)
        stq $7,120($9)
        stq $10,128($9)
        stq $11,136($9)
        stq $12,144($9)
        stq $26,152($9)
        lda $0,4($31)
        lda $16,1($31)
        mov $9,$17
        lda $18,160($31)
        callsys
        xor $3,$4,$16
        lda $0,1($31)
        callsys
        .entry start
