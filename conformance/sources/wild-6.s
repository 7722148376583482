# Words of all kinds in shadows, which check refuses: number 6 of 6.
        .data
cells:  .quad 0xe4bd00558bc15e5,0x71985eb13a883919,0x3485b84b032c273f,0x93dfb4b3ee4aae02,0xa8cb25ba529050a6,0xc42192ad002d93dc,0xe625bc4535b00495,0xe4d3f28a84990a81
        .zero 160
        .code
start:  ldah $9,0x1000($31)
        lda $11,-1($31)
        srl $11,1,$11
        lda $12,2($31)
again:  mov $11,$1
        lda $2,1($31)
        lda $3,-3($11)
w0:     s4subl $5,$3,$2
w1:     mov $11,$1
w2:     trapb
w3:     excb
w4:     mulq/v $10,$6,$6
w5:     ldq_u $5,48($9)
w6:     ldah $2,-6171($2)
w7:     mov $11,$6
w8:     ldah $1,15369($1)
w9:     s8addl $3,$4,$1
w10:     s8subl $10,160,$2
w11:     subq/v $7,$10,$3
w12:     subl/v $4,$2,$10
w13:     mov $11,$5
w14:     addl/v $10,$3,$5
w15:     mov $11,$7
w16:     mull/v $2,$5,$1
w17:     addq/v $3,$3,$6
w18:     addl/v $6,$1,$1
w19:     ornot $5,$7,$6
w20:     mov $11,$1
w21:     mov $11,$1
w22:     addq/v $10,$7,$3
w23:     addq/v $6,$1,$10
w24:     addl/v $4,$3,$10
w25:     subl/v $7,42,$1
w26:     msklh $4,196,$4
w27:     subl/v $10,$2,$7
w28:     addq $10,$10,$1
w29:     mull/v $7,$1,$31
w30:     umulh $5,$3,$5
w31:     trapb
w32:     lda $4,28431($5)
w33:     stb $4,8($9)
w34:     mov $11,$2
w35:     stw $4,48($9)
w36:     stw $3,24($9)
w37:     mov $11,$1
w38:     ldwu $2,56($9)
w39:     mov $11,$4
w40:     mulq/v $1,$6,$3
w41:     mskql $3,$10,$7
w42:     ldah $3,-31577($7)
w43:     mov $11,$3
w44:     ldl_l $3,40($9)
w45:     subl/v $7,$7,$7
w46:     excb
w47:     mulq/v $3,$1,$10
w48:     ldq_u $3,32($9)
w49:     cmovge $5,$3,$4
w50:     stq_u $10,0($9)
w51:     extqh $1,$2,$4
w52:     imb
w53:     ldq_l $7,0($9)
w54:     ldbu $2,48($9)
w55:     mulq $6,$7,$31
w56:     s4subq $2,245,$31
w57:     bsr $26,w58
w58:     mulq/v $10,$3,$6
w59:     ldq $6,48($9)
w60:     mov $11,$7
w61:     sextb $1,$1
w62:     mulq/v $6,32,$4
w63:     mov $11,$10
w64:     extwh $7,2,$31
w65:     subl/v $5,$3,$6
w66:     sextb $7,$10
w67:     ldq_u $7,48($9)
w68:     subq/v $7,$7,$5
w69:     lda $2,-796($10)
w70:     imb
w71:     subq/v $4,$6,$6
w72:     addl/v $6,193,$10
w73:     stq_c $2,0($9)
w74:     ldq $3,40($9)
w75:     addq/v $6,$5,$2
w76:     cmplt $3,120,$6
w77:     mull/v $7,$6,$10
w78:     trapb
w79:     ldq_u $4,32($9)
w80:     stq $10,16($9)
w81:     cmpeq $7,$4,$4
w82:     msklh $2,51,$5
w83:     imb
w84:     addl/v $5,$2,$3
w85:     mulq/v $1,$6,$3
w86:     trapb
w87:     insll $4,$7,$1
w88:     imb
w89:     mov $11,$7
w90:     ornot $10,209,$5
w91:     mov $11,$7
w92:     stq $6,40($9)
w93:     mov $11,$4
w94:     inslh $3,$4,$6
w95:     stq_c $2,32($9)
w96:     subq $1,108,$7
w97:     stq $2,24($9)
w98:     ornot $2,232,$4
w99:     subq/v $7,$7,$2
w100:     stq $2,8($9)
w101:     addq/v $5,$4,$10
w102:     stb $6,56($9)
w103:     ldq_l $2,32($9)
w104:     stw $3,32($9)
w105:     excb
w106:     subl/v $10,$6,$10
w107:     addl/v $2,$4,$7
w108:     stw $5,32($9)
w109:     cmovge $3,$5,$31
w110:   trapb
        subq $12,1,$12
        bgt $12,again
        stq $0,64($9)
        stq $1,72($9)
        stq $2,80($9)
        stq $3,88($9)
        stq $4,96($9)
        stq $5,104($9)
        stq $6,112($9)
        stq $7,120($9)
        stq $10,128($9)
        stq $11,136($9)
        stq $12,144($9)
        stq $26,152($9)
        lda $0,4($31)
        lda $16,1($31)
        mov $9,$17
        lda $18,160($31)
        callsys
        xor $3,$4,$16
        lda $0,1($31)
        callsys
        .entry start
