# Words of all kinds in shadows, which check refuses: number 5 of 6.
        .data
cells:  .quad 0xca1ebac97bad1f68,0x662e0001e6f57713,0x6919ffeb8996cb6e,0xf1657729e04a52fd,0xa341f7d192ba69d4,0x4ce92b19fe991d62,0x8cb367e35b819e5d,0x2dca9d6ea967229b
        .zero 160
        .code
start:  ldah $9,0x1000($31)
        lda $11,-1($31)
        srl $11,1,$11
        lda $12,2($31)
again:  mov $11,$1
        lda $2,1($31)
        lda $3,-3($11)
w0:     bis $10,22,$6
w1:     eqv $5,44,$6
w2:     mull/v $5,$2,$10
w3:     imb
w4:     ldq $7,56($9)
w5:     mov $11,$2
w6:     zap $1,$6,$7
w7:     addl/v $4,$10,$3
w8:     addl/v $1,237,$4
w9:     addq/v $10,$4,$6
w10:     sextb 216,$6
w11:     mov $11,$2
w12:     mov $11,$4
w13:     stq_u $4,48($9)
w14:     ldq_u $1,48($9)
w15:     addl/v $5,67,$6
w16:     ldwu $1,56($9)
w17:     mov $11,$6
w18:     mov $11,$5
w19:     addl/v $3,$2,$3
w20:     excb
w21:     subq/v $10,$4,$2
w22:     subq/v $7,$6,$7
w23:     stq $4,32($9)
w24:     stq $7,0($9)
w25:     mskwl $6,$10,$6
w26:     stb $5,8($9)
w27:     addq/v $10,$2,$7
w28:     addq/v $5,$7,$4
w29:     stw $10,0($9)
w30:     wmb
w31:     inslh $2,$10,$4
w32:     mull/v $3,$4,$4
w33:     mov $11,$10
w34:     mulq/v $7,155,$6
w35:     mov $11,$10
w36:     stq_u $3,24($9)
w37:     ldl $3,48($9)
w38:     addl $10,$4,$6
w39:     mulq/v $1,$2,$3
w40:     mull/v $1,85,$2
w41:     trapb
w42:     insqh $5,$7,$7
w43:     ldah $3,1693($5)
w44:     mskwh $1,$6,$1
w45:     mulq/v $5,$10,$7
w46:     ldah $10,5422($4)
w47:     subq/v $6,$7,$6
w48:     subq/v $2,132,$4
w49:     br $26,w50
w50:     subq/v $7,$10,$7
w51:     stl_c $2,8($9)
w52:     subq/v $3,$3,$2
w53:     ldwu $3,32($9)
w54:     subq/v $4,$10,$7
w55:     mov $11,$3
w56:     cmovne $10,$4,$6
w57:     mulq/v $2,$10,$7
w58:     insll $5,$7,$2
w59:     ldbu $7,8($9)
w60:     subq/v $7,$3,$4
w61:     ldah $4,-23506($7)
w62:     ldl_l $7,0($9)
w63:     stb $10,40($9)
w64:     sextw $7,$2
w65:     ldah $10,-30195($1)
w66:     imb
w67:     srl $3,8,$7
w68:     sextb $1,$1
w69:     subl/v $3,12,$6
w70:     subl/v $2,$2,$10
w71:     sextw $5,$1
w72:     ldq_u $6,56($9)
w73:     mull/v $5,$7,$4
w74:     subl/v $1,$2,$10
w75:     lda $4,21206($2)
w76:     addl/v $6,$6,$4
w77:     ldq $4,48($9)
w78:     addl/v $6,$7,$10
w79:     stq_u $4,8($9)
w80:     ldwu $2,16($9)
w81:     subl/v $7,$10,$10
w82:     imb
w83:     imb
w84:     mov $11,$4
w85:     insqh $2,$2,$3
w86:     addl/v $2,$1,$4
w87:     extqh $5,69,$1
w88:     addq/v $3,$10,$1
w89:     addq/v $3,9,$4
w90:     subl/v $5,$5,$3
w91:     stw $6,56($9)
w92:     stl $6,8($9)
w93:     mov $11,$5
w94:     ldq_u $10,32($9)
w95:     beq $10,w98
w96:     inswl $6,203,$6
w97:     ldq_l $2,8($9)
w98:     cmplt $6,$1,$1
w99:     fetch 0($9)
w100:     trapb
w101:     stl_c $4,40($9)
w102:     stw $7,56($9)
w103:     s4subl $10,89,$1
w104:     excb
w105:     stq_u $3,16($9)
w106:     cmovlbs $10,$2,$3
w107:     mull/v $6,91,$6
w108:     stq $10,48($9)
w109:     subl/v $1,99,$5
w110:   trapb
        subq $12,1,$12
        bgt $12,again
        stq $0,64($9)
        stq $1,72($9)
        stq $2,80($9)
        stq $3,88($9)
        stq $4,96($9)
        stq $5,104($9)
        stq $6,112($9)
        stq $7,120($9)
        stq $10,128($9)
        stq $11,136($9)
        stq $12,144($9)
        stq $26,152($9)
        lda $0,4($31)
        lda $16,1($31)
        mov $9,$17
        lda $18,160($31)
        callsys
        xor $3,$4,$16
        lda $0,1($31)
        callsys
        .entry start
