# Words of all kinds in shadows, which check refuses: number 2 of 6.
        .data
cells:  .quad 0x987fc91e855cdff8,0xe638bca46bd70d89,0x24d015b2388fdce3,0x4706aca7215dc562,0x20835e0a7be4a807,0x95563c55a0475dd3,0x17d967b89f01d73d,0xfeefa67fb51024e2
        .zero 160
        .code
start:  ldah $9,0x1000($31)
        lda $11,-1($31)
        srl $11,1,$11
        lda $12,2($31)
again:  mov $11,$1
        lda $2,1($31)
        lda $3,-3($11)
w0:     addl/v $7,$1,$4
w1:     cmovle $1,225,$3
w2:     s4subq $5,$2,$2
w3:     mov $11,$6
w4:     mov $11,$2
w5:     mov $11,$1
w6:     mull $2,$7,$2
w7:     addl/v $1,$1,$4
w8:     addl/v $2,255,$4
w9:     excb
w10:     ldwu $1,0($9)
w11:     mskql $2,$5,$6
w12:     ldah $6,-21514($1)
w13:     stq_u $2,32($9)
w14:     ldq $4,32($9)
w15:     ldq_l $10,32($9)
w16:     stl $7,8($9)
w17:     stq $7,0($9)
w18:     mskwl $6,$6,$4
w19:     ldbu $3,16($9)
w20:     addq/v $6,223,$5
w21:     addl/v $2,66,$4
w22:     stl $7,48($9)
w23:     stl_c $10,40($9)
w24:     mov $11,$10
w25:     subq/v $3,104,$7
w26:     mov $11,$3
w27:     mov $11,$5
w28:     addq/v $7,$4,$1
w29:     extwh $10,32,$6
w30:     imb
w31:     s4subq $5,$1,$7
w32:     cmpeq $5,113,$7
w33:     ldah $4,17701($10)
w34:     bic $4,40,$2
w35:     imb
w36:     ldl $3,48($9)
w37:     subq/v $1,$2,$1
w38:     ldq_l $1,8($9)
w39:     cmplt $1,$1,$31
w40:     trapb
w41:     stw $3,56($9)
w42:     fetch 0($9)
w43:     trapb
w44:     mov $11,$1
w45:     addq/v $2,$2,$3
w46:     addq/v $10,$6,$6
w47:     addl/v $10,$2,$6
w48:     lda $6,-24179($3)
w49:     mull/v $4,$5,$5
w50:     mov $11,$1
w51:     ornot $4,$5,$2
w52:     addq/v $10,$6,$7
w53:     addl/v $10,253,$6
w54:     lda $5,18391($5)
w55:     lda $4,6928($1)
w56:     stb $3,56($9)
w57:     mb
w58:     stq_c $5,16($9)
w59:     addl/v $1,211,$5
w60:     ldq_u $2,40($9)
w61:     subl $3,$1,$31
w62:     zapnot $1,$6,$31
w63:     cmpult $4,$5,$3
w64:     ldwu $6,56($9)
w65:     mskbl $1,133,$6
w66:     mull/v $7,$2,$7
w67:     ldah $6,4374($6)
w68:     umulh $7,$5,$7
w69:     addq/v $4,$10,$7
w70:     addq/v $3,191,$5
w71:     addl/v $3,164,$2
w72:     zapnot $7,$2,$5
w73:     xor $5,$3,$6
w74:     addl/v $1,$1,$3
w75:     ldwu $4,32($9)
w76:     s8subq $5,$6,$2
w77:     excb
w78:     and $7,$6,$7
w79:     mov $11,$6
w80:     amask $5,$3
w81:     mov $11,$5
w82:     stq_u $10,40($9)
w83:     mov $11,$5
w84:     stq_u $5,16($9)
w85:     br $26,w86
w86:     extql $1,241,$7
w87:     extwl $7,$6,$7
w88:     umulh $3,$7,$4
w89:     trapb
w90:     ldq_u $10,0($9)
w91:     stl_c $1,40($9)
w92:     excb
w93:     mull/v $5,$3,$10
w94:     ldbu $5,8($9)
w95:     sll $6,76,$31
w96:     extql $5,$5,$31
w97:     lda $4,-7550($7)
w98:     ldq $1,40($9)
w99:     mulq $6,210,$2
w100:     ldl_l $2,16($9)
w101:     ldah $6,1994($2)
w102:     addq/v $2,4,$4
w103:     mull/v $7,164,$5
w104:     mov $11,$5
w105:     addq/v $5,4,$3
w106:     stl $3,32($9)
w107:     addl/v $10,249,$7
w108:     mov $11,$7
w109:     stb $5,40($9)
w110:   trapb
        subq $12,1,$12
        bgt $12,again
        stq $0,64($9)
        stq $1,72($9)
        stq $2,80($9)
        stq $3,88($9)
        stq $4,96($9)
        stq $5,104($9)
        stq $6,112($9)
        stq $7,120($9)
        stq $10,128($9)
        stq $11,136($9)
        stq $12,144($9)
        stq $26,152($9)
        lda $0,4($31)
        lda $16,1($31)
        mov $9,$17
        lda $18,160($31)
        callsys
        xor $3,$4,$16
        lda $0,1($31)
        callsys
        .entry start
