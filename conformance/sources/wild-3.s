# Words of all kinds in shadows, which check refuses: number 3 of 6.
        .data
cells:  .quad 0x8f0f9d8c7f51c46e,0x38b1f9a35c2855ba,0x7690be1eb8d90a1b,0x8a0cb201725c5338,0x6774d88e740f60c9,0xb0652c5806a310a8,0x10e8c67f55bc10a5,0x808332e379bd40db
        .zero 160
        .code
start:  ldah $9,0x1000($31)
        lda $11,-1($31)
        srl $11,1,$11
        lda $12,2($31)
again:  mov $11,$1
        lda $2,1($31)
        lda $3,-3($11)
w0:     imb
w1:     addl $1,200,$1
w2:     stq_c $4,0($9)
w3:     excb
w4:     subl/v $7,$7,$4
w5:     ldq_u $3,32($9)
w6:     subl/v $3,$1,$7
w7:     cmovlbc $6,220,$7
w8:     subq/v $3,$5,$4
w9:     ldq_u $3,56($9)
w10:     mov $11,$6
w11:     ldah $7,-31778($3)
w12:     stq $6,48($9)
w13:     excb
w14:     extqh $6,54,$1
w15:     ldl $7,8($9)
w16:     cmpbge $10,$6,$5
w17:     ldwu $5,48($9)
w18:     mull/v $4,243,$5
w19:     mov $11,$1
w20:     cmpbge $6,242,$4
w21:     stw $3,32($9)
w22:     subl/v $2,$4,$4
w23:     mov $11,$4
w24:     addl/v $2,198,$6
w25:     stq_c $4,48($9)
w26:     s8addl $6,22,$3
w27:     mulq/v $7,$10,$1
w28:     stw $2,8($9)
w29:     excb
w30:     mov $11,$10
w31:     ldl $5,56($9)
w32:     ldl $2,8($9)
w33:     sra $1,$6,$6
w34:     stq_c $10,56($9)
w35:     fetch 0($9)
w36:     subq/v $2,$3,$7
w37:     excb
w38:     s8addq $3,$6,$7
w39:     ldwu $2,32($9)
w40:     subq/v $6,$6,$3
w41:     mulq/v $2,$10,$10
w42:     s4addq $4,$5,$6
w43:     bgt $10,w44
w44:     mov $11,$5
w45:     ldwu $1,16($9)
w46:     trapb
w47:     mov $11,$6
w48:     and $10,$3,$4
w49:     mov $11,$10
w50:     ldwu $3,24($9)
w51:     imb
w52:     trapb
w53:     subq/v $1,$5,$5
w54:     subl/v $3,239,$5
w55:     ldah $1,23377($6)
w56:     s8addl $7,$7,$1
w57:     excb
w58:     eqv $7,$1,$3
w59:     addl/v $4,$10,$5
w60:     addl/v $3,$10,$2
w61:     subq/v $1,$6,$2
w62:     addl/v $6,$3,$7
w63:     ldwu $7,16($9)
w64:     amask $1,$5
w65:     mull/v $6,$3,$5
w66:     cmplt $5,$3,$6
w67:     mulq/v $6,$2,$10
w68:     ldq $2,40($9)
w69:     imb
w70:     bge $10,w72
w71:     subl/v $6,$2,$10
w72:     mull/v $4,65,$6
w73:     imb
w74:     cmovlbs $5,$5,$2
w75:     ldbu $6,16($9)
w76:     excb
w77:     fetch 0($9)
w78:     ldq_u $7,24($9)
w79:     stq_u $6,56($9)
w80:     mull/v $6,$1,$2
w81:     stl $10,16($9)
w82:     imb
w83:     addl/v $3,$4,$6
w84:     trapb
w85:     mulq/v $5,65,$5
w86:     imb
w87:     mull/v $5,$10,$3
w88:     addl/v $5,$7,$4
w89:     trapb
w90:     ldwu $3,56($9)
w91:     mull/v $1,$2,$2
w92:     subq/v $1,95,$4
w93:     ldbu $6,40($9)
w94:     mulq/v $6,$3,$6
w95:     imb
w96:     imb
w97:     stq $6,56($9)
w98:     cmovgt $1,$10,$31
w99:     bsr $26,w100
w100:     cmpule $6,$10,$5
w101:     mov $11,$5
w102:     mulq/v $1,7,$2
w103:     xor $3,$2,$4
w104:     fetch_m 0($9)
w105:     mov $11,$1
w106:     mov $11,$3
w107:     addl/v $10,95,$2
w108:     subq/v $3,75,$1
w109:     mull/v $2,$7,$7
w110:   trapb
        subq $12,1,$12
        bgt $12,again
        stq $0,64($9)
        stq $1,72($9)
        stq $2,80($9)
        stq $3,88($9)
        stq $4,96($9)
        stq $5,104($9)
        stq $6,112($9)
        stq $7,120($9)
        stq $10,128($9)
        stq $11,136($9)
        stq $12,144($9)
        stq $26,152($9)
        lda $0,4($31)
        lda $16,1($31)
        mov $9,$17
        lda $18,160($31)
        callsys
        xor $3,$4,$16
        lda $0,1($31)
        callsys
        .entry start
