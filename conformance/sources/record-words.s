# Behind each word of a shadow, and behind each register's own overflow, what it left is put: so a recorded run shows
# each value that it drew.
        .level 2
        .segment 0x10000000
        .zero 1712
        .code
start:  ldah $9,0x1000($31)
        lda $1,-1($31)
        srl $1,1,$1
        lda $2,1($31)
        lda $4,5($31)
        lda $6,3($31)
        stq $31,64($9)
        ldq_l $10,64($9)
        addq/v $1,$2,$3
        addl $4,$6,$5
        addq/v $1,$2,$3
        trapb
        stq $5,128($9)
        stq $31,64($9)
        ldq_l $10,64($9)
        addq/v $1,$2,$3
        s4addl $4,$6,$5
        addq/v $1,$2,$3
        trapb
        stq $5,136($9)
        stq $31,64($9)
        ldq_l $10,64($9)
        addq/v $1,$2,$3
        subl $4,$6,$5
        addq/v $1,$2,$3
        trapb
        stq $5,144($9)
        stq $31,64($9)
        ldq_l $10,64($9)
        addq/v $1,$2,$3
        s4subl $4,$6,$5
        addq/v $1,$2,$3
        trapb
        stq $5,152($9)
        stq $31,64($9)
        ldq_l $10,64($9)
        addq/v $1,$2,$3
        cmpbge $4,$6,$5
        addq/v $1,$2,$3
        trapb
        stq $5,160($9)
        stq $31,64($9)
        ldq_l $10,64($9)
        addq/v $1,$2,$3
        s8addl $4,$6,$5
        addq/v $1,$2,$3
        trapb
        stq $5,168($9)
        stq $31,64($9)
        ldq_l $10,64($9)
        addq/v $1,$2,$3
        s8subl $4,$6,$5
        addq/v $1,$2,$3
        trapb
        stq $5,176($9)
        stq $31,64($9)
        ldq_l $10,64($9)
        addq/v $1,$2,$3
        cmpult $4,$6,$5
        addq/v $1,$2,$3
        trapb
        stq $5,184($9)
        stq $31,64($9)
        ldq_l $10,64($9)
        addq/v $1,$2,$3
        addq $4,$6,$5
        addq/v $1,$2,$3
        trapb
        stq $5,192($9)
        stq $31,64($9)
        ldq_l $10,64($9)
        addq/v $1,$2,$3
        s4addq $4,$6,$5
        addq/v $1,$2,$3
        trapb
        stq $5,200($9)
        stq $31,64($9)
        ldq_l $10,64($9)
        addq/v $1,$2,$3
        subq $4,$6,$5
        addq/v $1,$2,$3
        trapb
        stq $5,208($9)
        stq $31,64($9)
        ldq_l $10,64($9)
        addq/v $1,$2,$3
        s4subq $4,$6,$5
        addq/v $1,$2,$3
        trapb
        stq $5,216($9)
        stq $31,64($9)
        ldq_l $10,64($9)
        addq/v $1,$2,$3
        cmpeq $4,$6,$5
        addq/v $1,$2,$3
        trapb
        stq $5,224($9)
        stq $31,64($9)
        ldq_l $10,64($9)
        addq/v $1,$2,$3
        s8addq $4,$6,$5
        addq/v $1,$2,$3
        trapb
        stq $5,232($9)
        stq $31,64($9)
        ldq_l $10,64($9)
        addq/v $1,$2,$3
        s8subq $4,$6,$5
        addq/v $1,$2,$3
        trapb
        stq $5,240($9)
        stq $31,64($9)
        ldq_l $10,64($9)
        addq/v $1,$2,$3
        cmpule $4,$6,$5
        addq/v $1,$2,$3
        trapb
        stq $5,248($9)
        stq $31,64($9)
        ldq_l $10,64($9)
        addq/v $1,$2,$3
        addl/v $4,$6,$5
        addq/v $1,$2,$3
        trapb
        stq $5,256($9)
        stq $31,64($9)
        ldq_l $10,64($9)
        addq/v $1,$2,$3
        subl/v $4,$6,$5
        addq/v $1,$2,$3
        trapb
        stq $5,264($9)
        stq $31,64($9)
        ldq_l $10,64($9)
        addq/v $1,$2,$3
        cmplt $4,$6,$5
        addq/v $1,$2,$3
        trapb
        stq $5,272($9)
        stq $31,64($9)
        ldq_l $10,64($9)
        addq/v $1,$2,$3
        addq/v $4,$6,$5
        addq/v $1,$2,$3
        trapb
        stq $5,280($9)
        stq $31,64($9)
        ldq_l $10,64($9)
        addq/v $1,$2,$3
        subq/v $4,$6,$5
        addq/v $1,$2,$3
        trapb
        stq $5,288($9)
        stq $31,64($9)
        ldq_l $10,64($9)
        addq/v $1,$2,$3
        cmple $4,$6,$5
        addq/v $1,$2,$3
        trapb
        stq $5,296($9)
        stq $31,64($9)
        ldq_l $10,64($9)
        addq/v $1,$2,$3
        and $4,$6,$5
        addq/v $1,$2,$3
        trapb
        stq $5,304($9)
        stq $31,64($9)
        ldq_l $10,64($9)
        addq/v $1,$2,$3
        bic $4,$6,$5
        addq/v $1,$2,$3
        trapb
        stq $5,312($9)
        stq $31,64($9)
        ldq_l $10,64($9)
        addq/v $1,$2,$3
        cmovlbs $4,$6,$5
        addq/v $1,$2,$3
        trapb
        stq $5,320($9)
        stq $31,64($9)
        ldq_l $10,64($9)
        addq/v $1,$2,$3
        cmovlbc $4,$6,$5
        addq/v $1,$2,$3
        trapb
        stq $5,328($9)
        stq $31,64($9)
        ldq_l $10,64($9)
        addq/v $1,$2,$3
        bis $4,$6,$5
        addq/v $1,$2,$3
        trapb
        stq $5,336($9)
        stq $31,64($9)
        ldq_l $10,64($9)
        addq/v $1,$2,$3
        cmoveq $4,$6,$5
        addq/v $1,$2,$3
        trapb
        stq $5,344($9)
        stq $31,64($9)
        ldq_l $10,64($9)
        addq/v $1,$2,$3
        cmovne $4,$6,$5
        addq/v $1,$2,$3
        trapb
        stq $5,352($9)
        stq $31,64($9)
        ldq_l $10,64($9)
        addq/v $1,$2,$3
        ornot $4,$6,$5
        addq/v $1,$2,$3
        trapb
        stq $5,360($9)
        stq $31,64($9)
        ldq_l $10,64($9)
        addq/v $1,$2,$3
        xor $4,$6,$5
        addq/v $1,$2,$3
        trapb
        stq $5,368($9)
        stq $31,64($9)
        ldq_l $10,64($9)
        addq/v $1,$2,$3
        cmovlt $4,$6,$5
        addq/v $1,$2,$3
        trapb
        stq $5,376($9)
        stq $31,64($9)
        ldq_l $10,64($9)
        addq/v $1,$2,$3
        cmovge $4,$6,$5
        addq/v $1,$2,$3
        trapb
        stq $5,384($9)
        stq $31,64($9)
        ldq_l $10,64($9)
        addq/v $1,$2,$3
        eqv $4,$6,$5
        addq/v $1,$2,$3
        trapb
        stq $5,392($9)
        stq $31,64($9)
        ldq_l $10,64($9)
        addq/v $1,$2,$3
        amask $6,$5
        addq/v $1,$2,$3
        trapb
        stq $5,400($9)
        stq $31,64($9)
        ldq_l $10,64($9)
        addq/v $1,$2,$3
        cmovle $4,$6,$5
        addq/v $1,$2,$3
        trapb
        stq $5,408($9)
        stq $31,64($9)
        ldq_l $10,64($9)
        addq/v $1,$2,$3
        cmovgt $4,$6,$5
        addq/v $1,$2,$3
        trapb
        stq $5,416($9)
        stq $31,64($9)
        ldq_l $10,64($9)
        addq/v $1,$2,$3
        implver $5
        addq/v $1,$2,$3
        trapb
        stq $5,424($9)
        stq $31,64($9)
        ldq_l $10,64($9)
        addq/v $1,$2,$3
        mskbl $4,$6,$5
        addq/v $1,$2,$3
        trapb
        stq $5,432($9)
        stq $31,64($9)
        ldq_l $10,64($9)
        addq/v $1,$2,$3
        extbl $4,$6,$5
        addq/v $1,$2,$3
        trapb
        stq $5,440($9)
        stq $31,64($9)
        ldq_l $10,64($9)
        addq/v $1,$2,$3
        insbl $4,$6,$5
        addq/v $1,$2,$3
        trapb
        stq $5,448($9)
        stq $31,64($9)
        ldq_l $10,64($9)
        addq/v $1,$2,$3
        mskwl $4,$6,$5
        addq/v $1,$2,$3
        trapb
        stq $5,456($9)
        stq $31,64($9)
        ldq_l $10,64($9)
        addq/v $1,$2,$3
        extwl $4,$6,$5
        addq/v $1,$2,$3
        trapb
        stq $5,464($9)
        stq $31,64($9)
        ldq_l $10,64($9)
        addq/v $1,$2,$3
        inswl $4,$6,$5
        addq/v $1,$2,$3
        trapb
        stq $5,472($9)
        stq $31,64($9)
        ldq_l $10,64($9)
        addq/v $1,$2,$3
        mskll $4,$6,$5
        addq/v $1,$2,$3
        trapb
        stq $5,480($9)
        stq $31,64($9)
        ldq_l $10,64($9)
        addq/v $1,$2,$3
        extll $4,$6,$5
        addq/v $1,$2,$3
        trapb
        stq $5,488($9)
        stq $31,64($9)
        ldq_l $10,64($9)
        addq/v $1,$2,$3
        insll $4,$6,$5
        addq/v $1,$2,$3
        trapb
        stq $5,496($9)
        stq $31,64($9)
        ldq_l $10,64($9)
        addq/v $1,$2,$3
        zap $4,$6,$5
        addq/v $1,$2,$3
        trapb
        stq $5,504($9)
        stq $31,64($9)
        ldq_l $10,64($9)
        addq/v $1,$2,$3
        zapnot $4,$6,$5
        addq/v $1,$2,$3
        trapb
        stq $5,512($9)
        stq $31,64($9)
        ldq_l $10,64($9)
        addq/v $1,$2,$3
        mskql $4,$6,$5
        addq/v $1,$2,$3
        trapb
        stq $5,520($9)
        stq $31,64($9)
        ldq_l $10,64($9)
        addq/v $1,$2,$3
        srl $4,$6,$5
        addq/v $1,$2,$3
        trapb
        stq $5,528($9)
        stq $31,64($9)
        ldq_l $10,64($9)
        addq/v $1,$2,$3
        extql $4,$6,$5
        addq/v $1,$2,$3
        trapb
        stq $5,536($9)
        stq $31,64($9)
        ldq_l $10,64($9)
        addq/v $1,$2,$3
        sll $4,$6,$5
        addq/v $1,$2,$3
        trapb
        stq $5,544($9)
        stq $31,64($9)
        ldq_l $10,64($9)
        addq/v $1,$2,$3
        insql $4,$6,$5
        addq/v $1,$2,$3
        trapb
        stq $5,552($9)
        stq $31,64($9)
        ldq_l $10,64($9)
        addq/v $1,$2,$3
        sra $4,$6,$5
        addq/v $1,$2,$3
        trapb
        stq $5,560($9)
        stq $31,64($9)
        ldq_l $10,64($9)
        addq/v $1,$2,$3
        mskwh $4,$6,$5
        addq/v $1,$2,$3
        trapb
        stq $5,568($9)
        stq $31,64($9)
        ldq_l $10,64($9)
        addq/v $1,$2,$3
        inswh $4,$6,$5
        addq/v $1,$2,$3
        trapb
        stq $5,576($9)
        stq $31,64($9)
        ldq_l $10,64($9)
        addq/v $1,$2,$3
        extwh $4,$6,$5
        addq/v $1,$2,$3
        trapb
        stq $5,584($9)
        stq $31,64($9)
        ldq_l $10,64($9)
        addq/v $1,$2,$3
        msklh $4,$6,$5
        addq/v $1,$2,$3
        trapb
        stq $5,592($9)
        stq $31,64($9)
        ldq_l $10,64($9)
        addq/v $1,$2,$3
        inslh $4,$6,$5
        addq/v $1,$2,$3
        trapb
        stq $5,600($9)
        stq $31,64($9)
        ldq_l $10,64($9)
        addq/v $1,$2,$3
        extlh $4,$6,$5
        addq/v $1,$2,$3
        trapb
        stq $5,608($9)
        stq $31,64($9)
        ldq_l $10,64($9)
        addq/v $1,$2,$3
        mskqh $4,$6,$5
        addq/v $1,$2,$3
        trapb
        stq $5,616($9)
        stq $31,64($9)
        ldq_l $10,64($9)
        addq/v $1,$2,$3
        insqh $4,$6,$5
        addq/v $1,$2,$3
        trapb
        stq $5,624($9)
        stq $31,64($9)
        ldq_l $10,64($9)
        addq/v $1,$2,$3
        extqh $4,$6,$5
        addq/v $1,$2,$3
        trapb
        stq $5,632($9)
        stq $31,64($9)
        ldq_l $10,64($9)
        addq/v $1,$2,$3
        mull $4,$6,$5
        addq/v $1,$2,$3
        trapb
        stq $5,640($9)
        stq $31,64($9)
        ldq_l $10,64($9)
        addq/v $1,$2,$3
        mulq $4,$6,$5
        addq/v $1,$2,$3
        trapb
        stq $5,648($9)
        stq $31,64($9)
        ldq_l $10,64($9)
        addq/v $1,$2,$3
        umulh $4,$6,$5
        addq/v $1,$2,$3
        trapb
        stq $5,656($9)
        stq $31,64($9)
        ldq_l $10,64($9)
        addq/v $1,$2,$3
        mull/v $4,$6,$5
        addq/v $1,$2,$3
        trapb
        stq $5,664($9)
        stq $31,64($9)
        ldq_l $10,64($9)
        addq/v $1,$2,$3
        mulq/v $4,$6,$5
        addq/v $1,$2,$3
        trapb
        stq $5,672($9)
        stq $31,64($9)
        ldq_l $10,64($9)
        addq/v $1,$2,$3
        sextb $6,$5
        addq/v $1,$2,$3
        trapb
        stq $5,680($9)
        stq $31,64($9)
        ldq_l $10,64($9)
        addq/v $1,$2,$3
        sextw $6,$5
        addq/v $1,$2,$3
        trapb
        stq $5,688($9)
        stq $31,64($9)
        ldq_l $10,64($9)
        addq/v $1,$2,$3
        ctpop $6,$5
        addq/v $1,$2,$3
        trapb
        stq $5,696($9)
        stq $31,64($9)
        ldq_l $10,64($9)
        addq/v $1,$2,$3
        ctlz $6,$5
        addq/v $1,$2,$3
        trapb
        stq $5,704($9)
        stq $31,64($9)
        ldq_l $10,64($9)
        addq/v $1,$2,$3
        cttz $6,$5
        addq/v $1,$2,$3
        trapb
        stq $5,712($9)
        stq $31,64($9)
        ldq_l $10,64($9)
        addq/v $1,$2,$3
        lda $5,8($6)
        addq/v $1,$2,$3
        trapb
        stq $5,720($9)
        stq $31,64($9)
        ldq_l $10,64($9)
        addq/v $1,$2,$3
        ldah $5,8($6)
        addq/v $1,$2,$3
        trapb
        stq $5,728($9)
        stq $31,64($9)
        ldq_l $10,64($9)
        addq/v $1,$2,$3
        ldbu $5,72($9)
        addq/v $1,$2,$3
        trapb
        stq $5,736($9)
        stq $31,64($9)
        ldq_l $10,64($9)
        addq/v $1,$2,$3
        ldwu $5,72($9)
        addq/v $1,$2,$3
        trapb
        stq $5,744($9)
        stq $31,64($9)
        ldq_l $10,64($9)
        addq/v $1,$2,$3
        ldl $5,72($9)
        addq/v $1,$2,$3
        trapb
        stq $5,752($9)
        stq $31,64($9)
        ldq_l $10,64($9)
        addq/v $1,$2,$3
        ldq $5,72($9)
        addq/v $1,$2,$3
        trapb
        stq $5,760($9)
        stq $31,64($9)
        ldq_l $10,64($9)
        addq/v $1,$2,$3
        ldq_u $5,72($9)
        addq/v $1,$2,$3
        trapb
        stq $5,768($9)
        stq $31,64($9)
        ldq_l $10,64($9)
        addq/v $1,$2,$3
        ldl_l $5,72($9)
        addq/v $1,$2,$3
        trapb
        stq $5,776($9)
        stq $31,64($9)
        ldq_l $10,64($9)
        addq/v $1,$2,$3
        ldq_l $5,72($9)
        addq/v $1,$2,$3
        trapb
        stq $5,784($9)
        stq $31,64($9)
        ldq_l $10,64($9)
        addq/v $1,$2,$3
        stl_c $5,72($9)
        addq/v $1,$2,$3
        trapb
        stq $5,792($9)
        stq $31,64($9)
        ldq_l $10,64($9)
        addq/v $1,$2,$3
        stq_c $5,72($9)
        addq/v $1,$2,$3
        trapb
        stq $5,800($9)
        stq $31,64($9)
        ldq_l $10,64($9)
        addq/v $1,$2,$3
        stb $4,64($9)
        addq/v $1,$2,$3
        trapb
        ldq $10,64($9)
        stq $10,808($9)
        stq $31,64($9)
        ldq_l $10,64($9)
        addq/v $1,$2,$3
        stw $4,64($9)
        addq/v $1,$2,$3
        trapb
        ldq $10,64($9)
        stq $10,816($9)
        stq $31,64($9)
        ldq_l $10,64($9)
        addq/v $1,$2,$3
        stl $4,64($9)
        addq/v $1,$2,$3
        trapb
        ldq $10,64($9)
        stq $10,824($9)
        stq $31,64($9)
        ldq_l $10,64($9)
        addq/v $1,$2,$3
        stq $4,64($9)
        addq/v $1,$2,$3
        trapb
        ldq $10,64($9)
        stq $10,832($9)
        stq $31,64($9)
        ldq_l $10,64($9)
        addq/v $1,$2,$3
        stq_u $4,64($9)
        addq/v $1,$2,$3
        trapb
        ldq $10,64($9)
        stq $10,840($9)
        stq $31,64($9)
        ldq_l $10,64($9)
        addq/v $1,$2,$3
        mb
        addq/v $1,$2,$3
        trapb
        stq $5,848($9)
        stq $31,64($9)
        ldq_l $10,64($9)
        addq/v $1,$2,$3
        wmb
        addq/v $1,$2,$3
        trapb
        stq $5,856($9)
        stq $31,64($9)
        ldq_l $10,64($9)
        addq/v $1,$2,$3
        fetch 0($9)
        addq/v $1,$2,$3
        trapb
        stq $5,864($9)
        stq $31,64($9)
        ldq_l $10,64($9)
        addq/v $1,$2,$3
        fetch_m 0($9)
        addq/v $1,$2,$3
        trapb
        stq $5,872($9)
        mov $1,$0
        addq/v $1,$2,$3
        addq/v $0,$2,$0
        addq/v $1,$2,$3
        trapb
        stq $0,880($9)
        mov $1,$0
        addq/v $0,$2,$0
        trapb
        stq $0,888($9)
        mov $1,$3
        addq/v $1,$2,$5
        addq/v $3,$2,$3
        addq/v $1,$2,$3
        trapb
        stq $3,896($9)
        mov $1,$3
        addq/v $3,$2,$3
        trapb
        stq $3,904($9)
        mov $1,$5
        addq/v $1,$2,$3
        addq/v $5,$2,$5
        addq/v $1,$2,$3
        trapb
        stq $5,912($9)
        mov $1,$5
        addq/v $5,$2,$5
        trapb
        stq $5,920($9)
        mov $1,$7
        addq/v $1,$2,$3
        addq/v $7,$2,$7
        addq/v $1,$2,$3
        trapb
        stq $7,928($9)
        mov $1,$7
        addq/v $7,$2,$7
        trapb
        stq $7,936($9)
        mov $1,$8
        addq/v $1,$2,$3
        addq/v $8,$2,$8
        addq/v $1,$2,$3
        trapb
        stq $8,944($9)
        mov $1,$8
        addq/v $8,$2,$8
        trapb
        stq $8,952($9)
        mov $1,$10
        addq/v $1,$2,$3
        addq/v $10,$2,$10
        addq/v $1,$2,$3
        trapb
        stq $10,960($9)
        mov $1,$10
        addq/v $10,$2,$10
        trapb
        stq $10,968($9)
        mov $1,$11
        addq/v $1,$2,$3
        addq/v $11,$2,$11
        addq/v $1,$2,$3
        trapb
        stq $11,976($9)
        mov $1,$11
        addq/v $11,$2,$11
        trapb
        stq $11,984($9)
        mov $1,$12
        addq/v $1,$2,$3
        addq/v $12,$2,$12
        addq/v $1,$2,$3
        trapb
        stq $12,992($9)
        mov $1,$12
        addq/v $12,$2,$12
        trapb
        stq $12,1000($9)
        mov $1,$13
        addq/v $1,$2,$3
        addq/v $13,$2,$13
        addq/v $1,$2,$3
        trapb
        stq $13,1008($9)
        mov $1,$13
        addq/v $13,$2,$13
        trapb
        stq $13,1016($9)
        mov $1,$14
        addq/v $1,$2,$3
        addq/v $14,$2,$14
        addq/v $1,$2,$3
        trapb
        stq $14,1024($9)
        mov $1,$14
        addq/v $14,$2,$14
        trapb
        stq $14,1032($9)
        mov $1,$15
        addq/v $1,$2,$3
        addq/v $15,$2,$15
        addq/v $1,$2,$3
        trapb
        stq $15,1040($9)
        mov $1,$15
        addq/v $15,$2,$15
        trapb
        stq $15,1048($9)
        mov $1,$16
        addq/v $1,$2,$3
        addq/v $16,$2,$16
        addq/v $1,$2,$3
        trapb
        stq $16,1056($9)
        mov $1,$16
        addq/v $16,$2,$16
        trapb
        stq $16,1064($9)
        mov $1,$17
        addq/v $1,$2,$3
        addq/v $17,$2,$17
        addq/v $1,$2,$3
        trapb
        stq $17,1072($9)
        mov $1,$17
        addq/v $17,$2,$17
        trapb
        stq $17,1080($9)
        mov $1,$18
        addq/v $1,$2,$3
        addq/v $18,$2,$18
        addq/v $1,$2,$3
        trapb
        stq $18,1088($9)
        mov $1,$18
        addq/v $18,$2,$18
        trapb
        stq $18,1096($9)
        mov $1,$19
        addq/v $1,$2,$3
        addq/v $19,$2,$19
        addq/v $1,$2,$3
        trapb
        stq $19,1104($9)
        mov $1,$19
        addq/v $19,$2,$19
        trapb
        stq $19,1112($9)
        mov $1,$20
        addq/v $1,$2,$3
        addq/v $20,$2,$20
        addq/v $1,$2,$3
        trapb
        stq $20,1120($9)
        mov $1,$20
        addq/v $20,$2,$20
        trapb
        stq $20,1128($9)
        mov $1,$21
        addq/v $1,$2,$3
        addq/v $21,$2,$21
        addq/v $1,$2,$3
        trapb
        stq $21,1136($9)
        mov $1,$21
        addq/v $21,$2,$21
        trapb
        stq $21,1144($9)
        mov $1,$22
        addq/v $1,$2,$3
        addq/v $22,$2,$22
        addq/v $1,$2,$3
        trapb
        stq $22,1152($9)
        mov $1,$22
        addq/v $22,$2,$22
        trapb
        stq $22,1160($9)
        mov $1,$23
        addq/v $1,$2,$3
        addq/v $23,$2,$23
        addq/v $1,$2,$3
        trapb
        stq $23,1168($9)
        mov $1,$23
        addq/v $23,$2,$23
        trapb
        stq $23,1176($9)
        mov $1,$24
        addq/v $1,$2,$3
        addq/v $24,$2,$24
        addq/v $1,$2,$3
        trapb
        stq $24,1184($9)
        mov $1,$24
        addq/v $24,$2,$24
        trapb
        stq $24,1192($9)
        mov $1,$25
        addq/v $1,$2,$3
        addq/v $25,$2,$25
        addq/v $1,$2,$3
        trapb
        stq $25,1200($9)
        mov $1,$25
        addq/v $25,$2,$25
        trapb
        stq $25,1208($9)
        mov $1,$26
        addq/v $1,$2,$3
        addq/v $26,$2,$26
        addq/v $1,$2,$3
        trapb
        stq $26,1216($9)
        mov $1,$26
        addq/v $26,$2,$26
        trapb
        stq $26,1224($9)
        mov $1,$27
        addq/v $1,$2,$3
        addq/v $27,$2,$27
        addq/v $1,$2,$3
        trapb
        stq $27,1232($9)
        mov $1,$27
        addq/v $27,$2,$27
        trapb
        stq $27,1240($9)
        mov $1,$28
        addq/v $1,$2,$3
        addq/v $28,$2,$28
        addq/v $1,$2,$3
        trapb
        stq $28,1248($9)
        mov $1,$28
        addq/v $28,$2,$28
        trapb
        stq $28,1256($9)
        mov $1,$29
        addq/v $1,$2,$3
        addq/v $29,$2,$29
        addq/v $1,$2,$3
        trapb
        stq $29,1264($9)
        mov $1,$29
        addq/v $29,$2,$29
        trapb
        stq $29,1272($9)
        mov $1,$30
        addq/v $1,$2,$3
        addq/v $30,$2,$30
        addq/v $1,$2,$3
        trapb
        stq $30,1280($9)
        mov $1,$30
        addq/v $30,$2,$30
        trapb
        stq $30,1288($9)
        mov $1,$0
        addq/v $1,$2,$3
        addq/v $0,$2,$0
        addq/v $1,$2,$3
        trapb
        stq $0,1296($9)
        mov $1,$0
        addq/v $0,$2,$0
        trapb
        stq $0,1304($9)
        mov $1,$3
        addq/v $1,$2,$5
        addq/v $3,$2,$3
        addq/v $1,$2,$3
        trapb
        stq $3,1312($9)
        mov $1,$3
        addq/v $3,$2,$3
        trapb
        stq $3,1320($9)
        mov $1,$5
        addq/v $1,$2,$3
        addq/v $5,$2,$5
        addq/v $1,$2,$3
        trapb
        stq $5,1328($9)
        mov $1,$5
        addq/v $5,$2,$5
        trapb
        stq $5,1336($9)
        mov $1,$7
        addq/v $1,$2,$3
        addq/v $7,$2,$7
        addq/v $1,$2,$3
        trapb
        stq $7,1344($9)
        mov $1,$7
        addq/v $7,$2,$7
        trapb
        stq $7,1352($9)
        mov $1,$8
        addq/v $1,$2,$3
        addq/v $8,$2,$8
        addq/v $1,$2,$3
        trapb
        stq $8,1360($9)
        mov $1,$8
        addq/v $8,$2,$8
        trapb
        stq $8,1368($9)
        mov $1,$10
        addq/v $1,$2,$3
        addq/v $10,$2,$10
        addq/v $1,$2,$3
        trapb
        stq $10,1376($9)
        mov $1,$10
        addq/v $10,$2,$10
        trapb
        stq $10,1384($9)
        mov $1,$11
        addq/v $1,$2,$3
        addq/v $11,$2,$11
        addq/v $1,$2,$3
        trapb
        stq $11,1392($9)
        mov $1,$11
        addq/v $11,$2,$11
        trapb
        stq $11,1400($9)
        mov $1,$12
        addq/v $1,$2,$3
        addq/v $12,$2,$12
        addq/v $1,$2,$3
        trapb
        stq $12,1408($9)
        mov $1,$12
        addq/v $12,$2,$12
        trapb
        stq $12,1416($9)
        mov $1,$13
        addq/v $1,$2,$3
        addq/v $13,$2,$13
        addq/v $1,$2,$3
        trapb
        stq $13,1424($9)
        mov $1,$13
        addq/v $13,$2,$13
        trapb
        stq $13,1432($9)
        mov $1,$14
        addq/v $1,$2,$3
        addq/v $14,$2,$14
        addq/v $1,$2,$3
        trapb
        stq $14,1440($9)
        mov $1,$14
        addq/v $14,$2,$14
        trapb
        stq $14,1448($9)
        mov $1,$15
        addq/v $1,$2,$3
        addq/v $15,$2,$15
        addq/v $1,$2,$3
        trapb
        stq $15,1456($9)
        mov $1,$15
        addq/v $15,$2,$15
        trapb
        stq $15,1464($9)
        mov $1,$16
        addq/v $1,$2,$3
        addq/v $16,$2,$16
        addq/v $1,$2,$3
        trapb
        stq $16,1472($9)
        mov $1,$16
        addq/v $16,$2,$16
        trapb
        stq $16,1480($9)
        mov $1,$17
        addq/v $1,$2,$3
        addq/v $17,$2,$17
        addq/v $1,$2,$3
        trapb
        stq $17,1488($9)
        mov $1,$17
        addq/v $17,$2,$17
        trapb
        stq $17,1496($9)
        mov $1,$18
        addq/v $1,$2,$3
        addq/v $18,$2,$18
        addq/v $1,$2,$3
        trapb
        stq $18,1504($9)
        mov $1,$18
        addq/v $18,$2,$18
        trapb
        stq $18,1512($9)
        mov $1,$19
        addq/v $1,$2,$3
        addq/v $19,$2,$19
        addq/v $1,$2,$3
        trapb
        stq $19,1520($9)
        mov $1,$19
        addq/v $19,$2,$19
        trapb
        stq $19,1528($9)
        mov $1,$20
        addq/v $1,$2,$3
        addq/v $20,$2,$20
        addq/v $1,$2,$3
        trapb
        stq $20,1536($9)
        mov $1,$20
        addq/v $20,$2,$20
        trapb
        stq $20,1544($9)
        mov $1,$21
        addq/v $1,$2,$3
        addq/v $21,$2,$21
        addq/v $1,$2,$3
        trapb
        stq $21,1552($9)
        mov $1,$21
        addq/v $21,$2,$21
        trapb
        stq $21,1560($9)
        mov $1,$22
        addq/v $1,$2,$3
        addq/v $22,$2,$22
        addq/v $1,$2,$3
        trapb
        stq $22,1568($9)
        mov $1,$22
        addq/v $22,$2,$22
        trapb
        stq $22,1576($9)
        mov $1,$23
        addq/v $1,$2,$3
        addq/v $23,$2,$23
        addq/v $1,$2,$3
        trapb
        stq $23,1584($9)
        mov $1,$23
        addq/v $23,$2,$23
        trapb
        stq $23,1592($9)
        mov $1,$24
        addq/v $1,$2,$3
        addq/v $24,$2,$24
        addq/v $1,$2,$3
        trapb
        stq $24,1600($9)
        mov $1,$24
        addq/v $24,$2,$24
        trapb
        stq $24,1608($9)
        mov $1,$25
        addq/v $1,$2,$3
        addq/v $25,$2,$25
        addq/v $1,$2,$3
        trapb
        stq $25,1616($9)
        mov $1,$25
        addq/v $25,$2,$25
        trapb
        stq $25,1624($9)
        mov $1,$26
        addq/v $1,$2,$3
        addq/v $26,$2,$26
        addq/v $1,$2,$3
        trapb
        stq $26,1632($9)
        mov $1,$26
        addq/v $26,$2,$26
        trapb
        stq $26,1640($9)
        mov $1,$27
        addq/v $1,$2,$3
        addq/v $27,$2,$27
        addq/v $1,$2,$3
        trapb
        stq $27,1648($9)
        mov $1,$27
        addq/v $27,$2,$27
        trapb
        stq $27,1656($9)
        mov $1,$28
        addq/v $1,$2,$3
        addq/v $28,$2,$28
        addq/v $1,$2,$3
        trapb
        stq $28,1664($9)
        mov $1,$28
        addq/v $28,$2,$28
        trapb
        stq $28,1672($9)
        mov $1,$29
        addq/v $1,$2,$3
        addq/v $29,$2,$29
        addq/v $1,$2,$3
        trapb
        stq $29,1680($9)
        mov $1,$29
        addq/v $29,$2,$29
        trapb
        stq $29,1688($9)
        mov $1,$30
        addq/v $1,$2,$3
        addq/v $30,$2,$30
        addq/v $1,$2,$3
        trapb
        stq $30,1696($9)
        mov $1,$30
        addq/v $30,$2,$30
        trapb
        stq $30,1704($9)
        lda $0,4($31)
        lda $16,1($31)
        lda $17,128($9)
        lda $18,1584($31)
        callsys
        clr $16
        lda $0,1($31)
        callsys
        .entry start
