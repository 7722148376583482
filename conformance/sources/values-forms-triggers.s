# Registers that are alike, R31, and literals. With a, b and c of each 24 bytes of the input in $1, $2 and $3, a quadword of output for each of these lines:
# addl/v $3,$2,$3; addl/v $1,$3,$3; addl/v $3,$3,$3; addl/v $1,$1,$3; addl/v $31,$2,$3; addl/v $1,$31,$3
# addl/v $1,0,$3; addl/v $1,127,$3; addl/v $1,128,$3; addl/v $1,255,$3; addl/v $1,$2,$31; addq/v $3,$2,$3
# addq/v $1,$3,$3; addq/v $3,$3,$3; addq/v $1,$1,$3; addq/v $31,$2,$3; addq/v $1,$31,$3; addq/v $1,0,$3
# addq/v $1,127,$3; addq/v $1,128,$3; addq/v $1,255,$3; addq/v $1,$2,$31; subl/v $3,$2,$3; subl/v $1,$3,$3
# subl/v $3,$3,$3; subl/v $1,$1,$3; subl/v $31,$2,$3; subl/v $1,$31,$3; subl/v $1,0,$3; subl/v $1,127,$3
# subl/v $1,128,$3; subl/v $1,255,$3; subl/v $1,$2,$31; subq/v $3,$2,$3; subq/v $1,$3,$3; subq/v $3,$3,$3
# subq/v $1,$1,$3; subq/v $31,$2,$3; subq/v $1,$31,$3; subq/v $1,0,$3; subq/v $1,127,$3; subq/v $1,128,$3
# subq/v $1,255,$3; subq/v $1,$2,$31; mull/v $3,$2,$3; mull/v $1,$3,$3; mull/v $3,$3,$3; mull/v $1,$1,$3
# mull/v $31,$2,$3; mull/v $1,$31,$3; mull/v $1,0,$3; mull/v $1,127,$3; mull/v $1,128,$3; mull/v $1,255,$3
# mull/v $1,$2,$31; mulq/v $3,$2,$3; mulq/v $1,$3,$3; mulq/v $3,$3,$3; mulq/v $1,$1,$3; mulq/v $31,$2,$3
# mulq/v $1,$31,$3; mulq/v $1,0,$3; mulq/v $1,127,$3; mulq/v $1,128,$3; mulq/v $1,255,$3; mulq/v $1,$2,$31
        .level 2
        .segment 0x10000000
        .zero 552
        .code
start: ldah $9,0x1000($31)
next: lda $0,3($31)
        clr $16
        mov $9,$17
        lda $18,24($31)
        callsys
        subq $0,24,$4
        bne $4,end
        ldq $1,0($9)
        ldq $2,8($9)
        ldq $3,16($9)
        addl/v $3,$2,$3
        stq $3,24($9)
        trapb
        ldq $3,16($9)
        addl/v $1,$3,$3
        stq $3,32($9)
        trapb
        ldq $3,16($9)
        addl/v $3,$3,$3
        stq $3,40($9)
        trapb
        ldq $3,16($9)
        addl/v $1,$1,$3
        stq $3,48($9)
        trapb
        ldq $3,16($9)
        addl/v $31,$2,$3
        stq $3,56($9)
        trapb
        ldq $3,16($9)
        addl/v $1,$31,$3
        stq $3,64($9)
        trapb
        ldq $3,16($9)
        addl/v $1,0,$3
        stq $3,72($9)
        trapb
        ldq $3,16($9)
        addl/v $1,127,$3
        stq $3,80($9)
        trapb
        ldq $3,16($9)
        addl/v $1,128,$3
        stq $3,88($9)
        trapb
        ldq $3,16($9)
        addl/v $1,255,$3
        stq $3,96($9)
        trapb
        ldq $3,16($9)
        addl/v $1,$2,$31
        bis $31,$31,$3
        stq $3,104($9)
        trapb
        ldq $3,16($9)
        addq/v $3,$2,$3
        stq $3,112($9)
        trapb
        ldq $3,16($9)
        addq/v $1,$3,$3
        stq $3,120($9)
        trapb
        ldq $3,16($9)
        addq/v $3,$3,$3
        stq $3,128($9)
        trapb
        ldq $3,16($9)
        addq/v $1,$1,$3
        stq $3,136($9)
        trapb
        ldq $3,16($9)
        addq/v $31,$2,$3
        stq $3,144($9)
        trapb
        ldq $3,16($9)
        addq/v $1,$31,$3
        stq $3,152($9)
        trapb
        ldq $3,16($9)
        addq/v $1,0,$3
        stq $3,160($9)
        trapb
        ldq $3,16($9)
        addq/v $1,127,$3
        stq $3,168($9)
        trapb
        ldq $3,16($9)
        addq/v $1,128,$3
        stq $3,176($9)
        trapb
        ldq $3,16($9)
        addq/v $1,255,$3
        stq $3,184($9)
        trapb
        ldq $3,16($9)
        addq/v $1,$2,$31
        bis $31,$31,$3
        stq $3,192($9)
        trapb
        ldq $3,16($9)
        subl/v $3,$2,$3
        stq $3,200($9)
        trapb
        ldq $3,16($9)
        subl/v $1,$3,$3
        stq $3,208($9)
        trapb
        ldq $3,16($9)
        subl/v $3,$3,$3
        stq $3,216($9)
        trapb
        ldq $3,16($9)
        subl/v $1,$1,$3
        stq $3,224($9)
        trapb
        ldq $3,16($9)
        subl/v $31,$2,$3
        stq $3,232($9)
        trapb
        ldq $3,16($9)
        subl/v $1,$31,$3
        stq $3,240($9)
        trapb
        ldq $3,16($9)
        subl/v $1,0,$3
        stq $3,248($9)
        trapb
        ldq $3,16($9)
        subl/v $1,127,$3
        stq $3,256($9)
        trapb
        ldq $3,16($9)
        subl/v $1,128,$3
        stq $3,264($9)
        trapb
        ldq $3,16($9)
        subl/v $1,255,$3
        stq $3,272($9)
        trapb
        ldq $3,16($9)
        subl/v $1,$2,$31
        bis $31,$31,$3
        stq $3,280($9)
        trapb
        ldq $3,16($9)
        subq/v $3,$2,$3
        stq $3,288($9)
        trapb
        ldq $3,16($9)
        subq/v $1,$3,$3
        stq $3,296($9)
        trapb
        ldq $3,16($9)
        subq/v $3,$3,$3
        stq $3,304($9)
        trapb
        ldq $3,16($9)
        subq/v $1,$1,$3
        stq $3,312($9)
        trapb
        ldq $3,16($9)
        subq/v $31,$2,$3
        stq $3,320($9)
        trapb
        ldq $3,16($9)
        subq/v $1,$31,$3
        stq $3,328($9)
        trapb
        ldq $3,16($9)
        subq/v $1,0,$3
        stq $3,336($9)
        trapb
        ldq $3,16($9)
        subq/v $1,127,$3
        stq $3,344($9)
        trapb
        ldq $3,16($9)
        subq/v $1,128,$3
        stq $3,352($9)
        trapb
        ldq $3,16($9)
        subq/v $1,255,$3
        stq $3,360($9)
        trapb
        ldq $3,16($9)
        subq/v $1,$2,$31
        bis $31,$31,$3
        stq $3,368($9)
        trapb
        ldq $3,16($9)
        mull/v $3,$2,$3
        stq $3,376($9)
        trapb
        ldq $3,16($9)
        mull/v $1,$3,$3
        stq $3,384($9)
        trapb
        ldq $3,16($9)
        mull/v $3,$3,$3
        stq $3,392($9)
        trapb
        ldq $3,16($9)
        mull/v $1,$1,$3
        stq $3,400($9)
        trapb
        ldq $3,16($9)
        mull/v $31,$2,$3
        stq $3,408($9)
        trapb
        ldq $3,16($9)
        mull/v $1,$31,$3
        stq $3,416($9)
        trapb
        ldq $3,16($9)
        mull/v $1,0,$3
        stq $3,424($9)
        trapb
        ldq $3,16($9)
        mull/v $1,127,$3
        stq $3,432($9)
        trapb
        ldq $3,16($9)
        mull/v $1,128,$3
        stq $3,440($9)
        trapb
        ldq $3,16($9)
        mull/v $1,255,$3
        stq $3,448($9)
        trapb
        ldq $3,16($9)
        mull/v $1,$2,$31
        bis $31,$31,$3
        stq $3,456($9)
        trapb
        ldq $3,16($9)
        mulq/v $3,$2,$3
        stq $3,464($9)
        trapb
        ldq $3,16($9)
        mulq/v $1,$3,$3
        stq $3,472($9)
        trapb
        ldq $3,16($9)
        mulq/v $3,$3,$3
        stq $3,480($9)
        trapb
        ldq $3,16($9)
        mulq/v $1,$1,$3
        stq $3,488($9)
        trapb
        ldq $3,16($9)
        mulq/v $31,$2,$3
        stq $3,496($9)
        trapb
        ldq $3,16($9)
        mulq/v $1,$31,$3
        stq $3,504($9)
        trapb
        ldq $3,16($9)
        mulq/v $1,0,$3
        stq $3,512($9)
        trapb
        ldq $3,16($9)
        mulq/v $1,127,$3
        stq $3,520($9)
        trapb
        ldq $3,16($9)
        mulq/v $1,128,$3
        stq $3,528($9)
        trapb
        ldq $3,16($9)
        mulq/v $1,255,$3
        stq $3,536($9)
        trapb
        ldq $3,16($9)
        mulq/v $1,$2,$31
        bis $31,$31,$3
        stq $3,544($9)
        trapb
        lda $0,4($31)
        lda $16,1($31)
        lda $17,24($9)
        lda $18,528($31)
        callsys
        br next
end: clr $16
        lda $0,1($31)
        callsys
        .entry start
