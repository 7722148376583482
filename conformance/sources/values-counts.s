# a, b and c of each 24 bytes of the input in $1, $2 and $3: a quadword of output for each of these lines' $3:
# ctpop $2,$3; ctlz $2,$3; cttz $2,$3; implver $3; sextb $2,$3; sextb 185,$3
# sextw $2,$3; sextw 222,$3; addq $1,$2,$3; addq $1,3,$3
.level 2
.segment 0x10000000
.zero 104
.code
start: ldah $9,0x1000($31)
next: lda $0,3($31)
clr $16
mov $9,$17
lda $18,24($31)
callsys
subq $0,24,$4
bne $4,end
ldq $1,0($9)
ldq $2,8($9)
ldq $3,16($9)
ctpop $2,$3
stq $3,24($9)
ldq $3,16($9)
ctlz $2,$3
stq $3,32($9)
ldq $3,16($9)
cttz $2,$3
stq $3,40($9)
ldq $3,16($9)
implver $3
stq $3,48($9)
ldq $3,16($9)
sextb $2,$3
stq $3,56($9)
ldq $3,16($9)
sextb 185,$3
stq $3,64($9)
ldq $3,16($9)
sextw $2,$3
stq $3,72($9)
ldq $3,16($9)
sextw 222,$3
stq $3,80($9)
ldq $3,16($9)
addq $1,$2,$3
stq $3,88($9)
ldq $3,16($9)
addq $1,3,$3
stq $3,96($9)
lda $0,4($31)
lda $16,1($31)
lda $17,24($9)
lda $18,80($31)
callsys
br next
end: clr $16
lda $0,1($31)
callsys
.entry start
