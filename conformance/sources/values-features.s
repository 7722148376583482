# a, b and c of each 24 bytes of the input in $1, $2 and $3: a quadword of output for each of these lines' $3:
# amask $2,$3; amask 37,$3; implver $3
.data
.zero 48
.code
start: ldah $9,0x1000($31)
next: lda $0,3($31)
clr $16
mov $9,$17
lda $18,24($31)
callsys
subq $0,24,$4
bne $4,end
ldq $1,0($9)
ldq $2,8($9)
ldq $3,16($9)
amask $2,$3
stq $3,24($9)
ldq $3,16($9)
amask 37,$3
stq $3,32($9)
ldq $3,16($9)
implver $3
stq $3,40($9)
lda $0,4($31)
lda $16,1($31)
lda $17,24($9)
lda $18,24($31)
callsys
br next
end: clr $16
lda $0,1($31)
callsys
.entry start
