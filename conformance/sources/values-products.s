# a, b and c of each 24 bytes of the input in $1, $2 and $3: a quadword of output for each of these lines' $3:
# addl/v $1,$2,$3; addl/v $1,37,$3; addq/v $1,$2,$3; addq/v $1,74,$3; subl/v $1,$2,$3; subl/v $1,111,$3
# subq/v $1,$2,$3; subq/v $1,148,$3; mull/v $1,$2,$3; mull/v $1,185,$3; mulq/v $1,$2,$3; mulq/v $1,222,$3
# umulh $1,$2,$3; umulh $1,3,$3; mull $1,$2,$3; mull $1,40,$3; mulq $1,$2,$3; mulq $1,77,$3
.data
.zero 168
.code
start: ldah $9,0x1000($31)
next: lda $0,3($31)
clr $16
mov $9,$17
lda $18,24($31)
callsys
subq $0,24,$4
bne $4,end
ldq $1,0($9)
ldq $2,8($9)
ldq $3,16($9)
addl/v $1,$2,$3
stq $3,24($9)
trapb
ldq $3,16($9)
addl/v $1,37,$3
stq $3,32($9)
trapb
ldq $3,16($9)
addq/v $1,$2,$3
stq $3,40($9)
trapb
ldq $3,16($9)
addq/v $1,74,$3
stq $3,48($9)
trapb
ldq $3,16($9)
subl/v $1,$2,$3
stq $3,56($9)
trapb
ldq $3,16($9)
subl/v $1,111,$3
stq $3,64($9)
trapb
ldq $3,16($9)
subq/v $1,$2,$3
stq $3,72($9)
trapb
ldq $3,16($9)
subq/v $1,148,$3
stq $3,80($9)
trapb
ldq $3,16($9)
mull/v $1,$2,$3
stq $3,88($9)
trapb
ldq $3,16($9)
mull/v $1,185,$3
stq $3,96($9)
trapb
ldq $3,16($9)
mulq/v $1,$2,$3
stq $3,104($9)
trapb
ldq $3,16($9)
mulq/v $1,222,$3
stq $3,112($9)
trapb
ldq $3,16($9)
umulh $1,$2,$3
stq $3,120($9)
ldq $3,16($9)
umulh $1,3,$3
stq $3,128($9)
ldq $3,16($9)
mull $1,$2,$3
stq $3,136($9)
ldq $3,16($9)
mull $1,40,$3
stq $3,144($9)
ldq $3,16($9)
mulq $1,$2,$3
stq $3,152($9)
ldq $3,16($9)
mulq $1,77,$3
stq $3,160($9)
lda $0,4($31)
lda $16,1($31)
lda $17,24($9)
lda $18,144($31)
callsys
br next
end: clr $16
lda $0,1($31)
callsys
.entry start
