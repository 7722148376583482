# a, b and c of each 24 bytes of the input in $1, $2 and $3: a quadword of output for each of these lines' $3:
# cmpeq $1,$2,$3; cmpeq $1,37,$3; cmplt $1,$2,$3; cmplt $1,74,$3; cmple $1,$2,$3; cmple $1,111,$3
# cmpult $1,$2,$3; cmpult $1,148,$3; cmpule $1,$2,$3; cmpule $1,185,$3; cmpbge $1,$2,$3; cmpbge $1,222,$3
# and $1,$2,$3; and $1,3,$3; bic $1,$2,$3; bic $1,40,$3; bis $1,$2,$3; bis $1,77,$3
# ornot $1,$2,$3; ornot $1,114,$3; xor $1,$2,$3; xor $1,151,$3; eqv $1,$2,$3; eqv $1,188,$3
.data
.zero 216
.code
start: ldah $9,0x1000($31)
next: lda $0,3($31)
clr $16
mov $9,$17
lda $18,24($31)
callsys
subq $0,24,$4
bne $4,end
ldq $1,0($9)
ldq $2,8($9)
ldq $3,16($9)
cmpeq $1,$2,$3
stq $3,24($9)
ldq $3,16($9)
cmpeq $1,37,$3
stq $3,32($9)
ldq $3,16($9)
cmplt $1,$2,$3
stq $3,40($9)
ldq $3,16($9)
cmplt $1,74,$3
stq $3,48($9)
ldq $3,16($9)
cmple $1,$2,$3
stq $3,56($9)
ldq $3,16($9)
cmple $1,111,$3
stq $3,64($9)
ldq $3,16($9)
cmpult $1,$2,$3
stq $3,72($9)
ldq $3,16($9)
cmpult $1,148,$3
stq $3,80($9)
ldq $3,16($9)
cmpule $1,$2,$3
stq $3,88($9)
ldq $3,16($9)
cmpule $1,185,$3
stq $3,96($9)
ldq $3,16($9)
cmpbge $1,$2,$3
stq $3,104($9)
ldq $3,16($9)
cmpbge $1,222,$3
stq $3,112($9)
ldq $3,16($9)
and $1,$2,$3
stq $3,120($9)
ldq $3,16($9)
and $1,3,$3
stq $3,128($9)
ldq $3,16($9)
bic $1,$2,$3
stq $3,136($9)
ldq $3,16($9)
bic $1,40,$3
stq $3,144($9)
ldq $3,16($9)
bis $1,$2,$3
stq $3,152($9)
ldq $3,16($9)
bis $1,77,$3
stq $3,160($9)
ldq $3,16($9)
ornot $1,$2,$3
stq $3,168($9)
ldq $3,16($9)
ornot $1,114,$3
stq $3,176($9)
ldq $3,16($9)
xor $1,$2,$3
stq $3,184($9)
ldq $3,16($9)
xor $1,151,$3
stq $3,192($9)
ldq $3,16($9)
eqv $1,$2,$3
stq $3,200($9)
ldq $3,16($9)
eqv $1,188,$3
stq $3,208($9)
lda $0,4($31)
lda $16,1($31)
lda $17,24($9)
lda $18,192($31)
callsys
br next
end: clr $16
lda $0,1($31)
callsys
.entry start
