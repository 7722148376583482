# a, b and c of each 24 bytes of the input in $1, $2 and $3: a quadword of output for each of these lines' $3:
# extbl $1,$2,$3; extbl $1,37,$3; extwl $1,$2,$3; extwl $1,74,$3; extll $1,$2,$3; extll $1,111,$3
# extql $1,$2,$3; extql $1,148,$3; extwh $1,$2,$3; extwh $1,185,$3; extlh $1,$2,$3; extlh $1,222,$3
# extqh $1,$2,$3; extqh $1,3,$3; insbl $1,$2,$3; insbl $1,40,$3; inswl $1,$2,$3; inswl $1,77,$3
# insll $1,$2,$3; insll $1,114,$3; insql $1,$2,$3; insql $1,151,$3; inswh $1,$2,$3; inswh $1,188,$3
# inslh $1,$2,$3; inslh $1,225,$3; insqh $1,$2,$3; insqh $1,6,$3
.data
.zero 248
.code
start: ldah $9,0x1000($31)
next: lda $0,3($31)
clr $16
mov $9,$17
lda $18,24($31)
callsys
subq $0,24,$4
bne $4,end
ldq $1,0($9)
ldq $2,8($9)
ldq $3,16($9)
extbl $1,$2,$3
stq $3,24($9)
ldq $3,16($9)
extbl $1,37,$3
stq $3,32($9)
ldq $3,16($9)
extwl $1,$2,$3
stq $3,40($9)
ldq $3,16($9)
extwl $1,74,$3
stq $3,48($9)
ldq $3,16($9)
extll $1,$2,$3
stq $3,56($9)
ldq $3,16($9)
extll $1,111,$3
stq $3,64($9)
ldq $3,16($9)
extql $1,$2,$3
stq $3,72($9)
ldq $3,16($9)
extql $1,148,$3
stq $3,80($9)
ldq $3,16($9)
extwh $1,$2,$3
stq $3,88($9)
ldq $3,16($9)
extwh $1,185,$3
stq $3,96($9)
ldq $3,16($9)
extlh $1,$2,$3
stq $3,104($9)
ldq $3,16($9)
extlh $1,222,$3
stq $3,112($9)
ldq $3,16($9)
extqh $1,$2,$3
stq $3,120($9)
ldq $3,16($9)
extqh $1,3,$3
stq $3,128($9)
ldq $3,16($9)
insbl $1,$2,$3
stq $3,136($9)
ldq $3,16($9)
insbl $1,40,$3
stq $3,144($9)
ldq $3,16($9)
inswl $1,$2,$3
stq $3,152($9)
ldq $3,16($9)
inswl $1,77,$3
stq $3,160($9)
ldq $3,16($9)
insll $1,$2,$3
stq $3,168($9)
ldq $3,16($9)
insll $1,114,$3
stq $3,176($9)
ldq $3,16($9)
insql $1,$2,$3
stq $3,184($9)
ldq $3,16($9)
insql $1,151,$3
stq $3,192($9)
ldq $3,16($9)
inswh $1,$2,$3
stq $3,200($9)
ldq $3,16($9)
inswh $1,188,$3
stq $3,208($9)
ldq $3,16($9)
inslh $1,$2,$3
stq $3,216($9)
ldq $3,16($9)
inslh $1,225,$3
stq $3,224($9)
ldq $3,16($9)
insqh $1,$2,$3
stq $3,232($9)
ldq $3,16($9)
insqh $1,6,$3
stq $3,240($9)
lda $0,4($31)
lda $16,1($31)
lda $17,24($9)
lda $18,224($31)
callsys
br next
end: clr $16
lda $0,1($31)
callsys
.entry start
