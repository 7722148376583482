# Division for code of gcc: __divqu, __remqu and their like, which take $24 and $25, leave the quotient or the remainder in
# $27, return by $23, and keep all other registers but $28. A division by 0 ends the program by gentrap.
	.set noat
	.text

# $24 divided by $25, unsigned: the quotient to $27, the remainder to $24. It spoils $25 and $28, and returns by $0.
divide:
	beq $25,by_zero
	mov 1,$28
	clr $27
widen:
	blt $25,subtract
	cmpule $24,$25,$2
	bne $2,subtract
	addq $25,$25,$25
	addq $28,$28,$28
	br widen
subtract:
	cmpule $25,$24,$2
	beq $2,narrow
	subq $24,$25,$24
	bis $27,$28,$27
narrow:
	srl $25,1,$25
	srl $28,1,$28
	bne $28,subtract
	ret $31,($0)
by_zero:
	lda $16,-2($31)
	gentrap
	ret $31,($0)

# Keeps the registers that a division spoils, and gives them back. $1 says the sign of what is to be left.
keep:
	lda $30,-48($30)
	stq $0,0($30)
	stq $1,8($30)
	stq $2,16($30)
	stq $24,24($30)
	stq $25,32($30)
	ret $31,($28)
leave:
	subq $31,$27,$2
	cmovlt $1,$2,$27
	ldq $0,0($30)
	ldq $1,8($30)
	ldq $2,16($30)
	ldq $24,24($30)
	ldq $25,32($30)
	lda $30,48($30)
	ret $31,($23)

	.globl __divqu
__divqu:
	bsr $28,keep
	clr $1
	bsr $0,divide
	br leave
	.globl __remqu
__remqu:
	bsr $28,keep
	clr $1
	bsr $0,divide
	mov $24,$27
	br leave
	.globl __divlu
__divlu:
	bsr $28,keep
	clr $1
	zapnot $24,15,$24
	zapnot $25,15,$25
	bsr $0,divide
	addl $31,$27,$27
	br leave
	.globl __remlu
__remlu:
	bsr $28,keep
	clr $1
	zapnot $24,15,$24
	zapnot $25,15,$25
	bsr $0,divide
	addl $31,$24,$27
	br leave

# Signed: by the absolute values. A quotient has the sign of both, a remainder that of the dividend.
	.globl __divq
__divq:
	bsr $28,keep
divide_signed:
	xor $24,$25,$1
	subq $31,$24,$2
	cmovlt $24,$2,$24
	subq $31,$25,$2
	cmovlt $25,$2,$25
	bsr $0,divide
	br leave
	.globl __remq
__remq:
	bsr $28,keep
remain_signed:
	mov $24,$1
	subq $31,$24,$2
	cmovlt $24,$2,$24
	subq $31,$25,$2
	cmovlt $25,$2,$25
	bsr $0,divide
	mov $24,$27
	br leave
	.globl __divl
__divl:
	bsr $28,keep
	sextl $24,$24
	sextl $25,$25
	br divide_signed
	.globl __reml
__reml:
	bsr $28,keep
	sextl $24,$24
	sextl $25,$25
	br remain_signed
	.section .note.GNU-stack,"",@progbits
