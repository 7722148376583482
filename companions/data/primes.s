	.set noreorder
	.set volatile
	.set noat
	.set nomacro
	.text
	.align 2
	.align 4
	.ent print
print:
	.eflag 48
	.frame $30,32,$26,0
$LFB3:
	.cfi_startproc
	ldah $29,0($27)		!gpdisp!1
	lda $29,0($29)		!gpdisp!1
$print..ng:
	lda $30,-32($30)
	.cfi_def_cfa_offset 32
	.prologue 1
	insbl $17,3,$2
	subq $31,$16,$1
	ldl $3,20($30)
	ldah $4,$LC0($29)		!gprelhigh
	cmplt $16,0,$8
	zapnot $3,247,$3
	ldq $6,$LC0($4)		!gprellow
	cmovge $16,$16,$1
	lda $17,23($30)
	bis $2,$3,$2
	stl $2,20($30)
	.align 4
$L3:
	umulh $1,$6,$2
	mov $17,$7
	lda $17,-1($17)
	cmpule $1,9,$3
	ldq_u $5,0($17)
	mskbl $5,$17,$5
	srl $2,3,$2
	s4addq $2,$2,$4
	addq $4,$4,$4
	subq $1,$4,$1
	addl $1,48,$1
	insbl $1,$17,$4
	mov $2,$1
	bis $4,$5,$4
	stq_u $4,0($17)
	beq $3,$L3
	beq $8,$L4
	lda $3,-1($17)
	ldq_u $2,-1($17)
	lda $1,45($31)
	insbl $1,$3,$1
	mskbl $2,$3,$2
	bis $1,$2,$1
	stq_u $1,-1($17)
	lda $17,-2($7)
$L4:
	lda $18,24($30)
	subqv $18,$17,$18
	lda $0,4($31)
	lda $16,1($31)
	.set	macro
 # 9 "io.h" 1
	callsys
 # 0 "" 2
	.set	nomacro
	lda $30,32($30)
	.cfi_def_cfa_offset 0
	ret $31,($26),1
	.cfi_endproc
$LFE3:
	.end print
	.section	.rodata.str1.1,"aMS",@progbits,1
$LC1:
	.string	"product of many"
$LC2:
	.string	"unit"
$LC3:
	.string	" "
$LC4:
	.string	"\n"
	.section	.text.startup,"ax",@progbits
	.align 2
	.align 4
	.globl main
	.ent main
main:
	.eflag 48
	.frame $30,80,$26,0
	.mask 0x400fe00,-80
$LFB6:
	.cfi_startproc
	ldah $29,0($27)		!gpdisp!5
	lda $29,0($29)		!gpdisp!5
$main..ng:
	lda $30,-80($30)
	.cfi_def_cfa_offset 80
	ldah $2,input($29)		!gprelhigh
	lda $2,input($2)		!gprellow
	stq $26,0($30)
	lda $0,3($31)
	stq $9,8($30)
	mov $31,$16
	stq $10,16($30)
	mov $2,$17
	stq $11,24($30)
	lda $18,4096($31)
	stq $12,32($30)
	stq $13,40($30)
	stq $14,48($30)
	stq $15,56($30)
	.cfi_offset 26, -80
	.cfi_offset 9, -72
	.cfi_offset 10, -64
	.cfi_offset 11, -56
	.cfi_offset 12, -48
	.cfi_offset 13, -40
	.cfi_offset 14, -32
	.cfi_offset 15, -24
	.prologue 1
	.set	macro
 # 9 "io.h" 1
	callsys
 # 0 "" 2
	.set	nomacro
	mov $0,$1
	beq $19,$L11
	subqv $31,$0,$1
$L11:
	ldah $3,length($29)		!gprelhigh
	stq $31,64($30)
	stq $1,length($3)		!gprellow
	blt $1,$L33
	ldah $9,$LC3($29)		!gprelhigh
	mov $2,$17
	mov $31,$11
	mov $31,$4
	mov $31,$15
	lda $9,$LC3($9)		!gprellow
	br $31,$L23
	.align 4
$L41:
	ldq_u $1,0($17)
	extqh $1,$12,$1
	sra $1,56,$1
	subl $1,48,$2
	and $2,0xff,$3
	cmpule $3,9,$3
	beq $3,$L13
	mulqv $15,10,$24
	sll $2,56,$2
	sublv $1,48,$1
	sra $2,56,$1
	lda $4,1($31)
	addqv $1,$24,$15
$L14:
	ldah $27,length($29)		!gprelhigh
	addqv $11,1,$11
	mov $12,$17
	ldq $1,length($27)		!gprellow
	cmplt $1,$11,$2
	bne $2,$L33
$L23:
	cmple $1,$11,$1
	lda $12,1($17)
	beq $1,$L41
$L13:
	beq $4,$L14
	lda $17,58($31)
	mov $15,$16
	ldq $27,print($29)		!literal!6
	jsr $26,($27),print		!lituse_jsr!6
	ldah $29,0($26)		!gpdisp!7
	lda $29,0($29)		!gpdisp!7
	cmple $15,3,$1
	bne $1,$L15
	mov $31,$14
	mov $31,$10
	lda $13,2($31)
	.align 4
$L18:
	mov $15,$24
	ldq $27,__remq($29)		!literal!4
	mov $13,$25
	jsr $23,($27),__remq		!lituse_jsrdirect!4
	bne $27,$L16
	addlv $10,1,$10
	addl $31,$10,$10
	.align 4
$L17:
	lda $0,4($31)
	lda $16,1($31)
	mov $9,$17
	lda $18,1($31)
	.set	macro
 # 9 "io.h" 1
	callsys
 # 0 "" 2
	.set	nomacro
	lda $17,32($31)
	mov $13,$16
	ldq $27,print($29)		!literal!8
	jsr $26,($27),print		!lituse_jsr!8
	ldah $29,0($26)		!gpdisp!9
	lda $29,0($29)		!gpdisp!9
	mov $15,$24
	ldq $27,__divq($29)		!literal!2
	mov $13,$25
	addlv $14,1,$1
	jsr $23,($27),__divq		!lituse_jsrdirect!2
	addl $31,$1,$14
	mov $27,$24
	mov $27,$15
	ldq $27,__remq($29)		!literal!3
	jsr $23,($27),__remq		!lituse_jsrdirect!3
	beq $27,$L17
$L16:
	addqv $13,1,$13
	mulqv $13,$13,$2
	cmple $2,$15,$2
	bne $2,$L18
	cmple $15,1,$2
	beq $2,$L24
$L19:
	mullv $14,2,$1
	lda $2,1($31)
	cmplt $2,$10,$2
	addlv $1,$2,$1
	zapnot $1,15,$1
	cmpule $1,5,$2
	bne $2,$L42
	ldah $17,$LC1($29)		!gprelhigh
	lda $17,$LC1($17)		!gprellow
$L20:
	mov $31,$18
	.align 4
$L22:
	addqv $18,1,$18
	addq $17,$18,$1
	lda $2,1($1)
	ldq_u $1,0($1)
	extqh $1,$2,$1
	sra $1,56,$1
	bne $1,$L22
$L21:
	lda $0,4($31)
	lda $16,1($31)
	.set	macro
 # 9 "io.h" 1
	callsys
 # 0 "" 2
	.set	nomacro
	ldah $17,$LC4($29)		!gprelhigh
	lda $0,4($31)
	lda $17,$LC4($17)		!gprellow
	lda $18,1($31)
	.set	macro
 # 9 "io.h" 1
	callsys
 # 0 "" 2
	.set	nomacro
	ldah $27,length($29)		!gprelhigh
	ldq $25,64($30)
	mov $31,$4
	mov $31,$15
	addlv $25,1,$14
	addl $31,$14,$14
	stq $14,64($30)
	addqv $11,1,$11
	ldq $1,length($27)		!gprellow
	mov $12,$17
	cmplt $1,$11,$2
	beq $2,$L23
$L33:
	ldq $0,64($30)
	ldq $26,0($30)
	ldq $9,8($30)
	ldq $10,16($30)
	ldq $11,24($30)
	ldq $12,32($30)
	ldq $13,40($30)
	ldq $14,48($30)
	ldq $15,56($30)
	lda $30,80($30)
	.cfi_remember_state
	.cfi_restore 15
	.cfi_restore 14
	.cfi_restore 13
	.cfi_restore 12
	.cfi_restore 11
	.cfi_restore 10
	.cfi_restore 9
	.cfi_restore 26
	.cfi_def_cfa_offset 0
	ret $31,($26),1
$L42:
	.cfi_restore_state
	ldah $2,CSWTCH.17($29)		!gprelhigh
	lda $2,CSWTCH.17($2)		!gprellow
	s8addq $1,$2,$1
	mov $31,$18
	ldq $17,0($1)
	lda $2,1($17)
	ldq_u $1,0($17)
	extqh $1,$2,$1
	sra $1,56,$1
	bne $1,$L20
	br $31,$L21
$L28:
	mov $31,$14
	mov $31,$10
$L24:
	ldah $17,$LC3($29)		!gprelhigh
	lda $17,$LC3($17)		!gprellow
	lda $0,4($31)
	lda $16,1($31)
	lda $18,1($31)
	.set	macro
 # 9 "io.h" 1
	callsys
 # 0 "" 2
	.set	nomacro
	lda $17,32($31)
	mov $15,$16
	ldq $27,print($29)		!literal!10
	jsr $26,($27),print		!lituse_jsr!10
	ldah $29,0($26)		!gpdisp!11
	lda $29,0($29)		!gpdisp!11
	addlv $14,1,$1
	addlv $10,1,$10
	addl $31,$1,$14
	addl $31,$10,$10
	br $31,$L19
$L15:
	cmple $15,1,$1
	beq $1,$L28
	ldah $17,$LC2($29)		!gprelhigh
	lda $17,$LC2($17)		!gprellow
	br $31,$L20
	.cfi_endproc
$LFE6:
	.end main
	.section	.rodata.str1.1
$LC5:
	.string	"prime"
$LC6:
	.string	"square"
$LC7:
	.string	"product of two"
	.section	.rodata
	.align 3
	.type	CSWTCH.17, @object
	.size	CSWTCH.17, 48
CSWTCH.17:
	.quad	$LC2
	.quad	$LC1
	.quad	$LC5
	.quad	$LC1
	.quad	$LC6
	.quad	$LC7
	.section	.sbss,"aw"
	.type	length, @object
	.size	length, 8
	.align 3
length:
	.zero	8
	.section	.bss
	.type	input, @object
	.size	input, 4096
input:
	.zero	4096
	.section	.rodata.cst8,"aM",@progbits,8
	.align 3
$LC0:
	.quad	-3689348814741910323
	.ident	"GCC: (Debian 12.2.0-13) 12.2.0"
	.section	.note.GNU-stack,"",@progbits
