	.set noreorder
	.set volatile
	.set noat
	.set nomacro
	.text
	.align 2
	.align 4
	.ent print
print:
	.eflag 48
	.frame $30,32,$26,0
$LFB3:
	.cfi_startproc
	ldah $29,0($27)		!gpdisp!1
	lda $29,0($29)		!gpdisp!1
$print..ng:
	lda $30,-32($30)
	.cfi_def_cfa_offset 32
	.prologue 1
	insbl $17,3,$2
	subq $31,$16,$1
	ldl $3,20($30)
	ldah $4,$LC0($29)		!gprelhigh
	cmplt $16,0,$8
	zapnot $3,247,$3
	ldq $6,$LC0($4)		!gprellow
	cmovge $16,$16,$1
	lda $17,23($30)
	bis $2,$3,$2
	stl $2,20($30)
	.align 4
$L3:
	umulh $1,$6,$2
	mov $17,$7
	lda $17,-1($17)
	cmpule $1,9,$3
	ldq_u $5,0($17)
	mskbl $5,$17,$5
	srl $2,3,$2
	s4addq $2,$2,$4
	addq $4,$4,$4
	subq $1,$4,$1
	addl $1,48,$1
	insbl $1,$17,$4
	mov $2,$1
	bis $4,$5,$4
	stq_u $4,0($17)
	beq $3,$L3
	beq $8,$L4
	lda $3,-1($17)
	ldq_u $2,-1($17)
	lda $1,45($31)
	insbl $1,$3,$1
	mskbl $2,$3,$2
	bis $1,$2,$1
	stq_u $1,-1($17)
	lda $17,-2($7)
$L4:
	lda $18,24($30)
	subqv $18,$17,$18
	lda $0,4($31)
	lda $16,1($31)
	.set	macro
 # 9 "io.h" 1
	callsys
 # 0 "" 2
	.set	nomacro
	lda $30,32($30)
	.cfi_def_cfa_offset 0
	ret $31,($26),1
	.cfi_endproc
$LFE3:
	.end print
	.align 2
	.align 4
	.ent sift
sift:
	.eflag 48
	.frame $30,0,$26,0
$LFB5:
	.cfi_startproc
	ldah $29,0($27)		!gpdisp!2
	lda $29,0($29)		!gpdisp!2
$sift..ng:
	.prologue 1
	mullv $16,2,$3
	addlv $3,1,$3
	addl $31,$3,$3
	cmple $17,$3,$1
	bne $1,$L9
	ldah $6,order($29)		!gprelhigh
	addq $16,$16,$1
	lda $6,order($6)		!gprellow
	addq $6,$1,$1
	lda $2,2($1)
	ldah $7,numbers($29)		!gprelhigh
	ldq_u $8,0($1)
	lda $7,numbers($7)		!gprellow
	extqh $8,$2,$8
	sra $8,48,$8
	s4addq $8,$7,$1
	ldl $22,0($1)
	br $31,$L13
	.align 4
$L17:
	ldq_u $4,0($4)
	extqh $4,$24,$4
	sra $4,48,$4
	s4addq $4,$7,$23
	ldl $24,0($23)
	cmple $24,$5,$23
	cmovne $23,$3,$1
	cmoveq $23,$24,$5
	cmoveq $23,$4,$2
	addq $1,$1,$3
	addq $16,$16,$4
	addq $6,$4,$4
	addq $6,$3,$3
	cmplt $22,$5,$5
	inswl $2,$4,$2
	inswl $8,$3,$23
	beq $5,$L9
$L18:
	mov $1,$16
	ldq_u $5,0($4)
	mskwl $5,$4,$5
	bis $2,$5,$2
	stq_u $2,0($4)
	ldq_u $2,0($3)
	mskwl $2,$3,$2
	bis $23,$2,$23
	stq_u $23,0($3)
	mullv $1,2,$1
	addl $31,$1,$1
	addlv $1,1,$1
	addl $31,$1,$3
	cmplt $3,$17,$1
	beq $1,$L9
$L13:
	addlv $16,1,$1
	mullv $1,2,$1
	addq $3,$3,$2
	addq $6,$2,$2
	lda $4,2($2)
	ldq_u $2,0($2)
	extqh $2,$4,$2
	sra $2,48,$2
	s4addq $2,$7,$4
	ldl $5,0($4)
	addl $31,$1,$1
	addq $1,$1,$4
	addq $6,$4,$4
	cmplt $1,$17,$23
	lda $24,2($4)
	bne $23,$L17
	mov $3,$1
	addq $16,$16,$4
	addq $1,$1,$3
	addq $6,$4,$4
	addq $6,$3,$3
	cmplt $22,$5,$5
	inswl $2,$4,$2
	inswl $8,$3,$23
	bne $5,$L18
$L9:
	ret $31,($26),1
	.cfi_endproc
$LFE5:
	.end sift
	.section	.text.startup,"ax",@progbits
	.align 2
	.align 4
	.globl main
	.ent main
main:
	.eflag 48
	.frame $30,80,$26,0
	.mask 0x400fe00,-80
$LFB6:
	.cfi_startproc
	ldah $29,0($27)		!gpdisp!3
	lda $29,0($29)		!gpdisp!3
$main..ng:
	lda $30,-80($30)
	.cfi_def_cfa_offset 80
	ldah $17,input($29)		!gprelhigh
	lda $1,input($17)		!gprellow
	stq $26,0($30)
	lda $0,3($31)
	stq $9,8($30)
	mov $31,$16
	stq $10,16($30)
	mov $1,$17
	stq $11,24($30)
	lda $18,4096($31)
	stq $12,32($30)
	stq $13,40($30)
	stq $14,48($30)
	stq $15,56($30)
	.cfi_offset 26, -80
	.cfi_offset 9, -72
	.cfi_offset 10, -64
	.cfi_offset 11, -56
	.cfi_offset 12, -48
	.cfi_offset 13, -40
	.cfi_offset 14, -32
	.cfi_offset 15, -24
	.prologue 1
	.set	macro
 # 9 "io.h" 1
	callsys
 # 0 "" 2
	.set	nomacro
	mov $0,$5
	beq $19,$L21
	subqv $31,$0,$5
$L21:
	ldah $3,length($29)		!gprelhigh
	ldah $24,count($29)		!gprelhigh
	cmplt $5,0,$2
	stq $5,length($3)		!gprellow
	ldl $22,count($24)		!gprellow
	bne $2,$L23
	ldah $23,numbers($29)		!gprelhigh
	mov $1,$17
	mov $31,$0
	lda $21,1($31)
	mov $31,$8
	mov $31,$2
	mov $31,$1
	lda $25,511($31)
	lda $23,numbers($23)		!gprellow
	br $31,$L29
	.align 4
$L65:
	ldq_u $4,0($17)
	extqh $4,$6,$4
	sra $4,56,$4
	subl $4,48,$3
	and $3,0xff,$7
	cmpule $7,9,$7
	beq $7,$L25
	mullv $2,10,$2
	sll $3,56,$3
	sublv $4,48,$4
	sra $3,56,$3
	lda $8,1($31)
	addl $31,$2,$2
	addlv $3,$2,$3
	addl $31,$3,$2
$L26:
	addqv $1,1,$1
	cmple $1,$5,$3
	mov $6,$17
	beq $3,$L64
$L29:
	cmple $5,$1,$3
	lda $6,1($17)
	beq $3,$L65
	beq $8,$L27
	cmple $22,$25,$3
	beq $3,$L27
	addlv $22,1,$4
	mullv $2,$21,$2
	s4addq $22,$23,$3
	lda $0,1($31)
	addl $31,$4,$22
	stl $2,0($3)
$L27:
	addqv $1,1,$1
	cmple $1,$5,$3
	mov $31,$8
	lda $21,1($31)
	mov $31,$2
	mov $6,$17
	bne $3,$L29
$L64:
	beq $0,$L23
	stl $22,count($24)		!gprellow
$L23:
	ldl $10,count($24)		!gprellow
	ble $10,$L42
	ldah $9,order($29)		!gprelhigh
	lda $11,order($9)		!gprellow
	mov $11,$2
	mov $31,$1
	.align 4
$L32:
	inswl $1,$2,$3
	ldq_u $4,0($2)
	mskwl $4,$2,$4
	bis $3,$4,$3
	stq_u $3,0($2)
	addlv $1,1,$1
	addl $31,$1,$1
	cmpeq $1,$10,$3
	lda $2,2($2)
	beq $3,$L32
	sra $10,1,$12
	sublv $12,1,$12
	addl $31,$12,$12
	lda $1,1($12)
	beq $1,$L36
	.align 4
$L33:
	mov $12,$16
	mov $10,$17
	ldq $27,sift($29)		!literal!4
	jsr $26,($27),sift		!lituse_jsr!4
	ldah $29,0($26)		!gpdisp!5
	lda $29,0($29)		!gpdisp!5
	sublv $12,1,$12
	addl $31,$12,$12
	lda $1,1($12)
	bne $1,$L33
$L36:
	sublv $10,1,$12
	addl $31,$12,$12
	addq $12,$12,$13
	addq $11,$13,$13
	beq $12,$L35
	.align 4
$L38:
	lda $3,2($13)
	ldq_u $1,0($13)
	mov $12,$17
	ldq_u $2,order($9)		!gprellow
	mov $31,$16
	extqh $1,$3,$1
	mskwl $2,$11,$3
	sra $1,48,$1
	extwl $2,$11,$2
	inswl $1,$11,$1
	insql $2,$13,$2
	bis $1,$3,$1
	stq_u $1,order($9)		!gprellow
	ldq_u $1,0($13)
	mskwl $1,$13,$1
	bis $2,$1,$2
	stq_u $2,0($13)
	ldq $27,sift($29)		!literal!6
	jsr $26,($27),sift		!lituse_jsr!6
	ldah $29,0($26)		!gpdisp!7
	lda $29,0($29)		!gpdisp!7
	sublv $12,1,$12
	addl $31,$12,$12
	lda $13,-2($13)
	bne $12,$L38
$L35:
	ldah $12,numbers($29)		!gprelhigh
	stq $31,64($30)
	mov $31,$14
	mov $31,$13
	lda $12,numbers($12)		!gprellow
	br $31,$L37
	.align 4
$L66:
	sublv $14,1,$1
	addl $31,$1,$1
	addq $1,$1,$1
	addq $11,$1,$1
	lda $3,2($1)
	mov $15,$14
	ldq_u $1,0($1)
	extqh $1,$3,$1
	sra $1,48,$1
	s4addq $1,$12,$1
	ldl $1,0($1)
	sublv $9,$1,$9
	ldq $2,64($30)
	addl $31,$9,$9
	cmple $9,$2,$1
	cmoveq $1,$9,$2
	stq $2,64($30)
	cmplt $14,$10,$1
	beq $1,$L31
$L37:
	addq $14,$14,$1
	addq $11,$1,$1
	lda $3,2($1)
	ldq_u $1,0($1)
	extqh $1,$3,$1
	sra $1,48,$1
	s4addq $1,$12,$1
	ldl $9,0($1)
	addlv $14,1,$15
	addl $31,$15,$15
	cmplt $15,$10,$17
	lda $1,10($31)
	cmovne $17,32,$1
	mov $9,$16
	mov $1,$17
	ldq $27,print($29)		!literal!8
	jsr $26,($27),print		!lituse_jsr!8
	ldah $29,0($26)		!gpdisp!9
	lda $29,0($29)		!gpdisp!9
	addqv $13,$9,$13
	bne $14,$L66
	lda $14,1($31)
	cmplt $14,$10,$1
	bne $1,$L37
$L31:
	mov $13,$16
	lda $17,32($31)
	ldq $27,print($29)		!literal!10
	jsr $26,($27),print		!lituse_jsr!10
	ldah $29,0($26)		!gpdisp!11
	lda $29,0($29)		!gpdisp!11
	lda $17,10($31)
	ldq $16,64($30)
	ldq $27,print($29)		!literal!12
	jsr $26,($27),print		!lituse_jsr!12
	ldah $29,0($26)		!gpdisp!13
	lda $29,0($29)		!gpdisp!13
	ldq $9,8($30)
	mov $10,$0
	ldq $26,0($30)
	ldq $10,16($30)
	ldq $11,24($30)
	ldq $12,32($30)
	ldq $13,40($30)
	ldq $14,48($30)
	ldq $15,56($30)
	lda $30,80($30)
	.cfi_remember_state
	.cfi_restore 15
	.cfi_restore 14
	.cfi_restore 13
	.cfi_restore 12
	.cfi_restore 11
	.cfi_restore 10
	.cfi_restore 9
	.cfi_restore 26
	.cfi_def_cfa_offset 0
	ret $31,($26),1
$L42:
	.cfi_restore_state
	mov $31,$13
	stq $31,64($30)
	br $31,$L31
$L25:
	beq $8,$L28
	lda $3,511($31)
	cmple $22,$3,$3
	beq $3,$L28
	addlv $22,1,$3
	mullv $2,$21,$2
	ldah $12,numbers($29)		!gprelhigh
	lda $12,numbers($12)		!gprellow
	s4addq $22,$12,$12
	lda $0,1($31)
	addl $31,$3,$22
	stl $2,0($12)
$L28:
	cmpeq $4,45,$4
	mov $31,$8
	lda $21,-1($31)
	mov $31,$2
	bne $4,$L26
	br $31,$L27
	.cfi_endproc
$LFE6:
	.end main
	.section	.sbss,"aw"
	.type	count, @object
	.size	count, 4
	.align 2
count:
	.zero	4
	.section	.bss
	.type	order, @object
	.size	order, 1024
	.align 1
order:
	.zero	1024
	.type	numbers, @object
	.size	numbers, 2048
	.align 2
numbers:
	.zero	2048
	.section	.sbss,"aw"
	.type	length, @object
	.size	length, 8
	.align 3
length:
	.zero	8
	.section	.bss
	.type	input, @object
	.size	input, 4096
input:
	.zero	4096
	.section	.rodata.cst8,"aM",@progbits,8
	.align 3
$LC0:
	.quad	-3689348814741910323
	.ident	"GCC: (Debian 12.2.0-13) 12.2.0"
	.section	.note.GNU-stack,"",@progbits
