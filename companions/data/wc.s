	.set noreorder
	.set volatile
	.set noat
	.set nomacro
	.text
	.align 2
	.align 4
	.ent print
print:
	.eflag 48
	.frame $30,32,$26,0
$LFB3:
	.cfi_startproc
	ldah $29,0($27)		!gpdisp!1
	lda $29,0($29)		!gpdisp!1
$print..ng:
	lda $30,-32($30)
	.cfi_def_cfa_offset 32
	.prologue 1
	insbl $17,3,$2
	subq $31,$16,$1
	ldl $3,20($30)
	ldah $4,$LC0($29)		!gprelhigh
	cmplt $16,0,$8
	zapnot $3,247,$3
	ldq $6,$LC0($4)		!gprellow
	cmovge $16,$16,$1
	lda $17,23($30)
	bis $2,$3,$2
	stl $2,20($30)
	.align 4
$L3:
	umulh $1,$6,$2
	mov $17,$7
	lda $17,-1($17)
	cmpule $1,9,$3
	ldq_u $5,0($17)
	mskbl $5,$17,$5
	srl $2,3,$2
	s4addq $2,$2,$4
	addq $4,$4,$4
	subq $1,$4,$1
	addl $1,48,$1
	insbl $1,$17,$4
	mov $2,$1
	bis $4,$5,$4
	stq_u $4,0($17)
	beq $3,$L3
	beq $8,$L4
	lda $3,-1($17)
	ldq_u $2,-1($17)
	lda $1,45($31)
	insbl $1,$3,$1
	mskbl $2,$3,$2
	bis $1,$2,$1
	stq_u $1,-1($17)
	lda $17,-2($7)
$L4:
	lda $18,24($30)
	subqv $18,$17,$18
	lda $0,4($31)
	lda $16,1($31)
	.set	macro
 # 9 "io.h" 1
	callsys
 # 0 "" 2
	.set	nomacro
	lda $30,32($30)
	.cfi_def_cfa_offset 0
	ret $31,($26),1
	.cfi_endproc
$LFE3:
	.end print
	.section	.text.startup,"ax",@progbits
	.align 2
	.align 4
	.globl main
	.ent main
main:
	.eflag 48
	.frame $30,48,$26,0
	.mask 0x4001e00,-48
$LFB4:
	.cfi_startproc
	ldah $29,0($27)		!gpdisp!2
	lda $29,0($29)		!gpdisp!2
$main..ng:
	lda $30,-48($30)
	.cfi_def_cfa_offset 48
	ldah $17,input($29)		!gprelhigh
	lda $1,input($17)		!gprellow
	stq $26,0($30)
	lda $0,3($31)
	stq $9,8($30)
	mov $31,$16
	stq $10,16($30)
	mov $1,$17
	stq $11,24($30)
	lda $18,4096($31)
	stq $12,32($30)
	.cfi_offset 26, -48
	.cfi_offset 9, -40
	.cfi_offset 10, -32
	.cfi_offset 11, -24
	.cfi_offset 12, -16
	.prologue 1
	.set	macro
 # 9 "io.h" 1
	callsys
 # 0 "" 2
	.set	nomacro
	mov $0,$12
	beq $19,$L11
	subqv $31,$0,$12
$L11:
	ldah $2,length($29)		!gprelhigh
	stq $12,length($2)		!gprellow
	ble $12,$L16
	mov $1,$17
	addq $1,$12,$22
	mov $31,$10
	mov $31,$3
	mov $31,$8
	mov $31,$11
	mov $31,$9
	br $31,$L15
	.align 4
$L13:
	beq $1,$L18
	addlv $9,1,$9
	cmovne $7,$3,$10
	addl $31,$9,$9
	mov $31,$8
	mov $31,$3
$L14:
	cmpeq $22,$5,$1
	mov $5,$17
	bne $1,$L12
$L15:
	lda $5,1($17)
	ldq_u $1,0($17)
	addlv $3,1,$2
	addl $31,$2,$4
	extqh $1,$5,$1
	cmple $10,$3,$7
	sra $1,56,$1
	subl $1,9,$2
	and $2,0xff,$2
	cmpeq $1,32,$6
	cmpule $2,1,$2
	cmpeq $1,10,$1
	bis $2,$6,$2
	bne $2,$L13
	mov $4,$3
	bne $8,$L14
	addlv $11,1,$11
	cmpeq $22,$5,$1
	addl $31,$11,$11
	lda $8,1($31)
	mov $5,$17
	beq $1,$L15
$L12:
	mov $9,$16
	lda $17,32($31)
	ldq $27,print($29)		!literal!3
	jsr $26,($27),print		!lituse_jsr!3
	ldah $29,0($26)		!gpdisp!4
	lda $29,0($29)		!gpdisp!4
	mov $11,$16
	lda $17,32($31)
	ldq $27,print($29)		!literal!5
	jsr $26,($27),print		!lituse_jsr!5
	ldah $29,0($26)		!gpdisp!6
	lda $29,0($29)		!gpdisp!6
	mov $12,$16
	lda $17,32($31)
	ldq $27,print($29)		!literal!7
	jsr $26,($27),print		!lituse_jsr!7
	ldah $29,0($26)		!gpdisp!8
	lda $29,0($29)		!gpdisp!8
	mov $10,$16
	lda $17,10($31)
	ldq $27,print($29)		!literal!9
	jsr $26,($27),print		!lituse_jsr!9
	ldah $29,0($26)		!gpdisp!10
	lda $29,0($29)		!gpdisp!10
	ldq $10,16($30)
	mov $9,$0
	ldq $26,0($30)
	ldq $9,8($30)
	ldq $11,24($30)
	ldq $12,32($30)
	lda $30,48($30)
	.cfi_remember_state
	.cfi_restore 12
	.cfi_restore 11
	.cfi_restore 10
	.cfi_restore 9
	.cfi_restore 26
	.cfi_def_cfa_offset 0
	ret $31,($26),1
	.align 4
$L18:
	.cfi_restore_state
	mov $4,$3
	mov $31,$8
	br $31,$L14
$L16:
	mov $31,$10
	mov $31,$11
	mov $31,$9
	br $31,$L12
	.cfi_endproc
$LFE4:
	.end main
	.section	.sbss,"aw"
	.type	length, @object
	.size	length, 8
	.align 3
length:
	.zero	8
	.section	.bss
	.type	input, @object
	.size	input, 4096
input:
	.zero	4096
	.section	.rodata.cst8,"aM",@progbits,8
	.align 3
$LC0:
	.quad	-3689348814741910323
	.ident	"GCC: (Debian 12.2.0-13) 12.2.0"
	.section	.note.GNU-stack,"",@progbits
