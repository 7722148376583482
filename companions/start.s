# The entry of a program: calls main, and exits with what it answers.
	.text
	.globl _start
	.ent _start
_start:
	br $27,1f
1:	ldgp $29,0($27)
	jsr $26,main
	mov $0,$16
	lda $0,1($31)
	callsys
	.end _start
	.section .note.GNU-stack,"",@progbits
