	.set noreorder
	.set volatile
	.set noat
	.set nomacro
	.text
$Ltext0:
	.file 0 "." "print.c"
	.align 2
	.align 4
	.globl lines
	.ent lines
lines:
	.eflag 48
	.frame $30,0,$26,0
$LFB1:
	.file 1 "print.c"
	.loc 1 8 1
	.cfi_startproc
	ldah $29,0($27)		!gpdisp!1
	lda $29,0($29)		!gpdisp!1
$lines..ng:
	.prologue 1
	.loc 1 9 12
	ldah $1,many($29)		!gprelhigh
	ldq $0,many($1)		!gprellow
	.loc 1 10 1
	ret $31,($26),1
	.cfi_endproc
$LFE1:
	.end lines
	.align 2
	.align 4
	.globl print
	.ent print
print:
	.eflag 48
	.frame $30,0,$26,0
$LFB2:
	.loc 1 13 1
	.cfi_startproc
	ldah $29,0($27)		!gpdisp!2
	lda $29,0($29)		!gpdisp!2
$print..ng:
	.prologue 1
	.loc 1 18 11
	ldah $18,text($29)		!gprelhigh
	lda $18,text($18)		!gprellow
	lda $2,79($18)
	lda $3,10($31)
	ldq_u $4,79($18)
	.loc 1 15 63
	subq $31,$17,$1
	.loc 1 18 11
	insbl $3,$2,$3
	mskbl $4,$2,$4
	.loc 1 20 28
	ldah $5,$LC0($29)		!gprelhigh
	.loc 1 15 63
	cmplt $17,0,$22
	cmovge $17,$17,$1
	.loc 1 20 28
	ldq $7,$LC0($5)		!gprellow
	.loc 1 18 11
	bis $3,$4,$3
	stq_u $3,79($18)
	.align 4
$L5:
	.loc 1 20 28 discriminator 1
	umulh $1,$7,$3
	mov $2,$8
	.loc 1 20 15 discriminator 1
	lda $2,-1($2)
	.loc 1 21 12 discriminator 1
	cmpule $1,9,$4
	.loc 1 20 15 discriminator 1
	ldq_u $6,0($2)
	mskbl $6,$2,$6
	.loc 1 20 28 discriminator 1
	srl $3,3,$3
	s4addq $3,$3,$5
	addq $5,$5,$5
	subq $1,$5,$1
	.loc 1 20 21 discriminator 1
	addl $1,48,$1
	.loc 1 20 15 discriminator 1
	insbl $1,$2,$5
	.loc 1 21 17 discriminator 1
	mov $3,$1
	.loc 1 20 15 discriminator 1
	bis $5,$6,$5
	stq_u $5,0($2)
	.loc 1 21 12 discriminator 1
	beq $4,$L5
	.loc 1 22 8
	beq $22,$L6
	.loc 1 23 15
	lda $4,-1($2)
	ldq_u $3,-1($2)
	lda $1,45($31)
	insbl $1,$4,$1
	mskbl $3,$4,$3
	bis $1,$3,$1
	stq_u $1,-1($2)
	lda $2,-2($8)
$L6:
	.loc 1 24 11
	lda $3,-1($2)
	ldq_u $5,-1($2)
	lda $1,32($31)
	insbl $1,$3,$1
	mskbl $5,$3,$5
	.loc 1 25 12
	lda $4,1($16)
	.loc 1 24 11
	bis $1,$5,$1
	stq_u $1,-1($2)
	mov $3,$17
	.loc 1 25 12
	ldq_u $1,0($16)
	extqh $1,$4,$1
	sra $1,56,$1
	beq $1,$L7
	.loc 1 16 10
	mov $31,$17
	.align 4
$L8:
	mov $17,$5
	.loc 1 26 15
	addqv $17,1,$17
	.loc 1 25 16
	addq $16,$17,$1
	.loc 1 25 12
	lda $4,1($1)
	ldq_u $1,0($1)
	extqh $1,$4,$1
	sra $1,56,$1
	bne $1,$L8
	ornot $31,$17,$17
	addq $16,$5,$16
	addq $2,$17,$17
	.align 4
$L9:
	.loc 1 28 15
	lda $3,-1($3)
	.loc 1 28 21
	ldq_u $1,0($16)
	lda $5,1($16)
	.loc 1 27 12
	cmpeq $3,$17,$4
	.loc 1 28 15
	ldq_u $2,0($3)
	.loc 1 28 21
	extqh $1,$5,$1
	.loc 1 27 12
	lda $16,-1($16)
	.loc 1 28 21
	sra $1,56,$1
	.loc 1 28 15
	mskbl $2,$3,$2
	insbl $1,$3,$1
	bis $1,$2,$1
	stq_u $1,0($3)
	.loc 1 27 12
	beq $4,$L9
$L7:
	.loc 1 29 5
	lda $18,80($18)
	subqv $18,$17,$18
$LBB4:
$LBB5:
	.file 2 "three.h"
	.loc 2 11 19
	lda $0,4($31)
	.loc 2 12 19
	lda $16,1($31)
	.loc 2 16 5
	.set	macro
 # 16 "three.h" 1
	callsys
 # 0 "" 2
	.set	nomacro
$LBE5:
$LBE4:
	.loc 1 30 9
	ldah $2,many($29)		!gprelhigh
	ldq $1,many($2)		!gprellow
	addqv $1,1,$1
	stq $1,many($2)		!gprellow
	.loc 1 31 1
	ret $31,($26),1
	.cfi_endproc
$LFE2:
	.end print
	.section	.sbss,"aw"
	.type	many, @object
	.size	many, 8
	.align 3
many:
	.zero	8
	.section	.bss
	.type	text, @object
	.size	text, 80
text:
	.zero	80
	.section	.rodata.cst8,"aM",@progbits,8
	.align 3
$LC0:
	.quad	-3689348814741910323
	.text
$Letext0:
	.section	.debug_info,"",@progbits
$Ldebug_info0:
	.4byte	0x85
	.2byte	0x5
	.byte	0x1
	.byte	0x8
	.4byte	$Ldebug_abbrev0
	.uleb128 0x1
	.4byte	$LASF2
	.byte	0x1d
	.4byte	$LASF0
	.4byte	$LASF1
	.8byte	$Ltext0
	.8byte	$Letext0-$Ltext0
	.4byte	$Ldebug_line0
	.uleb128 0x2
	.4byte	$LASF3
	.byte	0x1
	.byte	0xc
	.byte	0x6
	.8byte	$LFB2
	.8byte	$LFE2-$LFB2
	.uleb128 0x1
	.byte	0x9c
	.4byte	0x65
	.uleb128 0x3
	.4byte	0x7f
	.8byte	$LBB4
	.8byte	$LBE4-$LBB4
	.byte	0x1
	.byte	0x1d
	.byte	0x5
	.byte	0
	.uleb128 0x4
	.4byte	$LASF4
	.byte	0x1
	.byte	0x7
	.byte	0x6
	.8byte	$LFB1
	.8byte	$LFE1-$LFB1
	.uleb128 0x1
	.byte	0x9c
	.uleb128 0x5
	.4byte	$LASF5
	.byte	0x2
	.byte	0x9
	.byte	0x14
	.byte	0x3
	.byte	0
	.section	.debug_abbrev,"",@progbits
$Ldebug_abbrev0:
	.uleb128 0x1
	.uleb128 0x11
	.byte	0x1
	.uleb128 0x25
	.uleb128 0xe
	.uleb128 0x13
	.uleb128 0xb
	.uleb128 0x3
	.uleb128 0x1f
	.uleb128 0x1b
	.uleb128 0x1f
	.uleb128 0x11
	.uleb128 0x1
	.uleb128 0x12
	.uleb128 0x7
	.uleb128 0x10
	.uleb128 0x17
	.byte	0
	.byte	0
	.uleb128 0x2
	.uleb128 0x2e
	.byte	0x1
	.uleb128 0x3f
	.uleb128 0x19
	.uleb128 0x3
	.uleb128 0xe
	.uleb128 0x3a
	.uleb128 0xb
	.uleb128 0x3b
	.uleb128 0xb
	.uleb128 0x39
	.uleb128 0xb
	.uleb128 0x11
	.uleb128 0x1
	.uleb128 0x12
	.uleb128 0x7
	.uleb128 0x40
	.uleb128 0x18
	.uleb128 0x7a
	.uleb128 0x19
	.uleb128 0x1
	.uleb128 0x13
	.byte	0
	.byte	0
	.uleb128 0x3
	.uleb128 0x1d
	.byte	0
	.uleb128 0x31
	.uleb128 0x13
	.uleb128 0x11
	.uleb128 0x1
	.uleb128 0x12
	.uleb128 0x7
	.uleb128 0x58
	.uleb128 0xb
	.uleb128 0x59
	.uleb128 0xb
	.uleb128 0x57
	.uleb128 0xb
	.byte	0
	.byte	0
	.uleb128 0x4
	.uleb128 0x2e
	.byte	0
	.uleb128 0x3f
	.uleb128 0x19
	.uleb128 0x3
	.uleb128 0xe
	.uleb128 0x3a
	.uleb128 0xb
	.uleb128 0x3b
	.uleb128 0xb
	.uleb128 0x39
	.uleb128 0xb
	.uleb128 0x11
	.uleb128 0x1
	.uleb128 0x12
	.uleb128 0x7
	.uleb128 0x40
	.uleb128 0x18
	.uleb128 0x7a
	.uleb128 0x19
	.byte	0
	.byte	0
	.uleb128 0x5
	.uleb128 0x2e
	.byte	0
	.uleb128 0x3
	.uleb128 0xe
	.uleb128 0x3a
	.uleb128 0xb
	.uleb128 0x3b
	.uleb128 0xb
	.uleb128 0x39
	.uleb128 0xb
	.uleb128 0x20
	.uleb128 0xb
	.byte	0
	.byte	0
	.byte	0
	.section	.debug_aranges,"",@progbits
	.4byte	0x2c
	.2byte	0x2
	.4byte	$Ldebug_info0
	.byte	0x8
	.byte	0
	.2byte	0
	.2byte	0
	.8byte	$Ltext0
	.8byte	$Letext0-$Ltext0
	.8byte	0
	.8byte	0
	.section	.debug_line,"",@progbits
$Ldebug_line0:
	.section	.debug_str,"MS",@progbits,1
$LASF4:
	.string	"lines"
$LASF3:
	.string	"print"
$LASF2:
	.string	"GNU C17 12.2.0 -g1 -O2 -ftrapv -ffixed-28 -ffreestanding -fno-jump-tables"
$LASF5:
	.string	"call"
	.section	.debug_line_str,"MS",@progbits,1
$LASF1:
	.string	"."
$LASF0:
	.string	"print.c"
	.ident	"GCC: (Debian 12.2.0-13) 12.2.0"
	.section	.note.GNU-stack,"",@progbits
