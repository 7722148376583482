	.set noreorder
	.set volatile
	.set noat
	.set nomacro
	.text
$Ltext0:
	.file 0 "." "sum.c"
	.align 2
	.align 4
	.ent print
print:
	.eflag 48
	.frame $30,32,$26,0
$LFB1:
	.file 1 "sum.c"
	.loc 1 19 1
	.cfi_startproc
	ldah $29,0($27)		!gpdisp!1
	lda $29,0($29)		!gpdisp!1
$print..ng:
	lda $30,-32($30)
	.cfi_def_cfa_offset 32
	.prologue 1
	.loc 1 21 63
	subq $31,$16,$1
	.loc 1 25 28
	ldah $4,$LC0($29)		!gprelhigh
	.loc 1 23 11
	ldl $3,20($30)
	ldah $2,2560($31)
	.loc 1 21 63
	cmplt $16,0,$8
	.loc 1 25 28
	ldq $6,$LC0($4)		!gprellow
	.loc 1 23 11
	zapnot $3,247,$3
	.loc 1 21 63
	cmovge $16,$16,$1
	.loc 1 23 11
	lda $17,23($30)
	bis $2,$3,$2
	stl $2,20($30)
	.align 4
$L3:
	.loc 1 25 28 discriminator 1
	umulh $1,$6,$2
	mov $17,$7
	.loc 1 25 15 discriminator 1
	lda $17,-1($17)
	.loc 1 26 12 discriminator 1
	cmpule $1,9,$3
	.loc 1 25 15 discriminator 1
	ldq_u $5,0($17)
	mskbl $5,$17,$5
	.loc 1 25 28 discriminator 1
	srl $2,3,$2
	s4addq $2,$2,$4
	addq $4,$4,$4
	subq $1,$4,$1
	.loc 1 25 21 discriminator 1
	addl $1,48,$1
	.loc 1 25 15 discriminator 1
	insbl $1,$17,$4
	.loc 1 26 17 discriminator 1
	mov $2,$1
	.loc 1 25 15 discriminator 1
	bis $4,$5,$4
	stq_u $4,0($17)
	.loc 1 26 12 discriminator 1
	beq $3,$L3
	.loc 1 27 8
	beq $8,$L4
	.loc 1 28 15
	lda $3,-1($17)
	ldq_u $2,-1($17)
	lda $1,45($31)
	insbl $1,$3,$1
	mskbl $2,$3,$2
	bis $1,$2,$1
	stq_u $1,-1($17)
	lda $17,-2($7)
$L4:
	.loc 1 29 5
	lda $18,24($30)
	subqv $18,$17,$18
$LBB7:
$LBB8:
	.loc 1 6 19
	lda $0,4($31)
	.loc 1 7 19
	lda $16,1($31)
	.loc 1 11 5
	.set	macro
 # 11 "sum.c" 1
	callsys
 # 0 "" 2
	.set	nomacro
$LBE8:
$LBE7:
	.loc 1 30 1
	lda $30,32($30)
	.cfi_def_cfa_offset 0
	ret $31,($26),1
	.cfi_endproc
$LFE1:
	.end print
	.section	.text.startup,"ax",@progbits
	.align 2
	.align 4
	.globl main
	.ent main
main:
	.eflag 48
	.frame $30,32,$26,0
	.mask 0x4000600,-32
$LFB2:
	.loc 1 33 1
	.cfi_startproc
	ldah $29,0($27)		!gpdisp!2
	lda $29,0($29)		!gpdisp!2
$main..ng:
	lda $30,-32($30)
	.cfi_def_cfa_offset 32
	.loc 1 37 17
	ldah $23,buffer($29)		!gprelhigh
	ldah $7,weights($29)		!gprelhigh
	.loc 1 33 1
	stq $9,8($30)
	stq $10,16($30)
	.loc 1 37 17
	lda $8,buffer($23)		!gprellow
	.cfi_offset 9, -24
	.cfi_offset 10, -16
	.loc 1 35 24
	mov $31,$10
	.loc 1 33 1
	stq $26,0($30)
	.cfi_offset 26, -32
	.prologue 1
	.loc 1 35 10
	mov $31,$9
	.loc 1 34 9
	lda $1,1($31)
$LBB9:
$LBB10:
	.loc 1 9 19
	lda $22,4096($31)
	lda $7,weights($7)		!gprellow
	.align 4
$L10:
	.loc 1 6 19
	lda $0,3($31)
	.loc 1 7 19
	mov $31,$16
	.loc 1 8 19
	mov $8,$17
	.loc 1 9 19
	mov $22,$18
	.loc 1 11 5
	.set	macro
 # 11 "sum.c" 1
	callsys
 # 0 "" 2
	.loc 1 12 22
	.set	nomacro
	mov $0,$6
	beq $19,$L13
	subqv $31,$0,$6
$L13:
$LBE10:
$LBE9:
	.loc 1 37 58
	ble $6,$L14
$LBB11:
	.loc 1 39 33
	mullv $1,31,$1
	.loc 1 39 46
	ldq_u $2,buffer($23)		!gprellow
	.loc 1 38 28
	cmpeq $6,1,$3
	mov $8,$5
	.loc 1 39 46
	extbl $2,$8,$2
	.loc 1 38 34
	lda $4,1($31)
	.loc 1 39 33
	addl $31,$1,$1
	.loc 1 39 22
	addlv $2,$1,$1
	.loc 1 40 47
	mulqv $2,3,$2
	.loc 1 39 22
	addl $31,$1,$1
	.loc 1 40 22
	addqv $9,$2,$9
	.loc 1 38 28
	bne $3,$L16
	.align 4
$L11:
	.loc 1 39 33
	mullv $1,31,$1
	.loc 1 39 46
	ldq_u $2,1($5)
	.loc 1 40 41
	and $4,15,$3
	.loc 1 39 46
	lda $5,1($5)
	extbl $2,$5,$2
	.loc 1 40 38
	s4addq $3,$7,$3
	.loc 1 39 33
	addl $31,$1,$1
	.loc 1 39 22
	addlv $2,$1,$1
	.loc 1 40 25
	ldl $3,0($3)
	.loc 1 39 22
	addl $31,$1,$1
	.loc 1 40 47
	mulqv $3,$2,$2
	.loc 1 40 22
	addqv $9,$2,$9
	.loc 1 38 34
	addqv $4,1,$4
	.loc 1 38 28
	cmpeq $4,$6,$2
	beq $2,$L11
$L16:
$LBE11:
	.loc 1 42 15
	addqv $10,$6,$10
	br $31,$L10
	.align 4
$L14:
	.loc 1 44 5
	mov $1,$16
	ldq $27,print($29)		!literal!3
	jsr $26,($27),print		!lituse_jsr!3
	ldah $29,0($26)		!gpdisp!4
	lda $29,0($29)		!gpdisp!4
	.loc 1 45 5
	mov $9,$16
	ldq $27,print($29)		!literal!5
	jsr $26,($27),print		!lituse_jsr!5
	ldah $29,0($26)		!gpdisp!6
	lda $29,0($29)		!gpdisp!6
	.loc 1 46 5
	mov $10,$16
	ldq $27,print($29)		!literal!7
	jsr $26,($27),print		!lituse_jsr!7
	ldah $29,0($26)		!gpdisp!8
	lda $29,0($29)		!gpdisp!8
	.loc 1 48 1
	ldq $9,8($30)
	ldq $26,0($30)
	mov $31,$0
	ldq $10,16($30)
	lda $30,32($30)
	.cfi_restore 10
	.cfi_restore 9
	.cfi_restore 26
	.cfi_def_cfa_offset 0
	ret $31,($26),1
	.cfi_endproc
$LFE2:
	.end main
	.section	.rodata
	.align 2
	.type	weights, @object
	.size	weights, 64
weights:
	.long	3
	.long	1
	.long	4
	.long	1
	.long	5
	.long	9
	.long	2
	.long	6
	.long	5
	.long	3
	.long	5
	.long	8
	.long	9
	.long	7
	.long	9
	.long	3
	.section	.bss
	.type	buffer, @object
	.size	buffer, 4096
buffer:
	.zero	4096
	.section	.rodata.cst8,"aM",@progbits,8
	.align 3
$LC0:
	.quad	-3689348814741910323
	.text
$Letext0:
	.section	.debug_info,"",@progbits
$Ldebug_info0:
	.4byte	0x9c
	.2byte	0x5
	.byte	0x1
	.byte	0x8
	.4byte	$Ldebug_abbrev0
	.uleb128 0x2
	.4byte	$LASF2
	.byte	0x1d
	.4byte	$LASF0
	.4byte	$LASF1
	.4byte	$LLRL0
	.8byte	0
	.4byte	$Ldebug_line0
	.uleb128 0x3
	.4byte	$LASF3
	.byte	0x1
	.byte	0x20
	.byte	0x5
	.8byte	$LFB2
	.8byte	$LFE2-$LFB2
	.uleb128 0x1
	.byte	0x9c
	.4byte	0x60
	.uleb128 0x1
	.4byte	0x96
	.8byte	$LBB9
	.8byte	$LBE9-$LBB9
	.byte	0x25
	.byte	0x11
	.byte	0
	.uleb128 0x4
	.4byte	$LASF4
	.byte	0x1
	.byte	0x12
	.byte	0xd
	.8byte	$LFB1
	.8byte	$LFE1-$LFB1
	.uleb128 0x1
	.byte	0x9c
	.4byte	0x96
	.uleb128 0x1
	.4byte	0x96
	.8byte	$LBB7
	.8byte	$LBE7-$LBB7
	.byte	0x1d
	.byte	0x5
	.byte	0
	.uleb128 0x5
	.4byte	$LASF5
	.byte	0x1
	.byte	0x4
	.byte	0xd
	.byte	0x1
	.byte	0
	.section	.debug_abbrev,"",@progbits
$Ldebug_abbrev0:
	.uleb128 0x1
	.uleb128 0x1d
	.byte	0
	.uleb128 0x31
	.uleb128 0x13
	.uleb128 0x11
	.uleb128 0x1
	.uleb128 0x12
	.uleb128 0x7
	.uleb128 0x58
	.uleb128 0x21
	.sleb128 1
	.uleb128 0x59
	.uleb128 0xb
	.uleb128 0x57
	.uleb128 0xb
	.byte	0
	.byte	0
	.uleb128 0x2
	.uleb128 0x11
	.byte	0x1
	.uleb128 0x25
	.uleb128 0xe
	.uleb128 0x13
	.uleb128 0xb
	.uleb128 0x3
	.uleb128 0x1f
	.uleb128 0x1b
	.uleb128 0x1f
	.uleb128 0x55
	.uleb128 0x17
	.uleb128 0x11
	.uleb128 0x1
	.uleb128 0x10
	.uleb128 0x17
	.byte	0
	.byte	0
	.uleb128 0x3
	.uleb128 0x2e
	.byte	0x1
	.uleb128 0x3f
	.uleb128 0x19
	.uleb128 0x3
	.uleb128 0xe
	.uleb128 0x3a
	.uleb128 0xb
	.uleb128 0x3b
	.uleb128 0xb
	.uleb128 0x39
	.uleb128 0xb
	.uleb128 0x11
	.uleb128 0x1
	.uleb128 0x12
	.uleb128 0x7
	.uleb128 0x40
	.uleb128 0x18
	.uleb128 0x7c
	.uleb128 0x19
	.uleb128 0x1
	.uleb128 0x13
	.byte	0
	.byte	0
	.uleb128 0x4
	.uleb128 0x2e
	.byte	0x1
	.uleb128 0x3
	.uleb128 0xe
	.uleb128 0x3a
	.uleb128 0xb
	.uleb128 0x3b
	.uleb128 0xb
	.uleb128 0x39
	.uleb128 0xb
	.uleb128 0x11
	.uleb128 0x1
	.uleb128 0x12
	.uleb128 0x7
	.uleb128 0x40
	.uleb128 0x18
	.uleb128 0x7a
	.uleb128 0x19
	.uleb128 0x1
	.uleb128 0x13
	.byte	0
	.byte	0
	.uleb128 0x5
	.uleb128 0x2e
	.byte	0
	.uleb128 0x3
	.uleb128 0xe
	.uleb128 0x3a
	.uleb128 0xb
	.uleb128 0x3b
	.uleb128 0xb
	.uleb128 0x39
	.uleb128 0xb
	.uleb128 0x20
	.uleb128 0xb
	.byte	0
	.byte	0
	.byte	0
	.section	.debug_aranges,"",@progbits
	.4byte	0x3c
	.2byte	0x2
	.4byte	$Ldebug_info0
	.byte	0x8
	.byte	0
	.2byte	0
	.2byte	0
	.8byte	$Ltext0
	.8byte	$Letext0-$Ltext0
	.8byte	$LFB2
	.8byte	$LFE2-$LFB2
	.8byte	0
	.8byte	0
	.section	.debug_rnglists,"",@progbits
$Ldebug_ranges0:
	.4byte	$Ldebug_ranges3-$Ldebug_ranges2
$Ldebug_ranges2:
	.2byte	0x5
	.byte	0x8
	.byte	0
	.4byte	0
$LLRL0:
	.byte	0x7
	.8byte	$Ltext0
	.uleb128 $Letext0-$Ltext0
	.byte	0x7
	.8byte	$LFB2
	.uleb128 $LFE2-$LFB2
	.byte	0
$Ldebug_ranges3:
	.section	.debug_line,"",@progbits
$Ldebug_line0:
	.section	.debug_str,"MS",@progbits,1
$LASF5:
	.string	"call"
$LASF4:
	.string	"print"
$LASF2:
	.string	"GNU C17 12.2.0 -g1 -O2 -ftrapv -ffixed-28 -ffreestanding -fno-jump-tables"
$LASF3:
	.string	"main"
	.section	.debug_line_str,"MS",@progbits,1
$LASF1:
	.string	"."
$LASF0:
	.string	"sum.c"
	.ident	"GCC: (Debian 12.2.0-13) 12.2.0"
	.section	.note.GNU-stack,"",@progbits
