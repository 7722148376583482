	.set noreorder
	.set volatile
	.set noat
	.set nomacro
	.text
$Ltext0:
	.file 0 "." "main.c"
	.section	.rodata.str1.1,"aMS",@progbits,1
$LC0:
	.string	"numbers"
$LC1:
	.string	"sum"
$LC2:
	.string	"product"
$LC3:
	.string	"mean"
	.section	.text.startup,"ax",@progbits
	.align 2
	.align 4
	.globl main
	.ent main
main:
	.eflag 48
	.frame $30,32,$26,0
	.mask 0x4000600,-32
$LFB2:
	.file 1 "main.c"
	.loc 1 16 1
	.cfi_startproc
	ldah $29,0($27)		!gpdisp!2
	lda $29,0($29)		!gpdisp!2
$main..ng:
	lda $30,-32($30)
	.cfi_def_cfa_offset 32
	.loc 1 19 12
	ldah $3,buffer($29)		!gprelhigh
	.loc 1 16 1
	stq $10,16($30)
	.cfi_offset 10, -16
	.loc 1 19 12
	lda $10,buffer($3)		!gprellow
$LBB8:
$LBB9:
	.file 2 "three.h"
	.loc 2 11 19
	lda $0,3($31)
$LBE9:
$LBE8:
	.loc 1 16 1
	stq $26,0($30)
$LBB12:
$LBB10:
	.loc 2 12 19
	mov $31,$16
$LBE10:
$LBE12:
	.loc 1 16 1
	stq $9,8($30)
	.cfi_offset 26, -32
	.cfi_offset 9, -24
	.prologue 1
$LBB13:
$LBB11:
	.loc 2 13 19
	mov $10,$17
	.loc 2 14 19
	lda $18,4095($31)
	.loc 2 16 5
	.set	macro
 # 16 "three.h" 1
	callsys
 # 0 "" 2
	.loc 2 17 22
	.set	nomacro
	mov $0,$1
	beq $19,$L3
	subqv $31,$0,$1
$L3:
$LBE11:
$LBE13:
	.loc 1 19 57
	addq $10,$1,$1
	ldq_u $2,0($1)
	mskbl $2,$1,$2
	stq_u $2,0($1)
	.loc 1 20 12
	ldq_u $2,buffer($3)		!gprellow
	extbl $2,$10,$2
	sll $2,56,$2
	sra $2,56,$1
	beq $2,$L4
	lda $9,1($10)
	br $31,$L9
	.align 4
$L5:
	.loc 1 24 15
	mov $9,$10
	lda $9,1($9)
	.loc 1 20 12
	ldq_u $1,0($10)
	extqh $1,$9,$1
	sra $1,56,$1
	beq $1,$L4
$L9:
	.loc 1 21 24
	subl $1,48,$1
	.loc 1 21 12
	and $1,0xff,$1
	cmpule $1,9,$1
	beq $1,$L5
$LBB14:
$LBB15:
	.loc 1 8 10
	mov $31,$16
	br $31,$L21
	.align 4
$L23:
	.loc 1 11 23
	mulqv $16,10,$16
	.loc 1 11 40
	sublv $1,48,$1
	sll $1,56,$1
	.loc 1 11 37
	mov $9,$10
	.loc 1 11 40
	sra $1,56,$1
	.loc 1 10 12
	lda $9,1($9)
	.loc 1 11 15
	addqv $1,$16,$16
$L21:
	.loc 1 10 12
	ldq_u $1,0($10)
	extqh $1,$9,$1
	sra $1,56,$1
	.loc 1 10 24
	subl $1,48,$2
	and $2,0xff,$2
	cmpule $2,9,$2
	bne $2,$L23
$LBE15:
$LBE14:
	.loc 1 22 13
	ldq $27,note($29)		!literal!25
	jsr $26,($27),note		!lituse_jsr!25
	ldah $29,0($26)		!gpdisp!26
	.loc 1 20 12
	ldq_u $1,0($10)
	.loc 1 22 13
	lda $29,0($29)		!gpdisp!26
	.loc 1 20 12
	extqh $1,$9,$1
	sra $1,56,$1
	bne $1,$L9
$L4:
	.loc 1 25 5
	ldq $27,count($29)		!literal!11
	jsr $26,($27),count		!lituse_jsr!11
	ldah $29,0($26)		!gpdisp!12
	lda $29,0($29)		!gpdisp!12
	ldah $16,$LC0($29)		!gprelhigh
	mov $0,$17
	ldq $27,print($29)		!literal!13
	lda $16,$LC0($16)		!gprellow
	jsr $26,($27),print		!lituse_jsr!13
	ldah $29,0($26)		!gpdisp!14
	lda $29,0($29)		!gpdisp!14
	.loc 1 26 5
	ldq $27,sum($29)		!literal!15
	jsr $26,($27),sum		!lituse_jsr!15
	ldah $29,0($26)		!gpdisp!16
	lda $29,0($29)		!gpdisp!16
	ldah $16,$LC1($29)		!gprelhigh
	mov $0,$17
	ldq $27,print($29)		!literal!17
	lda $16,$LC1($16)		!gprellow
	jsr $26,($27),print		!lituse_jsr!17
	ldah $29,0($26)		!gpdisp!18
	lda $29,0($29)		!gpdisp!18
	.loc 1 27 5
	ldq $27,product($29)		!literal!19
	jsr $26,($27),product		!lituse_jsr!19
	ldah $29,0($26)		!gpdisp!20
	lda $29,0($29)		!gpdisp!20
	ldah $16,$LC2($29)		!gprelhigh
	mov $0,$17
	ldq $27,print($29)		!literal!21
	lda $16,$LC2($16)		!gprellow
	jsr $26,($27),print		!lituse_jsr!21
	ldah $29,0($26)		!gpdisp!22
	lda $29,0($29)		!gpdisp!22
	.loc 1 28 9
	ldq $27,count($29)		!literal!23
	jsr $26,($27),count		!lituse_jsr!23
	ldah $29,0($26)		!gpdisp!24
	lda $29,0($29)		!gpdisp!24
	.loc 1 28 8
	bne $0,$L24
$L10:
	.loc 1 30 12
	ldq $27,lines($29)		!literal!3
	jsr $26,($27),lines		!lituse_jsr!3
	ldah $29,0($26)		!gpdisp!4
	.loc 1 31 1
	ldq $9,8($30)
	ldq $26,0($30)
	.loc 1 30 12
	addl $31,$0,$0
	.loc 1 31 1
	ldq $10,16($30)
	.loc 1 30 12
	lda $29,0($29)		!gpdisp!4
	.loc 1 31 1
	lda $30,32($30)
	.cfi_remember_state
	.cfi_restore 10
	.cfi_restore 9
	.cfi_restore 26
	.cfi_def_cfa_offset 0
	ret $31,($26),1
$L24:
	.cfi_restore_state
	.loc 1 29 23
	ldq $27,sum($29)		!literal!5
	jsr $26,($27),sum		!lituse_jsr!5
	ldah $29,0($26)		!gpdisp!6
	lda $29,0($29)		!gpdisp!6
	mov $0,$9
	.loc 1 29 31
	ldq $27,count($29)		!literal!7
	jsr $26,($27),count		!lituse_jsr!7
	ldah $29,0($26)		!gpdisp!8
	.loc 1 29 9
	mov $9,$24
	.loc 1 29 31
	lda $29,0($29)		!gpdisp!8
	.loc 1 29 9
	mov $0,$25
	ldah $16,$LC3($29)		!gprelhigh
	ldq $27,__divq($29)		!literal!1
	lda $16,$LC3($16)		!gprellow
	jsr $23,($27),__divq		!lituse_jsrdirect!1
	mov $27,$17
	ldq $27,print($29)		!literal!9
	jsr $26,($27),print		!lituse_jsr!9
	ldah $29,0($26)		!gpdisp!10
	lda $29,0($29)		!gpdisp!10
	br $31,$L10
	.cfi_endproc
$LFE2:
	.end main
	.section	.bss
	.type	buffer, @object
	.size	buffer, 4096
buffer:
	.zero	4096
	.text
$Letext0:
	.section	.debug_info,"",@progbits
$Ldebug_info0:
	.4byte	0xaa
	.2byte	0x5
	.byte	0x1
	.byte	0x8
	.4byte	$Ldebug_abbrev0
	.uleb128 0x3
	.4byte	$LASF9
	.byte	0x1d
	.4byte	$LASF0
	.4byte	$LASF1
	.4byte	$LLRL1
	.8byte	0
	.4byte	$Ldebug_line0
	.uleb128 0x1
	.4byte	$LASF2
	.byte	0x7
	.uleb128 0x1
	.4byte	$LASF3
	.byte	0x5
	.uleb128 0x4
	.string	"sum"
	.byte	0x2
	.byte	0x4
	.byte	0x6
	.uleb128 0x1
	.4byte	$LASF4
	.byte	0x6
	.uleb128 0x1
	.4byte	$LASF5
	.byte	0x3
	.uleb128 0x1
	.4byte	$LASF6
	.byte	0x2
	.uleb128 0x5
	.4byte	$LASF10
	.byte	0x1
	.byte	0xf
	.byte	0x5
	.8byte	$LFB2
	.8byte	$LFE2-$LFB2
	.uleb128 0x1
	.byte	0x9c
	.4byte	0x9b
	.uleb128 0x6
	.4byte	0xa4
	.8byte	$LBB8
	.4byte	$LLRL0
	.byte	0x1
	.byte	0x13
	.byte	0xc
	.uleb128 0x7
	.4byte	0x9b
	.8byte	$LBB14
	.8byte	$LBE14-$LBB14
	.byte	0x1
	.byte	0x16
	.byte	0xd
	.byte	0
	.uleb128 0x2
	.4byte	$LASF7
	.byte	0x1
	.byte	0x6
	.byte	0xd
	.byte	0x1
	.uleb128 0x2
	.4byte	$LASF8
	.byte	0x2
	.byte	0x9
	.byte	0x14
	.byte	0x3
	.byte	0
	.section	.debug_abbrev,"",@progbits
$Ldebug_abbrev0:
	.uleb128 0x1
	.uleb128 0x2e
	.byte	0
	.uleb128 0x3f
	.uleb128 0x19
	.uleb128 0x3
	.uleb128 0xe
	.uleb128 0x3a
	.uleb128 0x21
	.sleb128 2
	.uleb128 0x3b
	.uleb128 0xb
	.uleb128 0x39
	.uleb128 0x21
	.sleb128 6
	.uleb128 0x3c
	.uleb128 0x19
	.byte	0
	.byte	0
	.uleb128 0x2
	.uleb128 0x2e
	.byte	0
	.uleb128 0x3
	.uleb128 0xe
	.uleb128 0x3a
	.uleb128 0xb
	.uleb128 0x3b
	.uleb128 0xb
	.uleb128 0x39
	.uleb128 0xb
	.uleb128 0x20
	.uleb128 0xb
	.byte	0
	.byte	0
	.uleb128 0x3
	.uleb128 0x11
	.byte	0x1
	.uleb128 0x25
	.uleb128 0xe
	.uleb128 0x13
	.uleb128 0xb
	.uleb128 0x3
	.uleb128 0x1f
	.uleb128 0x1b
	.uleb128 0x1f
	.uleb128 0x55
	.uleb128 0x17
	.uleb128 0x11
	.uleb128 0x1
	.uleb128 0x10
	.uleb128 0x17
	.byte	0
	.byte	0
	.uleb128 0x4
	.uleb128 0x2e
	.byte	0
	.uleb128 0x3f
	.uleb128 0x19
	.uleb128 0x3
	.uleb128 0x8
	.uleb128 0x3a
	.uleb128 0xb
	.uleb128 0x3b
	.uleb128 0xb
	.uleb128 0x39
	.uleb128 0xb
	.uleb128 0x3c
	.uleb128 0x19
	.byte	0
	.byte	0
	.uleb128 0x5
	.uleb128 0x2e
	.byte	0x1
	.uleb128 0x3f
	.uleb128 0x19
	.uleb128 0x3
	.uleb128 0xe
	.uleb128 0x3a
	.uleb128 0xb
	.uleb128 0x3b
	.uleb128 0xb
	.uleb128 0x39
	.uleb128 0xb
	.uleb128 0x11
	.uleb128 0x1
	.uleb128 0x12
	.uleb128 0x7
	.uleb128 0x40
	.uleb128 0x18
	.uleb128 0x7c
	.uleb128 0x19
	.uleb128 0x1
	.uleb128 0x13
	.byte	0
	.byte	0
	.uleb128 0x6
	.uleb128 0x1d
	.byte	0
	.uleb128 0x31
	.uleb128 0x13
	.uleb128 0x52
	.uleb128 0x1
	.uleb128 0x55
	.uleb128 0x17
	.uleb128 0x58
	.uleb128 0xb
	.uleb128 0x59
	.uleb128 0xb
	.uleb128 0x57
	.uleb128 0xb
	.byte	0
	.byte	0
	.uleb128 0x7
	.uleb128 0x1d
	.byte	0
	.uleb128 0x31
	.uleb128 0x13
	.uleb128 0x11
	.uleb128 0x1
	.uleb128 0x12
	.uleb128 0x7
	.uleb128 0x58
	.uleb128 0xb
	.uleb128 0x59
	.uleb128 0xb
	.uleb128 0x57
	.uleb128 0xb
	.byte	0
	.byte	0
	.byte	0
	.section	.debug_aranges,"",@progbits
	.4byte	0x2c
	.2byte	0x2
	.4byte	$Ldebug_info0
	.byte	0x8
	.byte	0
	.2byte	0
	.2byte	0
	.8byte	$LFB2
	.8byte	$LFE2-$LFB2
	.8byte	0
	.8byte	0
	.section	.debug_rnglists,"",@progbits
$Ldebug_ranges0:
	.4byte	$Ldebug_ranges3-$Ldebug_ranges2
$Ldebug_ranges2:
	.2byte	0x5
	.byte	0x8
	.byte	0
	.4byte	0
$LLRL0:
	.byte	0x5
	.8byte	$LBB8
	.byte	0x4
	.uleb128 $LBB8-$LBB8
	.uleb128 $LBE8-$LBB8
	.byte	0x4
	.uleb128 $LBB12-$LBB8
	.uleb128 $LBE12-$LBB8
	.byte	0x4
	.uleb128 $LBB13-$LBB8
	.uleb128 $LBE13-$LBB8
	.byte	0
$LLRL1:
	.byte	0x7
	.8byte	$LFB2
	.uleb128 $LFE2-$LFB2
	.byte	0
$Ldebug_ranges3:
	.section	.debug_line,"",@progbits
$Ldebug_line0:
	.section	.debug_str,"MS",@progbits,1
$LASF8:
	.string	"call"
$LASF4:
	.string	"print"
$LASF10:
	.string	"main"
$LASF6:
	.string	"note"
$LASF5:
	.string	"count"
$LASF9:
	.string	"GNU C17 12.2.0 -g1 -O2 -ftrapv -ffixed-28 -ffreestanding -fno-jump-tables"
$LASF2:
	.string	"lines"
$LASF3:
	.string	"product"
$LASF7:
	.string	"take"
	.section	.debug_line_str,"MS",@progbits,1
$LASF1:
	.string	"."
$LASF0:
	.string	"main.c"
	.ident	"GCC: (Debian 12.2.0-13) 12.2.0"
	.section	.note.GNU-stack,"",@progbits
