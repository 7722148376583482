	.set noreorder
	.set volatile
	.set noat
	.set nomacro
	.text
$Ltext0:
	.file 0 "." "numbers.c"
	.align 2
	.align 4
	.globl note
	.ent note
note:
	.eflag 48
	.frame $30,0,$26,0
$LFB1:
	.file 1 "numbers.c"
	.loc 1 8 1
	.cfi_startproc
	ldah $29,0($27)		!gpdisp!1
	lda $29,0($29)		!gpdisp!1
$note..ng:
	.prologue 1
	.loc 1 9 14
	ldah $3,many($29)		!gprelhigh
	ldq $1,many($3)		!gprellow
	.loc 1 9 8
	cmple $1,63,$2
	beq $2,$L1
	.loc 1 10 25
	ldah $2,numbers($29)		!gprelhigh
	lda $2,numbers($2)		!gprellow
	s8addq $1,$2,$2
	.loc 1 10 21
	addqv $1,1,$1
	stq $1,many($3)		!gprellow
	.loc 1 10 25
	stq $16,0($2)
$L1:
	.loc 1 11 1
	ret $31,($26),1
	.cfi_endproc
$LFE1:
	.end note
	.align 2
	.align 4
	.globl count
	.ent count
count:
	.eflag 48
	.frame $30,0,$26,0
$LFB2:
	.loc 1 14 1
	.cfi_startproc
	ldah $29,0($27)		!gpdisp!2
	lda $29,0($29)		!gpdisp!2
$count..ng:
	.prologue 1
	.loc 1 15 12
	ldah $1,many($29)		!gprelhigh
	ldq $0,many($1)		!gprellow
	.loc 1 16 1
	ret $31,($26),1
	.cfi_endproc
$LFE2:
	.end count
	.align 2
	.align 4
	.globl sum
	.ent sum
sum:
	.eflag 48
	.frame $30,0,$26,0
$LFB3:
	.loc 1 19 1
	.cfi_startproc
	ldah $29,0($27)		!gpdisp!3
	lda $29,0($29)		!gpdisp!3
$sum..ng:
	.prologue 1
$LBB2:
	.loc 1 22 24
	ldah $1,many($29)		!gprelhigh
$LBE2:
	.loc 1 20 10
	mov $31,$0
$LBB3:
	.loc 1 22 24
	ldq $4,many($1)		!gprellow
	ble $4,$L5
	ldah $1,numbers($29)		!gprelhigh
	lda $1,numbers($1)		!gprellow
	s8addq $4,$1,$4
	.align 4
$L7:
	.loc 1 22 24 is_stmt 0 discriminator 3
	lda $1,8($1)
	.loc 1 23 15 is_stmt 1 discriminator 3
	ldq $2,-8($1)
	.loc 1 22 24 discriminator 3
	cmpeq $1,$4,$3
	.loc 1 23 15 discriminator 3
	addqv $0,$2,$0
	.loc 1 22 24 discriminator 3
	beq $3,$L7
$L5:
$LBE3:
	.loc 1 25 1
	ret $31,($26),1
	.cfi_endproc
$LFE3:
	.end sum
	.align 2
	.align 4
	.globl product
	.ent product
product:
	.eflag 48
	.frame $30,0,$26,0
$LFB4:
	.loc 1 28 1
	.cfi_startproc
	ldah $29,0($27)		!gpdisp!4
	lda $29,0($29)		!gpdisp!4
$product..ng:
	.prologue 1
$LBB4:
	.loc 1 31 24
	ldah $1,many($29)		!gprelhigh
$LBE4:
	.loc 1 29 10
	lda $0,1($31)
$LBB5:
	.loc 1 31 24
	ldq $4,many($1)		!gprellow
	ble $4,$L10
	ldah $1,numbers($29)		!gprelhigh
	lda $1,numbers($1)		!gprellow
	s8addq $4,$1,$4
	.align 4
$L12:
	.loc 1 31 24 is_stmt 0 discriminator 3
	lda $1,8($1)
	.loc 1 32 15 is_stmt 1 discriminator 3
	ldq $2,-8($1)
	.loc 1 31 24 discriminator 3
	cmpeq $1,$4,$3
	.loc 1 32 15 discriminator 3
	mulqv $0,$2,$0
	.loc 1 31 24 discriminator 3
	beq $3,$L12
$L10:
$LBE5:
	.loc 1 34 1
	ret $31,($26),1
	.cfi_endproc
$LFE4:
	.end product
	.section	.sbss,"aw"
	.type	many, @object
	.size	many, 8
	.align 3
many:
	.zero	8
	.section	.bss
	.type	numbers, @object
	.size	numbers, 512
	.align 3
numbers:
	.zero	512
	.text
$Letext0:
	.section	.debug_info,"",@progbits
$Ldebug_info0:
	.4byte	0x8d
	.2byte	0x5
	.byte	0x1
	.byte	0x8
	.4byte	$Ldebug_abbrev0
	.uleb128 0x2
	.4byte	$LASF5
	.byte	0x1d
	.4byte	$LASF0
	.4byte	$LASF1
	.8byte	$Ltext0
	.8byte	$Letext0-$Ltext0
	.4byte	$Ldebug_line0
	.uleb128 0x1
	.4byte	$LASF2
	.byte	0x1b
	.8byte	$LFB4
	.8byte	$LFE4-$LFB4
	.uleb128 0x1
	.byte	0x9c
	.uleb128 0x3
	.string	"sum"
	.byte	0x1
	.byte	0x12
	.byte	0x6
	.8byte	$LFB3
	.8byte	$LFE3-$LFB3
	.uleb128 0x1
	.byte	0x9c
	.uleb128 0x1
	.4byte	$LASF3
	.byte	0xd
	.8byte	$LFB2
	.8byte	$LFE2-$LFB2
	.uleb128 0x1
	.byte	0x9c
	.uleb128 0x1
	.4byte	$LASF4
	.byte	0x7
	.8byte	$LFB1
	.8byte	$LFE1-$LFB1
	.uleb128 0x1
	.byte	0x9c
	.byte	0
	.section	.debug_abbrev,"",@progbits
$Ldebug_abbrev0:
	.uleb128 0x1
	.uleb128 0x2e
	.byte	0
	.uleb128 0x3f
	.uleb128 0x19
	.uleb128 0x3
	.uleb128 0xe
	.uleb128 0x3a
	.uleb128 0x21
	.sleb128 1
	.uleb128 0x3b
	.uleb128 0xb
	.uleb128 0x39
	.uleb128 0x21
	.sleb128 6
	.uleb128 0x11
	.uleb128 0x1
	.uleb128 0x12
	.uleb128 0x7
	.uleb128 0x40
	.uleb128 0x18
	.uleb128 0x7a
	.uleb128 0x19
	.byte	0
	.byte	0
	.uleb128 0x2
	.uleb128 0x11
	.byte	0x1
	.uleb128 0x25
	.uleb128 0xe
	.uleb128 0x13
	.uleb128 0xb
	.uleb128 0x3
	.uleb128 0x1f
	.uleb128 0x1b
	.uleb128 0x1f
	.uleb128 0x11
	.uleb128 0x1
	.uleb128 0x12
	.uleb128 0x7
	.uleb128 0x10
	.uleb128 0x17
	.byte	0
	.byte	0
	.uleb128 0x3
	.uleb128 0x2e
	.byte	0
	.uleb128 0x3f
	.uleb128 0x19
	.uleb128 0x3
	.uleb128 0x8
	.uleb128 0x3a
	.uleb128 0xb
	.uleb128 0x3b
	.uleb128 0xb
	.uleb128 0x39
	.uleb128 0xb
	.uleb128 0x11
	.uleb128 0x1
	.uleb128 0x12
	.uleb128 0x7
	.uleb128 0x40
	.uleb128 0x18
	.uleb128 0x7a
	.uleb128 0x19
	.byte	0
	.byte	0
	.byte	0
	.section	.debug_aranges,"",@progbits
	.4byte	0x2c
	.2byte	0x2
	.4byte	$Ldebug_info0
	.byte	0x8
	.byte	0
	.2byte	0
	.2byte	0
	.8byte	$Ltext0
	.8byte	$Letext0-$Ltext0
	.8byte	0
	.8byte	0
	.section	.debug_line,"",@progbits
$Ldebug_line0:
	.section	.debug_str,"MS",@progbits,1
$LASF3:
	.string	"count"
$LASF5:
	.string	"GNU C17 12.2.0 -g1 -O2 -ftrapv -ffixed-28 -ffreestanding -fno-jump-tables"
$LASF4:
	.string	"note"
$LASF2:
	.string	"product"
	.section	.debug_line_str,"MS",@progbits,1
$LASF1:
	.string	"."
$LASF0:
	.string	"numbers.c"
	.ident	"GCC: (Debian 12.2.0-13) 12.2.0"
	.section	.note.GNU-stack,"",@progbits
