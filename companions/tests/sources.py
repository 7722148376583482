"""gas2source: what it can't say, and what it makes, against the listing of its image."""
import os
import struct

from parts import gas, image, program
from .helpers import ASKED, companion, needs_program, want


def test_gas2source_names_what_it_cannot_say(folder):
    path, out = os.path.join(folder, "a.s"), os.path.join(folder, "a.as")
    cases = [("\tldt $f1,0($2)", 1, "floating point"), ("\n\taddt $f1,$f2,$f3", 2, "floating point"),
             ("\trpcc $1", 1, "rpcc"),
             ("\taddq $1,256,$2", 1, "256 is not in 0 to 255"), ("\tldq $1,40000($2)", 1, "40000"),
             ("\tbr $31,.+8", 1, ".+8"),
             ("\tldgp $29,0($27)\n\taddq $29,$1,$1", 2, "$29"), ("\t.long 1", 1, "data among"),
             ("\tbr $31,nowhere", 1, "nowhere"),
             ("\t.data\n\taddq $1,$2,$3", 2, "an instruction in"), ("\t.macro x", 1, ".macro"),
             ("\tfoo $1", 1, "`foo`"),
             ("\t.section .tbss,\"awT\",@nobits", 1, "thread-local"), ("\t.section .init_array,\"aw\"", 1, "starts"),
             ("\t.data\n\t.long _start", 2, "8"), ("\t.data\n\t.string \"\\q\"", 2, "escape"),
             ("_start:", 1, "there already"),
             ("\t.section .rodata\n\t.gprel32 x", 2, "-fno-jump-tables"), ("\tdivq $1,$2,$3", 1, "macro"),
             ("\t)", 1, "no statement"),
             ("\tldah $1,x($29) !gprelhigh\n\tldq $2,x+16($1) !gprellow\n\t.data\n\t.zero 32752\nx:\t.zero 32", 1,
              "upper half"),
             ("\tstl $1,x\n\tmov $28,$2\n\t.comm x,4", 1, "-ffixed-28"), ("\t.bss\n\t.long 5", 2, "zeros")]
    for text, line, said in cases:
        with open(path, "w", encoding="ascii") as file:
            file.write(f"{text}\n\t.text\n\t.globl _start\n_start:\tnop\n")
        _, notes = companion("gas2source", path, "-o", out, status=1)
        want((f"a.s:{line if text != '_start:' else 4}:" in notes, said in notes, os.path.exists(out)),
             (True, True, False), notes)
    want(sorted(os.listdir(folder)), ["a.s"], "files that are left")


@needs_program
def test_gas2source_says_what_gnu_as_says(folder):
    """Statements and what comes of them: the listing of the image, and the bytes of its data."""
    path, source, made = (os.path.join(folder, name) for name in ("a.s", "a.as", "a.img"))
    with open(path, "w", encoding="ascii") as file:
        file.write(GAS)
    companion("gas2source", path, "-o", source)
    asked = program.Program(ASKED)
    want(asked.call("asm", source, made), (0, b"", ""), "asm")
    want(asked.code_lines(made), LISTED, "listing")
    want(image.read_image(made).segments[0].data, DATA_BYTES, "data")
    want(image.read_image(made).segments[0].zeroed, 32, "zeroed bytes")


GAS = r"""
 .text ; .globl _start ; /* two
 lines */ _start: br $27,1f # a comment with "quotes
1: or $1,$2,$3; addqv $1,5; bne $3,1b; ldi $4,-1; andnot $1,0x1f,$2; xornot $1,010,$2; negqv $5,$6; mov 3,$7
 ldgp $29,0($27)
$x..ng: lda $1,y+8
 ldl $2,y
 stl $2,y+4
 ret $31,($26),1; jmp ($1); jsr $26,($27),0; rduniq; draint; call_pal 0x83
 .section .rodata
y: .quad -1, _start
 .byte 1
v: z: .long 2
 .ascii "a\"\\\n\101", "\0"
 .comm shared,16,8
 .bss
 .zero 3
w: .quad 0
 .data
 .quad z, w, shared, v
"""
LISTED = """br $27,.+4|bis $1,$2,$3|addq/v $1,5,$1|bne $3,.-8|lda $4,-1($31)|bic $1,31,$2|eqv $1,8,$2|subq/v $31,$5,$6
bis $31,3,$7
ldah $1,4096($31)|lda $1,8($1)|ldah $2,4096($31)|ldl $2,0($2)|ldah $28,4096($31)|stl $2,4($28)|ret $31,($26),1
jmp $31,($1),0
jsr $26,($27),0|rdunique|trapb|callsys""".replace("\n", "|").split("|")
DATA_BYTES = (struct.pack("<qQB3xI", -1, 0x10000, 1, 2) + b'a"\\\nA\0' + bytes(2) +
              struct.pack("<QQQQ", 0x10000014, 0x10000048, 0x10000050, 0x10000011))


def test_numbers_are_those_of_gnu_as(_):
    for text, value in [("010", 8), ("0x1F", 31), ("-5", -5), ("08", None), ("0b101", 5), ("1f", None), ("", None)]:
        want(gas.number_of(text), value, text)
    for text, value in [("x+8", ("x", 8)), ("x-0x10+4", ("x", -12)), ("$L3", ("$L3", 0)), ("x*2", None), ("a-b", None)]:
        found = gas.expression_of(text)
        want(found and tuple(found), value, text)


def test_a_jump_table_is_refused_by_one_line(folder):
    """Whatever it is made of: a line for the cause, with the option that leaves it out and how many lines that are; and
    other causes, each once."""
    path = os.path.join(folder, "a.s")
    with open(path, "w", encoding="ascii") as file:
        file.write("\t.globl f\nf:\tldgp $29,0($27)\n\tldah $1,$L4($29)\t\t!gprelhigh\n\taddq $29,$1,$1\n\tjmp "
                   "$31,($1),$L4\n" +
                   "\tldt $f1,0($2)\n" * 2 + "\t.section .rodata\n$L4:\n" + "\t.gprel32 f\n" * 120)
    _, notes = companion("gas2source", "--entry", "f", path, status=1)
    want(notes,
         f"gas2source: {path}:4: $29 is used as a value, and has none here: compile with -fno-jump-tables (121 lines "
         f"which that "
         f"option leaves out)\ngas2source: {path}:6: `ldt` is of floating point, which the product doesn't have (2 "
         f"lines alike)\n", "lines")
