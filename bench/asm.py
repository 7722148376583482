#!/usr/bin/env python3
"""Measures `asm` on large sources: how long it takes, beside `cat` of the source and, where it is installed, GNU as for
alpha; how many host instructions it takes a line, and how much memory a byte of the source, both beside what it takes
for a source of few such lines; and how the time grows with the number of lines. Of lines as people write them it says
the host instructions alone, a row for each kind; so it does for each source that is named.

    bench/asm.py [PROGRAM [SOURCE..]]
"""
import os
import shutil
import sys
import tempfile

from measure import WORDS, best, counts_instructions, file_of, instructions, most_memory, print_times, the_program

FEW = 4_000
NEWLINE = b"\n"
LINES = ["bis $31,$31,$31", "ldq $1,-8($30)", "addq $3,$4,$5", "stq $1,8($30)", "lda $2,1($31)", "beq $1,.+8"]


def canonical(count):
    return "".join(LINES[n % len(LINES)] + "\n" for n in range(count))


def labels(count):
    """A label on each line, which the next line names."""
    return "".join(f"label_{n}: br $31,label_{(n + 1) % count}\n" for n in range(count))


def written(*lines):
    """A source of these lines in turn."""
    return lambda count: "".join(lines[n % len(lines)] + "\n" for n in range(count))


# Lines as people and compilers write them.
WRITTEN = {
    "canonical lines with a comment": written(*(line + "  # why it is so" for line in LINES)),
    "canonical lines with a carriage return": written(*(line + "\r" for line in LINES)),
    "blanks between operands": written("\taddq\t$1, $2, $3", "\tldq\t$1, -8($30)", "\tbis\t$31, 255, $31",
                                       "\tstq $1, 16( $30 )"),
    "names of registers": written("addq $t0,$s1,$a0", "ldq $ra,8($sp)", "stq $fp,-16($sp)", "lda $sp,-32($sp)",
                                  "subq $v0,1,$t11", "bis $zero,$at,$gp"),
    "pseudo-operations": written("mov $1,$2", "mov 5,$3", "mov -300,$4", "clr $5", "nop", "unop", "not $1,$2",
                                 "negq $1,$2", "negl/v $3,$4", "sextl $5,$6"),
    "branches to labels": lambda count: "loop: nop\n"
    + written("br loop", "beq $1,loop", "bsr loop", "bne $t0, loop # again")(count - 1),
    "halves of addresses": lambda count: "x: nop\n"
    + written("ldah $9,%hi(x)($31)", "lda $9,%lo(x)($9)", "ldah $9,%hi(x+8)($31)")(count - 1),
    "jumps": written("ret", "ret $31,($26),1", "jsr $26,($27)", "jmp $31,($1),0", "jsr $ra,($pv)"),
    "data of one value": lambda count: "ret\n.data\n"
    + written(".quad 5", ".quad 0x123456789abcdef", ".long -7", ".word 65535", ".byte 1")(count),
    "data of four bytes": lambda count: "ret\n.data\n" + written(".byte 1,2,3,4")(count),
    "addresses with an offset": lambda count: "x: ret\n.data\n" + written(".quad x+8")(count),
    "strings of twenty bytes": lambda count: "ret\n.data\n" + written('.ascii "abcdefghijklmnopqrst"')(count),
}

# A function as somebody writes it by hand; N stands for its number.
BY_HAND = """startN:  ldah $9,%hi(startN)($31)
        lda $9,%lo(startN)($9)
        bis $31,$31,$16         # where it is read to
        mov $9,$17
        lda $18,4096($31)
        lda $0,3($31)
        callsys

        # the sum of the bytes
        mov $0,$10
        mov $9,$11
        clr $12
loopN:   ble $10,doneN
        ldbu $t0,0($11)
        addq/v $12,$t0,$13
        trapb
        mov $13,$12
        lda $11,1($11)
        subq $10,1,$10\r
        br loopN
doneN:   stq $12,4096($9)
        lda $sp,-16($sp)
        stq $ra,0($sp)\r
        bsr $ra, startN     # again
        ldq $ra, 0($sp)
        lda $sp, 16($sp)
        clr $16
        lda $0,1($31)
        ret
"""


# One as a compiler writes it.
COMPILED = """sum_N:
\tlda $30,-32($30)
\tstq $9,8($30)
\tldah $9,%hi(sum_N)($31)
\tstq $26,0($30)
\tmov $16,$10
\tclr $0
sum_N_L2:
\tlda $28,%lo(sum_N)($9)
\tldq $3,0($28)
\tldbu $1,0($3)
\tsextb $1,$1
\tcmpeq $1,32,$2
\tbeq $2,sum_N_L3
\taddq $0,$1,$0
\tlda $10,-1($10)
\tbr $31,sum_N_L2
sum_N_L3:
\tbgt $10,sum_N_L2
\tldah $27,%hi(sum_N)($31)
\tlda $27,%lo(sum_N)($27)
\tjsr $26,($27),0
\tldq $26,0($30)
\tldq $9,8($30)
\tlda $30,32($30)
\tret $31,($26),1
"""


def repeated(text):
    """A source of this text over and over, each time with another number."""
    return lambda count: "".join(text.replace("N", str(n)) for n in range(count // text.count("\n")))


def comments(count):
    return "# a comment of thirty-two bytes\n" * (count - 1) + "nop\n"


def byte_lists(count):
    """Lists of 500 bytes, each a digit and a comma."""
    return "ret\n.data\n" + f".byte {','.join(['1'] * 500)}\n" * count


def label_lists(count):
    """Lists of 500 addresses, each a letter and a comma."""
    return "x: ret\n.data\n" + f".quad {','.join(['x'] * 500)}\n" * count


def paddings(lines):
    """These lines, over and over: their paddings are more zero bytes than an image may have."""
    return lambda count: "ret\n.data\n" + lines * count


def source(text):
    return (text + ".entry 0x10000\n").encode()


def measure(program, name, make, count, out, fewer=FEW):
    assembler = shutil.which("alpha-linux-gnu-as")
    contents, few = source(make(count)), source(make(fewer))
    lines = contents.count(b"\n")
    with file_of(contents) as file, file_of(few) as small:
        command = [program, "asm", file.name, out]
        rows = [("cat", best(["cat", file.name])), ("asm", best(command))]
        if assembler:
            rows.append(("as", best([assembler, "-o", os.devnull, file.name], 1)))
        print_times(name, rows)
        least = [program, "asm", small.name, out]
        memory = most_memory(command) - most_memory(least)
        more_bytes, more_lines = len(contents) - len(few), lines - few.count(b"\n")
        print(f"{name}: {memory / more_bytes:.2f} bytes of memory a byte of the source")
        if counts_instructions():
            more = instructions(command) - instructions(least)
            print(f"{name}: {lines} lines, {more / more_lines:.1f} instructions a line, {more / more_bytes:.1f} a byte")


def measure_written(program, out):
    """The host instructions of lines as people write them."""
    for name, make in {**WRITTEN, "mixed lines by hand": repeated(BY_HAND),
                       "lines of a compiler": repeated(COMPILED)}.items():
        contents, few = source(make(5 * FEW)), source(make(FEW))
        with file_of(contents) as file, file_of(few) as small:
            more = instructions([program, "asm", file.name, out]) - instructions([program, "asm", small.name, out])
        print(f"{name}: {more / (contents.count(NEWLINE) - few.count(NEWLINE)):.1f} instructions a line")


def measure_sources(program, sources, out):
    """The host instructions of whole sources, without those of the shortest one."""
    with file_of(source("nop\n")) as file:
        least = instructions([program, "asm", file.name, out])
    for name in sources:
        with open(name, "rb") as file:
            lines = file.read().count(NEWLINE)
        print(f"{name}: {lines} lines, {(instructions([program, 'asm', name, out]) - least) / lines:.1f} instructions "
              f"a line")


def main():
    program = the_program()
    with tempfile.TemporaryDirectory() as folder:
        out = os.path.join(folder, "out")
        if counts_instructions():
            measure_sources(program, sys.argv[2:], out)
            measure_written(program, out)
        for make, kind in ((canonical, "canonical lines"), (labels, "labels")):
            for count in (WORDS // 16, WORDS // 4, WORDS):
                measure(program, f"{count} {kind}", make, count, out)
        measure(program, "16 MiB of comments", comments, 524_288, out)
        measure(program, "1 MiB of lists of bytes", byte_lists, 1_040, out, 10)
        measure(program, "1 MiB of lists of labels", label_lists, 1_040, out, 10)
        for lines in (".byte 0\n.align 13\n", ".byte 0\n.align 1\n", ".long 0\n.align 13\n"):
            each = (1 << 20) // len(lines)
            measure(program, f"1 MiB of {lines.split(chr(10))}", paddings(lines), each, out, 10)
        lines = ".byte 0\n.align 13\n"
        measure(program, "16 MiB of paddings", paddings(lines), (1 << 24) // len(lines) - 2, out, 10)


if __name__ == "__main__":
    main()
