#!/usr/bin/env python3
"""Measures `fix` on large sources beside `asm`: how long both take, how many host instructions `fix` takes a line, how
much memory, and how the time grows with the number of lines.

    bench/fix.py [PROGRAM]
"""
import os
import tempfile

from measure import WORDS, best, counts_instructions, file_of, instructions, most_memory, print_times, the_program

FEW = 4_000
PLAIN = ["bis $31,$31,$31", "ldq $1,-8($30)", "addq $3,$4,$5", "stq $1,8($30)", "lda $2,1($31)", "beq $1,start"]
COMPILED = ["ldq $1,-8($30)", "addq/v $1,$4,$5", "ldq $2,16($30)", "stq $5,8($30)", "lda $2,1($31)", "beq $2,start"]
WORST = ["addq/v $1,$2,$3", "ldq $4,0($3)"]


def source(lines, count):
    text = "".join(lines[n % len(lines)] + "\n" for n in range(count))
    return f"start: nop\n{text}.entry start\n".encode()


def measure(program, name, lines, count, out):
    with file_of(source(lines, count)) as file, file_of(source(lines, FEW)) as small:
        fix, asm = [program, "fix", file.name, out], [program, "asm", file.name, out]
        least_fix, least_asm = [program, "fix", small.name, out], [program, "asm", small.name, out]
        print_times(name, [("asm", best(asm)), ("fix", best(fix))])
        memory = most_memory(fix) / most_memory(asm)
        print(f"{name}: {memory:.2f} times the memory of asm")
        if counts_instructions():
            more = instructions(fix) - instructions(least_fix)
            less = instructions(asm) - instructions(least_asm)
            print(f"{name}: {more / (count - FEW):.1f} instructions a line, {more / less:.2f} times those of asm")


def main():
    program = the_program()
    with tempfile.TemporaryDirectory() as folder:
        out = os.path.join(folder, "out")
        most = WORDS - 1
        measure(program, f"{most} lines without a trigger", PLAIN, most, out)
        for count in (most // 16, most // 4, most * 6 // 7):
            measure(program, f"{count} lines, a barrier for six of them", COMPILED, count, out)
        for count in (most // 16, most // 4, most * 2 // 3, most):
            measure(program, f"{count} lines, a cut at every second word", WORST, count, out)


if __name__ == "__main__":
    main()
