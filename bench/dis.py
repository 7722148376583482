#!/usr/bin/env python3
"""Measures `dis` on large images: how long it takes, beside `cat` of the listing and, where it is installed, GNU
objdump for alpha over the same image; and how much memory it takes a byte of the file, and how many host instructions
a line, both beside what it takes for an image of few words.

    bench/dis.py [PROGRAM]
"""
import shutil
import subprocess
import tempfile

from measure import (NOP, WORDS, best, counts_instructions, file_of, image, instructions, level_image, most_memory,
                     no_triggers, print_times, repeated, the_program)

JSR_COROUTINE = 0x1A << 26 | 31 << 21 | 31 << 16 | 3 << 14 | 16_383
FEW = 8_000
DATA = bytes(range(256)) * 65_536


def measure(program, name, contents, small):
    objdump = shutil.which("alpha-linux-gnu-objdump")
    with file_of(contents) as file, tempfile.NamedTemporaryFile() as listing:
        command = [program, "dis", file.name]
        subprocess.run(command, stdout=listing, check=True)
        lines = sum(1 for _ in open(listing.name, "rb"))
        rows = [("cat", best(["cat", listing.name])), ("dis", best(command))]
        if objdump:
            rows.append(("objdump", best([objdump, "-D", "-b", "binary", "-m", "alpha", file.name], 1)))
        print_times(name, rows)
        memory = most_memory(command) - most_memory([program, "dis", small])
        print(f"{name}: {memory / (len(contents) - 4 * FEW):.2f} bytes of memory a byte of the file")
        if counts_instructions():
            count = instructions(command) - instructions([program, "dis", small])
            print(f"{name}: {lines} lines, {count / (lines - FEW):.1f} instructions a line")


def main():
    program = the_program()
    cases = {
        "words of six kinds": image(no_triggers()),
        "operate instructions": image([NOP] * WORDS),
        "the longest lines of code": image(repeated([JSR_COROUTINE])),
        "16 MiB of data": image([NOP], DATA),
        "8 segments of 2 MiB": level_image([NOP], 8, DATA),
    }
    with file_of(image([NOP] * FEW)) as small:
        for name, contents in cases.items():
            measure(program, name, contents, small.name)


if __name__ == "__main__":
    main()
