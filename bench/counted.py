#!/usr/bin/env python3
"""Counts the plain work of `check`, `link`, `dis`, `asm` and `run` in C, bench/counted.c compiled by `gcc -O2`, beside
what the program takes for the same words and lines: host instructions a word, a line or a step, each the difference of
two calls, so that the start isn't in it. It needs gcc and valgrind.

    bench/counted.py [PROGRAM]
"""
import subprocess
import tempfile

from asm import canonical, source
from formats import module, symbol
from measure import (TOP, WORDS, Folder, branch, branch_if, image, instructions, load, no_triggers, operate, store,
                     the_program)
from run import loop

FEW = WORDS // 8
FEW_STEPS, MANY_STEPS = 20_000, 220_000
OPERATE = [operate(0x10, 0x20, 1, 2, 3), operate(0x11, 0x20, 3, 4, 5)]
LOOPS = {
    "operate words": OPERATE,
    "loads": [load(-8), load(-16)],
    "stores": [store(-8), store(-16)],
    "`br`": [branch(0)],
    "branches taken": [branch_if(0x39, 31, 0)],
    "branches not taken": [branch_if(0x39, 30, 0)],
}


class Both(Folder):
    """The program and the one in C, in a folder of their own."""

    def __init__(self, program, folder):
        super().__init__(folder)
        self.program, self.plain = program, self.path("counted")
        subprocess.run(["gcc", "-O2", "-o", self.plain, f"{TOP}/bench/counted.c"], check=True)

    def of_plain(self, file, *words):
        with open(file, "rb") as contents:
            return instructions([self.plain, *words], stdin=contents)

    def compare(self, name, few, many, words, files, count):
        """What both take for each of `count` more: C reads `few` and `many`, and the program the two `files`."""
        for file in files:
            subprocess.run([self.program, *words(file)], stdout=subprocess.DEVNULL, check=True)
        ours = [instructions([self.program, *words(file)]) for file in files]
        plain = [self.of_plain(file, name) for file in (few, many)]
        print(f"{name}: {(plain[1] - plain[0]) / count:.1f} in C, {(ours[1] - ours[0]) / count:.1f} here")


def one_module(code):
    """A module of this code, which begins at its first word."""
    return module(code, b"", [symbol(0, b"start")])


def count_words(both):
    """The commands that go once over the words of an image or of a module, or over the lines of a source."""
    code = no_triggers()
    few, many = both.keep("few", image(code[:FEW])), both.keep("many", image(code))
    more = WORDS - FEW
    both.compare("check", few, many, lambda file: ["check", file], (few, many), more)
    both.compare("dis", few, many, lambda file: ["dis", file], (few, many), more)
    parts = [both.keep(f"part{len(some)}", one_module(some)) for some in (code[:FEW], code)]
    both.compare("link", few, many, lambda file: ["link", both.path("out"), file], parts, more)
    lines = [canonical(count) for count in (FEW, WORDS)]
    few, many = (both.keep(f"lines{len(text)}", text.encode()) for text in lines)
    sources = [both.keep(f"source{len(text)}", source(text)) for text in lines]
    both.compare("asm", few, many, lambda file: ["asm", file, both.path("out")], sources, more)


def count_steps(both):
    for name, words in LOOPS.items():
        file = both.keep("loop", image(loop(words)))
        counts = []
        for steps in (str(FEW_STEPS), str(MANY_STEPS)):
            ours = instructions([both.program, "run", "--steps", steps, file])
            counts.append((both.of_plain(file, "run", steps), ours))
        plain, ours = ((many - few) / (MANY_STEPS - FEW_STEPS) for few, many in zip(*counts))
        print(f"run, {name}: {plain:.1f} in C, {ours:.1f} here")


def main():
    program = the_program()
    with tempfile.TemporaryDirectory() as folder:
        both = Both(program, folder)
        count_words(both)
        count_steps(both)


if __name__ == "__main__":
    main()
