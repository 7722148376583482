#!/usr/bin/env python3
"""Measures `run`, and `run --imprecise` on the same programs, on loops: how many host instructions and how long a
step takes. Each is the difference of two runs of so many steps, so that the start isn't in it. What an overflow takes
more, and a word that waits for its report, are differences of such loops with overflows and without. The start of a
small image is measured beside `check` of it.

    bench/run.py [PROGRAM]
"""
import subprocess

from measure import (NOP, TRAPB, addqv, best, branch, branch_if, counts_instructions, file_of, image, instructions,
                     memory_word, operate, ret, the_program)

FEW, MANY = 20_000, 220_000
# Of these runs a choices file has all words that they draw.
FEW_OVERFLOWS, MANY_OVERFLOWS = 2_000, 22_000
LONGEST_CHOICES = 1 << 20
# `addq/v $1,$2,$3` overflows once $1 is the greatest signed number and $2 is 1.
SET_UP = [operate(0x11, 0x28, 31, 31, 1), operate(0x12, 0x34, 1, 0, 1) | 3 << 12,
          operate(0x10, 0x20, 31, 0, 2) | 3 << 12]
PLAIN = operate(0x10, 0x20, 4, 5, 6)
WAITING = 10


def loop(words):
    """256 of these words over and over."""
    body = (words * (256 // len(words) + 1))[:256]
    return body + [branch(-257)]


LOOPS = {
    "operate words": loop([operate(0x10, 0x20, 1, 2, 3), operate(0x11, 0x20, 3, 4, 5), operate(0x12, 0x39, 1, 2, 4)]),
    "/V words": loop([operate(0x10, 0x60, 1, 2, rc) for rc in range(3, 15)] + [TRAPB]),
    "loads": loop([memory_word(0x29, 1, -8), memory_word(0x28, 2, -16), memory_word(0x0A, 3, -1)]),
    "stores": loop([memory_word(0x2D, 1, -8), memory_word(0x2C, 2, -16), memory_word(0x0E, 3, -1)]),
}
# Each leads to the next word, but that of a call the third word returns to the second one, which passes over the rest.
BRANCHES = {
    "br": loop([branch(0)]),
    "branches taken": loop([branch_if(0x39, 31, 0), branch_if(0x3E, 31, 0)]),
    "branches not taken": loop([branch_if(0x3D, 31, 0), branch_if(0x3A, 31, 0)]),
    "bsr, ret and br": loop([branch_if(0x34, 26, 1), branch(2), ret(26), NOP]),
}


def measure(program, name, file):
    for mode in (["run"], ["run", "--imprecise", "--force"]):
        def command(steps):
            return [program, *mode, "--steps", str(steps), file]

        if subprocess.run(command(1), capture_output=True).returncode != 6:
            continue
        if counts_instructions():
            each = (instructions(command(MANY)) - instructions(command(FEW))) / (MANY - FEW)
            print(f"{name}: {' '.join(mode)} {each:.0f} instructions a step")
        each = (best(command(100 * MANY)) - best(command(100 * FEW))) / (MANY - FEW) * 10_000
        print(f"{name}: {' '.join(mode)} {each:.1f} ns a step")


def overflow_cost(program, mode, words):
    """What one overflow takes more: the first of these words overflows each time, or never."""
    times = 240 // len(words)
    body = words * times + [branch(-len(words) * times - 1)]
    counts = []
    for set_up in (SET_UP, [NOP] * len(SET_UP)):
        with file_of(image(set_up + body)) as file:
            few, many = (instructions([program, *mode, "--steps", str(steps), file.name])
                         for steps in (FEW_OVERFLOWS, MANY_OVERFLOWS))
            counts.append((many - few) / (MANY_OVERFLOWS - FEW_OVERFLOWS) * len(body) / times)
    return counts[0] - counts[1]


def measure_overflows(program):
    late = ["run", "--imprecise", "--force", "--choices"]
    with file_of(b"\xff" * LONGEST_CHOICES) as ones:
        barred = overflow_cost(program, [*late, "/dev/null"], [addqv(3), TRAPB])
        waited = overflow_cost(program, [*late, ones.name], [addqv(3), *[PLAIN] * WAITING, TRAPB])
    rows = [
        ("run", overflow_cost(program, ["run"], [addqv(3), NOP])),
        ("run --imprecise, reported at once", overflow_cost(program, [*late, "/dev/null"], [addqv(3), NOP])),
        ("run --imprecise, reported at a barrier behind it", barred),
        ("run --imprecise, a word that waits for the report", (waited - barred) / WAITING),
    ]
    for name, count in rows:
        print(f"an overflow: {name} {count:.0f} instructions more")


def main():
    program = the_program()
    for name, code in {**LOOPS, **BRANCHES}.items():
        with file_of(image(code)) as file:
            measure(program, name, file.name)
    if counts_instructions():
        measure_overflows(program)
    with file_of(image([NOP, TRAPB])) as file:
        run, check = best([program, "run", "--steps", "1", file.name]), best([program, "check", file.name])
        print(f"a small image: run {run:.2f} ms, {run / check:.2f} of check")


if __name__ == "__main__":
    main()
