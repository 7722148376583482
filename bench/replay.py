#!/usr/bin/env python3
"""Measures `record` beside `run --imprecise`, and `replay` of what it keeps: how many host instructions and how long a
step takes, on the loops of run.py. Each is the difference of two runs of so many steps, so that the start isn't in it.
Then the most memory of a replay of the largest journal: 1,048,576 items, and 8 MiB of input and of output.

    bench/replay.py [PROGRAM]
"""
import os
import subprocess
import sys
import tempfile

from formats import journal, wait
from measure import best, counts_instructions, file_of, image, instructions, most_memory, the_program
from run import LOOPS

FEW, MANY = 20_000, 220_000
MOST_ITEMS, MOST_BYTES = 1 << 20, 8 << 20


def each(command, few, many):
    """Host instructions and nanoseconds a step, from two numbers of steps."""
    parts = []
    if counts_instructions():
        parts.append(f"{(instructions(command(many)) - instructions(command(few))) / (many - few):.0f} instructions")
    parts.append(f"{(best(command(100 * many)) - best(command(100 * few))) / (many - few) * 10_000:.1f} ns")
    return ", ".join(parts)


def measure(program, name, file, folder):
    def recorded(steps):
        return [program, "record", "--force", "--steps", str(steps), file, os.path.join(folder, f"journal{steps}")]

    def imprecise(steps):
        return [program, "run", "--imprecise", "--force", "--steps", str(steps), file]

    def replayed(steps):
        kept = recorded(steps)
        if not os.path.exists(kept[-1]):
            subprocess.run(kept, capture_output=True)
        return [program, "replay", file, kept[-1]]

    if subprocess.run(imprecise(FEW), capture_output=True).returncode != 6:
        return
    few, many = (FEW // 100, MANY // 100) if name == "/V words" else (FEW, MANY)
    print(f"{name}: run --imprecise {each(imprecise, few, many)} a step")
    print(f"{name}: record {each(recorded, few, many)} a step")
    print(f"{name}: replay {each(replayed, few, many)} a step")


def largest():
    """A journal of that size whose items are no run, and its image: each has its memory before the first step."""
    most = bytes(MOST_BYTES)
    return journal([wait(9, 1)] * MOST_ITEMS, MOST_ITEMS, most, most)


def main():
    program = the_program()
    with tempfile.TemporaryDirectory() as folder:
        for name, code in LOOPS.items():
            with file_of(image(code)) as file:
                measure(program, name, file.name, folder)
    contents = largest()
    with file_of(image(LOOPS["loads"])) as file, file_of(contents) as kept:
        memory = most_memory([program, "replay", file.name, kept.name])
        print(f"the largest journal: {len(contents) / 1e6:.1f} MB, memory {memory / 1e6:.1f} MB, "
              f"{memory / len(contents):.2f} of the file")


if __name__ == "__main__":
    sys.exit(main())
