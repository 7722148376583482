#!/usr/bin/env python3
"""Measures `debug` on scripts of one command a line, as long as a script may be and a quarter of that: how many host
instructions it takes a byte of the script, over those for an empty one, which shows that its time is linear. A step
of `go`, by the breakpoints that there are. And `trial`, beside the steps of its two runs.

    bench/debug.py [PROGRAM]
"""
import re
import subprocess

from measure import (NOP, TRAPB, best, branch, counts_instructions, file_of, image, instructions, operate, repeated,
                     the_program)

LINES = {"step": "step\n", "regs": "regs\n", "log": "log\n", "mem": "mem 0x10000 256\n", "dis": "dis 0x10000 256\n",
         "shadow": "shadow\n", "break": "break 0x10004\n", "blank lines": "\n"}
LONGEST = 1_048_576
STEPS_OF_GO = 1_000_000
MOST_BREAKPOINTS = 64


def script(line, size):
    return (line * (size // len(line))).encode()


def measure_go(program):
    """A loop that doesn't come to a breakpoint."""
    body = [operate(0x10, 0x20, 1, 2, 3)] * 256
    with file_of(image([*body, branch(-len(body) - 1)])) as file:
        for points in (0, 1, MOST_BREAKPOINTS):
            set_up = "".join(f"break {0x100 + 4 * n:#x}\n" for n in range(points))
            with file_of(f"{set_up}go\n".encode()) as once, file_of(f"{set_up}go\ngo\n".encode()) as twice:
                one, two = (instructions([program, "debug", file.name], stdin=open(it.name)) for it in (once, twice))
            print(f"go, {points} breakpoints: {(two - one) / STEPS_OF_GO:.0f} instructions a step")


def main():
    program = the_program()
    if counts_instructions():
        measure_go(program)
    with file_of(image(repeated([NOP, NOP, TRAPB]))) as file, file_of(b"") as empty:
        command = [program, "debug", file.name]
        for name, line in LINES.items():
            for size in (LONGEST // 16, LONGEST // 4) if name in ("mem", "dis") else (LONGEST // 4, LONGEST):
                with file_of(script(line, size)) as lines:
                    print(f"{name}, {size} bytes: {best(command, 1, stdin=open(lines.name)):.0f} ms")
                    if counts_instructions():
                        count = (instructions(command, stdin=open(lines.name))
                                 - instructions(command, stdin=open(empty.name)))
                        print(f"{name}, {size} bytes: {count / size:.0f} instructions a byte")
    for blocks in (5_000, 20_000):
        trial = [program, "trial", str(blocks)]
        steps = int(re.search(r"steps (\d+)", subprocess.run(trial, capture_output=True, text=True).stdout).group(1))
        print(f"trial {blocks}: {best(trial):.1f} ms")
        if counts_instructions():
            print(f"trial {blocks}: {instructions(trial) / (2 * steps):.0f} instructions a step")


if __name__ == "__main__":
    main()
