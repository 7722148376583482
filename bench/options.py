#!/usr/bin/env python3
"""Counts what options of gcc do to the verdicts of one corpus, the C programs of companions/data: for each option and
each level of optimization, how many /V words are broken, of how many, and how many `trapb` the compiler wrote. The
texts are judged as modules.

    bench/options.py [PROGRAM]
"""
import glob
import os
import re
import shutil
import subprocess
import sys
import tempfile
from concurrent.futures import ThreadPoolExecutor

from measure import TOP, the_program

COMPANIONS = os.path.join(TOP, "companions")
LEVELS = ["-O0", "-O1", "-O2", "-O3", "-Os"]
OPTIONS = ["", "-ftrapv", "-ftrapv -mtrap-precision=f", "-ftrapv -mtrap-precision=i", "-ftrapv -mieee",
           "-fsanitize=signed-integer-overflow -fsanitize-undefined-trap-on-error", "-ftrapv, then shadowfix"]
COMMON = ["-ffixed-28", "-ffreestanding", "-fno-jump-tables", "-S"]
COUNTED = re.compile(r"^(\d+) of (\d+) /V words are broken$", re.M)


def companion(program, *words):
    done = subprocess.run([sys.executable, os.path.join(COMPANIONS, words[0]), *words[1:]], capture_output=True,
                          text=True, check=False,
                          env=os.environ | {"ALPHA": program})
    if done.returncode not in (0, 3):
        sys.exit(f"options: {' '.join(words)}: {done.stderr}")
    return done.stdout


def counts(program, options, level, path):
    """Broken /V words, all of them, and barriers, of a program."""
    with tempfile.TemporaryDirectory() as folder:
        text, source = os.path.join(folder, "a.s"), os.path.join(folder, "a.as")
        flags, _, repair = options.partition(", then ")
        subprocess.run(["alpha-linux-gnu-gcc", level, *flags.split(), *COMMON, path, "-o", text], check=True,
                       capture_output=True)
        if repair:
            companion(program, repair, text, "-o", text)
        with open(text, encoding="utf-8") as file:
            barriers = len(re.findall(r"^\s*trapb\b", file.read(), re.M))
        companion(program, "gas2source", "--module", text, "-o", source)
        broken, all_of = map(int, COUNTED.search(companion(program, "allbroken", "--counts", source)).groups())
        return broken, all_of, barriers


def main():
    program = os.path.abspath(the_program(sys.argv[1:2]))
    if shutil.which("alpha-linux-gnu-gcc") is None:
        sys.exit("options: there is no alpha-linux-gnu-gcc on the path")
    paths = sorted(glob.glob(f"{COMPANIONS}/data/*.c") + glob.glob(f"{COMPANIONS}/data/three/*.c"))
    print(subprocess.run(["alpha-linux-gnu-gcc", "--version"], capture_output=True, text=True,
                         check=True).stdout.splitlines()[0])
    print(f"{len(paths)} programs; broken of all /V words, and barriers\n")
    print(f"| Options | {' | '.join(LEVELS)} |\n|{'---|' * (1 + len(LEVELS))}")
    with ThreadPoolExecutor(2) as pool:
        for options in OPTIONS:
            cells = []
            for level in LEVELS:
                rows = list(pool.map(lambda path, o=options, at=level: counts(program, o, at, path), paths))
                broken, all_of, barriers = map(sum, zip(*rows))
                cells.append(f"{broken} of {all_of}, {barriers}")
            print(f"| `{options or 'none'}` | {' | '.join(cells)} |", flush=True)


if __name__ == "__main__":
    main()
