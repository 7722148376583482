#!/usr/bin/env python3
"""Feeds the companions with damaged files: ELF, ECOFF, archives, images, modules, sources, texts of a compiler, maps
and journals, cut, with a hole behind them, or with other numbers and bytes. Each call must end within 10 seconds of the
processor's time and 300 MB of memory, with a status that it has, without a traceback, and by status 1 with a line and
without a file. Prints how often each status came, by kind of file, the most time and memory, and each call that did
otherwise, with its file kept.

    bench/damaged.py [PROGRAM] [COUNT] [SEED] [JOBS]    2,000 files, seed 1 and 2 jobs where they are left out
"""
import collections
import os
import random
import subprocess
import sys
import tempfile
from concurrent.futures import ThreadPoolExecutor

from measure import TOP, read, the_program

COMPANIONS = os.path.join(TOP, "companions")
SECONDS, MEGABYTES = 10, 300
# A call is ended when it has had so many seconds of the processor, since the machine may be busy, and after an hour
# where it only waits.
KILLED, WAITED = 60, 3600
# Those of the companions, and of the program's runs, which `emulate` has too: of an image that is none it has 4.
STATUSES = {0, 1, 3, 4, 5, 6, 7, 18, 19}
REFUSED = {1, 4}
DATA = os.path.join(COMPANIONS, "data")
# Numbers that sizes, counts and offsets are made, as bytes.
NUMBERS = [bytes(8), b"\xff" * 8, b"\xff" * 4, b"\xff" * 2, b"\0\0\0\x80", bytes(7) + b"\x80", b"\xff" * 7 + b"\x7f",
           b"\0\0\0\0\1\0\0\0",
           b"\1", b"\0\0\x01", b"\xff\xff\xff\x0f", b"\x1b[2J\n", b"\0", b"\x7f"]
# The calls that read each kind of file: FILE is the damaged one, OUT one to make, the others are whole.
CALLS = {
    "elf": ["elf2image --functions FILE", "elf2image FILE OUT --map OUT.map", "elf2image --functions --all FILE"],
    "ecoff": ["elf2image --functions FILE", "elf2image FILE OUT"],
    "archive": ["elf2image --functions FILE"],
    "image": ["allbroken FILE", "shadowmap FILE", "image2elf FILE OUT", "emulate run --steps 1000 FILE",
              "allbroken --sarif FILE"],
    "module": ["allbroken FILE", "explain --module FILE link kind 2 first 0 second 1"],
    "source": ["allbroken --json FILE", "where --source FILE 10000", "shadowmap FILE", "shadowfix FILE -o OUT"],
    "text": ["gas2source FILE -o OUT", "gas2source --module FILE -o OUT", "shadowfix FILE -o OUT"],
    "map": ["where --map FILE --image IMAGE 12000", "allbroken --map FILE IMAGE", "image2elf --map FILE IMAGE OUT",
            "shadowfix --map FILE SOURCE -o OUT"],
    "journal": ["journal dump FILE", "emulate replay RUN FILE", "journal first RUN FILE"],
}


def wholes(program, folder):
    """Whole files of each kind, and those that calls name beside the damaged one."""
    def companion(*words):
        subprocess.run([sys.executable, os.path.join(COMPANIONS, words[0]), *words[1:]], check=True,
                       env=os.environ | {"ALPHA": program})

    def made(name):
        return os.path.join(folder, name)
    companion("elf2image", f"{DATA}/sort.elf", made("sort.img"), "--map", made("sort.map"))
    companion("image2elf", "--map", made("sort.map"), made("sort.img"), made("again.elf"))
    companion("gas2source", f"{COMPANIONS}/start.s", f"{DATA}/sum.s", "-o", made("sum.as"))
    subprocess.run([program, "module", f"{TOP}/examples/modules/sum.s", made("sum.mod")], check=True)
    subprocess.run([program, "asm", f"{TOP}/examples/late.s", made("late.img")], check=True)
    archive = b"!<arch>\n"
    for name in ("sum.elf", "sort.elf"):
        content = read(f"{DATA}/{name}")
        archive += b"%-16s%-12d%-6d%-6d%-8s%-10d`\n" % (name.encode() + b"/", 0, 0, 0, b"644", len(content)) + content
    kinds = {"elf": [f"{DATA}/sum.elf", f"{DATA}/sort.elf", made("again.elf")], "ecoff": [f"{DATA}/sort.ecoff"],
             "image": [made("sort.img"), f"{TOP}/examples/accepted.img"], "module": [made("sum.mod")],
             "source": [made("sum.as"), f"{TOP}/examples/segments.s"],
             "text": [f"{DATA}/sum.s", f"{DATA}/three/main.s"],
             "map": [made("sort.map")], "journal": [f"{TOP}/examples/late.journal"]}
    found = {kind: [read(path) for path in paths] for kind, paths in kinds.items()} | {"archive": [archive]}
    return found, {"IMAGE": made("sort.img"), "RUN": made("late.img"), "SOURCE": made("sum.as")}


def damaged(content, chosen):
    """A copy with some damage, and how long a hole stands behind it."""
    how, other = chosen.randrange(8), bytearray(content)
    if how == 0:
        return bytes(other[:chosen.randrange(len(other))]), 0
    for _ in range(chosen.randrange(1, 8)):
        # Headers stand at the front of files, and tables at their end.
        start = chosen.choice([0, 0, max(0, len(other) - 1600), chosen.randrange(len(other))])
        size = chosen.choice([1, 4, 8])
        at = start + chosen.randrange(min(1600, len(other) - start)) // size * size
        number = chosen.choice(NUMBERS) if chosen.randrange(3) else chosen.randbytes(chosen.randrange(1, 9))
        other[at:at + len(number) if chosen.randrange(12) else at] = number
    return bytes(other), chosen.choice([1 << 20, 1 << 32]) if how == 1 else 0


class Outcome:
    """What a call came to: its status, its processor time and memory, and what is wrong with it, or None."""

    def __init__(self, status, notes, usage, kept):
        self.status, self.seconds, self.megabytes = status, usage.ru_utime + usage.ru_stime, usage.ru_maxrss / 1024
        self.wrong = (f"status {status}" if status not in STATUSES else "a traceback" if b"Traceback" in notes else
                      "no line" if status in REFUSED and not notes.strip() else
                      "a file" if status in REFUSED and kept else
                      "time" if self.seconds > SECONDS else "memory" if self.megabytes > MEGABYTES else None)


def call_companion(words, program, folder):
    """Calls a companion. `journal first` tells on its output what is wrong, the others on standard error why they
    refuse."""
    notes_path, out = os.path.join(folder, "notes"), os.path.join(folder, "out")
    with open(notes_path, "wb") as notes, subprocess.Popen(
            ["timeout", "-s", "KILL", str(WAITED), "prlimit", f"--cpu={KILLED}",
             sys.executable, os.path.join(COMPANIONS, words[0]), *words[1:]],
            stdin=subprocess.DEVNULL, stdout=notes, stderr=notes, env=os.environ | {"ALPHA": program}) as call:
        _, status, usage = os.wait4(call.pid, 0)
        call.returncode = os.waitstatus_to_exitcode(status)
    return Outcome(call.returncode, read(notes_path), usage, os.path.exists(out))


def trial(number, seed, whole, named, program):
    """One damaged file and one call that reads it: its kind, the call, the outcome, and the file's path where something
    is wrong."""
    chosen = random.Random(f"{seed} {number}")
    kind = sorted(CALLS)[number % len(CALLS)]
    call = chosen.choice(CALLS[kind])
    content, hole = damaged(chosen.choice(whole[kind]), chosen)
    with tempfile.TemporaryDirectory() as folder:
        path = os.path.join(folder, "file")
        with open(path, "wb") as file:
            file.write(content)
        if hole:
            os.truncate(path, len(content) + hole)
        words = [path if word == "FILE" else word.replace("OUT", os.path.join(folder, "out")) if word.startswith("OUT")
                 else
                 named.get(word, word) for word in call.split()]
        outcome, kept = call_companion(words, program, folder), None
        if outcome.wrong:
            kept = os.path.join(tempfile.gettempdir(), f"damaged-{seed}-{number}")
            os.rename(path, kept)
    return kind, call, outcome, kept


def main():
    program = os.path.abspath(the_program(sys.argv[1:2]))
    count, seed, jobs = (int(sys.argv[n]) if len(sys.argv) > n else usual for n, usual in ((2, 2_000), (3, 1), (4, 2)))
    statuses, worst, wrong = collections.defaultdict(collections.Counter), [0.0, 0.0], 0
    with tempfile.TemporaryDirectory() as folder, ThreadPoolExecutor(jobs) as pool:
        whole, named = wholes(program, folder)
        for number, (kind, call, outcome,
                     kept) in enumerate(pool.map(lambda n: trial(n, seed, whole, named, program), range(count)), 1):
            statuses[kind][outcome.status] += 1
            worst = [max(worst[0], outcome.seconds), max(worst[1], outcome.megabytes)]
            if outcome.wrong:
                wrong += 1
                print(f"{kept}: {call}: {outcome.wrong}: {outcome.seconds:.1f} s, {outcome.megabytes:.0f} MB",
                      flush=True)
            if number % 250 == 0 or number == count:
                print(f"{number} files: at most {worst[0]:.1f} s and {worst[1]:.0f} MB; {wrong} wrong", flush=True)
    for kind, counts in sorted(statuses.items()):
        print(f"{kind}: " + ", ".join(f"{times} of status {status}" for status, times in sorted(counts.items())))
    sys.exit(bool(wrong))


if __name__ == "__main__":
    main()
