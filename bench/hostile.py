#!/usr/bin/env python3
"""Feeds the built program with files of random bytes, damaged images, random word lists, sources of random tokens
and scripts of random lines. Each call must end with a status of the table, and with the line of that status behind
whatever it notes. Then `check`, `dis`, `asm`, `run`, `run --imprecise` and `debug` get large files and less and less
memory: each must end as with enough of it, or with status 12, its line and nothing on the output, or without a line
where memory ran out before the words were gathered. Prints how often each status came.

    bench/hostile.py [PROGRAM] [COUNT] [SEED]    COUNT: files of each kind, 10,000 if left out
"""
import collections
import os
import random
import re
import resource
import subprocess
import sys
import tempfile

from measure import NOP, TRAPB, image, level_image, repeated, the_program

HEXADECIMAL = "[0-9a-f]{16}"
LINES = {
    0: rb"(exit \d+\n)?",
    1: rb"broken trigger H at H condition C[1-9]\n",
    3: rb"source kind [1-8] line \d+ column \d+ detail \d+\n",
    4: rb"image kind [1-5] first \d+ second \d+\n",
    5: rb"(signal [012] at H|fetch H|(access|align) H address H|stop at H)\n",
    6: rb"steps\n",
    7: rb"lost H mask \d+\n",
    11: rb"too large \d+\n",
    12: rb"no memory\n",
}
LINES = {status: re.compile(rb"\A(overflow H\n)*".replace(b"H", HEXADECIMAL.encode())
                            + line.replace(b"H", HEXADECIMAL.encode()) + rb"\Z")
         for status, line in LINES.items()}
TOKENS = ["addq/v", "ldq", "stq", "br", "beq", "jsr", "ret", "trapb", "callsys", "mov", "lda", "ldah", "%hi", "%lo",
          "$1", "$31", "$zero", "$99", ",", "(", ")", ":", "+", "-", "0", "1", "255", "256", "0x10000",
          "99999999999999999999", "x", "y", "x:", ".", ".code", ".data", ".zero", ".align", ".byte", ".quad", ".ascii",
          ".entry", ".level", ".segment", ".stack", '"a\\n"', '"', "#", "\t", "\\", "\x00", "é"]
COMMANDS = ["step", "step 1", "step 5", "step 0", "step 1000001", "go", "barrier", "break 0x10004", "clear 0x10004",
            "break x",
            "regs", "mem 0x10000 16", "mem 0x3ffffff0 32", "mem 0 257", "dis 0x10000 4", "dis 1 1", "shadow", "log",
            "quit x", "",
            "  ", "?", "\x00", "x" * 1025]


def words(random):
    """Mostly words of the instruction table, so that the images are read."""
    some = [0x47FF041F, 0x63FF0000, 0x83, 0x40220C03, 0x40410C44, 0xA43E0000, 0xB43EFFF8, 0xC3E00001, 0xE4200002,
            0x6BFA8001, 0x203F0001, 0x201F0001, 0x80, 0x4C220C05, 0xAC3EFFF0, 0xBC3EFFF0, 0x63FF0400]
    return [random.choice(some) if random.random() < 0.98 else random.getrandbits(32)
            for _ in range(random.randrange(1, 40))]


def damaged(random):
    data = bytes(random.getrandbits(8) for _ in range(random.randrange(0, 40)))
    whole = image(words(random), data) if random.random() < 0.5 else level_image(words(random), 1, data)
    changed = bytearray(whole)
    for _ in range(random.randrange(0, 3)):
        changed[random.randrange(len(changed))] = random.getrandbits(8)
    return bytes(changed[:random.randrange(len(changed) + 1)] if random.random() < 0.2 else changed)


def random_bytes(random):
    front = random.choice([b"", b"ALPHAIM1", b"ALPHAIM2"])
    return front + bytes(random.getrandbits(8) for _ in range(random.randrange(0, 200)))


def source(random):
    lines = [" ".join(random.choice(TOKENS) for _ in range(random.randrange(0, 6)))
             for _ in range(random.randrange(0, 12))]
    return ("\n".join(lines) + random.choice(["", "\n", "\n.entry 0x10000\n"])).encode()


def script(random):
    return "\n".join(random.choice(COMMANDS) for _ in range(random.randrange(0, 12))).encode()


def little_memory(program, folder):
    """The calls that end otherwise than they should, with so many KiB of address space and more."""
    large, source, out = (os.path.join(folder, name) for name in ("large", "source", "out"))
    with open(large, "wb") as file:
        file.write(image(repeated([NOP, NOP, TRAPB]), bytes(4_000_000)))
    with open(source, "w") as file:
        file.write("nop\n" * 200_000 + ".entry 0x10000\n")
    calls = {"check": [large], "dis": [large], "asm": [source, out], "run": ["--steps", "100", large],
             "run --imprecise": ["--steps", "100", large], "debug": [large]}
    wrong = 0
    for name, rest in calls.items():
        command, own, seen = [program, *name.split(), *rest], None, collections.Counter()
        for kibibytes in range(40_000, 3_500, -250):
            def limit():
                resource.setrlimit(resource.RLIMIT_AS, (kibibytes * 1024, kibibytes * 1024))

            ended = subprocess.run(command, input=b"go\n", capture_output=True, preexec_fn=limit)
            answer = ended.returncode, ended.stdout, ended.stderr
            own = own or answer
            seen[ended.returncode] += 1
            if answer not in (own, (12, b"", b"no memory\n"), (12, b"", b"")):
                wrong += 1
                print(f"{name}: with {kibibytes} KiB: status {answer[0]}, {answer[2][-200:]!r}")
        print(f"{name} with little memory: "
              + ", ".join(f"status {status} {times} times" for status, times in sorted(seen.items())))
    return wrong


def main():
    program = the_program()
    count = int(sys.argv[2]) if len(sys.argv) > 2 else 10_000
    chance = random.Random(int(sys.argv[3]) if len(sys.argv) > 3 else 0)
    run = ["run", "--steps", "300"]
    kinds = {
        "random bytes": (random_bytes, ["check", "dis", "run"]),
        "damaged images": (damaged, ["check", "dis", "run"]),
        "word lists": (lambda r: image(words(r)), ["check", "run", "imprecise"]),
        "sources": (source, ["asm"]),
        "scripts": (script, ["debug"]),
    }
    wrong = 0
    with tempfile.TemporaryDirectory() as folder:
        file, out = os.path.join(folder, "a"), os.path.join(folder, "b")
        for name, (make, commands) in kinds.items():
            seen = collections.Counter()
            for _ in range(count):
                contents = make(chance)
                command, given = chance.choice(commands), b"abc"
                if command == "debug":
                    contents, given = image(words(chance)), contents
                with open(file, "wb") as target:
                    target.write(contents)
                call = {
                    "run": [*run, file],
                    "imprecise": [*run, "--imprecise", "--force", "--seed", str(chance.getrandbits(64)), file],
                    "asm": ["asm", file, out],
                }.get(command, [command, file])
                ended = subprocess.run([program, *call], input=given, capture_output=True)
                seen[ended.returncode] += 1
                line = LINES.get(ended.returncode)
                if line is None or not line.match(ended.stderr):
                    wrong += 1
                    print(f"{name}: {command}: status {ended.returncode}, {ended.stderr[-200:]!r}: {contents.hex()}")
            print(f"{name}: " + ", ".join(f"status {status} {times} times" for status, times in sorted(seen.items())))
        wrong += little_memory(program, folder)
    sys.exit(bool(wrong))


if __name__ == "__main__":
    main()
