#!/usr/bin/env python3
"""Measures `link` on many and on large modules: how many host instructions it takes a word beside what `asm` takes a
line of the same source in one file, how much memory beside the image and the modules, and how both grow with the
modules.

    bench/link.py [PROGRAM]         counts and measures
    bench/link.py names [PROGRAM]   the memory for modules of short names alone
    bench/link.py order [PROGRAM]   what the order of the files costs alone
"""
import os
import string
import struct
import subprocess
import sys
import tempfile

from formats import module, symbol
from measure import NOP, Folder, best, counts_instructions, instructions, most_memory, the_program

WORDS = 4_096
LABELS = 78
SHARED = 128
MEBIBYTE = 1_048_576
# What a name begins with and goes on with, in the order of their bytes.
FIRST = string.ascii_uppercase + "_" + string.ascii_lowercase
LATER = "." + string.digits + FIRST


def lines(number, count):
    """A module of WORDS words and 2 * LABELS symbols: each 52 words a label, with a branch to one of the next
    module."""
    start = "start:\n" if number == 0 else ""
    code = "".join(
        f"m{number}_{n}: br m{(number + 1) % count}_{n}\n" + "addq $1,$2,$3\n" * (WORDS // LABELS - 1)
        for n in range(LABELS)
    )
    return start + code + "addq $1,$2,$3\n" * (WORDS - WORDS // LABELS * LABELS)


def many_names(size):
    """A module of so many bytes, with all the words and data that one may have: the rest are names of 1,024 bytes."""
    words, data = [NOP] * 262_144, bytes(16 * MEBIBYTE)
    count = (size - 28 - 4 * len(words) - len(data)) // 1_031
    names = [symbol(0, b"n%01023d" % n) for n in range(count - 1)] + [symbol(0, b"start")]
    return module(words, data, names)


def short_names(size, number=0):
    """A module of so many bytes, nearly all of them symbols of nine letters; the first of several has the entry."""
    count = (size - 64) // 16
    names = [symbol(0, b"n%02d%06x" % (number, n)) for n in range(count)]
    return module([NOP], b"", names + ([] if number else [symbol(0, b"start")]))


def letters(number, count):
    """The name of so many letters with a number: the names rise with their numbers."""
    name = ""
    for _ in range(count - 1):
        number, letter = divmod(number, len(LATER))
        name = LATER[letter] + name
    return (FIRST[number] + name).encode()


def names_of(size, count, number, undefined):
    """A module of so many bytes, nearly all of them symbols of so many letters. The first of several has the entry, and
    a symbol that isn't defined there where one is wanted."""
    many = (size - 64) // (7 + count)
    names = [(letters(number * many + n, count), 0) for n in range(many)]
    if number == 0:
        names += [(b"start", 0)] + ([(b"elsewhere", 2)] if undefined else [])
    return module([NOP], b"", [symbol(section, name) for name, section in sorted(names)])


def quadwords(size):
    """A module of so many bytes, nearly all of them quadwords with the address of one label."""
    count = (size - 64) // 21
    places = [struct.pack("<BIIi", 3, 8 * n, 0, 0) for n in range(count)]
    return module([NOP], bytes(8 * count), [symbol(0, b"start")], places)


class Links(Folder):
    """Files of modules, and the image that they link to."""

    def __init__(self, program, folder):
        super().__init__(folder)
        self.program = program

    def run(self, *words):
        subprocess.run([self.program, *words], check=True)

    def measure(self, name, files, per, what):
        """What a link takes for each of `per` items, and of memory beside modules and image."""
        command = [self.program, "link", self.path("image"), *files]
        subprocess.run(command, check=True)
        sizes = sum(os.path.getsize(file) for file in files) + os.path.getsize(self.path("image"))
        least = [self.program, "link", self.path("least"), self.keep("small", short_names(64))]
        memory = most_memory(command) - most_memory(least)
        print(f"{name}: {best(command):.1f} ms, {memory / sizes:.2f} times image and modules, of {sizes:,} bytes")
        if not counts_instructions():
            return 0.0
        each = (instructions(command) - instructions(least)) / per
        print(f"{name}: {each:.1f} instructions a {what}")
        return each


def many(folder, count):
    """So many modules of WORDS words, beside `asm` of all their lines."""
    sources = [lines(number, count) for number in range(count)]
    files = []
    for number, source in enumerate(sources):
        text = folder.keep("source", source.encode())
        files.append(folder.path(f"m{number}"))
        folder.run("module", text, files[-1])
    symbols = 2 * LABELS * count + 1
    name = f"{count} modules of {WORDS} words with {symbols} symbols in all"
    each = folder.measure(name, files, WORDS * count, "word")
    if counts_instructions():
        whole = folder.keep("whole", ("".join(sources) + ".entry start\n").encode())
        small = folder.keep("few", b"start: ret\n.entry start\n")
        more = instructions([folder.program, "asm", whole, folder.path("o")])
        line = (more - instructions([folder.program, "asm", small, folder.path("o")])) / (WORDS * count)
        print(f"{name}: asm takes {line:.1f} instructions a line of them, link {each / line:.2f} times that a word")


def many_short(folder, count, size):
    """So many modules of so many MiB, all of them short names that differ."""
    files = [folder.keep(f"s{number}", short_names(size * MEBIBYTE, number)) for number in range(count)]
    folder.measure(f"{count} modules of {size} MiB, short names", files, sum(map(os.path.getsize, files)), "byte")
    for file in files:
        os.remove(file)


def many_names_of(folder, files, size, count):
    """The memory of so many modules of so many bytes, with names of so many letters, in times these files."""
    least = most_memory([folder.program, "link", folder.path("least"), folder.keep("small", short_names(64))])
    other = folder.keep("other", module([NOP], b"", [symbol(0, b"elsewhere")]))
    paths = [folder.keep(f"s{number}", names_of(size, count, number, False)) for number in range(files)]
    times = []
    for undefined in (False, True):
        folder.keep("s0", names_of(size, count, 0, undefined))
        # No more than 64 files are linked.
        linked = [*paths[:63], other] if undefined else paths
        command = [folder.program, "link", folder.path("image"), *linked]
        subprocess.run(command, check=True)
        times.append((most_memory(command, 2) - least) / sum(map(os.path.getsize, linked)))
    print(
        f"{files} of {size:,} bytes, names of {count} letters: {times[0]:.2f} times the files, "
        f"{times[1]:.2f} where the first has an undefined symbol",
        flush=True,
    )
    for path in paths:
        os.remove(path)


def all_names(folder):
    for files, size, size_of_three in ((1, 20 * MEBIBYTE, 2_000_000), (64, MEBIBYTE, 32_000),
                                       (16, 5 * MEBIBYTE, 128_000)):
        many_names_of(folder, files, size_of_three, 3)
        for count in (4, 5, 9):
            many_names_of(folder, files, size, count)


def orders(folder):
    """What a symbol that another module defines takes, wherever that module stands."""
    names = [b"shared_by_all%05d" % number for number in range(SHARED)]
    definer = folder.keep("definer", module([NOP], b"", [symbol(0, name) for name in [*names, b"start"]]))
    user = folder.keep("user", module([NOP], b"", [symbol(2, name) for name in names]))
    empty = folder.keep("empty", module([NOP], b"", []))

    def each(*files):
        command = [folder.program, "link", folder.path("image"), *files]
        least = [empty if file == user else file for file in files]
        least = [folder.program, "link", folder.path("image"), *least]
        return (instructions(command) - instructions(least)) / (SHARED * files.count(user))

    first = each(definer, *[user] * 63)
    rows = {
        "the module that defines all first of 64": first,
        "last of 64": each(*[user] * 63, definer),
        "in the middle of 64": each(*[user] * 31, definer, *[user] * 32),
        "and one other alone": each(definer, user),
        "and one other behind 62 without symbols": each(*[empty] * 62, definer, user),
    }
    for what, taken in rows.items():
        print(f"{what}: {taken:,.0f} instructions a symbol, {taken / first:.2f} times", flush=True)


def large(folder):
    """Modules of 5 and 20 MiB, one alone and many."""
    for size, make, kind in ((5, short_names, "short names"), (5, quadwords, "quadwords"),
                             (20, many_names, "most code and data"), (20, short_names, "short names"),
                             (20, quadwords, "quadwords")):
        file = folder.keep("module", make(size * MEBIBYTE))
        folder.measure(f"a module of {size} MiB, {kind}", [file], os.path.getsize(file), "byte")
    for count, size in ((16, 5), (64, 1)):
        many_short(folder, count, size)


def main():
    alone = sys.argv[1] if sys.argv[1:2] in (["names"], ["order"]) else None
    program = the_program(sys.argv[2:] if alone else None)
    with tempfile.TemporaryDirectory() as name:
        folder = Links(program, name)
        if alone != "names" and counts_instructions():
            orders(folder)
        if alone != "order":
            all_names(folder)
        if alone:
            return
        for count in (4, 16, 64):
            many(folder, count)
        large(folder)


if __name__ == "__main__":
    main()
