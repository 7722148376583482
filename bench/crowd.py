#!/usr/bin/env python3
"""Counts the host instructions of `asm`, `module`, `fix` and `link` for names that are chosen to be dear to look up,
beside plain names of the same length, at 25,000, 50,000 and 100,000 of them. Of a source each line has a label and a
branch to the next one; of `link` one module has all names as symbols.

    bench/crowd.py [PROGRAM]     counts
    bench/crowd.py last [PROGRAM]   counts for names that are looked up in the last map alone
    bench/crowd.py search        searches for such names, some minutes
    bench/crowd.py NAMES COUNT   writes a source of so many labels: plain16, product, plain32, hash or way
"""
import itertools
import os
import string
import sys
import tempfile

from formats import module, symbol
from last_names import LAST, ONE_HASH, ON_THE_WAY, search
from measure import NOP, instructions, the_program

COUNTS = (25_000, 50_000, 100_000)
REFERENCES = 20_000
SOME = string.ascii_letters + string.digits + "_"
# With a factor of 1 the hash is the last eight bytes, but for a constant. Where their last four are alike too, all
# names go one way through the first tree.
ONE_WAY = "crowd_0000100431kxd8Xp31"


def letters(number, count):
    """A number in so many letters, the lowest first."""
    text = ""
    for _ in range(count):
        number, letter = divmod(number, 26)
        text += string.ascii_lowercase[letter]
    return text


def products(count):
    """Names of 16 bytes whose hash is a product of two factors, one of which has few bits set."""
    parts = itertools.product("abc", "1AQaq", SOME, "abc", "1AQaq", SOME)
    return [f"{a}m{b}{c}{d}m{e}{f}5xJo9y7." for a, b, c, d, e, f in itertools.islice(parts, count)]


NAMES = {
    "plain16": lambda count: [f"name_of{number:09d}" for number in range(count)],
    "product": products,
    "plain32": lambda count: [f"a_label_of_32_bytes_in__{letters(number, 8)}" for number in range(count)],
    "hash": lambda count: [ONE_HASH + letters(number, 8) for number in range(count)],
    "way": lambda count: [ONE_WAY + letters(number, 4) + "zzzz" for number in range(count)],
}
PLAIN = {"product": "plain16", "hash": "plain32", "way": "plain32"}


def source(names):
    lines = [f"{name}: br $31,{after}\n" for name, after in zip(names, names[1:] + names[:1])]
    return ("".join(lines) + f".entry {names[0]}\n").encode()


def symbols(names):
    """A module of one word whose symbols are these names, all at its start, and `start`."""
    all_names = sorted([name.encode() for name in names] + [b"start"])
    return module([NOP], b"", [symbol(0, name) for name in all_names])


def count(program, folder, kind, number):
    """The host instructions for each of so many names, by command."""
    names = NAMES[kind](number)
    paths = {name: os.path.join(folder, name) for name in ("source", "module", "out")}
    for name, contents in (("source", source(names)), ("module", symbols(names))):
        with open(paths[name], "wb") as file:
            file.write(contents)
    calls = {
        "asm": ["asm", paths["source"], paths["out"]],
        "module": ["module", paths["source"], paths["out"]],
        "fix": ["fix", paths["source"], paths["out"]],
        "link": ["link", paths["out"], paths["module"]],
    }
    return {command: instructions([program, *words]) / number for command, words in calls.items()}


def uses(names, used, count):
    """A source that defines names, in this order, and branches to some of them."""
    labels = "".join(f"{name}:\n" for name in names)
    branches = "".join(f" br $31,{used[number % len(used)]}\n" for number in range(count))
    return f".code\n{labels}{branches}.entry {names[0]}\n".encode()


def count_uses(program, folder, names, used):
    """The host instructions of a branch and of a label line by `asm`, and of a symbol that one module names and another
    one defines by `link`."""
    path, out = os.path.join(folder, "source"), os.path.join(folder, "out")
    counts = []
    for text in (source(names[:-len(used)]), source(names), uses(names, used, 1), uses(names, used, REFERENCES + 1)):
        with open(path, "wb") as file:
            file.write(text)
        counts.append(instructions([program, "asm", path, out]))
    taken = {"a label line": (counts[1] - counts[0]) / len(used), "a branch": (counts[3] - counts[2]) / REFERENCES}
    files = []
    for number, name in enumerate([*names, "start"]):
        files.append(os.path.join(folder, f"m{number}"))
        with open(files[-1], "wb") as file:
            file.write(module([NOP], b"", [symbol(0, name.encode())]))
    both = []
    for symbols in ([], [symbol(2, name.encode()) for name in sorted(used)]):
        with open(path, "wb") as file:
            file.write(module([NOP], b"", symbols))
        both.append(instructions([program, "link", out, *files, *[path] * (64 - len(files))]))
    taken["a symbol of link"] = (both[1] - both[0]) / (len(used) * (64 - len(files)))
    return taken


def last(program, folder):
    """Names that are looked up in the map behind both trees, beside plain names."""
    # The first of all has the one slot of the first tree.
    dear = [ONE_HASH + word for word in ["aaaaaaaa", *ON_THE_WAY, *LAST]]
    plain = NAMES["plain32"](len(dear))
    counted = {name: count_uses(program, folder, names, names[-len(LAST):])
               for name, names in (("plain", plain), ("last", dear))}
    for what, each in counted["last"].items():
        print(f"{what}: {each:,.0f}, {each / counted['plain'][what]:.2f} times plain names")


def main():
    if sys.argv[1:] == ["search"]:
        return search()
    if sys.argv[1:2] == ["last"]:
        with tempfile.TemporaryDirectory() as folder:
            return last(the_program(sys.argv[2:]), folder)
    if len(sys.argv) == 3 and sys.argv[1] in NAMES and sys.argv[2].isdigit() and int(sys.argv[2]) > 0:
        sys.stdout.write(source(NAMES[sys.argv[1]](int(sys.argv[2]))).decode())
        return
    if len(sys.argv) > 2:
        sys.exit("usage: bench/crowd.py [PROGRAM] | bench/crowd.py NAMES COUNT, NAMES one of " + ", ".join(NAMES))
    program = the_program()
    with tempfile.TemporaryDirectory() as folder:
        taken = {}
        for kind in NAMES:
            for number in COUNTS:
                taken[kind, number] = count(program, folder, kind, number)
                rows = []
                for command, each in taken[kind, number].items():
                    times = (f", {each / taken[PLAIN[kind], number][command]:.2f} times plain names" if kind in PLAIN
                             else "")
                    rows.append(f"{command} {each:,.0f}{times}")
                print(f"{number} names, {kind}: " + "; ".join(rows), flush=True)


if __name__ == "__main__":
    main()
