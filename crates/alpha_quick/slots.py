#!/usr/bin/env python3
"""Prints MULTIPLIER and PLACES of src/rows.rt for the names of its ROWS and pseudo-operations: a number by which no two
names have one slot, and the place of the name with each slot. The number that stands there is tried first.

    crates/alpha_quick/slots.py [--check]

With `--check` it prints what is wrong there, and ends with 1 if anything is: a name of eight bytes at most of the
instruction table, or one of those beside it, that has no row, a name that has two, a row that has no name, or places
that don't fit. That each row has its name's number is proved.
"""
import collections
import pathlib
import random
import re
import sys

CRATES = pathlib.Path(__file__).resolve().parent.parent
TABLE = CRATES / "alpha_table" / "src"
SLOTS = 1024
NONE = 255


def names():
    """The name for each way to write a row, without the enums around it."""
    operates = (TABLE / "operate.rt").read_text()
    others = (TABLE / "formats.rt").read_text()
    beside = (CRATES / "alpha_text" / "src" / "head.rt").read_text()
    found = [(f"Op::{row}", name) for row, name in re.findall(r'^ +(\w+) "([^"]+)" 0x', operates, re.M)]
    found += re.findall(r'^ +(\w+::\w+) "([^"]+)"', others, re.M)
    found += [(f"modify: {row}", name) for row, name in re.findall(r'^ +(true|false) "([^"]+)"', others, re.M)]
    found += [(f"PseudoOp::{row}", name) for row, name in re.findall(r'^ +(\w+) b"([^"]+)" \w+,$', beside, re.M)]
    return dict(found)


def written():
    """The rows, the number and the places, as they stand in src/rows.rt."""
    text = (CRATES / "alpha_quick" / "src" / "rows.rt").read_text()
    keyed = re.search(r"static ROWS: .*? = keyed_rows! \{(.*?)\};", text, re.S).group(1)
    beside = re.search(r"static \w+: \[PseudoOp; \d+\] = \[(.*?)\];", text, re.S).group(1)
    multiplier = int(re.search(r"const MULTIPLIER: u64 = (\d+);", text).group(1))
    places = re.search(r"static PLACES: .*? = \[(.*?)\];", text, re.S).group(1)
    rows = [re.search(r"(\w+::\w+|modify: \w+)\W*$", line).group(1) for line in (keyed + beside).split(",\n")[:-1]]
    return rows, multiplier, [int(place) for place in re.findall(r"\d+", places)]


def slot(name, multiplier):
    key = int.from_bytes(name.encode()[-8:], "big")
    return key * multiplier % 2**64 * SLOTS // 2**64


def places_of(ordered, multiplier):
    places = [NONE] * SLOTS
    for place, name in enumerate(ordered):
        places[slot(name, multiplier)] = place
    return places


def faults():
    known = names()
    rows, multiplier, places = written()
    needed = {row: name for row, name in known.items() if len(name) <= 8 or row.startswith("PseudoOp::")}
    yield from (f"{name} has no row" for row, name in needed.items() if row not in rows)
    yield from (f"{row} stands {times} times" for row, times in collections.Counter(rows).items() if times > 1)
    yield from (f"{row} has no name" for row in rows if row not in known)
    ordered = [known.get(row, "") for row in rows]
    if len({slot(name, multiplier) for name in ordered}) < len(ordered):
        yield "two names have one slot"
    if places != places_of(ordered, multiplier):
        yield "the places aren't those of the rows"


def check():
    found = list(faults())
    for fault in found:
        print(f"crates/alpha_quick/src/rows.rt: {fault}")
    return 1 if found else 0


def main():
    if sys.argv[1:] == ["--check"]:
        sys.exit(check())
    known = names()
    rows, multiplier, _ = written()
    ordered = [known[row] for row in rows]
    draw = random.Random(1)
    while len({slot(name, multiplier) for name in ordered}) < len(ordered):
        multiplier = draw.getrandbits(63) | 1
    print(f"const MULTIPLIER: u64 = {multiplier};")
    print(f"static PLACES: [u8; {SLOTS}] = {places_of(ordered, multiplier)};")


if __name__ == "__main__":
    main()
