#!/usr/bin/env python3
"""Lists the clauses that say nothing of the crates' own types: those over what a trait's types tell, where each of them
tells nothing.

    bench/empty.py

A trait has ghosts that may be `None`, as what a device tells. Where each type of the crates that the program stands on
leaves one so, a clause of a function over that trait which names it holds of nothing that is there. Such clauses are
printed, and no page quotes one: it ends with 1 where one does.
"""
import pathlib
import re
import sys

TOP = pathlib.Path(__file__).resolve().parent.parent
sys.dont_write_bytecode = True
sys.path.insert(0, str(TOP / "bench"))
import clauses

PROGRAM = "alpha_tool"
OPTIONAL = re.compile(r"ghost (\w+): \{ Self → Option\b")
GIVEN = re.compile(r"ghost (\w+) = \{ (.*?) \};", re.S)
NOTHING = re.compile(r"λ (?:_ ?)+\. None")
IMPL = re.compile(r"impl\b(?:<.*?>)? (\w+)(?:<.*?>)? for (\w+)")
BOUND = re.compile(r"\b(\w+): (\w+)")


def product():
    """The crates that the program stands on."""
    below = {}
    for line in (TOP / "crates.txt").read_text(encoding="utf-8").split("\n"):
        name, found, rest = line.partition(":")
        if found:
            below[name.split()[0]] = rest.split()
    found, open_ = set(), [PROGRAM]
    while open_:
        name = open_.pop()
        if name in below and name not in found:
            found.add(name)
            open_ += below[name]
    return sorted(found)


def blocks(text):
    """Each item that stands at the left edge, with all that is in it."""
    return re.split(r"\n(?=\S)(?![})])", text)


def told(files):
    """For each trait and its optional ghost, the types that have it, each with whether it may tell something."""
    wanted, has = set(), {}
    for text in files:
        for block in blocks(text):
            head = re.search(r"^(?:pub(?:\(crate\))? )?trait (\w+)", block, re.M)
            wanted |= {(head.group(1), ghost) for ghost in OPTIONAL.findall(block)} if head else set()
            impl = IMPL.search(block.split("{")[0])
            for ghost, value in GIVEN.findall(block) if impl else ():
                has.setdefault((impl.group(1), ghost), {})[impl.group(2)] = not NOTHING.fullmatch(value)
    return {key: types for key, types in has.items() if key in wanted}


def main():
    crates = {name: TOP / "crates" / name for name in product()}
    files = {path: path.read_text(encoding="utf-8") for crate in crates.values()
             for path in sorted((crate / "src").rglob("*.rt"))}
    empty = {key: types for key, types in told(files.values()).items() if not any(types.values())}
    found = []
    for path, text in files.items():
        lines = text.split("\n")
        for at, line in enumerate(lines):
            head = clauses.HEAD.match(line)
            contract = clauses.contract(lines, at, head.group(1)) if head else ""
            for letter, trait in BOUND.findall(contract.partition("ensures")[0]):
                for ghost in (ghost for of, ghost in empty if of == trait):
                    parts = re.split(r"\n\s*ensures ", contract)[1:]
                    found += [(path, head.group(3), part.split()[0], trait, ghost) for part in parts
                              if f"{letter}.{ghost} " in part]
    wrong = 0
    pages = {page: page.read_text(encoding="utf-8")
             for page in [TOP / "README.md", *sorted((TOP / "docs").glob("*.md"))]}
    for path, function, clause, trait, ghost in found:
        types = ", ".join(sorted(empty[trait, ghost]))
        print(f"{path.relative_to(TOP)}, {function}: {clause} says nothing of {types}, whose {trait}.{ghost} is None")
        for page, text in pages.items():
            if re.search(rf"```rattle:{path.relative_to(TOP)}\n[^`]*ensures {clause}\b", text):
                wrong += 1
                print(f"{page.relative_to(TOP)} quotes it")
    print(f"{len(found)} clauses say nothing of the crates' own types, {wrong} of them on a page")
    return wrong > 0


if __name__ == "__main__":
    if sys.argv[1:]:
        sys.exit(__doc__)
    sys.exit(main())
