#!/usr/bin/env python3
"""Prints the index of all laws, or where definitions stand.

    bench/laws.py              each law, a function `laws_of_..` or `limits_of_..`: its crate, the names of its clauses,
                               and the first paragraph of its comment
    bench/laws.py NAME ..      each definition and type of that name: its file, and its first line

The root page of a crate, its src/lib.rt, says which laws are for what. It ends with 1 where a name stands nowhere.
"""
import pathlib
import re
import sys

TOP = pathlib.Path(__file__).resolve().parent.parent
LAW = re.compile(r"^((?:///[^\n]*\n)*)pub fn ((?:laws|limits)_of_\w+)\(\)(.*?)^\{\}$", re.M | re.S)
CLAUSE = re.compile(r"ensures (\w+) \{")


def comment(lines):
    """The first paragraph of a comment."""
    text = "\n".join(line.removeprefix("///").strip() for line in lines.strip().split("\n"))
    return text.split("\n\n")[0].replace("\n", " ")


def laws():
    """Each law with its crate, the names of its clauses, and what its comment begins with."""
    for file in TOP.glob("crates/*/src/**/*.rt"):
        crate = file.relative_to(TOP / "crates").parts[0]
        for lines, name, body in LAW.findall(file.read_text()):
            yield name, crate, CLAUSE.findall(body), comment(lines)


def places(name):
    """Where a name is defined: the file, and the line."""
    own = re.escape(name)
    definition = re.compile(rf"^(?:(?:abbrev |unfoldable )?pub (?:data |record |abbrev )?{own}(?= )|  {own} :"
                            rf"|\s*pub (?:enum|struct|trait|const|fn) {own}\b).*", re.M)
    for file in sorted([*TOP.glob("crates/*/specs/**/*.antt"), *TOP.glob("crates/*/src/**/*.rt")]):
        for found in definition.findall(file.read_text()):
            yield file.relative_to(TOP), found.strip()


def main():
    names = sys.argv[1:]
    if any(name.startswith("-") for name in names):
        raise SystemExit(__doc__)
    for name, crate, clauses, text in sorted(laws()) if not names else []:
        print(f"{name} of {crate}: {', '.join(clauses) or 'one clause'}\n    {text}")
    missing = False
    for name in names:
        found = list(places(name))
        missing |= not found
        for file, line in found:
            print(f"{file}: {line}")
        if not found:
            print(f"laws.py: {name} stands nowhere", file=sys.stderr)
    sys.exit(1 if missing else 0)


if __name__ == "__main__":
    main()
