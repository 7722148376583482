#!/usr/bin/env python3
"""Holds that no line of the crates, nor of a script, has more than 120 columns, so that a count of lines says
something.

    bench/columns.py [--count]

The files are those that the repository keeps: of crates/ each .rt and .antt, and everywhere each .py, .sh, .awk and
.sed and each file whose first line names an interpreter. A column is a character. Each longer line is printed with its
file, its number and its columns; with --count only how many each file has. It ends with 1 where there is one.

UNBROKEN names the files whose long lines have no break, with how many those are: a row of a table in a comment, a text
that is compared byte for byte. A file that has fewer now is printed too, so that its row is made smaller.
"""
import pathlib
import subprocess
import sys

TOP = pathlib.Path(__file__).resolve().parent.parent
WIDTH = 120
SCRIPTS = (".py", ".sh", ".awk", ".sed")
UNBROKEN = {"crates/alpha_rows/src/row_values.rt": 1, "crates/alpha_top_tests/src/cmd.rt": 1}


def is_held(path):
    """Whether a file's lines are counted here."""
    if path.suffix in (".rt", ".antt"):
        return path.is_relative_to(TOP / "crates")
    if path.suffix in SCRIPTS:
        return True
    with path.open("rb") as file:
        return file.read(2) == b"#!"


def kept():
    """The files that the repository keeps, without links to others."""
    listed = subprocess.run(["git", "ls-files", "-z"], cwd=TOP, stdout=subprocess.PIPE, check=True).stdout.decode()
    paths = (TOP / name for name in sorted(listed.split("\0")) if name)
    return [path for path in paths if path.is_file() and not path.is_symlink() and is_held(path)]


def long_lines(path):
    """The numbers of the lines that are too long, each with its columns."""
    lines = path.read_text(encoding="utf-8").split("\n")
    return [(number, len(line)) for number, line in enumerate(lines, 1) if len(line) > WIDTH]


def main(is_count):
    files, found, wrong = kept(), 0, 0
    for path in files:
        name, lines = str(path.relative_to(TOP)), long_lines(path)
        found += len(lines)
        if len(lines) == UNBROKEN.get(name, 0):
            continue
        wrong += 1
        if is_count or len(lines) < UNBROKEN.get(name, 0):
            print(f"{name}: {len(lines)} long lines" + (f", UNBROKEN has {UNBROKEN[name]}" if name in UNBROKEN else ""))
            continue
        for number, columns in lines:
            print(f"{name}:{number}: {columns} columns")
    print(f"{len(files)} files, {found} lines of more than {WIDTH} columns, {wrong} files that shouldn't have so many")
    return wrong > 0


if __name__ == "__main__":
    if sys.argv[1:] not in ([], ["--count"]):
        sys.exit(__doc__)
    sys.exit(main(bool(sys.argv[1:])))
