#!/usr/bin/env python3
"""Prints the usage of ./alpha and ./look, out of the tables of docs/commands.md.

    tools/usage.py NAME [COMMAND]     NAME: alpha or look

Without COMMAND: all commands, the options, the statuses and the pages, each in short. With it: all that the page has on
the words of that command; where it has no such command the status is 2.
"""
import os
import re
import signal
import sys
import textwrap

TOP = os.path.dirname(os.path.dirname(os.path.realpath(__file__)))
PAGE = "docs/commands.md"
NO_COMMAND = 2
WIDTH, INDENT = 100, 6
HEAD = [
    ("./alpha COMMAND ..", "the proved program; where there is none the call proves and builds it"),
    ("./look COMMAND ..", "the same program, compiled and not proved"),
    ("./{name} help [COMMAND]", "this, or all words of a command"),
    ("./{name} --version", "the version, and the commit and the kit that the program was made of"),
    ("./{name} -- WORDS", "hands the program these words, whatever they are"),
]
TAIL = f"""\
{PAGE} has each line that tells a status, and what to do; companions/explain looks it up there.
README.md says what all this is for, and where the other pages are."""


def tables_under(heading):
    """The tables of a section of the page: lists of rows, which are lists of cells."""
    with open(f"{TOP}/{PAGE}", encoding="utf-8") as page:
        section = page.read().split(f"\n## {heading}\n")[1].split("\n## ")[0]
    tables = re.findall(r"(?:^\|.*\n)+", section, re.M)
    return [[[cell.strip() for cell in line[2:-1].split(" | ")] for line in table.splitlines()[2:]] for table in tables]


def plain(text):
    """A cell without its marks; of a link the page that it leads to."""
    return re.sub(r"\[[^]]+\]\(([^)#]+)[^)]*\)", r"docs/\1", text).replace("`", "")


def in_short(text):
    """What stands before the page that says more, the next sentence, or what single commands do."""
    return plain(re.split(r": \[|\. |; by `", text)[0])


def entry(head, text, width=INDENT):
    """A head, and its text beside it where there is room, or else below."""
    wrapped = textwrap.fill(text, WIDTH, initial_indent=" " * width, subsequent_indent=" " * width,
                            break_on_hyphens=False)
    head = f"  {head}"
    return head + wrapped[len(head):] if len(head) < width else f"{head}\n{wrapped}"


def options(rows):
    for words, means, left_out in rows:
        yield entry(plain(words), plain(means) + (f". Left out: {plain(left_out)}" if left_out else ""))


def usage(name):
    commands, of_run = tables_under("The words")[:2]
    yield from (f"{'usage:' if at == 0 else '':7}{words.format(name=name):26}{what}"
                for at, (words, what) in enumerate(HEAD))
    yield "\nCommands:"
    yield from (entry(plain(words), in_short(what)) for words, what in commands)
    yield "\nOptions of run:"
    yield from options(of_run)
    yield "\nStatuses:"
    yield from (entry(number, in_short(where), 7) for number, where, _ in tables_under("The statuses")[0])
    yield entry("70", "there is no program: it couldn't be made", 7)
    yield f"\n{TAIL}"


def usage_of(command):
    commands, of_run = tables_under("The words")[:2]
    yield from (entry(plain(words), plain(what)) for words, what in commands if words.strip("`").split()[0] == command)
    if command in ("run", "record"):
        yield "\nOptions:"
        yield from options(of_run)


def main(name=None, command="", *_):
    if name is None:
        sys.exit(__doc__.strip())
    lines = [*(usage_of(command) if command else usage(name))]
    if not lines:
        print(f"{name}: there is no command {command}: ./{name} help names all", file=sys.stderr)
        sys.exit(NO_COMMAND)
    print("\n".join(lines))


if __name__ == "__main__":
    # A reader may stop early, as `head` does.
    signal.signal(signal.SIGPIPE, signal.SIG_DFL)
    main(*sys.argv[1:])
