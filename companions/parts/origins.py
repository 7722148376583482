"""Where the text is that a word was made of: the line and the column of the compiler's text, of a source, and of the C
program."""
import functools
import os
import re
from collections import namedtuple

from . import files, gas, places

# A line of a file, and the column where its statement begins, counted from 1; column 0 where nobody knows it.
Spot = namedtuple("Spot", "file line column")
NAMED = re.compile(r"(\S+):([0-9]+)")


def spots(known, address):
    """The spots of an address, the compiler's text first where a comment of the source says it, then the source
    itself."""
    source = known.source_of(address)
    line = None if source is None else source.lines.get(address)
    if line is None:
        return []
    text = source.text[line - 1]
    found = []
    if origin := places.ORIGIN.search(text):
        for name, number in NAMED.findall(origin[1]):
            path = near(source.path, name)
            found.append(Spot(path, int(number), column_of(path, int(number))))
    return [*found, Spot(source.path, line, column_in(text))]


def near(source, name):
    """The file of a name that a source tells: it stands beside the source, or here, or nobody knows where."""
    beside = os.path.join(os.path.dirname(source), name)
    return next((path for path in (beside, name) if os.path.isfile(path)), name)


@functools.lru_cache(64)
def lines_of(path):
    try:
        return files.read_text(path).split("\n")
    except files.Refused:
        return []


def column_of(path, number):
    lines = lines_of(path)
    return column_in(lines[number - 1]) if 0 < number <= len(lines) else 0


def column_in(text):
    """Where the first statement of a line begins; in a line of C, where its text does."""
    statement = next(gas.statements(text))
    return statement.start + 1 if statement.name else len(text) - len(text.lstrip()) + 1
