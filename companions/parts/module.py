"""Modules, as docs/modules.md has their layout."""
import struct
from collections import namedtuple

from . import files

MAGIC = b"ALPHAOB1"
CODE, DATA, UNDEFINED = 0, 1, 2
# The kinds of relocations, by what a link puts in.
BRANCH, HIGH, LOW, QUAD = 0, 1, 2, 3

Symbol = namedtuple("Symbol", "section name offset")
Relocation = namedtuple("Relocation", "kind offset symbol added")
Module = namedtuple("Module", "words data zeroed symbols relocations")


def read_module(path):
    """The module of a file. Only its layout is looked at here; the program judges whether it keeps the rules."""
    return module_of(files.read_bytes(path, files.MOST_MODULE), path)


def module_of(content, path):
    if content[:8] != MAGIC:
        raise files.Refused(f"{path}: no module: it doesn't begin with {MAGIC.decode()}")
    try:
        count, size, zeroed, symbols, relocations = struct.unpack_from("<IIIII", content, 8)
        words = list(struct.unpack_from(f"<{count}I", content, 28))
        at = 28 + 4 * count + size
        data = content[at - size:at]
        found = []
        for _ in range(symbols):
            section, length = struct.unpack_from("<BH", content, at)
            offset, = struct.unpack_from("<I", content, at + 3)
            found.append(Symbol(section, content[at + 7:at + 7 + length].decode("ascii", "replace"), offset))
            at += 7 + length
        places = [Relocation(*struct.unpack_from("<BIIi", content, at + 13 * n)) for n in range(relocations)]
    except struct.error as error:
        raise files.Refused(f"{path}: no module: too short") from error
    if at + 13 * relocations != len(content):
        raise files.Refused(f"{path}: no module: {len(content)} bytes, and its numbers want {at + 13 * relocations}")
    return Module(words, data, zeroed, found, places)
