"""What the companions want of a linked file, whether it is ELF's or ECOFF's: sections, symbols, and where an address
lies."""
import bisect
import functools
import struct
from collections import namedtuple

from . import files, shown

PROGBITS, NOBITS = 1, 8
EXEC, TLS = 4, 0x400
# The bytes of a block in which names are read, and of the longest name.
BLOCK, LONGEST_NAME = 1 << 14, 1 << 15
# A section in memory; `content` is empty where it is one of zeroed bytes, NOBITS. `loose` has the offsets of the words
# of an object whose lower half the linker is to make.
Section = namedtuple("Section", "name kind flags address content size loose", defaults=(frozenset(),))
# A symbol; its size is 0 where the file doesn't say one, its kind label, object or func.
Symbol = namedtuple("Symbol", "address size kind name")


class Linked:
    """The entry, the sections that are in memory by rising address, and the symbols of these, by rising address."""

    def __init__(self, path, file):
        self.path, self.file = path, file
        self.entry, self.sections, self.symbols = 0, [], []
        self.loaded_bytes = self.named_bytes = 0
        self.block = functools.lru_cache(16)(self.read_block)

    def refuse(self, why):
        raise files.Refused(f"{self.path}: {why}")

    def fields(self, layout, at):
        """Numbers of the file."""
        return struct.unpack(layout, self.file.part(at, struct.calcsize(layout)))

    def rows(self, layout, at, count):
        """The numbers of so many records, one behind another."""
        return struct.iter_unpack(layout, self.file.part(at, count * struct.calcsize(layout)))

    def content(self, offset, length):
        """The bytes of a section. Sections share no bytes, so all together have no more than the file."""
        self.loaded_bytes += length
        if self.loaded_bytes > self.file.size:
            raise ValueError("its sections have more bytes than the file")
        if self.loaded_bytes > files.MOST_PART:
            self.refuse(f"more than {files.MOST_PART} bytes of sections, the most that are read")
        return self.file.part(offset, length)

    def read_block(self, number):
        start = number * BLOCK
        return self.file.part(start, max(0, min(BLOCK, self.file.size - start)))

    def text(self, start):
        """The name at an offset, up to a byte of 0, as it is shown."""
        found = b""
        while True:
            number, at = divmod(start + len(found), BLOCK)
            part = self.block(number)[at:]
            end = part.find(b"\0")
            found += part if end < 0 else part[:end]
            if end >= 0:
                break
            if not part or len(found) > LONGEST_NAME:
                raise ValueError("a name without an end")
        self.named_bytes += len(found)
        # A linker may let names share their ends, but not so that they are many times longer than the file.
        if self.named_bytes > min(4 * self.file.size, files.MOST_PART) + BLOCK:
            raise ValueError("its names are longer than the file")
        return shown.name(found.decode("utf-8", "surrogateescape"))

    def order(self):
        """Puts sections and symbols in order. No two sections may share addresses."""
        self.symbols.sort()
        self.sections.sort(key=lambda section: section.address)
        for low, high in zip(self.sections, self.sections[1:]):
            if low.address + low.size > high.address:
                self.refuse(f"sections {low.name} and {high.name} share addresses")

    def loaded(self, address, size):
        """What is in memory at addresses that no section has."""
        return bytes(size)

    def beside(self):
        """Memory that is loaded as code, and is in no section of instructions: (address, size) of each such stretch."""
        return []

    def at(self, address):
        """The symbol before an address and the distance from it, as `main+0x10`; the address alone where there is
        none."""
        before = [symbol for symbol in self.symbols if symbol.address <= address and symbol.kind != "object"]
        if not before:
            return f"{address:#x}"
        last = before[-1]
        near = max((symbol for symbol in before if symbol.address == last.address),
                   key=lambda symbol: symbol.kind == "func")
        return near.name + (f"+{address - near.address:#x}" if address > near.address else "")


def finder(sections):
    """What tells the section of an address, or None, of sections in order."""
    starts = [section.address for section in sections]

    def section_at(address):
        at = bisect.bisect_right(starts, address) - 1
        return sections[at] if at >= 0 and address < sections[at].address + sections[at].size else None
    return section_at
