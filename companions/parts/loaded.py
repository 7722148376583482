"""What a system loads of a file, by the headers that it goes by, held against the sections by which code and data are
told apart."""
import bisect
import itertools
import struct
from collections import namedtuple

from . import linked

LOAD, EXECUTE, PAGE, ROW = 1, 1, 8_192, "<IIQQQQQQ"
PIECE = 1 << 20
# Words that linkers put between sections: bis, ldq_u and cpys of $31, and 0.
FILLERS = {0x47FF041F, 0x2FFE0000, 0x5FFF041F, 0}
# A part of memory: its flags, its place in the file, its address, and its bytes in the file and in memory.
Load = namedtuple("Load", "flags offset address held size")


def of_headers(whole, at, size, count):
    """The parts of memory that the program headers of an ELF file say."""
    if count and size != struct.calcsize(ROW):
        raise ValueError("program headers of another size")
    rows = whole.rows(ROW, at, count)
    loads = Loads(whole,
                  [Load(flags, offset, address, held, memory)
                   for kind, flags, offset, address, _, held, memory, _ in rows
                          if kind == LOAD and memory])
    loads.look_at_rows()
    return loads


class Loads:
    """The parts of memory that a file's headers say, by rising address."""

    def __init__(self, whole, loads):
        self.whole, self.loads = whole, loads
        self.ends = [one.address + one.size for one in loads]

    def look_at_rows(self):
        """Linux maps whole pages, a later part's over an earlier one's: so where two share a page, it must be the same
        of both."""
        for one in self.loads:
            if one.held > one.size or one.address + one.size >> 64:
                raise ValueError("a part of memory that can't be")
            if (one.address - one.offset) % PAGE:
                self.whole.refuse(f"the part of memory at {one.address:#x} has another place in its page than in the "
                                  f"file")
            if one.held:
                self.whole.file.part(one.offset + one.held, 0)
        for low, high in zip(self.loads, self.loads[1:]):
            shares = (low.address + low.size - 1) // PAGE >= high.address // PAGE
            if (low.address + low.size > high.address
                or shares and low.address - low.offset != high.address - high.offset):
                self.whole.refuse(f"two parts of memory share the page of {high.address:#x}, which the file has twice")

    def of(self, address, size):
        """The part that has all of these addresses, or None."""
        at = bisect.bisect_right(self.ends, address)
        one = self.loads[at] if at < len(self.loads) else None
        return one if one is not None and one.address <= address and address + size <= one.address + one.size else None

    def content(self, address, size):
        """What is loaded at some addresses; 0 where nothing is."""
        found = bytearray(size)
        for one in itertools.islice(self.loads, bisect.bisect_right(self.ends, address), None):
            if one.address >= address + size:
                break
            start, end = max(address, one.address), min(address + size, one.address + one.held)
            if start < end:
                found[start - address:end - address] = self.whole.file.part(one.offset + start - one.address,
                                                                            end - start)
        return bytes(found)

    def hold(self, sections):
        """Refuses a file of two faces: a section that isn't what is loaded at its addresses."""
        for section in sections:
            load = self.of(section.address, section.size)
            if load is None:
                self.whole.refuse(f"section {section.name} at {section.address:#x} isn't loaded, or not all of it")
            if section.kind == linked.NOBITS:
                held = max(0, min(section.size, load.address + load.held - section.address))
            else:
                held = section.size
            for start in range(0, held, PIECE):
                size = min(PIECE, held - start)
                wanted = section.content[start:start + size] if section.kind != linked.NOBITS else bytes(size)
                if self.content(section.address + start, size) != wanted:
                    self.whole.refuse(f"section {section.name} at {section.address:#x} has other bytes than are loaded "
                                      f"there")
            if section.flags & linked.EXEC and not load.flags & EXECUTE:
                self.whole.refuse(f"section {section.name} at {section.address:#x} has instructions, and isn't loaded "
                                  f"as code")

    def beside(self, sections):
        """The stretches that are loaded as code and are in no section of instructions, but for fillers: (address,
        size)."""
        code = [section for section in sections if section.flags & linked.EXEC]
        begins = [section.address for section in code]
        for load in self.loads:
            if not load.flags & EXECUTE:
                continue
            at, end = load.address, load.address + load.held
            inner = code[bisect.bisect_left(begins, at):bisect.bisect_left(begins, end)]
            for start, stop in [*((section.address, section.address + section.size) for section in inner), (end, end)]:
                if self.has_words(at, start):
                    yield at, start - at
                at = stop

    def has_words(self, start, end):
        """Whether anything but fillers is loaded between two addresses."""
        for at in range(start, end, PIECE):
            content = self.content(at, min(PIECE, end - at))
            if (any(content)
                and {word for word, in struct.iter_unpack("<I", content + bytes(-len(content) % 4))} - FILLERS):
                return True
        return False
