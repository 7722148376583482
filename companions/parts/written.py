"""Static ELF files for alpha, written: parts of memory, and symbols of them."""
import struct
from collections import namedtuple

HEADER, PROGRAM, SECTION, PAGE = 64, 56, 64, 8_192
READ, WRITE, EXECUTE = 4, 2, 1
PROGBITS, SYMTAB, STRTAB, NOBITS = 1, 2, 3, 8
LOAD, STACK_FLAGS = 1, 0x6474E551
# A part of memory: the name of its section, its flags, its address, its bytes in the file, and how many it has in
# memory.
Part = namedtuple("Part", "name flags address content size")


class Written:
    """A file of some parts by rising address."""

    def __init__(self, parts, entry, symbols):
        self.parts, self.entry = parts, entry
        self.programs, self.sections, self.names = [], [bytes(SECTION)], bytearray(b"\0")
        self.content = bytearray(HEADER + PROGRAM * (len(parts) + 1))
        for part in parts:
            self.add(part)
        # Linux is told so that no program runs words of its own stack.
        self.programs.append(struct.pack("<IIQQQQQQ", STACK_FLAGS, READ | WRITE, 0, 0, 0, 0, 0, 16))
        self.add_symbols(symbols)

    def add(self, part):
        """Adds a part. Its place in a page of the file is that in a page of memory, and nothing else is in its
        pages."""
        self.content += bytes(-len(self.content) % PAGE + part.address % PAGE)
        at, held = len(self.content), len(part.content)
        self.programs.append(struct.pack("<IIQQQQQQ", LOAD, part.flags, at, part.address, part.address, held, part.size,
                                         PAGE))
        self.content += part.content
        flags = 2 | (part.flags & WRITE) >> 1 | (part.flags & EXECUTE) << 2
        if held:
            self.section(part.name, PROGBITS, at, held, flags, part.address)
        if part.size > held:
            self.section(part.name + (".zero" if held else ""), NOBITS, at, part.size - held, flags,
                         part.address + held)
        self.content += bytes(-len(self.content) % PAGE)

    def section(self, name, kind, at, size, flags=0, address=0, link=0, first=0, entries=0):
        self.sections.append(struct.pack("<IIQQQQIIQQ", len(self.names), kind, flags, address, at, size, link, first, 8,
                                         entries))
        self.names += name.encode("utf-8", "replace") + b"\0"

    def add_symbols(self, symbols):
        """The symbols that lie in a part: (address, name, size) of each. Those of code are functions."""
        texts, rows = bytearray(b"\0"), [bytes(24)]
        for address, name, size in symbols:
            # Sections are numbered in the order of the parts, of which each has one or two.
            found = self.section_of(address)
            if found:
                number, is_code = found
                rows.append(struct.pack("<IBBHQQ", len(texts), 1 << 4 | (2 if is_code else 1), 0, number, address,
                                        size))
                texts += name.encode("utf-8", "replace") + b"\0"
        if len(rows) > 1:
            count = len(self.sections)
            self.section(".symtab", SYMTAB, len(self.content), 24 * len(rows), 0, 0, count + 1, 1, 24)
            self.content += b"".join(rows)
            self.section(".strtab", STRTAB, len(self.content), len(texts))
            self.content += texts

    def section_of(self, address):
        for number, row in enumerate(self.sections):
            _, _, flags, start, _, size, *_ = struct.unpack("<IIQQQQIIQQ", row)
            if flags and start <= address < start + size:
                return number, flags & 4
        return None

    def spelled(self):
        """The bytes of the file."""
        at = len(self.content)
        # The name of this section is the last one in it, so its size is known beforehand.
        self.section(".shstrtab", STRTAB, at, len(self.names) + len(".shstrtab") + 1)
        self.content += self.names
        self.content += bytes(-len(self.content) % 8)
        header = struct.pack("<4s5B7xHHIQQQIHHHHHH", b"\x7fELF", 2, 1, 1, 0, 0, 2, 0x9026, 1, self.entry, HEADER,
                             len(self.content), 0, HEADER, PROGRAM, len(self.programs), SECTION, len(self.sections),
                             len(self.sections) - 1)
        front = header + b"".join(self.programs)
        return front + bytes(self.content[len(front):]) + b"".join(self.sections)
