"""Linked ECOFF files for alpha, as OSF/1 has them: their sections and symbols."""
import struct

from . import files, loaded, shown
from .linked import EXEC, NOBITS, PROGBITS, Linked, Section, Symbol, finder

MAGIC, COMPRESSED, SYMBOLIC = 0x183, 0x188, 0x1992
# Bits of the file header, and of those that say how libraries come to it.
EXECUTABLE, SHARING, CALLS_SHARED, IS_SHARED = 0x2, 0x3000, 0x3000, 0x2000
# The kinds of programs, by how they are loaded: with pages of their file in place, or not.
PAGED, UNPAGED = 0x10B, (0x107, 0x108)
# Bits of a section: of instructions, of zeroed bytes, and of remarks that are not in memory.
CODE, ZEROED, REMARKS = 0x20 | 0x80000000 | 0x01000000, 0x80 | 0x400, 0x2100000
# Kinds of symbols: those of procedures, static ones too, and with them those of names and labels, known everywhere or
# not.
PROCEDURES = {6, 14}
NAMED = PROCEDURES | {1, 2, 5}
# The classes of symbols whose value is the address of a text, of data, of zeroed bytes or of tables; of a number, it
# may be.
PLACED, NUMBER = {1, 2, 3, 13, 14, 15, 22, 24, 25, 26, 27}, 5
# The bytes of the headers, of a section and of a symbol of a file; and what is read of each record.
HEADER, OPTIONAL, SECTION, BYTES = 24, 80, 64, 16
FILE, LOCAL, EXTERNAL = "<36x3I48x", "<QII", "<QII8x"


class Ecoff(Linked):
    """A linked file: one that is static, or for its code alone any."""

    def __init__(self, path, file, code_alone=False):
        super().__init__(path, file)
        # How many records were read; and by its address where in the file the bytes of each section stand.
        self.counted, self.offsets = 0, {}
        try:
            self.read(code_alone)
        except (struct.error, IndexError, ValueError, OverflowError) as error:
            raise files.Refused(f"{path}: damaged: it ends within a table") from error

    def read(self, code_alone):
        _, count, _, symbols, has_symbols, optional, flags = self.fields("<HHIQIHH", 0)
        if not flags & EXECUTABLE or optional < OPTIONAL:
            self.refuse("not linked: it is an object file")
        if not code_alone and flags & SHARING in (CALLS_SHARED, IS_SHARED):
            self.refuse("linked for a loader of shared libraries: link it with -non_shared")
        self.entry, = self.fields("<Q", HEADER + 32)
        for n in range(count):
            self.read_section(HEADER + optional + n * SECTION)
        self.order()
        self.hold_loaded(HEADER + optional + count * SECTION)
        if has_symbols:
            self.read_symbols(symbols)
        self.order()

    def read_section(self, at):
        name, _, address, length, offset, _, _, _, _, flags = self.fields("<8sQQQQQQHHI", at)
        if length == 0 or flags & REMARKS == REMARKS:
            return
        is_zeroed = flags & ZEROED and not flags & CODE
        content = b"" if is_zeroed else self.content(offset, length)
        self.offsets[address] = offset
        told = shown.name(name.rstrip(b"\0").decode("utf-8", "surrogateescape"))
        self.sections.append(Section(told, NOBITS if is_zeroed else PROGBITS, EXEC if flags & CODE else 0, address,
                                     content, length))

    def hold_loaded(self, headers):
        """Refuses a file of two faces: one whose sections aren't what a system loads, which goes by the sizes and the
        addresses of text and data that stand before the sections. `headers` is where these end."""
        magic, text_size, data_size = self.fields("<H6xQQ", HEADER)
        text, data = self.fields("<QQ", HEADER + 40)
        if magic != PAGED and magic not in UNPAGED:
            self.refuse("neither OMAGIC, NMAGIC nor ZMAGIC, so nothing says what a system loads of it")
        at = self.text_offset(magic, headers, text)
        parts = sorted((address, offset, flags, min(size, max(0, self.file.size - offset)), size)
                       for address, offset, flags, size in (
            (text, at, loaded.EXECUTE, text_size), (data, at + text_size, 0, data_size)) if size)
        if len(parts) == 2 and parts[0][0] + parts[0][4] > parts[1][0]:
            self.refuse("its text and its data share addresses")
        loads = loaded.Loads(self,
                             [loaded.Load(flags, offset, address, held, size)
                              for address, offset, flags, held, size in parts])
        loads.hold([section for section in self.sections if section.kind != NOBITS])
        for section in self.sections:
            for load in loads.loads if section.kind == NOBITS else ():
                start, end = (max(section.address, load.address),
                              min(section.address + section.size, load.address + load.held))
                if start < end and any(loads.content(start, end - start)):
                    self.refuse(f"section {section.name} at {section.address:#x} has no bytes, and others are loaded "
                                f"there")

    def text_offset(self, magic, headers, text):
        """Where the text that is loaded begins in the file: behind the headers, or where its pages are in place with
        them. GNU's linkers leave the headers out there, and begin with the next page of the file."""
        if magic != PAGED:
            return -(-headers // 16) * 16
        behind = -(-headers // loaded.PAGE) * loaded.PAGE
        is_apart = self.offsets.get(text) == behind and not any(self.file.part(headers, behind - headers))
        return behind if is_apart else 0

    def read_symbols(self, at):
        """The symbols of each compiled file, and those that all files know; a name at an address once."""
        header = self.fields("<HH11I12Q", at)
        if header[0] != SYMBOLIC:
            self.refuse("damaged: no table of symbols stands where its header says")
        count_of_files, count_of_externals = header[10], header[12]
        locals_at, texts, external_texts, files_at, externals_at = (header[17], header[20], header[21], header[22],
                                                                    header[24])
        found = set()
        section_at = finder(self.sections)
        for base, first, count in self.records(FILE, files_at, count_of_files):
            self.take(found, section_at, self.records(LOCAL, locals_at + first * BYTES, count), texts + base)
        self.take(found, section_at, self.records(EXTERNAL, externals_at, count_of_externals), external_texts)
        self.symbols = list(found - {None})

    def records(self, layout, at, count):
        """So many records. All together there are no more than the file has bytes for."""
        self.counted += count
        if self.counted * BYTES > self.file.size:
            raise ValueError("more records than the file has bytes for")
        return self.rows(layout, at, count) if count else ()

    def take(self, found, section_at, records, texts):
        """Adds the symbols of records whose names stand from `texts` on."""
        for value, name, bits in records:
            found.add(self.symbol(section_at(value), value, name, bits, texts))

    def symbol(self, section, value, name, bits, texts):
        """The symbol of a record, None where it names no place in memory."""
        kind, where = bits & 63, bits >> 6 & 31
        if kind not in NAMED or where not in PLACED and where != NUMBER:
            return None
        if section is None and where == NUMBER:
            return None
        in_code = section is not None and section.flags & EXEC
        told = "func" if kind in PROCEDURES else "label" if in_code else "object"
        text = self.text(texts + name)
        return Symbol(value, 0, told, text) if text else None
