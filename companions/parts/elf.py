"""ELF files for alpha: their sections and symbols, of linked files, and for their code alone of objects."""
import struct

from . import files, loaded
# Some are named by who reads a file.
from .linked import EXEC, NOBITS, PROGBITS, TLS, Linked, Section, Symbol  # noqa: F401

MAGIC, ALPHA = b"\x7fELF", 0x9026
SYMTAB, RELOCATIONS, DYNSYM = 2, 4, 11
OBJECT, EXECUTABLE, SHARED = 1, 2, 3
ALLOC = 2
HEADER = "<IIQQQQIIQQ"
KINDS = {0: "label", 1: "object", 2: "func"}
# The kinds of relocations that change no word, or of a branch or of `ldah` and `lda` alone, whose distance no condition
# asks for.
HARMLESS = {0, 5, 6, 7, 8, 28}


class Elf(Linked):
    """A linked file, one that is static; or for its code alone any, objects too."""

    def __init__(self, path, file=None, code_alone=False):
        super().__init__(path, file or files.Parts(path))
        self.code_alone, self.loads = code_alone, None
        try:
            self.read()
        except (struct.error, IndexError, ValueError, OverflowError) as error:
            raise files.Refused(f"{path}: damaged: it ends within a table, or names a section that isn't "
                                f"there") from error

    def read(self):
        if self.file.size < 64 or self.file.part(0, 4) != MAGIC:
            self.refuse("no ELF file")
        if self.file.part(4, 2) != b"\x02\x01":
            self.refuse("not of 64 bits with the lowest byte first")
        kind, machine, _, self.entry, programs, table = self.fields("<HHIQQQ", 16)
        if machine != ALPHA:
            self.refuse(f"for machine {machine:#x}, not for alpha ({ALPHA:#x})")
        if kind != EXECUTABLE and not (kind in (OBJECT, SHARED) and self.code_alone):
            self.refuse({OBJECT: "not linked: it is an object file, of which --functions judges each function",
                         SHARED: "to be loaded at any address: link it with -static and without -pie"}.get(
                             kind, f"of type {kind}, not an executable file"))
        if not self.code_alone:
            self.look_for_loader(programs, *self.fields("<HH", 54))
        self.read_sections(kind == OBJECT, table, *self.fields("<HHH", 58))
        if kind != OBJECT:
            self.loads = loaded.of_headers(self, programs, *self.fields("<HH", 54))
            self.loads.hold(self.sections)

    def look_for_loader(self, at, size, count):
        for n in range(count):
            if self.fields("<I", at + n * size)[0] in (2, 3):
                self.refuse("linked for a loader of shared libraries: link it with -static")

    def read_sections(self, is_object, at, size, count, names):
        if at == 0 or count == 0:
            self.refuse("without a table of sections, by which code and data are told apart")
        if size != struct.calcsize(HEADER):
            raise ValueError("headers of another size")
        headers = list(self.rows(HEADER, at, count))
        text = headers[names][4]
        bases = laid_out(headers) if is_object else {}
        loose = self.loose(headers) if is_object else {}
        for n, (name, kind, flags, address, offset, length, *_) in enumerate(headers):
            if n in bases if is_object else flags & ALLOC and length and not (kind == NOBITS and flags & TLS):
                content = b"" if kind == NOBITS else self.content(offset, length)
                self.sections.append(Section(self.text(text + name), kind, flags, bases.get(n, address), content,
                                             length,
                                             frozenset(loose.get(n, ()))))
        self.read_symbols(headers, bases if is_object else None)
        self.order()

    def loose(self, headers):
        """By its number, the offsets of a section's words of which a relocation makes more than a branch, or the half
        of an address."""
        found, total = {}, 0
        for _, kind, _, _, offset, length, _, of, *_ in headers:
            if kind == RELOCATIONS:
                total += length
                if total > self.file.size:
                    raise ValueError("more relocations than the file has bytes for")
                found.setdefault(of, set()).update(place & ~3
                                                   for place, info, _ in self.rows("<QQq", offset, length // 24)
                                                   if info & 0xFFFFFFFF not in HARMLESS)
        return found

    def read_symbols(self, headers, bases):
        """The symbols of the first table, but for those of sections that aren't in memory, as a debugger's are."""
        kinds = [header[1] for header in headers]
        wanted = SYMTAB if SYMTAB in kinds else DYNSYM
        if wanted not in kinds:
            return
        _, _, _, _, offset, length, link, *_ = headers[kinds.index(wanted)]
        strings = headers[link][4]
        is_loaded = [header[2] & ALLOC and (bases is None or n in bases) for n, header in enumerate(headers)]
        for name, info, _, index, address, size in self.rows("<IBBHQQ", offset, length // 24):
            if name and info & 15 in KINDS and 0 < index < 0xFF00 and is_loaded[index]:
                base = 0 if bases is None else bases[index]
                self.symbols.append(Symbol(base + address, size, KINDS[info & 15], self.text(strings + name)))

    def loaded(self, address, size):
        return self.loads.content(address, size)

    def beside(self):
        return [] if self.loads is None else list(self.loads.beside(self.sections))


def laid_out(headers):
    """Addresses for an object's sections of instructions, one behind another, by their numbers: of the first one it is
    0."""
    bases, end = {}, 0
    for n, (_, kind, flags, _, _, length, *_) in enumerate(headers):
        if flags & ALLOC and flags & EXEC and length and kind == PROGBITS:
            bases[n] = end
            end += -(-length // 16) * 16
    return bases
