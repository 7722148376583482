"""Where an address comes from: the line of a source or of those of modules, the line of a listing, the symbol of a
map."""
import bisect
import os
import re

from . import files, fitting, gas, image, instructions

CODE_BASE, DATA_BASE, PAGE = 0x10000, 0x10000000, 8_192
# The linker's name for the end of a program's memory.
END = "_end"
FIELDS = (".codebase", ".database", ".segment")
# The directives beside those of data, of which each is laid out below.
OTHERS = {".entry", ".stack", ".level", *FIELDS[:2]}
SIZES = {".byte": 1, ".word": 2, ".long": 4, ".quad": 8}
MAP_LINE = re.compile(r"([0-9a-f]{16}) ([0-9a-f]{8,16}) (func|object|label) (\S.*)")
FUNCTION = re.compile(r"#\s*\S+:[0-9]+( \S+:[0-9]+)? function\s*\Z")
# A byte of a string of the source language: `\xHH` has just two digits.
STRING_BYTE = re.compile(r"\\x[0-9a-fA-F]{2}|\\.|[^\\]")
# A line of the program that tells the address of a /V word.
OF_TRIGGER = re.compile(r"(?:overflow|stop at|broken trigger|unfixable trigger) ([0-9a-f]{16})\b")
ORIGIN = re.compile(r"#\s*(\S+:[0-9]+.*?)\s*\Z")


class Names:
    """Labels and symbols by address, and those of a map that are functions, with their addresses."""

    def __init__(self):
        self.rows, self.functions = [], {}

    def add(self, address, name, size=0):
        self.rows.append((address, name, size))

    def near(self, address):
        """The name at an address or before it, with the distance, or None. A name with a size ends there."""
        rows = self.sorted()
        at = bisect.bisect_right(rows, (address, "\U0010ffff", 0))
        for start, name, size in reversed(rows[max(0, at - 16):at]):
            if name == END and address > start:
                return None
            if size == 0 or address < start + size:
                return name if address == start else f"{name}+{address - start:#x}"
        return None

    def sorted(self):
        if self.rows != sorted(self.rows):
            self.rows.sort()
        return self.rows


class Source:
    """The lines of a source by their addresses, laid out as docs/source.md says. It takes a source that `asm` takes, or
    one that `module` takes with the bases that a link gives it."""

    def __init__(self, path, text=None, code=CODE_BASE, data=DATA_BASE):
        self.path, self.lines, self.names, self.functions = path, {}, Names(), Names()
        self.text = (files.read_text(path) if text is None else text).split("\n")
        whole = "\n".join(line.removesuffix("\r") for line in self.text)
        at, self.has_entry = {"code": code, "data": data}, False
        # They are read twice, since all of them at once take many times the memory of the text.
        for statement in gas.statements(whole):
            self.has_entry |= statement.name == ".entry"
            if statement.name in FIELDS[:2]:
                at["code" if statement.name == ".codebase" else "data"] = self.number(statement)
        self.begin, section = at["data"], "code"
        self.code_base, self.ends = at["code"], {}
        for statement in gas.statements(whole):
            section = self.lay(statement, at, section)
            self.ends[self.code_base], self.ends[self.begin] = at["code"], at["data"]

    def refuse(self, statement, why):
        raise files.Refused(f"{self.path}:{statement.line}: {why}: is it a source that `asm` takes, as gas2source "
                            f"makes one?")

    def number(self, statement):
        try:
            text, = statement.operands
            return int(text, 16 if text[:2] == "0x" else 10)
        except ValueError:
            self.refuse(statement, f"{statement.name} without its number")

    def lay(self, statement, at, section):
        """Gives a statement its address; the section behind it."""
        name = statement.name
        for label in statement.labels:
            is_function = FUNCTION.search(self.text[statement.line - 1])
            (self.functions if is_function else self.names).add(at[section], label)
        if name in (".code", ".data"):
            return name[1:]
        if name == ".segment":
            at["data"] = self.begin = self.number(statement)
            return "data"
        if name and not name.startswith("."):
            if name not in instructions.NAMES:
                self.refuse(statement, f"`{name}` isn't of the source language")
            if section != "code":
                self.refuse(statement, "an instruction in data")
            self.lines[at["code"]] = statement.line
            at["code"] += 4
        elif name in SIZES:
            at["data"] += SIZES[name] * len(statement.operands)
        elif name == ".ascii":
            at["data"] += len(STRING_BYTE.findall(",".join(statement.operands)[1:-1]))
        elif name == ".zero":
            at["data"] += self.number(statement)
        elif name == ".align":
            step = 1 << self.number(statement)
            at["data"] += -(at["data"] - self.begin) % step
        elif name and name not in OTHERS:
            self.refuse(statement, f"`{name}` isn't of the source language")
        return section

    def has(self, address, with_end=True):
        """Whether the code or a segment of the data has the address. That of its end counts, where a label may
        stand."""
        return any(start <= address < end or with_end and address == end for start, end in self.ends.items())

    def is_trigger(self, address):
        """Whether the line of an address is that of a /V word."""
        line = self.lines.get(address)
        return line is not None and instructions.TRIGGER.match(self.code_of(line).split()[0]) is not None

    def code_of(self, line):
        """What a line says without its label and its comment."""
        return next(piece for _, _, _, piece in gas.pieces(self.text[line - 1])).split(":")[-1].strip()

    def tell(self, address, with_text):
        """The line of an address, what its comment says of where it was made from, and its text where it is wanted."""
        line = self.lines.get(address)
        if line is None:
            return None
        origin = ORIGIN.search(self.text[line - 1])
        return f"{os.path.basename(self.path)}:{line}" + (f" ({origin[1]})" if origin else "") + (
            f": {self.code_of(line)}" if with_text else "")


def laid_out(paths):
    """The sources of the paths: one, or those of modules in the order of their link, each behind the one before it."""
    sources, code, data = [], CODE_BASE, DATA_BASE
    for path in paths:
        source = Source(path, None, code, data)
        sources.append(source)
        code = source.ends.get(source.code_base, code)
        data = -(-source.ends.get(source.begin, data) // PAGE) * PAGE
    return sources


class Places:
    """What is told of an image: a source or those of its modules, a map, its listing, each where it is given."""

    def __init__(self, sources=(), symbols=None, listing=None, base=0):
        self.sources = laid_out(sources or ())
        self.listing, self.base = listing, base
        self.names = read_map(symbols) if symbols is not None else None

    def hold(self, asked, path):
        """Refuses sources of which the image of the path wasn't made, and a map with functions where it has no code."""
        if self.sources:
            fitting.hold(asked, path, self.sources)
        if self.names is not None:
            given = image.read_image(path)
            for name, address in self.names.functions.items():
                if given.place(address) is None:
                    raise files.Refused(f"{path} has no code at {address:016x}, where the map has {name}: is it the "
                                        f"map of "
                                        "that image?")

    def strange(self, text):
        """Why the sources can't be those of the image of which a line of the program tells, or None."""
        match = OF_TRIGGER.match(text)
        if match is None or not self.sources or any(source.is_trigger(int(match[1], 16)) for source in self.sources):
            return None
        return (f"by --source no /V word is at {match[1]}: are these the sources of the image, in the order of the "
                "link? --image IMAGE tells where they differ")

    def source_of(self, address):
        """The source that has an address: one where it isn't the end before another's, or None."""
        found = [source for source in self.sources if source.has(address, False)]
        found += [source for source in self.sources if source.has(address)]
        return found[0] if found else None

    def line(self, address, with_text):
        """The line of the source of an address, or None."""
        source = self.source_of(address)
        return None if source is None else source.tell(address, with_text)

    def tell(self, address, with_text=False):
        """All that is known of an address: the symbol, the line of the source, the line of the listing."""
        told = [self.near(address)]
        told.append(self.line(address, with_text))
        if self.listing is not None:
            told.append(self.listed(address))
        return ", ".join(text for text in told if text)

    def near(self, address):
        """The symbol of the map, or the function or label of the source, at an address or before it."""
        if self.names is not None:
            return self.names.near(address)
        source = self.source_of(address)
        if source is None:
            return None
        return address in source.lines and source.functions.near(address) or source.names.near(address)

    def listed(self, address):
        """The line of the listing, by its number, with its text."""
        place, rest = divmod(address - self.base, 4)
        start = self.listing.index(".code") + 1
        if rest or place < 0 or start + place >= len(self.listing):
            return None
        text = self.listing[start + place]
        return (None if text.startswith((".data", ".segment", ".byte", ".zero"))
                else f"line {start + place + 1} of the listing: {text}")


def read_map(path):
    names = Names()
    for number, line in enumerate(files.read_text(path).splitlines(), 1):
        match = MAP_LINE.fullmatch(line)
        if match is None:
            raise files.Refused(f"{path}:{number}: no line `ADDRESS SIZE KIND NAME` of a map")
        names.add(int(match[1], 16), match[4], int(match[2], 16))
        if match[3] == "func":
            names.functions[match[4]] = int(match[1], 16)
    return names


def with_places(parser):
    """The arguments for where an image comes from."""
    parser.add_argument("--source", metavar="FILE", action="append",
                        help="the source that the image was assembled of; once for each module where it was linked, in "
                             "the order "
                        "of the link")
    parser.add_argument("--map", metavar="FILE", help="the map of symbols that elf2image kept")
    return parser
