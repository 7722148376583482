"""One file of text for GNU as: its sections, with what stands in them, and its symbols."""
import os
import re
from collections import namedtuple

from . import files, gas, instructions

CODE, DATA, ZEROED, DROPPED = "code", "data", "zeroed", "dropped"
# What stands in a section. `note` says where it comes from, as `sum.s:12 sum.c:9`.
Label = namedtuple("Label", "name note")
Line = namedtuple("Line", "text note")
Align = namedtuple("Align", "power note")
Values = namedtuple("Values", "size items note")
Bytes = namedtuple("Bytes", "content note")
Zeros = namedtuple("Zeros", "count note")

MEANINGLESS = set(""".addrsig .arch .cfi_sections .eflag .end .ent .aent .fmask .frame .globl .global .hidden .ident
.internal .loc_mark_labels .mask .prologue .protected .size .type .usepv .weak .extern .version .line .local .file
.loc .bend .bgnb""".split())
SETTINGS = {"noreorder", "reorder", "volatile", "novolatile", "noat", "at", "nomacro", "macro", "move", "nomove"}
SIZES = {".byte": 1, ".word": 2, ".short": 2, ".hword": 2, ".2byte": 2, ".uword": 2, ".long": 4, ".int": 4, ".4byte": 4,
         ".ulong": 4, ".quad": 8, ".8byte": 8, ".uquad": 8}
ALIGNED_BY_ITSELF = {".word", ".short", ".hword", ".long", ".int", ".quad"}
# How many names, and how many bytes of a source, are made of a file at most. `asm` takes no longer source, and no more
# words.
MOST_NAMES, MOST_BYTES, LINES_BETWEEN_LOOKS = 524_288, files.MOST_SOURCE, 1_000
STARTERS = (".init", ".fini", ".ctors", ".dtors", ".preinit_array")


class Section:
    def __init__(self, name, kind):
        self.name, self.kind = name, kind
        self.items, self.size, self.power = [], 0, 0
        self.aligns = True


class Unit:
    """What a file says. `synonyms` are names set to be other names, `common` the size and alignment of shared
    symbols."""

    def __init__(self, path, text, faults, is_module=False):
        self.path, self.name, self.faults = path, os.path.basename(path), faults
        self.globals, self.labels, self.synonyms, self.common = set(), {}, {}, {}
        self.sections, self.stack = {}, []
        self.numbered, self.sources, self.place, self.functions, self.locals = {}, {}, "", set(), set()
        # How many bytes of a source are made of it at least.
        self.bytes = 0
        # They are read twice, since all of them at once take many times the memory of the text.
        self.translator = instructions.Translator(gas.statements(text), is_module)
        self.section = self.before = self.known(".text", CODE)
        self.last_label = None
        for statement in gas.statements(text):
            try:
                self.take(statement)
            except instructions.Untold as untold:
                faults.add(path, statement.line, str(untold))
        self.globals -= self.locals

    def note(self, line):
        return f"{self.name}:{line}" + (self.place if self.section.kind == CODE else "")

    def look_at_sizes(self):
        """Refuses a file that is too large while what is known of it still is small."""
        names = sum(map(len, (self.globals, self.labels, self.synonyms, self.common, self.sections, self.sources,
                              self.functions, self.locals)))
        if names > MOST_NAMES:
            raise files.Refused(f"{self.path}: has more than {MOST_NAMES:,} names")
        if self.bytes > MOST_BYTES:
            raise files.Refused(f"{self.path}: makes more than the {MOST_BYTES:,} bytes that a source may have")

    def take(self, statement):
        if statement.line % LINES_BETWEEN_LOOKS == 0:
            self.look_at_sizes()
        for label in statement.labels:
            self.label(label, statement.line)
        name = statement.name
        if not name:
            return
        if not re.match(r"[A-Za-z.]", name):
            raise instructions.Untold(f"`{name}` is no statement")
        if not name.startswith("."):
            self.instruction(statement)
        elif name.startswith(".cfi_") or name in MEANINGLESS:
            self.remark(statement)
        elif not self.change_section(statement):
            self.directive(statement)

    def label(self, name, line):
        if name.isdigit():
            self.numbered[name] = self.numbered.get(name, 0) + 1
            name = f"${name}${self.numbered[name]}"
        if name in self.labels:
            raise instructions.Untold(f"the label {name} is there already, from line {self.labels[name]}")
        self.labels[name] = line
        self.last_label = Label(name, self.note(line))
        self.section.items.append(self.last_label)

    def symbol(self, name):
        """The label that a name in an operand means: `1b` and `1f` are the numbered ones before and behind."""
        if re.fullmatch(r"[0-9]+[fb]", name):
            count = self.numbered.get(name[:-1], 0) + (name[-1] == "f")
            return f"${name[:-1]}${count}"
        return name

    def instruction(self, statement):
        if self.section.kind == DROPPED:
            return
        if self.section.kind != CODE:
            raise instructions.Untold(f"an instruction in the section {self.section.name}")
        operands = [re.sub(r"\b([0-9]+[fb])\b", lambda match: self.symbol(match[1]), text)
                    for text in statement.operands]
        note = self.note(statement.line)
        for text in self.translator.lines(statement._replace(operands=operands)):
            self.section.items.append(Line(text, note))
            self.bytes += len(text.replace(instructions.MARK, "")) + len(note)

    def remark(self, statement):
        """Directives that mean nothing to an image, but for the names and the lines that they tell."""
        name, operands = statement.name, statement.operands
        if name in (".globl", ".global", ".weak"):
            self.globals.update(operands)
        elif name == ".local":
            self.locals.update(operands)
        elif name == ".ent" or name == ".type" and operands[1:] == ["@function"]:
            self.functions.update(operands[:1])
        elif name == ".file":
            match = re.match(r"([0-9]+)\s+(.*)", ",".join(operands))
            strings = re.findall(r'"([^"]*)"', match[2]) if match else []
            if strings:
                self.sources[match[1]] = os.path.basename(strings[-1])
        elif name == ".loc":
            words = " ".join(operands).split()
            self.place = f" {self.sources.get(words[0], '?')}:{words[1]}" if len(words) > 1 else ""

    def known(self, name, kind):
        return self.sections.setdefault(name, Section(name, kind))

    def enter(self, name, kind):
        self.before, self.section = self.section, self.known(name, kind)
        self.section.aligns, self.last_label = True, None

    def change_section(self, statement):
        """Whether the directive says a section."""
        name, operands = statement.name, statement.operands
        if name in (".text", ".data", ".bss", ".sdata", ".rdata"):
            self.enter(name, kind_of(name, None, None))
        elif name in (".section", ".pushsection"):
            if name == ".pushsection":
                self.stack.append((self.section, self.before))
            said = operands[0].strip('"') if operands else ""
            flags = operands[1].strip('"') if len(operands) > 1 else None
            self.enter(said, kind_of(said, flags, operands[2] if len(operands) > 2 else None))
        elif name == ".popsection" and self.stack:
            self.section, self.before = self.stack.pop()
        elif name == ".previous":
            self.section, self.before = self.before, self.section
        else:
            return False
        return True

    def directive(self, statement):
        name, operands = statement.name, statement.operands
        if name in (".comm", ".lcomm"):
            self.share(name, operands)
        elif name == ".set":
            self.set(operands, statement.line)
        elif self.section.kind == DROPPED:
            return
        elif name in (".align", ".p2align", ".balign"):
            self.align(name, operands, self.note(statement.line))
        elif name in SIZES:
            self.values(name, operands, self.note(statement.line))
        elif name in (".ascii", ".asciz", ".string"):
            self.strings(name, operands, self.note(statement.line))
        elif name in (".zero", ".skip", ".space"):
            if len(operands) == 2 and instructions.number(operands[1], 0, 0) == 0:
                operands = operands[:1]
            self.add(Zeros(self.count(operands), self.note(statement.line)))
        elif name == ".gprel32":
            raise instructions.Untold("a table of jumps by $29: compile with -fno-jump-tables")
        else:
            raise instructions.Untold(f"the directive {name} is not known here")

    @staticmethod
    def count(operands, most=1 << 24):
        if len(operands) != 1:
            raise instructions.Untold("one number is wanted")
        return instructions.number(operands[0], 0, most)

    def add(self, item):
        """Adds data, and keeps count of its bytes."""
        section = self.section
        size = {Values: lambda: item.size * len(item.items), Bytes: lambda: len(item.content),
                Zeros: lambda: item.count}
        if section.kind == CODE:
            raise instructions.Untold("data among instructions")
        section.size += size[type(item)]()
        section.items.append(item)
        self.bytes += len(item.note) + (2 * len(item.items) if isinstance(item, Values) else 0)

    def align(self, name, operands, note):
        value = self.count(operands[:1], 8192)
        if name == ".balign":
            if value & value - 1:
                raise instructions.Untold(f".balign {value} is no power of 2")
            value = value.bit_length() - 1 if value else 0
        if value > 13:
            raise instructions.Untold(f"alignment to 2^{value}: at most to 2^13")
        if name == ".align":
            self.section.aligns = value != 0
        self.pad(value, note, behind_label=True)

    def pad(self, power, note, behind_label):
        """Aligns the data in hand; the code need not be aligned. GNU as moves the last label before a value behind the
        padding of this value, where it stands directly before it."""
        section = self.section
        if section.kind == CODE or power == 0:
            return
        section.power = max(section.power, power)
        if section.size % (1 << power) == 0:
            return
        at = len(section.items)
        if not behind_label and at and section.items[at - 1] is self.last_label:
            at -= 1
        section.items.insert(at, Align(power, note))
        section.size = -(-section.size >> power) << power

    def values(self, name, operands, note):
        size = SIZES[name]
        if self.section.aligns and name in ALIGNED_BY_ITSELF and self.section.size % size:
            self.pad(size.bit_length() - 1, note, behind_label=False)
        elif self.section.aligns and name in ALIGNED_BY_ITSELF:
            self.section.power = max(self.section.power, size.bit_length() - 1)
        self.add(Values(size, [self.value(text, size) for text in operands], note))

    def value(self, text, size):
        expression = gas.expression_of(text)
        if expression is None:
            raise instructions.Untold(f"the value `{text}` is no number and no symbol with a number")
        if expression.symbol is None:
            if not -(1 << 8 * size - 1) <= expression.number < 1 << 8 * size:
                raise instructions.Untold(f"{expression.number} doesn't fit into {size} bytes")
            return expression.number
        if size != 8:
            raise instructions.Untold(f"the address of {expression.symbol} in {size} bytes: it has 8")
        return instructions.marked(expression._replace(symbol=self.symbol(expression.symbol)))

    def strings(self, name, operands, note):
        content = b""
        for text in operands:
            part = gas.string_bytes(text)
            if part is None:
                raise instructions.Untold(f"the string {text} has an escape that is not known here, or no end")
            content += part + (b"" if name == ".ascii" else b"\0")
        self.add(Bytes(content, note))

    def share(self, name, operands):
        if len(operands) not in (2, 3):
            raise instructions.Untold(f"{name} with {len(operands)} operands")
        size = self.count(operands[1:2])
        natural = min(16, 1 << max(size - 1, 0).bit_length())
        alignment = self.count(operands[2:], 8192) if len(operands) == 3 else natural
        if name == ".comm":
            self.globals.add(operands[0])
        self.common[operands[0]] = (size, max(alignment, 1).bit_length() - 1)

    def set(self, operands, line):
        if operands and len(operands) == 1 and operands[0] in SETTINGS:
            return
        expression = gas.expression_of(operands[1]) if len(operands) == 2 else None
        if expression == gas.Expression(".", 0):
            self.label(operands[0], line)
            return
        if expression is None or expression.symbol in (None, ".") or expression.number:
            raise instructions.Untold(f".set {','.join(operands)} is not known here")
        self.synonyms[operands[0]] = expression.symbol


def kind_of(name, flags, content):
    """What a section is, by its name and, where they are said, its flags."""
    if flags is not None and "a" not in flags or flags is None and name.startswith((".debug", ".note", ".comment",
                                                                                    ".stab", ".gnu.", ".mdebug")):
        return DROPPED
    if name.startswith(STARTERS):
        raise instructions.Untold(f"the section {name}: nothing here runs what it starts")
    if name.startswith((".tdata", ".tbss")) or flags is not None and "T" in flags:
        raise instructions.Untold(f"the section {name}: there is no thread-local storage here")
    if name.startswith(".text") or flags is not None and "x" in flags:
        return CODE
    if name.startswith((".bss", ".sbss")) or content == "@nobits":
        return ZEROED
    if flags is None and not name.startswith((".data", ".rodata", ".rdata", ".sdata", ".srodata", ".lit", ".eh_frame")):
        raise instructions.Untold(f"the section {name} has no flags, and is not known here")
    return DATA
