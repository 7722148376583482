"""Files of GNU text as one source of the product: names, order of sections, lines."""
import re

from . import places, units
from .instructions import DIVISIONS, MARK

WIDEST, WHOLE = 1_000, 4
MARKED = re.compile(f"{MARK}([^{MARK}]*){MARK}([+-][0-9]+)")
# A label of the source language.
LABEL = re.compile(r"[A-Za-z_][\w.]*", re.ASCII)
# Functions that gcc calls also where it is told that there is no C library.
OF_LIBRARY = {"memcpy", "memmove", "memset", "memcmp"}
# Arithmetic that gcc calls its own library for, as -ftrapv does for numbers of 128 bits.
OF_LIBGCC = re.compile(r"__[a-z]+[sdt]i[234]")
# The base of a module's data is a multiple of this, and so is each address where the upper half of an address changes.
PAGE = 8_192


class Joined:
    """Several units with their names made those of one source. Where it is the source of a module, `prefix` is what its
    local labels begin with: names that are no local labels stay as they are, whether the module defines them or not."""

    def __init__(self, parts, faults, prefix=None):
        self.units, self.faults, self.prefix = parts, faults, prefix
        self.owners, self.names, self.taken, self.mentioned = {}, {}, set(), {}
        for unit in parts:
            for name in unit.globals & (set(unit.labels) | set(unit.synonyms)):
                self.own(name, unit)
        self.shared = self.share()
        for name in [*sorted(self.owners), *sorted(self.shared)]:
            self.name_for(None, name)

    def own(self, name, unit):
        if name in self.owners:
            other = self.owners[name]
            self.faults.add(unit.path, unit.labels.get(name, 1), f"the label {name} is in {other.path} too")
        else:
            self.owners[name] = unit

    def share(self):
        """The symbols of `.comm` that no file defines: the greatest size and alignment."""
        shared = {}
        for unit in self.units:
            for name, (size, power) in unit.common.items():
                if name in unit.globals and name not in self.owners:
                    before = shared.get(name, (0, 0))
                    shared[name] = (max(size, before[0]), max(power, before[1]))
        return shared

    def name_for(self, unit, name):
        """The name in the source of a name of a unit, None where it is one of all."""
        if unit is None and self.prefix is not None:
            return self.kept(name)
        if (unit, name) not in self.names:
            plain = plain_label(name if self.prefix is None else f"{self.prefix}.{name.lstrip('$.')}")
            wanted, count = plain, 1
            while wanted in self.taken:
                count += 1
                wanted = f"{plain}_{count}"
            self.taken.add(wanted)
            self.names[unit, name] = wanted
        return self.names[unit, name]

    def kept(self, name):
        """A name that modules have in common, which must be a label as it is."""
        if not LABEL.fullmatch(name):
            owner = self.owners.get(name, self.units[0])
            self.faults.add(owner.path, owner.labels.get(name, 1),
                            f"{name} is a name for other modules, and no label here")
        return name

    def resolved(self, unit, name, steps=0):
        """The name in the source that a name of a unit means, or None where nothing defines it."""
        if name in unit.synonyms and steps < 64:
            return self.resolved(unit, unit.synonyms[name], steps + 1)
        if name in unit.labels or name in unit.common and name not in unit.globals:
            return self.name_for(None if name in unit.globals else unit, name)
        if name in self.shared:
            return self.name_for(None, name)
        owner = self.owners.get(name)
        if owner is None and self.prefix is not None and LABEL.fullmatch(name):
            return name
        return None if owner is None or owner is unit or steps >= 64 else self.resolved(owner, name, steps + 1)

    def text(self, unit, text, note):
        """A line with its marked symbols as names of the source."""
        def named(match):
            name = self.resolved(unit, match[1])
            if name is None:
                line = int(re.match(r".*?:([0-9]+)", note)[1])
                self.faults.add(unit.path, line,
                                f"nothing defines {match[1]}{self.hidden(match[1]) or remedy(match[1])}")
                return match[1]
            return name if int(match[2]) == 0 else name + match[2]
        return MARKED.sub(named, text)

    def hidden(self, name):
        """Says of a name that a file keeps to itself how others may know it."""
        return next((f": it is a label of {unit.path}, without .globl" for unit in self.units if name in unit.labels),
                    "")

    def lines(self, entry):
        """The lines of the source. That of a module has no entry."""
        if self.prefix is None and entry not in self.owners:
            self.faults.add(self.units[0].path, 1,
                            f"no file defines the entry {entry} with .globl" + self.entries(entry))
            return []
        lines = (["\t.code"] if self.prefix is not None
                 else [f"\t.entry {self.resolved(self.owners[entry], entry)}", "\t.code"])
        for unit, section in self.of_kind(units.CODE):
            lines += self.section_lines(unit, section)
        data = [line for unit, section in self.of_kind(units.DATA) for line in self.section_lines(unit, section)]
        zeroed = [line for unit, section in self.of_kind(units.ZEROED) for line in self.section_lines(unit, section)]
        zeroed += self.shared_lines()
        # A byte is loaded by the quadword that it lies in, so the last one is made whole.
        return lines + (["\t.data", *data, *zeroed, f"\t.align {WHOLE}"] if data or zeroed else [])

    def entries(self, entry):
        """What to do where the entry isn't there."""
        if entry == "_start":
            return ": give companions/start.s as a further file, or say --entry NAME"
        names = sorted(self.owners)
        return f"; defined so {'are' if len(names) != 1 else 'is'} {', '.join(names[:10]) or 'none'}" + (
            f" and {len(names) - 10} more" if len(names) > 10 else "")

    def look_at_halves(self, lines):
        """Two words that make an address by its halves may name one symbol with two numbers added: then the upper
        halves must be the same in the source, as they were where the compiler laid out the data."""
        lows = {unit: unit.translator.lows - (unit.translator.highs if self.prefix is None else set())
                for unit in self.units}
        if not any(lows.values()):
            return
        laid = places.Source("the source", "\n".join(lines))
        at = {name: address for names in (laid.names, laid.functions) for address, name, _ in names.rows}
        half = upper if self.prefix is None else page
        for unit in self.units:
            for low in sorted(lows[unit]):
                address = at.get(self.resolved(unit, low.symbol))
                for high in unit.translator.highs:
                    if high.symbol == low.symbol and (address is None or
                                                      half(address + high.number) != half(address + low.number)):
                        self.faults.add(unit.path, 1,
                                        f"{low.symbol}{low.number:+d} is reached by the upper half of the address "
                                        f"of {high.symbol}{high.number:+d}, which " +
                                        ("is another one here" if self.prefix is None
                                         else "may be another one after a link"))

    def of_kind(self, kind):
        return [(unit, section) for unit in self.units for section in unit.sections.values()
                if section.kind == kind and section.items]

    def section_lines(self, unit, section):
        lines = [f"# {unit.name}: section {section.name}"]
        if section.kind != units.CODE and section.power:
            lines.append(f"\t.align {section.power}")
        for item in section.items:
            mark = " function" if isinstance(item, units.Label) and item.name in unit.functions else ""
            for text in self.item_texts(unit, section, item):
                lines.append(f"{text}\t# {item.note}{mark}")
        return lines

    def is_named(self, unit, label):
        """Whether a label says something: compilers write many of their own, for debuggers, that no statement names."""
        if unit not in self.mentioned:
            texts = [text for section in unit.sections.values() for item in section.items
                     for text in (item.items if isinstance(item, units.Values) else [getattr(item, "text", "")])]
            self.mentioned[unit] = {match[1] for text in texts if isinstance(text, str)
                                    for match in MARKED.finditer(text)}
            self.mentioned[unit].update(unit.synonyms.values())
        return not label.startswith(("$", ".L")) or label in self.mentioned[unit]

    def item_texts(self, unit, section, item):
        if isinstance(item, units.Label):
            if not self.is_named(unit, item.name):
                return []
            name = self.name_for(None if item.name in unit.globals else unit, item.name)
            return [f"{name}:", *self.further_names(unit, item.name)]
        if isinstance(item, units.Line):
            return ["\t" + self.text(unit, item.text, item.note)]
        if isinstance(item, units.Align):
            return [f"\t.align {item.power}"]
        if section.kind == units.ZEROED:
            return [f"\t.zero {self.zeros(unit, item)}"]
        if isinstance(item, units.Values):
            return self.value_texts(unit, item)
        content = item.content if isinstance(item, units.Bytes) else bytes(item.count)
        return byte_texts(content)

    def further_names(self, unit, label):
        """The labels of a module for names that are set to be a label's, by which other modules may know it."""
        if self.prefix is None:
            return []
        return [f"{self.kept(name)}:" for name, meant in unit.synonyms.items()
                if meant == label and name in unit.globals]

    def zeros(self, unit, item):
        """The number of bytes of an item, which must all be 0."""
        if isinstance(item, units.Zeros):
            return item.count
        if isinstance(item, units.Bytes) and not any(item.content):
            return len(item.content)
        if isinstance(item, units.Values) and all(value == 0 for value in item.items):
            return item.size * len(item.items)
        line = int(re.match(r".*?:([0-9]+)", item.note)[1])
        self.faults.add(unit.path, line, "a value in a section of zeros")
        return 0

    def value_texts(self, unit, item):
        """A list of values, cut where a line of the source would be too long."""
        directive = {1: ".byte", 2: ".word", 4: ".long", 8: ".quad"}[item.size]
        texts, row = [], []
        for value in item.items:
            text = str(value) if isinstance(value, int) else self.text(unit, value, item.note)
            if row and len(",".join([*row, text])) > WIDEST // 2:
                texts.append(f"\t{directive} {','.join(row)}")
                row = []
            row.append(text)
        return [*texts, f"\t{directive} {','.join(row)}"] if row else texts

    def shared_lines(self):
        lines = []
        shared = [(self.name_for(None, name), *self.shared[name], self.units[0].name) for name in sorted(self.shared)]
        for unit in self.units:
            shared += [(self.name_for(unit, name), *numbers, unit.name) for name, numbers in sorted(unit.common.items())
                       if name not in unit.globals]
        for name, size, power, file in shared:
            lines += [f"\t.align {power}", f"{name}:\t# {file}: shared or local zeros", f"\t.zero {size}"]
        return lines


def plain_label(name):
    """A label that reads like a name."""
    plain = re.sub(r"[^\w.]", "_", name.lstrip("$."), flags=re.ASCII)
    return plain if re.match(r"[A-Za-z_]", plain) else f"L{plain}"


def remedy(name):
    """What to do where nothing defines a name that compilers call by themselves."""
    if name.startswith("__") and name[2:] in DIVISIONS:
        return ": give companions/divide.s as a further file"
    if name in OF_LIBRARY:
        return (": gcc calls it by itself, so a further file must have it, compiled with "
                "-fno-tree-loop-distribute-patterns")
    if OF_LIBGCC.fullmatch(name):
        return ": gcc has it in its own library, libgcc, so a further file must have it"
    return ""


def upper(address):
    """The %hi of an address."""
    return (address + 32_768) // 65_536


def page(address):
    return address // PAGE


def byte_texts(content):
    """Bytes as texts where they are mostly printable, and as values else."""
    texts = []
    for start in range(0, len(content), 64):
        part = content[start:start + 64]
        if any(32 <= byte < 127 for byte in part):
            texts.append(f'\t.ascii "{"".join(map(escaped, part))}"')
        else:
            texts.append(f"\t.byte {','.join(map(str, part))}")
    return texts


def escaped(byte):
    special = {10: "\\n", 9: "\\t", 92: "\\\\", 34: '\\"'}
    return special.get(byte) or (chr(byte) if 32 <= byte < 127 else f"\\x{byte:02x}")
