"""The code of a text, and that of an image, as `flow` follows it."""
import itertools
import re
from bisect import bisect_right

from . import addresses, files, flow, gas, jumps, places, steps, table

SECTIONS = {".text": ".text", ".code": ".text", ".data": ".data", ".bss": ".bss", ".rdata": ".rodata",
            ".rodata": ".rodata",
            ".sdata": ".sdata", ".sbss": ".sbss", ".segment": ".data"}
# Directives that put nothing into a section.
SILENT = (".cfi_", ".loc", ".file", ".globl", ".global", ".weak", ".local", ".hidden", ".type", ".size", ".ent", ".end",
          ".frame", ".mask",
          ".fmask", ".prologue", ".eflag", ".set", ".align", ".p2align", ".balign", ".ident", ".arch", ".comm",
          ".lcomm", ".section",
          ".usepv", ".gprel", ".codebase", ".database", ".entry", ".stack", ".level", *SECTIONS)
ASSIGNMENTS = (".set", ".equ", ".equiv")
# Sections that a program never has in memory.
UNLOADED = (".debug", ".comment", ".note", ".stab")
MOST_ROUNDS = 16
# The register, and the half of an address, that stand around an expression.
BASE = re.compile(r"\(\$\w+\)\s*\Z|%(?:hi|lo)\(|\)\s*(?=\(|\Z)")
NAMES = re.compile(r"[A-Za-z_.$][\w.$]*")


class Text:
    """The instructions of a text: `code`, `statements` with the index of the statement of each place, and `labels` with
    the places of labels. A map's symbols are (place, size in words, name, is it a function)."""

    def __init__(self, statements, symbols=()):
        self.given, self.symbols = statements, symbols
        self.statements, self.labels, self.numbered = [], {}, {}
        self.names, self.globals, self.taken = [], set(), set()
        self.after, self.open, self.sections, self.by_line = [], {}, [], {}
        # What is assigned to names, and what stands in tables of distances from the global pointer.
        self.assigned, self.distances, self.tables_of_distances = {}, set(), addresses.tables_of(statements)
        self.is_whole = any(statement.name == ".entry" for statement in statements)
        self.is_listing = self.is_whole and any(statement.name == ".codebase" for statement in statements)
        self.base, self.segments = addresses.data_of(statements)
        self.read()
        found = [steps.of_statement(statements[index]) for index in self.statements]
        targets = [self.target(place, step) for place, step in enumerate(found)]
        self.look_at_operands(found)
        self.code = self.whole(found, targets) if self.is_whole else self.part(found, targets)

    def read(self):
        """Lays the instructions into their sections."""
        section, before, waiting = ".text", ".text", {}
        for index, statement in enumerate(self.given):
            for label in statement.labels:
                waiting.setdefault(section, []).append(label)
            name = statement.name
            if name in ASSIGNMENTS and statement.operands[1:] == ["."]:
                waiting.setdefault(section, []).append(statement.operands[0])
            if name in SECTIONS or name in (".section", ".previous", ".pushsection", ".popsection", ".subsection"):
                section, before = self.switched(statement, section, before), section
            elif name and not name.startswith("."):
                place = len(self.statements)
                self.statements.append(index)
                self.sections.append(section)
                self.by_line.setdefault(statement.line, []).append(place)
                self.after.append(None)
                if self.open.get(section) is not None:
                    self.after[self.open[section]] = place
                self.open[section] = place
                for label in waiting.pop(section, []):
                    self.note(label, place)
            elif name and not name.startswith(SILENT):
                # Data: the instruction before it goes on into it, and labels here are those of data.
                self.open[section] = None
                waiting.pop(section, None)
            if not section.startswith(UNLOADED):
                self.note_directive(statement)
        self.name_again()

    def name_again(self):
        """Gives the labels of instructions their other names."""
        for _ in range(MOST_ROUNDS):
            more = {name: self.labels[label] for name, label in self.assigned.items()
                    if label in self.labels and name not in self.labels}
            if not more:
                return
            self.labels.update(more)

    def statement(self, place):
        return self.given[self.statements[place]]

    def spot(self, place):
        """The line of a place, and behind a dot which instruction of it, where it isn't the first."""
        line = self.statement(place).line
        number = self.by_line[line].index(place)
        return f"{line}.{number}" if number else str(line)

    def place_on(self, spot):
        """The place of a spot, None where there is none."""
        line, _, number = spot.partition(".")
        found = self.by_line.get(int(line), [])
        return found[int(number or 0)] if int(number or 0) < len(found) else None

    def spelled(self, place):
        """The instruction of a place as it is written."""
        statement = self.statement(place)
        return statement.name, *statement.operands, statement.relocation

    def numbers(self):
        """The places of which an address stands in the code or the data as a number."""
        linked = addresses.Linked(self.code.steps, self.after, self.base, self.segments, [])
        return linked.taken(linked.pointers(self.code.roots)) | self.code.in_tables()

    def switched(self, statement, section, before):
        if statement.name in SECTIONS:
            return SECTIONS[statement.name]
        if statement.name in (".section", ".pushsection") and statement.operands:
            return statement.operands[0].strip('"')
        return before

    def note(self, label, place):
        if label.isdigit():
            self.numbered.setdefault(label, []).append(place)
        else:
            self.labels[label] = place

    def note_directive(self, statement):
        name, operands = statement.name, statement.operands
        if name in (".globl", ".global", ".weak"):
            self.globals.update(operands)
        elif name == ".ent" or name == ".type" and operands[-1].strip("@%\"") == "function":
            self.names += operands[:1]
        elif name in ASSIGNMENTS and len(operands) == 2:
            self.assigned.setdefault(*operands)
        elif name == ".gprel32":
            self.distances.update(found for text in operands for found in NAMES.findall(text))
        elif name.startswith(".") and not name.startswith(SILENT) or name == ".entry":
            self.taken.update(found for text in operands for found in NAMES.findall(text))
        if name == ".entry":
            self.names += operands

    def target(self, place, step):
        """The place to which an instruction branches, None where it isn't here."""
        if step.label is None:
            return None
        label = step.label
        if label[:-1].isdigit() and label[-1] in "fb":
            places = self.numbered.get(label[:-1], [])
            at = bisect_right(places, place if label[-1] == "b" else place)
            return (places[at - 1] if at else None) if label[-1] == "b" else places[at] if at < len(places) else None
        if match := re.fullmatch(r"\.\s*([+-])\s*([0-9]+|0x[0-9a-fA-F]+)", label):
            words, rest = divmod(int(match[2], 0), 4)
            other = place + (words if match[1] == "+" else -words)
            return other if rest == 0 and 0 <= other < len(self.statements) else None
        if label in self.labels:
            return self.labels[label]
        expression = gas.expression_of(label)
        return None if expression is None else self.behind_label(expression)

    def behind_label(self, expression):
        """The place so far from a label as an expression says, None where that is none of its section."""
        start = self.labels.get(expression.symbol)
        words, rest = divmod(expression.number, 4)
        if start is None or rest or not 0 <= start + words < len(self.statements):
            return None
        first, last = sorted((start, start + words))
        return start + words if all(self.after[place] == place + 1 for place in range(first, last)) else None

    def look_at_operands(self, found):
        """The labels whose address an instruction may take."""
        for place, step in enumerate(found):
            statement = self.given[self.statements[place]]
            texts = statement.operands[:2] if steps.is_call(step) else statement.operands
            if step.label is None or step.symbol is not None and not steps.is_call(step):
                self.taken.update(name for text in texts for name in NAMES.findall(text) if name in self.labels)

    def taken_places(self):
        """The places of labels whose address is taken, and of what is reckoned from labels."""
        found = {self.labels[name] for name in self.taken if name in self.labels}
        for statement in self.given:
            for text in statement.operands if not statement.name.startswith(SILENT) else ():
                expression = gas.expression_of(BASE.sub("", text))
                if expression is not None and expression.symbol in self.labels and expression.number:
                    found.add(self.behind_label(expression))
        return found - {None}

    def functions(self):
        """The functions of a text by its names; what gcc puts elsewhere of one, as `main.cold`, belongs to it."""
        starts = sorted((self.labels[name], name) for name in set(self.names) if name in self.labels)
        ends = [start for start, _ in starts[1:]] + [len(self.statements)]
        return [addresses.Function(start, end, name) for (start, name), end in zip(starts, ends)]

    def part(self, found, targets):
        """The code of a text for GNU as: whatever has a global name may be called from elsewhere."""
        here, functions = self.labels, self.functions()
        starts = {function.start for function in functions if ".cold" not in function.name}
        named, used = self.tables_of_distances, {}
        taken = self.taken_places() | self.distant() & starts | self.distant() - self.distant(named)
        called = {targets[place] for place, step in enumerate(found) if steps.is_call(step)}
        outside = {here[name] for name in self.globals if name in here} | taken & starts | starts - called
        if not functions:
            every = (set(here.values()) | {place for places in self.numbered.values() for place in places}
                     | ({0} if found else set()))
            outside |= every - called
        linked = addresses.Linked(found, self.after, 0, [], functions)

        def reader(code):
            keeps = keeps_pointer(code)

            def read(place, where, count):
                used[place] = where[1]
                listed = [here.get(name) for name in named.get(where[1], [])] if where[0] == "symbol" and keeps else []
                places = list(itertools.takewhile(lambda other: other is not None and other not in starts
                                                  and linked.are_of_one(place, other), listed))
                return code.leads(places[:count], places[count:]) if len(places) >= count else None
            return read

        def followed(taken, tables):
            return with_tables(lambda tables: flow.Code(found, targets, starts | taken | outside, starts, outside,
                                                        tables, self.after, taken), reader, tables, found)
        # What stands in a table that is named, and by which no jump is shown to go, may be gone to by anybody.
        tables = {}
        for _ in range(MOST_ROUNDS):
            code = followed(taken, tables)
            tables, shown = code.tables, {used[place] for place in code.tables}
            by_words = {name for place in code.reached for name in NAMES.findall(found[place].symbol or "")}
            more = self.distant((by_words | self.taken) & set(named) - shown) - taken
            if not more:
                return code
            taken = taken | more
        return followed(taken | self.distant(named), {})

    def distant(self, labels=None):
        """The places in the tables of distances of some labels, or in all."""
        names = self.distances if labels is None else {
            name for label in labels for name in self.tables_of_distances.get(label, [])}
        return {self.labels[name] for name in names if name in self.labels}

    def whole(self, found, targets):
        """The code of a source for `asm`, a listing among them."""
        here, functions = self.labels, [addresses.Function(place, place + size, name)
                                        for place, size, name, is_function in self.symbols
                                        if is_function and size]
        entries = {here[name] for name in self.names if name in here}
        entries |= {(int(name, 0) - self.base) // 4 for name in self.names if name.isalnum() and name[0].isdigit()}
        taken = self.taken_places() | self.distant()
        linked = addresses.Linked(found, self.after, self.base, self.segments, functions)
        return whole_program(linked, targets, entries, taken, self.symbols)


def keeps_pointer(code):
    """Whether each reached word of a text that sets the global pointer makes it by the linker's words, or takes it from
    the stack."""
    for place in code.reached:
        step = code.steps[place]
        if step.word is None or not step.insn.sets & steps.bits(steps.GP) or (step.symbol or "").endswith("!gpdisp"):
            continue
        base = code.returns().states.get(place, {}).get(steps.base_of(step), ("",))
        if step.insn.name != "ldq" or base[0] != "stack":
            return False
    return True


def program(linked, targets, entries, taken, symbols):
    """The code of a whole program."""
    found, count = linked.steps, len(linked.steps)
    starts = {place for place in entries if 0 <= place < count}
    starts |= {place for place, _, name, is_function in symbols
               if is_function and ".cold" not in name and place < count}
    roots = starts | taken | {place for place, *_ in symbols if place < count}
    begins = roots | {place + 1 for place, step in enumerate(found) if steps.is_call(step)}
    pointers = linked.pointers(begins | {target for target in targets if target is not None})

    def followed(taken, tables):
        return with_tables(lambda tables: flow.Code(found, targets, roots | taken, starts, (), tables, linked.after,
                                                    taken), lambda code: linked.reader(pointers, code), tables, found)
    # Where it is seen where each jump and call leads, no address that the program has leads anywhere else.
    code = followed(taken, {})
    for _ in range(MOST_ROUNDS):
        more = linked.taken(pointers, code) | taken if code.returns().goes_by_address() else taken
        if more <= taken:
            return code
        code, taken = followed(more, code.tables), more
    return followed(set(range(count)), {})


def with_tables(made, reader, tables, words):
    """The code with the tables that its jumps go by, beginning with some that are to be shown. A jump may be reached
    only by another one's table, or go by what is kept over a call of its own function, so at first those that aren't
    shown count as if they went nowhere. At the end they go anywhere, and all others are shown where each goes by its
    table: then the first jump that went elsewhere would have been shown not to. What isn't shown any more, as others
    are followed, counts as not shown for good."""
    waiting, lost = {place: flow.Leads([], []) for place, step in enumerate(words) if jumps.is_jump(step)}, set()
    code = made(waiting | tables)
    for _ in range(MOST_ROUNDS):
        shown = jumps.tables(code, reader(code))
        lost.update(place for place, leads in code.tables.items() if leads.goes and place not in shown)
        found = {place: leads for place, leads in shown.items() if place not in lost}
        if found == code.tables:
            return code
        waiting = waiting if waiting | found != code.tables else {}
        code, like = made(waiting | found), code
        code.like = like
    return made({})


def whole_program(*words):
    """The code of a whole program, which has nothing behind its last word."""
    code = program(*words)
    code.is_whole = True
    return code


def of_image(given, symbols=()):
    """The code of an image, with the symbols of its map by places."""
    count = len(given.words)
    known = {word: steps.of_word(word) for word in set(given.words)}
    found = [known[word] for word in given.words]
    targets = [target_of(place, step, count) for place, step in enumerate(found)]
    functions = [addresses.Function(place, place + size, name) for place, size, name, is_function in symbols
                 if is_function and size]
    after = [place + 1 for place in range(count - 1)] + [None]
    linked = addresses.Linked(found, after, given.code_base, [(one.base, one.data) for one in given.segments],
                              functions)
    return whole_program(linked, targets, {given.place(given.entry)} - {None}, set(), symbols)


def target_of(place, step, count):
    """The place to which a word branches by its displacement, None where that is no code."""
    if step.insn.name not in table.BRANCH.values():
        return None
    other = place + 1 + ((step.word & 0x1FFFFF ^ 0x100000) - 0x100000)
    return other if 0 <= other < count else None


def symbols_of(path, base):
    """The symbols of a map that may be code: (place, size in words, name, whether it is a function)."""
    found = []
    for line in files.read_text(path).splitlines():
        match = places.MAP_LINE.fullmatch(line)
        if match and match[3] != "object":
            place, rest = divmod(int(match[1], 16) - base, 4)
            if rest == 0 and place >= 0:
                found.append((place, int(match[2], 16) // 4, match[4], match[3] == "func"))
    return found
