"""Lines that the program writes to standard error, and what the pages say of each.

The pages have the forms of the lines: `lost A mask M` of docs/commands.md stands for all lines of that form, and A and
M for what a line has there. A capital letter alone stands so for a number, A and B for addresses.
"""
import re

from . import files, image, module, pages, places, program, table

PAGE = "commands.md"
SPAN = re.compile(r"`([^`]+)`")
FILLED = re.compile(r"(?<![\w$%.+/-])[A-Z](?![\w+])")
REGISTERS = re.compile(r"[0-9a-f]{16}( [0-9a-f]{16}){3}")
HEX, DECIMAL = r"[0-9a-f]{16}", r"[0-9]+"
CONDITIONS = ("broken", "unfixable")
# Pages of which a line needs rows alone, and the first cells of tables in which a line has its row by a number.
ROWS_ALONE = ("images.md", "source.md", "modules.md")
NUMBERED = ("K", "No.", "Number")
# Where more is said: the beginning of a line, a page, and the beginning of a heading there.
LEADS = [("unfixable ", "fix.md", "Unfixable"), ("fixed ", "fix.md", "Fixed"), ("far ", "fix.md", "Far"),
         ("far ", PAGE, "`source kind"), ("source kind 1 ", "source.md", "Faults"),
         ("far kind 1 ", "source.md", "Faults"),
         ("source kind 8 ", "images.md", "The rules"), ("far kind 8 ", "images.md", "The rules"),
         ("image kind 3 ", "images.md", "The rules"), ("link kind 4 ", "images.md", "The rules"),
         ("module ", "modules.md", "When `link` refuses"), ("link ", "modules.md", "When `link` refuses"),
         ("journal kind", "journals.md", "Replaying"), ("norun ", "journals.md", "Replaying")]


class Said:
    """A line with its form, and what it has in place of each letter."""

    def __init__(self, text, template, values, where, status):
        self.text, self.template, self.values = text, template, values
        self.where, self.status = where, status

    def number(self, letter):
        """The number of a letter, or None where the form hasn't that letter."""
        return int(self.values[letter]) if letter in self.values else None

    def detail(self):
        """The number by which a table of a fault's details is looked up."""
        return self.number("F" if self.template.startswith(("image", "link")) else "D")

    def kind(self):
        """What is the same in lines of which the same is said."""
        kept = [letter for letter in "Kn" if letter in self.values]
        if self.number("K") in (1, 8) and "D" in self.values or self.text.startswith(("image kind 3 ", "link kind 4 ")):
            kept += [letter for letter in "DF" if letter in self.values]
        return self.template, *(self.values[letter] for letter in kept)


def pattern_of(template):
    """The pattern of the lines of a form."""
    if template.endswith(":"):
        return re.compile(re.escape(template) + ".*")
    words = []
    for word in template.split():
        if re.fullmatch(r"[A-Z]", word):
            words.append(f"(?P<{word}>{HEX if word in 'AB' else DECIMAL})")
        else:
            words.append("C(?P<n>[1-9])" if word == "Cn" else re.escape(word))
    return re.compile(" ".join(words))


class Forms:
    """The forms of all lines, by the headings of docs/commands.md under which the lines are explained."""

    def __init__(self):
        self.rows = []
        for one in pages.sections(PAGE):
            if not re.search(r": [0-9]+\Z", one.heading):
                continue
            for template, status in templates(one):
                self.rows.append((template, pattern_of(template), one, status))

    def of(self, text):
        """The line with its form, or None where it is no line of the program."""
        for template, pattern, where, status in self.rows:
            if match := pattern.fullmatch(text):
                return Said(text, template, match.groupdict(), where, status)
            if template == "barrier A" and REGISTERS.fullmatch(text):
                return Said(text, template, {}, where, status)
        return None


def templates(one):
    """The forms that a section explains, each with its status: those of its heading, and those of a table of lines."""
    last = int(one.heading.rpartition(": ")[2])
    for match in SPAN.finditer(one.heading):
        status = re.search(r": ([0-9]+)", one.heading[match.end():])
        yield match[1], int(status[1])
    for block in one.blocks:
        if isinstance(block, pages.Table) and block.header[0] == "Line":
            for row in block.rows:
                yield from ((span, last) for span in SPAN.findall(row[0]))


def meaning(status):
    """When a status comes. Of 70, which isn't the program's, its section says that."""
    table_of_all = next(block for block in pages.section(PAGE, "The statuses").blocks if isinstance(block, pages.Table))
    return [f"Status {status}: {pages.plain(row[1], PAGE)}" for row in table_of_all.rows if row[0] == str(status)]


def of_status(status):
    """What the pages say of a status."""
    found = meaning(status)
    for one in pages.sections(PAGE):
        if re.search(rf": {status}(,|\Z)", one.heading):
            found += ["", f"{one.heading}:", *whole(one, None)]
    if not found:
        raise files.Refused(f"{status} is no status of the program: docs/commands.md has them all")
    return found


def explained(said):
    """What the pages say of a line, paragraph by paragraph."""
    found = meaning(said.status) + whole(said.where, said)
    if said.text.startswith(CONDITIONS):
        found += whole(pages.section("trap-shadows.md", f"C{said.values['n']}:"), None, with_heading=True)
    for beginning, page, heading in LEADS:
        if said.text.startswith(beginning):
            found += whole(pages.section(page, heading), said)
    asked = {PAGE, *(page for beginning, page, _ in LEADS if said.text.startswith(beginning))}
    if said.text.startswith(CONDITIONS):
        asked.add("trap-shadows.md")
    return [*found, "More: " + ", ".join(f"docs/{page}" for page in sorted(asked))]


def whole(one, said, with_heading=False):
    """The texts of a section, and of its tables the rows that a line is meant by; all of it where there is no line."""
    found = [f"{one.heading}:"] if with_heading else []
    for block in one.blocks:
        if isinstance(block, pages.Table):
            rows = block.rows if said is None else rows_of(block, said)
            if not rows:
                raise files.Refused(f"{said.text}: no row of docs/{one.page} explains it")
            found += [row_text(block, row, one.page, said) for row in rows]
        elif said is not None and one.page in ROWS_ALONE:
            continue
        elif isinstance(block, pages.Code):
            found.append(block)
        elif not is_of_other_line(one, block.text, said):
            found.append(filled(pages.plain(block.text, one.page), said))
    return [text for text in found if text]


def is_of_other_line(one, text, said):
    """Of docs/journals.md a line needs only the item of its own kind, of that numbered list which has the refusals."""
    if one.page != "journals.md" or said is None:
        return False
    return not (said.template.startswith("norun") and text.startswith(f"{said.values['K']}. "))


def rows_of(block, said):
    """The rows of a table that a line is meant by."""
    if block.header[0] == "K":
        return by_kind(block, said)
    if block.header[0] in NUMBERED:
        return [row for row in block.rows if row[0] == str(said.detail())]
    if any(cell.startswith("Line") for cell in block.header):
        return by_line(block, said)
    return block.rows


def by_kind(block, said):
    """The row of a kind, and that of its detail, which stands below it with an empty first cell; none where one of them
    is missing."""
    is_meant, has_details, found = False, False, []
    for row in block.rows:
        if row[0]:
            is_meant = row[0] == said.values.get("K")
        has_details |= is_meant and not row[0]
        if is_meant and (row[0] or row[1].startswith(f"D {said.values.get('D')}:")):
            found.append(row)
    return found if len(found) == 1 + has_details else []


def by_line(block, said):
    """The rows with a form of the line, and below one with its form those with its kind."""
    column = next(n for n, cell in enumerate(block.header) if cell.startswith("Line"))
    is_meant, found = False, []
    for row in block.rows:
        spans, kinds = SPAN.findall(row[column]), re.findall(r"\bK ([0-9]+)", row[column])
        if spans:
            is_meant = any(pattern_of(span).fullmatch(said.text) for span in spans)
        if is_meant and (spans or said.values.get("K") in kinds):
            found.append(row)
    # A row with the form of all kinds stands above the rows of each, and alone explains nothing.
    return [] if all(" kind K " in row[column] for row in found) else found


def row_text(block, row, page, said):
    """A row as a text. One of a table of mistakes is an item of a list."""
    if block.header[0] in ("Mistake", "Usual cause"):
        return f"- {pages.plain(row[0], page)}. {block.header[1]}: {pages.plain(row[1], page)}"
    row = [re.sub(r"\AD [0-9]+: ", "", cell) for cell in row]
    told = [f"{name}: {cell}" for name, cell in zip(block.header, row)
            if cell and name not in (*NUMBERED, "Status") and not name.startswith("Line")]
    return filled(pages.plain(". ".join(told), page), said)


def filled(text, said):
    """A text with what the line has in place of each letter. An A that begins a sentence is the article."""
    def value(match):
        is_article = match[0] == "A" and re.search(r"(^|[.:] |\A)\Z", text[:match.start()])
        return match[0] if is_article else said.values.get(match[0], match[0])
    if said is None:
        return text
    return FILLED.sub(value, text.replace("Cn", f"C{said.values.get('n', 'n')}"))


class Known:
    """What the files that were given tell of the numbers of a line."""

    def __init__(self, options):
        self.options, self.places = options, None

    def numbers(self, said):
        """A text for each number of which more can be told."""
        found = []
        for letter in said.values:
            told = self.told(said, letter)
            if told:
                found.append(f"{letter} is {said.values[letter]}: {told}")
        return found + self.shown_line(said)

    def told(self, said, letter):
        if letter in "AB" and re.fullmatch(HEX, said.values[letter]):
            told = self.address(int(said.values[letter], 16))
            if self.places is not None and (why := self.places.strange(said.text)):
                raise files.Refused(why)
            return told
        if letter == "n":
            return None
        number = said.number(letter)
        if letter == "M":
            return "the registers " + " ".join(f"${n}" for n in range(32) if number >> n & 1)
        if said.text.startswith("image kind 5 "):
            return self.bad_word(letter, number)
        if said.text.startswith(("link kind ", "module ")) and self.options.module:
            return self.of_link(said, letter, number)
        return f"{number:#x}" if number > 9 and letter != "L" else None

    def address(self, address):
        options = self.options
        if options.image is None and options.source is None and options.map is None:
            return None
        if self.places is None:
            asked = program.Program(options.alpha) if options.image is not None else None
            listing = asked.listing(options.image) if asked is not None and options.source is None else None
            base = image.read_image(options.image).code_base if listing is not None else 0
            self.places = places.Places(options.source, options.map, listing, base)
            if asked is not None:
                self.places.hold(asked, options.image)
        return self.places.tell(address, True) or "nothing is known of it"

    def bad_word(self, letter, number):
        if letter == "S":
            known = table.GNU_BARRIERS.get(number)
            why = (f"GNU's word of {table.insn_of(known).name}, which is {known:08x} here" if known
                   else table.reason(number))
            return f"in hexadecimal {number:08x}, {why}"
        if letter == "F" and self.options.image is not None:
            given = image.read_image(self.options.image)
            return f"the word at {given.address(number):016x}"
        return None

    def of_link(self, said, letter, number):
        """The file of a module, or the name of one of its symbols or what one of its relocations names."""
        names, kind = self.options.module, said.number("K")
        if letter == "F" and kind != 4 and (said.text.startswith("module ") or kind in (1, 2, 5)):
            return names[number] if number < len(names) else "there are fewer files than that"
        if letter != "S" or kind not in (1, 2, 5) or said.number("F") >= len(names):
            return None
        one = module.read_module(names[said.number("F")])
        rows = one.relocations if kind == 5 else one.symbols
        if number >= len(rows):
            return "there is none of that number: are these the modules, in their order?"
        if kind != 5:
            return f"the symbol {rows[number].name}"
        row = rows[number]
        return f"the address of {one.symbols[row.symbol].name}{row.added:+d} at the offset {row.offset} of the " + \
            ("data" if row.kind == module.QUAD else "code")

    def shown_line(self, said):
        """The line of the source that a refusal names, with a mark below its column."""
        number = said.number("L")
        if not number or self.options.source is None or said.text.startswith(("far ", "too large ")):
            return []
        path = self.options.source[0]
        lines = files.read_text(path).split("\n")
        if number > len(lines):
            raise files.Refused(f"{path}: there is no line {number}: is it the source that was refused?")
        text, column = lines[number - 1].removesuffix("\r"), said.number("C") or 0
        shown = [f"{path}:{number}:", text.expandtabs(8)]
        if column:
            shown.append(" " * len(text[:column - 1].expandtabs(8)) + "^")
        return [pages.Code(shown)]
