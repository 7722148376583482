"""Journals, as docs/journals.md has them: their bytes and their text, both ways."""
import struct

from . import files

MAGIC, HEAD = b"ALPHAJR1", 38
COMPLETIONS = ("wrap", "saturate", "stop")
# The endings by kind, each with what its numbers are.
ENDINGS = (("none", ()), ("exit", ("value",)), ("signal", ("code", "pc")), ("fetch", ("pc",)),
           ("access", ("pc", "address")),
           ("align", ("pc", "address")), ("lost", ("pc", "mask")), ("overflow", ("pc",)))
MOST_BYTES, MOST_ITEMS, MOST_UNITS = 8_388_608, 1_048_576, 1_000_000_000
UNITS, TRIGGER, WAIT, REPORT = "units", "trigger", "wait", "report"
FIELDS = {1: "the completion is none", 2: "the ending is none", 3: "a number that the ending doesn't use isn't 0",
          4: "too many bytes of input", 5: "too many bytes of output", 6: "too many items"}
BYTES_A_LINE = 32


class BadJournal(files.Refused):
    """Bytes that are no journal. `line` is what the program says of them."""

    def __init__(self, kind, at, why):
        self.line = f"journal kind {kind} at {at}"
        super().__init__(f"{self.line}: {why}")


class Journal:
    """A run: its completion, its ending (a name and its two numbers), its input and its output, and its items, each a
    tuple of its kind and its numbers."""

    def __init__(self, completion, ending, given, put, items):
        self.completion, self.ending, self.given, self.put, self.items = completion, ending, given, put, items

    def spelled(self):
        """Its bytes."""
        name, first, second = self.ending
        kind = [known for known, _ in ENDINGS].index(name)
        head = struct.pack("<8sBBQQIII", MAGIC, COMPLETIONS.index(self.completion), kind, first, second,
                           len(self.given),
                           len(self.put), len(self.items))
        return head + self.given + self.put + b"".join(map(item_bytes, self.items))

    def units(self):
        return sum(item[1] if item[0] == UNITS else item[0] == TRIGGER for item in self.items)

    def reports(self):
        return sum(item[0] == REPORT for item in self.items)


def item_bytes(item):
    kind, *numbers = item
    if kind == UNITS:
        return struct.pack("<BI", 0, *numbers)
    if kind == TRIGGER:
        return struct.pack("<BQ", 1, *numbers)
    return struct.pack("<BBQ", 2, *numbers) if kind == WAIT else b"\3"


# ---- from bytes


def read_journal(path):
    return journal_of(files.read_bytes(path, files.MOST_JOURNAL))


def journal_of(content):
    """The journal of these bytes, or the first fault in the program's order."""
    if len(content) < HEAD:
        raise BadJournal(1, len(content), f"it has {len(content)} bytes, and {HEAD} stand before the input")
    magic, completion, kind, first, second, given, put, count = struct.unpack_from("<8sBBQQIII", content)
    if magic != MAGIC:
        raise BadJournal(2, 0, "it doesn't begin with ALPHAJR1")
    bad = [completion < 3, kind < len(ENDINGS), unused_are_zero(kind, first, second), given <= MOST_BYTES,
           put <= MOST_BYTES,
           count <= MOST_ITEMS]
    if not all(bad):
        raise BadJournal(3, bad.index(False) + 1, FIELDS[bad.index(False) + 1])
    at = HEAD + given + put
    if len(content) < at:
        raise BadJournal(1, len(content),
                         f"it has {len(content)} bytes, and with its input and output there are {at} before the items")
    items, end = items_of(content, at, count)
    journal = Journal(COMPLETIONS[completion], (ENDINGS[kind][0], first, second), content[HEAD:HEAD + given],
                      content[HEAD + given:at],
                      items)
    if journal.units() > MOST_UNITS:
        raise BadJournal(5, 0, f"its items use {journal.units()} units, and {MOST_UNITS} are the most")
    if end < len(content):
        raise BadJournal(6, end, f"{len(content) - end} bytes stand behind the items")
    return journal


def unused_are_zero(kind, first, second):
    used = len(ENDINGS[kind][1]) if kind < len(ENDINGS) else 2
    return (used > 0 or first == 0) and (used > 1 or second == 0)


def items_of(content, at, count):
    items = []
    for number in range(count):
        try:
            item, size = item_at(content, at, bool(items) and items[-1][0] == UNITS)
        except (struct.error, IndexError) as error:
            raise BadJournal(4, number, f"item {number} isn't whole") from error
        except ValueError as error:
            raise BadJournal(4, number, f"item {number}: {error}") from error
        items.append(item)
        at += size
    return items, at


def item_at(content, at, is_behind_units):
    kind = content[at]
    if kind == 0:
        number, = struct.unpack_from("<I", content, at + 1)
        if number == 0 or is_behind_units:
            raise ValueError("a Units of 0" if number == 0 else "a Units behind a Units")
        return (UNITS, number), 5
    if kind == 1:
        return (TRIGGER, *struct.unpack_from("<Q", content, at + 1)), 9
    if kind == 2:
        flag, value = struct.unpack_from("<BQ", content, at + 1)
        if flag > 1:
            raise ValueError(f"its flag is {flag}")
        return (WAIT, flag, value), 10
    if kind == 3:
        return (REPORT,), 1
    raise ValueError(f"its kind is {kind}")


# ---- as text


def item_text(item):
    kind, *numbers = item
    if kind == WAIT:
        return f"wait {numbers[0]} {numbers[1]:#x}"
    return kind if kind == REPORT else f"units {numbers[0]}" if kind == UNITS else f"trigger {numbers[0]:#x}"


def ending_text(ending):
    name, *numbers = ending
    used = dict(ENDINGS)[name]
    said = [str(number) if what in ("value", "code") else f"{number:#x}" for what, number in zip(used, numbers)]
    return " ".join([name, *said])


def byte_lines(word, content):
    return [f"{word} {content[n:n + BYTES_A_LINE].hex()}" for n in range(0, len(content), BYTES_A_LINE)]


def text_of(journal):
    """A line for each part and each item. A comment behind every tenth item has its number."""
    lines = [f"completion {journal.completion}", f"ending {ending_text(journal.ending)}"]
    lines += byte_lines("input", journal.given) + byte_lines("output", journal.put)
    lines += [item_text(item) + (f"  # item {number}" if number % 10 == 0 else "")
              for number, item in enumerate(journal.items)]
    return "\n".join(lines) + "\n"


def parsed(text, path):
    """The journal of a text, in which empty lines and comments from a # on mean nothing."""
    found = Journal(None, None, b"", b"", [])
    for number, line in enumerate(text.split("\n"), 1):
        words = line.split("#")[0].split()
        if words:
            try:
                take_line(found, words)
            except (ValueError, TypeError, OverflowError) as error:
                raise files.Refused(f"{path}:{number}: {error}") from error
    for what in ("completion", "ending"):
        if getattr(found, what) is None:
            raise files.Refused(f"{path}: no line says the {what}")
    journal_of(found.spelled())
    return found


def take_line(found, words):
    kind, *rest = words
    if kind == "completion" and len(rest) == 1 and rest[0] in COMPLETIONS and found.completion is None:
        found.completion = rest[0]
    elif (kind == "ending" and rest and rest[0] in dict(ENDINGS) and len(rest) == 1 + len(dict(ENDINGS)[rest[0]])
          and found.ending is None):
        numbers = [number(word, 64) for word in rest[1:]]
        found.ending = (rest[0], *numbers, *[0] * (2 - len(numbers)))
    elif kind == "input" and len(rest) == 1:
        found.given += bytes.fromhex(rest[0])
    elif kind == "output" and len(rest) == 1:
        found.put += bytes.fromhex(rest[0])
    else:
        found.items.append(item_of(kind, rest))


def item_of(kind, rest):
    bits = {UNITS: [32], TRIGGER: [64], WAIT: [1, 64], REPORT: []}.get(kind)
    if bits is None or len(rest) != len(bits):
        raise ValueError(f"`{' '.join([kind, *rest])}` is no line of a journal")
    return (kind, *map(number, rest, bits))


def number(text, bits):
    """A number, decimal or hexadecimal behind 0x, of so many bits."""
    digits = text[2:] if text.startswith("0x") else text
    if not digits.isascii() or not digits.isalnum():
        raise ValueError(f"`{text}` is no number")
    value = int(digits, 16 if text.startswith("0x") else 10)
    if value >> bits:
        raise ValueError(f"{text} is not below 2^{bits}")
    return value
