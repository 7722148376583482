"""Text for GNU as, as gcc writes it for alpha: statements, operands and numbers."""
import functools
import re
from collections import namedtuple

from . import files

# A statement with the columns from `start` to `end` of its line, its labels left out; `name` is empty where there is
# none. `relocation` is what stands behind `!`, as `gpdisp`, without its number; `mark` has both.
Statement = namedtuple("Statement", "line start end labels name operands relocation mark", defaults=[None])
# A number, or a symbol with a number added.
Expression = namedtuple("Expression", "symbol number")

# What a line has that isn't one statement alone.
PARTING = re.compile(r'["#;]|/\*')
LABEL = re.compile(r"\s*([A-Za-z_.$][\w.$]*|[0-9]+):(?!=)")
# Operands with a string, or with a parenthesis before a comma.
NESTED = re.compile(r'"|[()].*,', re.S)
NAME = re.compile(r"\s*([A-Za-z_.$][\w.$/]*)")
ASSIGNED = re.compile(r"\s*([A-Za-z_.$][\w.$]*)\s*==?\s*(.*)\Z", re.S)
RELOCATION = re.compile(r"\s*!([a-z_0-9]+)(?:![0-9]+)?\s*\Z")
SYMBOL = re.compile(r"([A-Za-z_.$][\w.$]*|[0-9]+[fb]\b)")
NUMBER = re.compile(r"0[xX][0-9a-fA-F]+|0[bB][01]+|[0-9]+")
REGISTERS = {f"${n}": n for n in range(32)}
REGISTERS.update({"$v0": 0, "$fp": 15, "$s6": 15, "$ra": 26, "$pv": 27, "$t12": 27, "$at": 28, "$gp": 29, "$sp": 30,
                  "$zero": 31})
REGISTERS.update({f"$t{n}": n + 1 for n in range(8)} | {f"$s{n}": n + 9 for n in range(6)})
REGISTERS.update({f"$a{n}": n + 16 for n in range(6)} | {f"$t{n}": n + 14 for n in range(8, 12)})
ESCAPES = {"b": 8, "f": 12, "n": 10, "r": 13, "t": 9, '"': 34, "\\": 92}


def pieces(text):
    """The parts of a text that are statements: (line, first column, one past the last, text), comments left out.

    A comment goes from `#` to the line's end, or from /* to */; statements are parted by `;` and by the line's end.
    """
    in_comment = False
    for number, line in enumerate(lines_of(text), 1):
        if not in_comment and not PARTING.search(line):
            yield number, 0, len(line), line
            continue
        start, at, kept = 0, 0, []
        while at < len(line):
            if in_comment:
                end = line.find("*/", at)
                in_comment, stop = end < 0, len(line) if end < 0 else end + 2
                kept.append(" " * (stop - at))
                at = stop
            elif line[at] == '"':
                stop = string_end(line, at)
                kept.append(line[at:stop])
                at = stop
            elif line[at] == "#":
                break
            elif line.startswith("/*", at):
                in_comment = True
            elif line[at] == ";":
                yield number, start, at, "".join(kept)
                start, at, kept = at + 1, at + 1, []
            else:
                kept.append(line[at])
                at += 1
        yield number, start, at, "".join(kept)


def lines_of(text):
    """The lines of a text one by one: all of them at once take many times its memory, where they are short."""
    start = 0
    while (end := text.find("\n", start)) >= 0:
        yield text[start:end]
        start = end + 1
    yield text[start:]


def string_end(line, at):
    """One past the closing quote of the string that begins there, or the line's end."""
    at += 1
    while at < len(line) and line[at] != '"':
        at += 2 if line[at] == "\\" else 1
    return min(at + 1, len(line))


def statements(text):
    """The statements of a text, those with labels alone too."""
    for line, start, _, piece in pieces(text):
        yield statement_of(line, start, piece)


def statement_of(line, start, piece):
    """The statement of a piece. Its columns are those of its name and operands, without blanks around them."""
    labels, at = [], 0
    while match := LABEL.match(piece, at):
        labels.append(match[1])
        at = match.end()
    rest = piece[at:]
    begin = start + at + len(rest) - len(rest.lstrip())
    end = start + at + len(rest.rstrip())
    if match := ASSIGNED.match(rest):
        return Statement(line, begin, end, labels, ".set", [match[1], match[2].strip()], None)
    match = NAME.match(rest)
    if match is None:
        return Statement(line, begin, max(begin, end), labels, rest.strip(), [], None)
    operands = rest[match.end():].strip()
    relocation = mark = None
    if not operands.startswith('"') and (found := RELOCATION.search(operands)):
        relocation, mark, operands = found[1], found[0].strip(), operands[:found.start()]
    return Statement(line, begin, end, labels, match[1], split(operands), relocation, mark)


def split(text):
    """The operands: parted by commas outside strings and parentheses."""
    if NESTED.search(text) is None:
        parts = [part.strip() for part in text.split(",")]
        return parts if parts != [""] else []
    operands, depth, start, at = [], 0, 0, 0
    while at < len(text):
        if text[at] == '"':
            at = string_end(text, at)
            continue
        depth += {"(": 1, ")": -1}.get(text[at], 0)
        if text[at] == "," and depth == 0:
            operands.append(text[start:at].strip())
            start = at + 1
        at += 1
    last = text[start:].strip()
    return operands + [last] if last or operands else []


@functools.lru_cache(maxsize=1 << 14)
def number_of(text):
    """The value of a number as GNU as reads it, or None."""
    digits = text.lstrip("+-~ \t")
    signs = text[:len(text) - len(digits)]
    if not NUMBER.fullmatch(digits) or "~" in signs:
        return None
    base = {"0x": 16, "0b": 2}.get(digits[:2].lower(), 8 if len(digits) > 1 and digits[0] == "0" else 10)
    try:
        value = int(digits[2:] if base in (16, 2) else digits, base)
    except ValueError:
        return None
    return -value if signs.count("-") % 2 else value


def expression_of(text):
    """The expression of a text: a number, or a symbol with numbers added; None for any other."""
    text = text.strip()
    number = number_of(text)
    if number is not None:
        return Expression(None, number)
    match = SYMBOL.match(text)
    if match is None:
        return None
    total, rest = 0, text[match.end():].strip()
    while rest:
        term = re.match(r"[+-]\s*(?:0[xX][0-9a-fA-F]+|[0-9]+)\s*", rest)
        if term is None or (value := number_of(term[0].replace(" ", "").strip())) is None:
            return None
        total += value
        rest = rest[term.end():]
    return Expression(match[1], total)


def string_bytes(text):
    """The bytes of a string in quotes, with the escapes of GNU as; None where it is none."""
    if len(text) < 2 or text[0] != '"' or string_end(text, 0) != len(text) or text[-1] != '"':
        return None
    out, at, inner = bytearray(), 0, text[1:-1]
    while at < len(inner):
        if inner[at] != "\\":
            out += inner[at].encode("utf-8", "surrogateescape")
            at += 1
        elif match := re.match(r"\\([0-7]{1,3})", inner[at:]):
            out.append(int(match[1], 8) & 255)
            at += match.end()
        elif match := re.match(r"\\[xX]([0-9a-fA-F]+)", inner[at:]):
            out.append(int(match[1], 16) & 255)
            at += match.end()
        elif inner[at + 1:at + 2] in ESCAPES:
            out.append(ESCAPES[inner[at + 1]])
            at += 2
        else:
            return None
    return bytes(out)


class Faults:
    """The lines that can't be taken: one for each cause, with how many there are of it. A cause is what is said of a
    line, or the option of the compiler that it names."""

    MOST, MOST_KNOWN = 50, 1_000
    OPTION = re.compile(r": compile with (-\S+)\Z")

    def __init__(self):
        # By path and cause: what is said of the first line, how many there are, and the last of them.
        self.causes, self.is_cut = {}, False

    def add(self, path, line, why):
        option = self.OPTION.search(why)
        cause = path, option[1] if option else why
        if cause not in self.causes and len(self.causes) == self.MOST_KNOWN:
            self.is_cut = True
            return
        first, count, last = self.causes.get(cause, (f"{path}:{line}: {why}", 0, None))
        self.causes[cause] = first, count + (line != last), line

    def stop(self):
        """Refuses where there was any."""
        said = []
        for (_, cause), (first, count, _) in list(self.causes.items())[:self.MOST]:
            alike = "which that option leaves out" if cause.startswith("-") else "alike"
            said.append(first + (f" ({count} lines {alike})" if count > 1 else ""))
        if len(self.causes) > self.MOST:
            said.append(f"and {'more than ' * self.is_cut}{len(self.causes) - self.MOST} causes more")
        if said:
            raise files.Refused("\n".join(said))
