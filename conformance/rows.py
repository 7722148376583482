"""What is otherwise in the output of an image of values, which has a quadword for each of its lines and each row of
operands."""
import functools
import os
import re

HERE = os.path.dirname(os.path.abspath(__file__))
ROW = 24
# How many lines, and how many rows of the first one, are told where more are otherwise.
MOST_LINES, MOST_ROWS = 6, 3


@functools.lru_cache(maxsize=None)
def lines_of(image):
    """The lines that such an image shows, as the head of its source has them, and the number of each in the source."""
    with open(os.path.join(HERE, "sources", f"{image}.s"), encoding="ascii") as file:
        whole = file.read().splitlines()
    head = [text[2:] for text in whole if text.startswith("# ")][1:]
    numbers = {}
    for number, text in enumerate(whole, 1):
        numbers.setdefault(text.split("#")[0].split(": ")[-1].strip(), number)
    return [(line, numbers.get(line.split(" behind ")[-1])) for line in "; ".join(head).split("; ")]


class Values:
    """The output of a run over rows of operands, and the wanted one."""

    def __init__(self, image, out, wanted, given):
        self.image, self.out, self.wanted, self.given = image, out, wanted, given
        self.lines = lines_of(image)

    def wrong(self):
        """The rows that are otherwise, by the number of the line."""
        found = {}
        for at in range(0, min(len(self.out), len(self.wanted)), 8):
            if self.out[at:at + 8] != self.wanted[at:at + 8]:
                row, number = divmod(at // 8, len(self.lines))
                found.setdefault(number, []).append(row)
        return found

    def value(self, row, number, content):
        at = 8 * (row * len(self.lines) + number)
        return int.from_bytes(content[at:at + 8], "little")

    def operands(self, row, named="123"):
        values = [int.from_bytes(self.given[ROW * row + n:ROW * row + n + 8], "little") for n in (0, 8, 16)]
        return ", ".join(f"${name} = {value:#x}" for name, value in zip("123", values) if name in named)

    def told(self, row, number, named="123"):
        have, want = (self.value(row, number, content) for content in (self.out, self.wanted))
        return f"{self.operands(row, named)} gives {have:#x}, and {want:#x} is wanted"

    def first(self, at):
        """The difference at a byte of the output."""
        row, number = divmod(at // 8, len(self.lines))
        return f"{self.lines[number][0]} with {self.told(row, number)}"

    def more(self):
        """Which lines are otherwise in how many rows, and some rows of one of them, which is right in others if one
        is."""
        wrong, rows = self.wrong(), range(len(self.wanted) // 8 // len(self.lines))
        number = next((number for number in wrong if len(wrong[number]) < len(rows)), next(iter(wrong)))
        line, at = self.lines[number]
        named = re.findall(r"\$([123])\b", line if line.startswith("cmov") else line.rpartition(",")[0]) or "123"
        right = [f"  right: {self.operands(row, named)} gives {self.value(row, number, self.wanted):#x}" for row in rows
                 if row not in wrong[number]]
        found = [f"{self.image}.s:{at}: " * bool(at)
                 + f"{line} is otherwise in {len(wrong[number])} of {len(rows)} rows"]
        found += some([f"  otherwise: {self.told(row, number, named)}" for row in wrong[number]]) + some(right)
        others = [f"{self.lines[other][0]} in {len(wrong[other])}" for other in wrong if other != number]
        if others:
            found.append("otherwise too: " + "; ".join(others[:MOST_LINES])
                         + f"; and {len(others) - MOST_LINES} more" * (len(others) > MOST_LINES))
        left = len(self.lines) - len(wrong)
        return [*found, f"right in all rows: {left} of {len(self.lines)} lines"]


def some(texts):
    """A few of some texts that differ, from the first to the last."""
    texts = list(dict.fromkeys(texts))
    return ([texts[n * (len(texts) - 1) // (MOST_ROWS - 1)] for n in range(MOST_ROWS)] if len(texts) > MOST_ROWS
            else texts)
