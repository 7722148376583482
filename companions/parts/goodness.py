"""Whether bytes are a good image: the rules of docs/images.md, and the first fault in their order."""
import struct

from . import table
from .image import END, MOST_DATA, MOST_WORDS, PAGE

SHORT, MAGIC, FIELD, LENGTH, WORD = 1, 2, 3, 4, 5
MOST_SEGMENTS, LEAST_STACK, MOST_STACK = 8, 16, 1_048_576


class Head:
    """The fields of an image: those of its head, and (base, data bytes, zeroed bytes) of each segment."""

    def __init__(self, content):
        if content[:8] == b"ALPHAIM2":
            self.base, self.entry, self.words, self.stack, self.level, count = struct.unpack_from("<QQIIII", content, 8)
            self.size = 40 + 16 * count
            self.segments = [struct.unpack_from("<QII", content, 40 + 16 * n) for n in range(count)]
        else:
            self.base, data_base, self.entry, self.words, data, zeroed, self.stack = struct.unpack_from("<QQQIIII",
                                                                                                        content, 8)
            self.size, self.level, self.segments = 48, 1, [(data_base, data, zeroed)]

    def regions(self):
        """(first address, bytes) of the code, the segments and the stack, but for those without bytes."""
        found = [(self.base, 4 * self.words), *[(base, data + zeroed) for base, data, zeroed in self.segments],
                 (END - self.stack, self.stack)]
        return [region for region in found if region[1]]

    def overlap(self):
        regions = sorted(self.regions())
        return any(base + size > behind for (base, size), (behind, _) in zip(regions, regions[1:]))

    def bad_field(self):
        """The number of the first bad field, or None."""
        def is_base(base):
            return base % PAGE == 0 and base < END

        bases = [base for base, _, _ in self.segments]
        ends = [base + data + zeroed for base, data, zeroed in self.segments]
        code_end = self.base + 4 * self.words
        good = [is_base(self.base),
                all(map(is_base, bases)) and all(one < other for one, other in zip(bases, bases[1:])),
                1 <= self.words <= MOST_WORDS and code_end <= END,
                all(data <= MOST_DATA for _, data, _ in self.segments),
                sum(data + zeroed for _, data, zeroed in self.segments) <= MOST_DATA
                and all(end <= END for end in ends),
                LEAST_STACK <= self.stack <= MOST_STACK and self.stack % 16 == 0,
                self.entry % 4 == 0 and self.base <= self.entry < code_end]
        if all(good) and self.overlap():
            return 8
        return good.index(False) + 1 if not all(good) else None if self.level in (1, 2) else 9


def first_fault(content):
    """What is wrong first with the bytes of an image, as (kind, first number, second number), or None."""
    is_second = content[:8] == b"ALPHAIM2"
    if len(content) < (40 if is_second else 48):
        return SHORT, len(content), 0
    if not is_second and content[:8] != b"ALPHAIM1":
        return MAGIC, 0, 0
    if is_second:
        count, = struct.unpack_from("<I", content, 36)
        if count > MOST_SEGMENTS:
            return FIELD, 10, 0
        if len(content) < 40 + 16 * count:
            return SHORT, len(content), 0
    head = Head(content)
    field = head.bad_field()
    if field is not None:
        return FIELD, field, 0
    wanted = head.size + 4 * head.words + sum(data for _, data, _ in head.segments)
    return bad_word(content, head) if len(content) == wanted else (LENGTH, len(content), wanted)


def bad_word(content, head):
    """The first word that isn't in the table, or above the level, or None."""
    words, known = struct.unpack_from(f"<{head.words}I", content, head.size), {}
    for place, number in enumerate(words):
        if number not in known:
            insn = table.insn_of(number)
            known[number] = insn is not None and (head.level == 2 or insn.name not in table.LEVEL_TWO)
        if not known[number]:
            return WORD, place, number
    return None
