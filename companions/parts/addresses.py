"""Addresses of code that the words and the data of a linked program hold: where a call or a jump by a register may
lead."""
import struct
from bisect import bisect_right
from collections import Counter, namedtuple

from . import gas, image, steps, table

# A function of a map, by places: its first, one past its last, its name.
Function = namedtuple("Function", "start end name")
# How far behind a word its pair, or before it its base, is looked for.
NEAR = 16
SIZES = {".byte": 1, ".word": 2, ".long": 4, ".quad": 8}


class Linked:
    """A program with its addresses: the words of its code by place, its data, and the functions of a map."""

    def __init__(self, found, after, code_base, segments, functions):
        self.steps, self.after, self.base, self.segments = found, after, code_base, segments
        self.functions = sorted(functions)
        self.starts = [function.start for function in self.functions]
        # The places where functions begin, and to which calls come back.
        self.begins = set()

    def place(self, address):
        place, rest = divmod(address - self.base, 4)
        return place if rest == 0 and 0 <= place < len(self.steps) else None

    def address(self, place):
        return self.base + 4 * place

    def taken(self, pointers, code=None):
        """The places of which an address stands in the data, or is made by `ldah` and `lda`."""
        found = set()
        for _, content in self.segments:
            whole = content[:len(content) // 8 * 8]
            found.update(self.place(number) for number in set(struct.unpack(f"<{len(whole) // 8}Q", whole)))
        found.update(self.place(number) for number in self.made(pointers, code))
        return found - {None}

    def made(self, pointers, code):
        """The numbers that pairs of `ldah` and `lda` make, by themselves or from the global pointer, in what is reached
        where the code is given."""
        for place, step in enumerate(self.steps):
            if step.word is None or code is not None and place not in code.reached:
                continue
            if step.insn.name == "lda" and steps.base_of(step) == steps.GP:
                yield from (pointer + steps.displacement_of(step) for pointer in pointers)
            if step.insn.name != "ldah" or steps.base_of(step) not in (31, steps.GP):
                continue
            high = steps.displacement_of(step) << 16
            for low in self.lows(place, step.insn.sets) if code is None else self.lows_on_ways(place, code):
                for pointer in pointers if steps.base_of(step) == steps.GP else [0]:
                    yield pointer + high + low

    def lows(self, place, half):
        """The displacements of the `lda` near behind a word that go on from the register that it sets."""
        for other in self.steps[place + 1:place + 1 + NEAR]:
            if other.word is not None and other.insn.name == "lda" and other.insn.uses == half:
                yield steps.displacement_of(other)

    def lows_on_ways(self, place, code):
        """The displacements of the `lda` that go on from the register that a word sets, on any way through the code,
        calls being passed, on which nothing else sets it."""
        half, seen, left = self.steps[place].insn.sets, set(), list(code.next[place])
        while left:
            other = left.pop()
            if other is None or other in seen:
                continue
            seen.add(other)
            step = self.steps[other]
            if step.insn.name == "lda" and step.word is not None and step.insn.uses == half:
                yield steps.displacement_of(step)
            if not step.insn.sets & half:
                left += code.next[other]

    def pointers(self, begins):
        """The values of the global pointer that its pairs of words make: from the address where a function begins, from
        that behind a call, or from their own. That which most have is the first."""
        counts, self.begins = Counter(), begins
        for place, step in enumerate(self.steps):
            if (step.word is None or step.insn.name != "ldah" or step.insn.sets != table.bit(steps.GP)
                or steps.base_of(step) in (31, steps.GP)):
                continue
            for low in self.lows(place, step.insn.sets):
                for base in self.bases(place, begins):
                    counts[self.address(base) + (steps.displacement_of(step) << 16) + low] += 1
        return [pointer for pointer, _ in counts.most_common(1)]

    @staticmethod
    def bases(place, begins):
        """The places whose address a word may have in the register from which it makes the global pointer."""
        return {place} | {at for at in range(max(0, place - NEAR), place) if at in begins}

    def is_only_pointer(self, pointers, code):
        """Whether each reached word that sets the global pointer gives it back, or is one of a pair that makes it."""
        pairs = {}
        for place in sorted(code.reached):
            step = self.steps[place]
            if step.spoils & table.bit(steps.GP) == 0:
                continue
            if step.insn.name == "ldah" and steps.base_of(step) not in (31, steps.GP):
                pairs[place] = self.bases(place, self.begins)
            elif step.insn.name == "lda" and steps.base_of(step) == steps.GP:
                pair = next((other for other in range(place - 1, max(-1, place - NEAR), -1)
                             if self.steps[other].spoils & table.bit(steps.GP)), None)
                high = steps.displacement_of(self.steps[pair]) << 16 if pair in pairs else 0
                if not any(self.address(base) + high + steps.displacement_of(step) in pointers
                           for base in pairs.get(pair, ())):
                    return False
            elif step.insn.name != "ldq" or code.returns().states[place].get(steps.base_of(step), ("",))[0] != "stack":
                return False
        return True

    def reader(self, pointers, code):
        """What says of a table, so far from the global pointer, and of a number of its entries, which places they have,
        None where one of them has none in the function of the jump."""
        is_only = len(pointers) == 1 and self.is_only_pointer(pointers, code)

        def read(place, where, count):
            if where[0] != "pointer" or not is_only:
                return None
            found = []
            for number in self.numbers(pointers[0] + where[1]):
                other = self.place(pointers[0] + number)
                # Behind the entries that are taken the table ends where its numbers lead out of a known function.
                if other is None or not self.are_of_one(place, other) or (
                        len(found) >= count and self.function_of(place) is None):
                    break
                found.append(other)
            return code.leads(found[:count], found[count:]) if len(found) >= count else None
        return read

    def numbers(self, address):
        """The numbers of 4 bytes that stand in the data from an address on."""
        for base, content in self.segments:
            if base <= address < base + len(content):
                inside = memoryview(content)[address - base:]
                return (number for number, in struct.iter_unpack("<i", inside[:len(inside) // 4 * 4]))
        return ()

    def function_of(self, place):
        at = bisect_right(self.starts, place) - 1
        return self.functions[at] if at >= 0 and place < self.functions[at].end else None

    def are_of_one(self, place, other):
        one, two = self.function_of(place), self.function_of(other)
        return one is None or two is not None and one.name.split(".cold")[0] == two.name.split(".cold")[0]


def data_of(statements):
    """The base of the code of a source, and its data, as pairs of base and bytes. What a label stands for counts as
    0."""
    base, start, segments, inside = image.CODE_BASE, 0x10000000, [], False
    for statement in statements:
        name, operands = statement.name, statement.operands
        number = gas.number_of(operands[0]) if operands else None
        if name in (".codebase", ".database") and number is not None:
            base, start = (number, start) if name == ".codebase" else (base, number)
        elif name in (".data", ".segment"):
            if not segments or name == ".segment":
                segments.append((start if number is None else number, bytearray()))
            inside = True
        elif inside and name in SIZES:
            for text in operands:
                value = gas.number_of(text) or 0
                segments[-1][1].extend((value & (1 << 8 * SIZES[name]) - 1).to_bytes(SIZES[name], "little"))
        elif inside and name == ".align" and number is not None and number <= 13:
            segments[-1][1].extend(bytes(-len(segments[-1][1]) % (1 << number)))
        elif inside and name == ".ascii":
            segments[-1][1].extend(gas.string_bytes(operands[0]) or b"")
    return base, segments


def tables_of(statements):
    """The names that stand as distances from the global pointer behind each label, up to what is none."""
    found, open_ = {}, []
    for statement in statements:
        if statement.name == ".gprel32":
            open_ += [found.setdefault(label, []) for label in statement.labels]
            for names in open_:
                names += statement.operands
            continue
        if statement.name:
            open_ = []
        open_ += [found.setdefault(label, []) for label in statement.labels]
    return found
