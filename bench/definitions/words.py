"""Words and values: the class of a word and what it is to a shadow, and what instructions give.

Against words that GNU as made, results that qemu-alpha gave, and the models. A case is what `difference` says nothing
of where the definitions have it so.
"""
import re

from . import drawn
from .reference import COMPLETIONS, MASK, NONE, OPERATES, class_by, class_of, columns_of, op_of, table
from .sources import TOP

VECTORS = TOP / "crates/alpha_vectors/data"
NUMBER = r"-?(?:0x[0-9a-fA-F]+|\d+)"


def rows(name):
    """The lines of a file of vectors, cut at their tabs."""
    return [line.split("\t") for line in (VECTORS / name).read_text().splitlines() if line and not line.startswith("#")]


def class_by_line(line):
    """The class of a source line with all of its operands, None of a line that is written otherwise."""
    name, _, rest = line.partition(" ")
    if re.search(r"\$[a-z]", rest):
        return None
    registers = [int(text) for text in re.findall(r"\$(\d+)", rest)]
    operands = rest.split(",") if rest else []
    if name in OPERATES:
        alone = name in table.UNARY
        if len(operands) != (1 if name == "implver" else 2 if alone else 3):
            return None
        if name == "implver":
            return class_by(name, 31, 0, registers[0], 1, 0)
        second = operands[-2].strip()
        literal = None if second.startswith("$") else int(second, 0)
        return class_by(name, 31 if alone else registers[0], registers[-2] if literal is None else 0, registers[-1],
                        literal, 0)
    if name in drawn.OPCODES:
        found = re.match(rf"\$(\d+),({NUMBER})\(\$(\d+)\)$", rest)
        return found and class_by(name, int(found[1]), int(found[3]), 0, None, int(found[2], 0))
    if name in drawn.BRANCHES:
        found = re.match(r"\$(\d+),\.([+-]\d+)$", rest)
        return found and class_by(name, int(found[1]), 0, 0, None, (int(found[2]) - 4) // 4)
    if name in table.JUMP:
        return class_by(name, registers[0], registers[1], 0, None, 0)
    known = name in ("trapb", "excb", "mb", "wmb", "fetch", "fetch_m") or name in table.PAL.values()
    return class_by(name, 0, 0, 0, None, 0) if known else None


class Words:
    name, about = "words", "classes of words that GNU as made, and of random ones; their columns"
    counts = {"sample": 12_000, "whole": 500_000}
    is_quick = True
    # A word of each format, of which each bit is changed.
    FORMS = (drawn.memory("ldq", 1, 2, 8), drawn.branch("br", 31, 1), drawn.jump(0, 26, 27),
             drawn.operate("bis", 1, 2, 3), drawn.operate("implver", 31, 0, 3, 0), drawn.TRAPB, 0x63E88000,
             drawn.CALLSYS)

    def cases(self, chooser, count, asked):
        made = [(int(number, 16), class_by_line(line)) for line, number in rows("encodings.tsv")]
        for number, wanted in made:
            if wanted is not None:
                yield number, ("Some", wanted), columns_of(number)
                # No field has a bit above the 32 of a word.
                yield number | 1 << 32, ("Some", wanted), columns_of(number)
        for number in self.FORMS:
            for bit in range(32):
                yield number ^ 1 << bit, class_of(number ^ 1 << bit), columns_of(number ^ 1 << bit)
        for _ in range(count):
            number = self.draw(chooser, chooser.choice(made)[0])
            yield number, class_of(number), columns_of(number)

    def draw(self, chooser, known):
        """Any word, or one that differs in a bit or a field from a good one."""
        way = chooser.random()
        if way < 0.2:
            return chooser.getrandbits(32)
        if way < 0.4:
            return known ^ 1 << chooser.randrange(32)
        if way < 0.48:
            return known & ~(0x7F << 5) | chooser.getrandbits(7) << 5
        if way < 0.5:
            return (0x1C << 26 | chooser.choice((31, 31, chooser.getrandbits(5))) << 21 | chooser.getrandbits(9) << 12
                    | chooser.choice((0, 1, 0x30, 0x32, 0x33)) << 5)
        if way < 0.55:
            return (chooser.choice((0, 0x18 << 26 | 31 << 21 | 31 << 16))
                    | chooser.choice((chooser.getrandbits(16), 0x80 + chooser.getrandbits(6))))
        return known & 0xFC00FFFF | chooser.getrandbits(10) << 16 if way < 0.8 else known & ~31 | chooser.getrandbits(5)

    def difference(self, d, case):
        number, wanted, columns = case
        found = d("alpha_table.Words.class_in")(number)
        if found != wanted:
            return f"{number:08x} is {found}, and {wanted} is wanted"
        if (d("alpha_table.Decoded.decoded")(number) == NONE) != (wanted == NONE):
            return f"{number:08x} of {found} is decoded otherwise"
        if columns is None:
            return ""
        return self.columns(d, found, columns) or self.level(d, number, found)

    def columns(self, d, found, columns):
        kind, uses, sets, span = columns
        used = sum(1 << r for r in range(33) if d("alpha_table.Uses.uses")(found, r))
        one = d("alpha_table.Uses.sets")(found)
        touched = d("alpha_table.Uses.access")(found)
        if touched != NONE:
            of = touched[1]
            touched = of.base, d("alpha_table.Uses.first_byte")(of), of.disp + of.bytes
        given = (d("alpha_table.Code.kind")(found)[1], used, 0 if one == NONE else 1 << one[1], None if touched == NONE
                 else touched)
        return "" if given == (kind, uses, sets, span) else f"{found}: {given}, and {columns} is wanted"

    def level(self, d, number, found):
        wanted = table.level_of([number & (1 << 32) - 1])
        given = d("alpha_words.Levels.level_number")(d("alpha_table.Words.level_in")(found[1]))
        return "" if given == wanted else f"{number:08x}: level {given}, and {wanted} is wanted"


class Values:
    name, about = "values", "results and overflows that qemu-alpha gave, and of random operands; completed values"
    counts = {"sample": 6_000, "whole": 300_000}
    is_quick = True

    def cases(self, chooser, count, asked):
        for name, *numbers, overflowed in rows("values.tsv"):
            a, b, old, result = (int(text, 16) for text in numbers)
            level = 2 if name in table.LEVEL_TWO else 1
            completed = None
            if name.endswith("/v"):
                completed = OPERATES[name][0](a, b, old, level)[:2]
            yield name, level, a, b, old, result, overflowed == "yes", completed
        for _ in range(count):
            name, level = chooser.choice(list(OPERATES)), chooser.choice((1, 2))
            a, b, old = (drawn.number(chooser) for _ in range(3))
            result = OPERATES[name][0](a, b, old, level)
            if name.endswith("/v"):
                yield name, level, a, b, old, result[0], result[2], result[:2]
            else:
                yield name, level, a, b, old, result, False, None

    def difference(self, d, case):
        name, level, a, b, old, wanted, overflows, completed = case
        given = d("alpha_values.Op.result_of")(("One" if level == 1 else "Two",), op_of(name), a, b, old)
        if given != wanted:
            return f"{name} {a:x} {b:x} {old:x} gives {given:x}, and {wanted:x} is wanted"
        if completed is None:
            return ""
        if d("alpha_values.TrapOp.overflow_of")(op_of(name), a, b) != overflows:
            return f"{name} {a:x} {b:x}: overflow is {not overflows}"
        by_wrap, saturated = completed
        for how, value in (("wrap", by_wrap), ("saturate", saturated), ("stop", by_wrap)):
            given = d("alpha_values.TrapOp.completed_of")(op_of(name), a, b, COMPLETIONS[how])
            if given != value:
                return f"{name} {a:x} {b:x} is completed by {how} as {given:x}, and {value:x} is wanted"
        return ""


class Taken:
    name, about = "tests", "the tests of branches and moves, and addresses, of random operands"
    counts = {"sample": 1_500, "whole": 40_000}
    is_quick = True
    TESTS = {"Lbc": lambda a, s: a & 1 == 0, "Lbs": lambda a, s: a & 1 == 1, "Eq": lambda a, s: a == 0,
             "Ne": lambda a, s: a != 0,
             "Lt": lambda a, s: s < 0, "Le": lambda a, s: s <= 0, "Ge": lambda a, s: s >= 0, "Gt": lambda a, s: s > 0}

    def cases(self, chooser, count, asked):
        for _ in range(count):
            yield drawn.number(chooser), chooser.randrange(-1 << 15, 1 << 15), chooser.choice(list(self.TESTS))

    def difference(self, d, case):
        base, displacement, test = case
        given = d("alpha_values.Cond.is_taken")((test,),
                                                base), d("alpha_values.Address.address_of")(base, displacement), \
            d("alpha_values.Address.high_address_of")(base, displacement)
        signed = base - (base >> 63 << 64)
        wanted = self.TESTS[test](base, signed), base + displacement & MASK, base + 65536 * displacement & MASK
        return "" if given == wanted else f"{case}: {given}, and {wanted} is wanted"
