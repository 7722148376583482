"""An instruction for GNU as in the source language of the product.

A symbol in a line is marked: MARK, its name, MARK, and the number added; who writes the lines puts names there.
"""
import itertools
import re

from . import gas, table

MARK = "\x01"
GP, AT, PV = 29, 28, 27
USES_GP = re.compile(r"(?<![\w$\x01])\$29(?![\w$])")


class Untold(Exception):
    """An instruction that can't be said in the source language, and why."""


ALIASES = {"or": "bis", "andnot": "bic", "xornot": "eqv", "draint": "trapb", "rduniq": "rdunique", "wruniq": "wrunique",
           "ldi": "lda"}
ALIASES.update({f"{name}v": f"{name}/v" for name in ("addl", "addq", "subl", "subq", "mull", "mulq", "negl", "negq")})
OPERATE = {name for rows in table.OPERATE.values() for name in rows.values()} - table.UNARY
MEMORY, BRANCHES = set(table.MEMORY.values()), set(table.BRANCH.values())
PAIRS = {"negl": "subl", "negq": "subq", "negl/v": "subl/v", "negq/v": "subq/v", "not": "ornot", "sextl": "addl"}
ALONE = {"nop", "unop", "trapb", "excb", "mb", "wmb"} | set(table.PAL.values())
# The names of the source language, those of pseudo-operations too.
NAMES = (OPERATE | table.UNARY | MEMORY | BRANCHES | ALONE | set(table.JUMP) | set(PAIRS) | set(table.FETCHES.values())
         | {"mov", "clr", "call_pal"})
DIVISIONS = {f"{what}{size}{sign}" for what in ("div", "rem") for size in "lq" for sign in ("", "u")}
TRIGGER = re.compile(r"(addl|addq|subl|subq|mull|mulq|negl|negq)(?:v|/v)\Z")
BARRIERS = {"trapb", "excb", "draint", "call_pal", "rduniq", "wruniq"} | set(table.PAL.values())
FLOATING = ("ldt", "lds", "ldf", "ldg", "stt", "sts", "stf", "stg", "cpys", "cvt", "addt", "adds", "subt", "subs",
            "mult", "muls", "divt", "divs", "cmpt", "fcmov", "fb", "itof", "ftoi", "sqrt", "mf_fpcr", "mt_fpcr", "fnop")
LITERAL_USES = {None, "lituse_base", "lituse_bytoff", "lituse_addr"}
JUMP_USES = {None, "lituse_jsr", "lituse_jsrdirect"}


def is_of_alpha(name):
    """Whether an instruction of GNU as has the name, at least of those that compilers write."""
    return name in NAMES or name in ALIASES or name in DIVISIONS or name == "ldgp" or name.startswith(FLOATING)


def register(text):
    if text in gas.REGISTERS:
        return gas.REGISTERS[text]
    if text.startswith("$f") and text[2:].isdigit():
        raise Untold(f"{text} is a register of floating point: compile integer code with -mno-fp-regs -msoft-float")
    raise Untold(f"`{text}` is no integer register")


def number(text, low, high):
    value = gas.number_of(text)
    if value is None:
        raise Untold(f"`{text}` is no number")
    if not low <= value <= high:
        raise Untold(f"{value} is not in {low} to {high}")
    return value


def based(text):
    """What stands before the parentheses of an address, and the register in them, None where there are none."""
    if not text.endswith(")") or "(" not in text:
        return text.strip(), None
    offset, _, inner = text[:-1].rpartition("(")
    return offset.strip(), register(inner.strip())


def marked(expression):
    """The E of the source language for a symbol."""
    if abs(expression.number) >= 1 << 31:
        raise Untold(f"{expression.number} is too far from {expression.symbol}")
    return f"{MARK}{expression.symbol}{MARK}{expression.number:+d}"


def address_lines(target, expression):
    """The address of a symbol in a register."""
    symbol = marked(expression)
    return [f"ldah ${target},%hi({symbol})($31)", f"lda ${target},%lo({symbol})(${target})"]


def sets_up_gp(statement):
    """Whether an instruction makes of $29 the pointer to a table of addresses."""
    return statement.name == "ldgp" or statement.relocation == "gpdisp"


def namers(statements, wanted):
    """The statements that name a register, but for those that shadowfix made: a /V word into it, a barrier, and a move
    from it. Behind these nothing is in it that anybody needs."""
    names = sorted(name for name, number_of_it in gas.REGISTERS.items() if number_of_it == wanted)
    named = re.compile("(?:" + "|".join(map(re.escape, names)) + r")(?![\w$])")
    said = (statement for statement in statements if statement.name)
    # Whether a repair begins at the one before, and at the one before that.
    ahead, before = list(itertools.islice(said, 3)), (False, False)
    while ahead:
        begins = len(ahead) == 3 and is_repair(*ahead)
        if (not begins and not before[1]
            and any(named.search(text) for text in ahead[0].operands if not text.startswith('"'))):
            yield ahead[0]
        before = begins, before[0]
        ahead = [*ahead[1:], *itertools.islice(said, 1)]


def is_repair(one, barrier, move):
    return (TRIGGER.match(one.name) and barrier.name in BARRIERS and move.name == "mov"
            and move.operands[:1] == one.operands[-1:])


def high_of(statement):
    """The symbol with a number whose upper half an instruction makes by itself, or None."""
    if statement.relocation != "gprelhigh" or len(statement.operands) != 2:
        return None
    return gas.expression_of(statement.operands[1].rpartition("(")[0])


class Translator:
    """Translates the instructions of one file. `spare_at` says that nothing in it is kept in $28, `has_gp` that $29 is
    set up in it as the pointer to a table of addresses, which the product hasn't; `splits` that lower halves of
    addresses stand in `lda` alone, as the source of a module has them."""

    def __init__(self, statements, splits=False):
        self.has_gp, self.splits, self.is_level_two = False, splits, False
        # The symbols, with the numbers added, whose halves stand in words apart: (symbol, number) of each. Of the lower
        # halves it is those that may lie behind the upper half of another number.
        self.highs, self.lows = set(), set()
        self.spare_at = sum(1 for _ in namers(self.looked_at(statements), AT)) == 0

    def looked_at(self, statements):
        """The statements, each looked at for what the translation of all depends on."""
        for statement in statements:
            self.has_gp |= sets_up_gp(statement)
            high = high_of(statement)
            if high is not None:
                self.highs.add(high)
            yield statement

    def lines(self, statement):
        """The lines for an instruction; none where it only sets up $29, which nothing here needs."""
        if sets_up_gp(statement):
            return []
        lines = self.told(statement)
        if self.has_gp and any(USES_GP.search(line) for line in lines):
            raise Untold("$29 is used as a value, and has none here: compile with -fno-jump-tables")
        return lines

    def told(self, statement):
        name = ALIASES.get(statement.name, statement.name)
        operands, relocation = statement.operands, statement.relocation
        if name in MEMORY:
            return self.memory(name, operands, relocation)
        if name in table.JUMP:
            return self.jump(name, operands, relocation)
        if name in BRANCHES:
            return [self.branch(name, operands, relocation)]
        if relocation is not None and not name.startswith(FLOATING):
            raise Untold(f"!{relocation} at {statement.name}")
        return self.plain(name, statement.name, operands)

    def plain(self, name, written, operands):
        if name in ALONE and not operands:
            return [name]
        if name in OPERATE:
            return [self.operate(name, operands)]
        if name in PAIRS and len(operands) == 2:
            return [self.operate(PAIRS[name], ["$31", *operands])]
        if name in table.UNARY:
            self.is_level_two |= name in table.LEVEL_TWO
            return [self.unary(name, operands)]
        if name == "mov" and len(operands) == 2:
            source = operands[0] if operands[0].startswith("$") else number(operands[0], -32768, 32767)
            return [f"mov {source if isinstance(source, int) else f'${register(source)}'},${register(operands[1])}"]
        if name == "clr" and len(operands) == 1:
            return [f"clr ${register(operands[0])}"]
        if name in ("fetch", "fetch_m") and len(operands) == 1:
            offset, base = based(operands[0])
            if offset in ("", "0") and base is not None:
                return [f"{name} 0(${base})"]
        if name == "call_pal" and len(operands) == 1:
            function = number(operands[0], 0, 0x3FFFFFF)
            if function not in table.PAL:
                raise Untold(f"call_pal {function:#x} is not in the instruction table")
            return [table.PAL[function]]
        if name in DIVISIONS:
            return self.division(name, operands)
        raise Untold(self.unknown(written))

    @staticmethod
    def unknown(name):
        if name == "stt":
            return ("`stt` is of floating point, which the product doesn't have: where a function with variable "
                    "arguments saves registers by it, compile with -mno-fp-regs")
        if name.startswith(FLOATING):
            return f"`{name}` is of floating point, which the product doesn't have"
        if name in ("rpcc", "rc", "rs", "wh64", "wh64en", "ecb"):
            return f"`{name}` is not in the instruction table"
        return f"`{name}` with these operands is not known here"

    @staticmethod
    def operate(name, operands):
        if len(operands) == 2:
            operands = [*operands, operands[0]]
        if len(operands) != 3:
            raise Untold(f"`{name}` with {len(operands)} operands")
        first, second, last = operands
        middle = f"${register(second)}" if second.startswith("$") else number(second, 0, 255)
        return f"{name} ${register(first)},{middle},${register(last)}"

    @staticmethod
    def unary(name, operands):
        if name == "implver" and len(operands) == 1:
            return f"implver ${register(operands[0])}"
        if name == "implver" or len(operands) != 2:
            raise Untold(f"`{name}` with {len(operands)} operands")
        first = operands[0]
        source = f"${register(first)}" if first.startswith("$") else number(first, 0, 255)
        return f"{name} {source},${register(operands[1])}"

    def memory(self, name, operands, relocation):
        if len(operands) != 2:
            raise Untold(f"`{name}` with {len(operands)} operands")
        target = register(operands[0])
        offset, base = based(operands[1])
        expression = gas.expression_of(offset or "0")
        if expression is None:
            raise Untold(f"`{offset}` is no number and no symbol with a number")
        if expression.symbol is None:
            return [self.numbered(name, target, expression.number, base, relocation)]
        return self.symbolic(name, target, expression, base, relocation)

    @staticmethod
    def numbered(name, target, displacement, base, relocation):
        if relocation not in LITERAL_USES:
            raise Untold(f"!{relocation} at a number")
        if not -32768 <= displacement <= 32767:
            raise Untold(f"the displacement {displacement} is not in -32768 to 32767")
        return f"{name} ${target},{displacement}(${31 if base is None else base})"

    def symbolic(self, name, target, expression, base, relocation):
        symbol = marked(expression)
        if relocation == "gprelhigh" and name == "ldah" and base == GP:
            return [f"ldah ${target},%hi({symbol})($31)"]
        if relocation == "gprellow" and base not in (None, GP) and name != "ldah":
            return self.by_lower_half(name, target, expression, base)
        if (relocation == "literal" and name == "ldq" and base == GP
            or relocation is None and name == "lda" and base is None):
            return address_lines(target, expression)
        if relocation in ("gprel", "gprel16") and base == GP or relocation is None and base is None:
            return self.through(name, target, expression)
        raise Untold(f"`{name}` with the symbol {expression.symbol}" + (f" and !{relocation}" if relocation else "") +
                     " can't be said here")

    def through(self, name, target, expression):
        """An access to a symbol's bytes: the address goes through the target of a load, or through $28."""
        if name == "ldah":
            raise Untold("`ldah` with a symbol needs !gprelhigh")
        if name == "lda":
            return address_lines(target, expression)
        by, symbol = self.free(name, target), marked(expression)
        if self.splits:
            return [*address_lines(by, expression), f"{name} ${target},0(${by})"]
        return [f"ldah ${by},%hi({symbol})($31)", f"{name} ${target},%lo({symbol})(${by})"]

    def by_lower_half(self, name, target, expression, base):
        """An access to a symbol's bytes, or their address, where `base` has the upper half of an address near it."""
        symbol = marked(expression)
        if not self.splits:
            self.lows.add(expression)
            return [f"{name} ${target},%lo({symbol})(${base})"]
        near = self.half_near(expression)
        distance = expression.number - near.number
        if name == "lda" and distance == 0:
            return [f"lda ${target},%lo({symbol})(${base})"]
        by = target if name == "lda" else self.free(name, target)
        return [f"lda ${by},%lo({marked(near)})(${base})", f"{name} ${target},{distance}(${by})"]

    def half_near(self, expression):
        """The symbol with a number by which an address is made, with a distance added to it. Where the file has one
        upper half of the symbol it is that one, whose two halves fit together wherever a link puts the data."""
        highs = [high for high in self.highs if high.symbol == expression.symbol]
        if len(highs) == 1 and abs(expression.number - highs[0].number) <= 32_767:
            return highs[0]
        self.lows.add(expression)
        return expression

    def free(self, name, target):
        """A register for the address of an access: what it loads, or $28 where nothing in the file is kept there."""
        if not name.startswith("st") and target != 31 and not name.endswith("_l"):
            return target
        if not self.spare_at:
            raise Untold("this access needs a register for its address, and the file uses $28: compile with " +
                         ("-ffixed-28" if self.splits else "-mlarge-data or with -ffixed-28"))
        return AT

    @staticmethod
    def branch(name, operands, relocation):
        if relocation not in (None, "samegp"):
            raise Untold(f"!{relocation} at {name}")
        if name in ("br", "bsr") and len(operands) == 1:
            operands = ["$26" if name == "bsr" else "$31", *operands]
        if len(operands) != 2:
            raise Untold(f"`{name}` with {len(operands)} operands")
        expression = gas.expression_of(operands[1])
        if expression is None or expression.symbol in (None, "."):
            raise Untold(f"`{operands[1]}` is no label to branch to")
        return f"{name} ${register(operands[0])},{marked(expression)}"

    def jump(self, name, operands, relocation):
        if relocation not in JUMP_USES:
            raise Untold(f"!{relocation} at {name}")
        if name == "ret" and not operands:
            return ["ret"]
        if operands and not operands[0].startswith("("):
            link, operands = register(operands[0]), operands[1:]
        else:
            link = 26 if name in ("jsr", "jsr_coroutine") else 31
        if name == "jsr" and len(operands) == 1 and not operands[0].startswith(("(", "$")):
            expression = gas.expression_of(operands[0])
            if expression is None or expression.symbol is None:
                raise Untold(f"`{operands[0]}` is no function to jump to")
            return [*address_lines(PV, expression), f"jsr ${link},(${PV}),0"]
        offset, base = based(operands[0]) if operands else ("", None)
        if base is None or offset or len(operands) > 2:
            raise Untold(f"`{name}` with these operands")
        hint = gas.number_of(operands[1]) if len(operands) == 2 else 0
        if hint is not None and not 0 <= hint <= 16383:
            raise Untold(f"the hint {hint} is not in 0 to 16383")
        return [f"{name} ${link},(${base}),{hint or 0}"]

    @staticmethod
    def division(name, operands):
        """A macro of GNU as: a call of a routine that takes $24 and $25, leaves $27, and returns by $23."""
        if [register(text) for text in operands] != [24, 25, 27]:
            raise Untold(f"`{name}` is a macro, and taken only as `{name} $24,$25,$27`")
        return [*address_lines(PV, gas.Expression(f"__{name}", 0)), f"jsr $23,(${PV}),0"]
