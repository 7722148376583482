"""Random C programs with much signed arithmetic, each made from a number: what bench/repairs.py repairs.

A program prints numbers and ends. Values are held small by masks and shifts, so that few programs end by an overflow.
They have functions of one to eight parameters, static and global, some called through pointers or by themselves; loops,
`switch`, early returns, arrays of all sizes, structures, and arrays in the stack whose size is known only there.
"""
import random

TYPES = {"int": 31, "long": 63, "short": 15, "signed char": 7}
# How many bits the values of variables have at most, by their type.
KEPT = {"int": 21, "long": 42, "short": 14, "signed char": 6}
ARRAYS = {"g": "long", "h": "int", "s": "short", "b": "signed char"}
SIZE = 16


class Made:
    """One program, as lines of C."""

    def __init__(self, number):
        self.random = random.Random(number)
        self.lines, self.functions, self.count = [], [], 0
        self.overflows = self.random.random() < 0.1
        self.has_pointers = self.random.random() < 0.5

    def text(self):
        self.lines.append('#include "io.h"')
        for name, type_ in ARRAYS.items():
            values = ", ".join(str(self.random.randrange(-(1 << KEPT[type_] - 2), 1 << KEPT[type_] - 2))
                               for _ in range(SIZE))
            self.lines.append(f"static {type_} {name}[{SIZE}] = {{{values}}};")
        self.lines.append(f"struct pair {{ int first; long second; short third; }} pairs[{SIZE}];")
        for _ in range(self.random.choice((1, 2, 2, 3, 4, 6))):
            self.function()
        self.main()
        return "\n".join(self.lines) + "\n"

    def chance(self, share):
        return self.random.random() < share

    def fresh(self, front):
        self.count += 1
        return f"{front}{self.count}"

    def function(self):
        name, type_ = self.fresh("f"), self.random.choice(("int", "long"))
        parameters = [(self.fresh("p"), self.random.choice(("int", "long", "long", "short")))
                      for _ in range(self.random.randrange(1, 9))]
        kind = self.random.choice(("", "static ", "static __attribute__((noinline)) ", "__attribute__((noinline)) "))
        body = Body(self, dict(parameters), type_)
        self.lines.append(f"{kind}{type_} {name}({', '.join(f'{kind} {name}' for name, kind in parameters)})")
        self.lines.append("{")
        recurs = self.chance(0.2)
        if recurs:
            self.lines += ["    static int depth;", "    if (depth > 3) return 1;", "    depth = (depth + 1) & 7;"]
        self.lines += body.lines(name if recurs else None, [kind for _, kind in parameters])
        if recurs:
            self.lines.append("    depth = 0;")
        self.lines += [f"    return {body.reduced(type_)};", "}"]
        self.functions.append((name, type_, [kind for _, kind in parameters]))

    def main(self):
        pointers = [one for one in self.functions
                    if one[2] == self.functions[-1][2] and one[1] == self.functions[-1][1]]
        self.lines += ["int main(void)", "{", "    long total = 0;", "    int round;"]
        if self.has_pointers:
            last = self.functions[-1]
            self.lines.append(f"    static {last[1]} (*const volatile table[])({', '.join(last[2])}) = "
                              f"{{{', '.join(one[0] for one in pointers)}}};")
        self.lines.append(f"    for (round = 0; round < {self.random.randrange(1, 6)}; round++) {{")
        for name, type_, parameters in self.functions:
            arguments = ", ".join(f"{self.random.randrange(-99, 99)} + round * {self.random.randrange(1, 30)}"
                                  for _ in parameters)
            self.lines.append(f"        total = (total + {name}({arguments})) & 0xffffffffff;")
            if self.has_pointers and name == self.functions[-1][0]:
                self.lines.append(f"        total = (total ^ table[round % {len(pointers)}]({arguments})) & "
                                  f"0xffffffffff;")
            self.lines.append("        print(total, '\\n');")
        self.lines.append("    }")
        for name in ARRAYS:
            self.lines.append(f"    for (round = 0; round < {SIZE}; round++) total = (total * 31 + {name}[round]) & "
                              f"0xffffffffff;")
        self.lines += [f"    for (round = 0; round < {SIZE}; round++) total = (total * 31 + pairs[round].first + "
                       f"pairs[round].second) & 0xffffffffff;",
                       "    print(total, '\\n');", "    return total & 63;", "}"]


class Body:
    """The statements of a function. `names` has its variables with their types."""

    def __init__(self, made, names, type_):
        self.made, self.random, self.names, self.type = made, made.random, dict(names), type_
        self.constants, self.depth, self.budget = set(), 0, made.random.randrange(2, 24)

    def lines(self, itself, parameters):
        self.itself, self.parameters = itself, parameters
        found = []
        for name, kind in self.names.items():
            found.append(f"    {name} = {self.held(name, TYPES[kind], kind)};")
        for _ in range(self.random.randrange(1, 9)):
            name, kind = self.made.fresh("v"), self.random.choice(list(TYPES))
            found.append(f"    {kind} {name} = {self.reduced(kind)};")
            self.names[name] = kind
        if self.made.chance(0.1):
            found.append(f"    long room[({self.variable('int')[0]} & 7) + {SIZE}];")
            found.append(f"    for (int z = 0; z < {SIZE}; z++) room[z] = z * {self.random.randrange(1, 99)};")
            self.room = True
        while self.budget > 0:
            found += self.statement("    ")
        return found

    room = False

    def statement(self, margin):
        self.budget -= 1
        kinds = [self.assignment] * 6 + [self.branch] * 2 + [self.loop, self.loop, self.switch, self.early]
        return (self.assignment if self.depth > 2 else self.random.choice(kinds))(margin)

    def block(self, margin):
        self.depth += 1
        found = [line for _ in range(self.random.randrange(1, 4)) for line in self.statement(margin + "    ")]
        self.depth -= 1
        return found

    def assignment(self, margin):
        target, kind = self.target()
        return [f"{margin}{target} = {self.reduced(kind)};"]

    def target(self):
        """What may be assigned, and its type."""
        draw = self.random.random()
        if draw < 0.65:
            names = [name for name in self.names if name not in self.constants]
            name = self.random.choice(names)
            return name, self.names[name]
        if draw < 0.8 or not self.room:
            name = self.random.choice(list(ARRAYS))
            return (f"{name}[{self.index()}]", ARRAYS[name]) if self.made.chance(0.7) else self.field()
        return f"room[{self.index()}]", "long"

    def field(self):
        return (self.random.choice((("pairs[%s].first", "int"), ("pairs[%s].second", "long"),
                                    ("pairs[%s].third", "short")))[0] % self.index(), "short")

    def index(self):
        return f"{self.variable()[0]} & {SIZE - 1}" if self.made.chance(0.7) else str(self.random.randrange(SIZE))

    def branch(self, margin):
        found = [f"{margin}if ({self.test()}) {{", *self.block(margin), f"{margin}}}"]
        if self.made.chance(0.5):
            found[-1] += " else {"
            found += [*self.block(margin), f"{margin}}}"]
        return found

    def loop(self, margin):
        name = self.made.fresh("i")
        front = (f"{margin}for (int {name} = {self.random.randrange(4)}; {name} < {self.random.randrange(2, 9)}; "
                 f"{name}{self.random.choice(('++', ' += 2'))}) {{")
        self.names[name] = "int"
        self.constants.add(name)
        found = [front, *self.block(margin)]
        if self.made.chance(0.2):
            found.append(f"{margin}    if ({self.test()}) {self.random.choice(('break', 'continue'))};")
        del self.names[name]
        return [*found, f"{margin}}}"]

    def switch(self, margin):
        found = [f"{margin}switch ({self.variable()[0]} & {self.random.choice((3, 7, 15))}) {{"]
        for case in self.random.sample(range(16), self.random.randrange(2, 10)):
            found += [f"{margin}case {case}:", *self.block(margin)]
            if self.made.chance(0.7):
                found.append(f"{margin}    break;")
        return [*found, f"{margin}}}"]

    def early(self, margin):
        if self.depth or self.made.chance(0.5):
            return self.assignment(margin)
        return [f"{margin}if ({self.test()} && {self.test()})", f"{margin}    return {self.reduced(self.type)};"]

    def test(self):
        one, other = self.expression(2)[0], self.expression(1)[0]
        return f"{one} {self.random.choice(('<', '>', '==', '!=', '<=', '>='))} {other}"

    def variable(self, kind=None):
        names = [name for name, type_ in self.names.items() if kind in (None, type_)] or list(self.names)
        name = self.random.choice(names)
        return name, KEPT[self.names[name]], self.names[name]

    def reduced(self, kind):
        """An expression that fits a variable of the type."""
        text, bits = self.expression(self.random.randrange(1, 5))[:2]
        return self.held(text, bits, kind)

    def held(self, text, bits, kind):
        limit = KEPT[kind]
        if bits <= limit:
            return text
        if self.made.overflows and self.made.chance(0.05):
            return text
        draw = self.random.random()
        if draw < 0.4:
            return f"({text}) >> {bits - limit}"
        if draw < 0.8:
            return f"({text}) & {(1 << limit) - 1}"
        return f"({text}) % {self.random.randrange(3, 1 << limit - 1)}"

    def expression(self, depth):
        """A text, how many bits its value has at most, and its type after promotion: int or long."""
        if depth <= 0 or self.made.chance(0.15):
            return self.leaf()
        draw = self.random.random()
        if draw < 0.75:
            return self.sum_or_product(depth)
        if draw < 0.82:
            return self.quotient(depth)
        if draw < 0.9:
            text, bits, kind = self.expression(depth - 1)
            return (f"-({text})", bits + 1, kind) if bits < TYPES[kind] - 1 else (f"({text} >> 3)", bits, kind)
        if draw < 0.95 and self.made.functions:
            return self.call(*self.random.choice(self.made.functions[-4:]))
        if self.itself and draw < 0.96 and self.depth == 0:
            return self.call(self.itself, self.type, self.parameters)
        one, other = self.expression(depth - 1), self.expression(depth - 1)
        return f"({self.test()} ? {one[0]} : {other[0]})", max(one[1], other[1]), wider(one[2], other[2])

    def leaf(self):
        draw = self.random.random()
        if draw < 0.6:
            name, bits, kind = self.variable()
            return name, bits, wider("int", kind)
        if draw < 0.75:
            return f"{self.random.randrange(1, 1000)}", 10, "int"
        if draw < 0.85 and self.room:
            return f"room[{self.index()}]", KEPT["long"], "long"
        name = self.random.choice(list(ARRAYS))
        return f"{name}[{self.index()}]", KEPT[ARRAYS[name]], wider("int", ARRAYS[name])

    def sum_or_product(self, depth):
        one, other = self.expression(depth - 1), self.expression(depth - 1)
        kind = wider(one[2], other[2])
        operator = self.random.choice("++--**")
        bits = one[1] + other[1] if operator == "*" else max(one[1], other[1]) + 1
        if bits < TYPES[kind]:
            return f"({one[0]} {operator} {other[0]})", bits, kind
        if bits < 63 and self.made.chance(0.6):
            return f"((long){one[0]} {operator} {other[0]})", bits, "long"
        masks = min(TYPES[kind] // 2 - 1, one[1]), min(TYPES[kind] // 2 - 1, other[1])
        return (f"(({one[0]} & {(1 << masks[0]) - 1}) {operator} ({other[0]} & {(1 << masks[1]) - 1}))", sum(masks) + 1,
                kind)

    def quotient(self, depth):
        one, other = self.expression(depth - 1), self.expression(0)
        divisor = f"{self.random.randrange(2, 99)}" if self.made.chance(0.6) else f"(({other[0]} & 63) + 1)"
        return f"({one[0]} {self.random.choice('/%')} {divisor})", one[1], wider(one[2], other[2])

    def call(self, name, kind, parameters):
        return f"{name}({', '.join(self.reduced_leaf(parameter) for parameter in parameters)})", KEPT[kind], kind

    def reduced_leaf(self, kind):
        text, bits = self.expression(1)[:2] if self.made.chance(0.4) else self.leaf()[:2]
        return self.held(text, bits, kind)


def wider(one, other):
    return "long" if "long" in (one, other) else "int"


def program(number):
    """The text of the program of a number."""
    return Made(number).text()
