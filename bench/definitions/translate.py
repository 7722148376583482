"""Makes Python of definitions: each declaration becomes a function, by its equations or its fields.

In Python a number is an int, a truth a bool, a list a tuple, a pair a tuple, a record a named tuple, any other case a
tuple with its name in front. Functions that are passed take one argument after another. A fact is a truth; one with
binders is a search, see solving.py. Nothing is translated that isn't reached.
"""
import functools
import keyword
from collections import namedtuple

from . import data
from .core import (KINDS, Binder, Call, Case, Native, Put, Resolver, Tuple, Use, Value, Var, explicit, free, fresh,
                   is_data,
                   is_record, replaced, text_of)
from .natives import HELPERS, NATIVES
from .reader import Unknown
from .rows import Kept, Rows
from .solving import Search
from .sources import Missing, Sources

# An equation or a field: its declaration, its number among all, its first and last line, what stands to its left, and
# what it says. To the left of an equation stand its patterns; of a field its name, and its variable and sort where it
# is a thing.
Line = namedtuple("Line", "of number first last left body")
Left = namedtuple("Left", "name own sort")
records = {}


def field(name):
    """The name of a field in Python."""
    return name + "_" if keyword.iskeyword(name) else name


def record_type(names):
    """The named tuple of records with just these fields."""
    key = tuple(sorted(field(name) for name in names))
    if key not in records:
        records[key] = namedtuple("Record", key)
    return records[key]


def record(**fields):
    return record_type(fields)(**fields)


class Unmatched(Exception):
    """No equation fits, as a case is left out."""


class Translation:
    """All that is reached from some declarations, as functions of Python."""

    def __init__(self, sources=None, is_watched=False):
        self.sources = sources or Sources(NATIVES)
        self.is_watched = is_watched
        self.known, self.functions, self.refused, self.waiting, self.inlined, self.finders = {}, {}, {}, [], {}, {}
        self.space = dict(HELPERS, Unmatched=Unmatched, record_type=record_type, seen=self.saw, data=data, given={})
        self.current = None
        self.note_into(set())

    # ---- which lines are run

    def note_into(self, lines):
        self.seen, self.space["note"] = lines, lines.add

    def saw(self, number):
        self.seen.add(number)
        return True

    def within(self, function, arguments):
        """A function's value, and the lines that were run for it."""
        outer = self.seen
        self.note_into(set())
        try:
            return function(*arguments), frozenset(self.seen)
        finally:
            outer |= self.seen
            self.note_into(outer)

    # ---- what is reached

    def add(self, module, name):
        """Translates a definition and all that it reaches."""
        item = self.sources.item(module, name)
        self.reach(item.of)
        self.finish()
        return item.of

    def finish(self):
        while self.waiting:
            self.define(self.waiting.pop())

    def reach(self, declaration):
        """The name of the Python function of a declaration."""
        if declaration not in self.functions:
            path = declaration.module.name.replace("Rattle.", "").replace(".specs.", ".").replace(".", "_")
            self.functions[declaration] = fresh(f"{path}_{declaration.name}")
            self.waiting.append(declaration)
        return self.functions[declaration]

    def is_named(self, declaration):
        """Whether data.py says why a declaration isn't translated."""
        return key_of(declaration) in data.NAMED

    def define(self, declaration):
        self.current = declaration
        name = self.functions[declaration]
        try:
            if self.is_named(declaration):
                raise Unknown(f"{declaration.place()}: {declaration.name}: {data.NAMED[key_of(declaration)]}")
            for source in (self.source(declaration, name), *self.finders_of(declaration)):
                exec(compile(source, f"<{declaration}>", "exec"), self.space)
        except (Unknown, Missing) as error:
            self.refused[declaration] = str(error)
            self.space[name] = refusal(str(error))
            return
        self.refused.pop(declaration, None)
        self.keep(declaration, name)

    def keep(self, declaration, name):
        """Wraps a function whose values are kept."""
        key = key_of(declaration)
        if key in data.BY_ROWS and self.goes_by_rows(declaration):
            self.space[name] = Rows(self.space[name])
        elif key in data.REMEMBERED | data.BY_CASES or not self.count(declaration):
            own = self.space[name]
            self.space[name] = Kept(own, self) if self.is_watched else functools.lru_cache(Kept.MOST)(own)

    def goes_by_rows(self, declaration):
        """Whether each value is made of the one below alone: the number stands only in the call of it."""
        base, step = self.lines_of(declaration)
        below = step.left[-1].arguments[0]
        call = Call(Use(declaration), [*step.left[:-1], below])
        return below.name not in free(replaced(step.body, call, Value("0")))

    def count(self, declaration):
        """How many arguments a declaration's function takes at once."""
        if not hasattr(declaration, "count"):
            read = declaration.parts()
            explicit = [of for _, of in read.parameters]
            declaration.count = len(read.parts[0][0]) if read.kind == "function" and read.parts else len(explicit)
        return declaration.count

    # ---- declarations

    def source(self, declaration, name):
        read = declaration.parts()
        if is_data(declaration, NATIVES):
            raise Unknown(f"{declaration.place()}: {declaration.name} is a type, and stands where a term should")
        if read.kind == "function":
            return self.equations(declaration, read, name)
        if read.kind == "record":
            names = self.parameters(declaration)
            fact = Call(Use(declaration), [Var(one) for one in names])
            return f"def {name}({', '.join(names)}):\n    return {self.search('some', [fact], Value('True'), True)}\n"
        raise Unknown(f"{declaration.place()}: {declaration.name}: a relation by its cases")

    def equations(self, declaration, read, name):
        if not read.parts:
            raise Unknown(f"{declaration.place()}: {declaration.name} has no equation")
        names = [fresh("a") for _ in range(self.count(declaration))]
        rows = [f"def {name}({', '.join(names)}):"]
        for line in self.lines_of(declaration):
            if len(line.left) != len(names):
                raise Unknown(f"{declaration.module.path}:{line.first}: an equation with another number of patterns")
            rows += self.matched(names, line.left) + self.returning(line)
        return "\n".join(rows + [f"    raise Unmatched({str(declaration)!r})", ""])

    def matched(self, subjects, patterns):
        """The test of an equation, and what the parts of its subjects are called behind it."""
        tests, bound = [], []
        for subject, pattern in zip(subjects, patterns):
            self.match(pattern, subject, tests, bound)
        row = f"    if {' and '.join(tests) or 'True'}:"
        return [row] + [f"        {variable} = {code}" for variable, code in bound]

    def returning(self, line):
        rows, body = [], line.body
        while isinstance(body, Put):
            rows.append(f"        {body.name} = {self.code(body.value)}")
            body = body.body
        return rows + self.noting(line) + [f"        return {self.code(body)}"]

    def noting(self, line):
        return [f"        note({line.number})"] if self.is_watched else []

    # ---- what an argument may be

    def can_find(self, declaration, at, count):
        """Whether a declaration is a fact by equations of so many arguments, each of which takes this one as it is."""
        if declaration.parts().kind != "function" or count != self.count(declaration) or is_data(declaration, NATIVES):
            return False
        return all(isinstance(line.left[at], Var) for line in self.lines_of(declaration))

    def finder(self, declaration, at):
        """The name of the function that gives the values of this argument by which a fact holds, by the other ones."""
        if (declaration, at) not in self.finders:
            self.finders[declaration, at] = f"{self.reach(declaration)}_by_{at}"
            self.waiting.append(declaration)
        return self.finders[declaration, at]

    def finders_of(self, declaration):
        for (of, at), name in list(self.finders.items()):
            if of is declaration:
                yield self.finding(declaration, at, name)

    def finding(self, declaration, at, name):
        names = [fresh("a") for _ in range(self.count(declaration) - 1)]
        rows = [f"def {name}({', '.join(names)}):"]
        for line in self.lines_of(declaration):
            rows += self.matched(names, line.left[:at] + line.left[at + 1:])
            rows += self.noting(line)
            sought = line.left[at]
            found = Search(self, "each", [line.body], sought, binders=[Binder(sought.name, "data", None, {})]).code()
            rows.append(f"        return {found}")
        return "\n".join(rows + [f"    raise Unmatched({str(declaration)!r})", ""])

    # ---- what lines say

    def lines_of(self, declaration):
        """The equations or fields of a declaration, resolved."""
        if declaration not in self.known:
            read, resolver = declaration.parts(), Resolver(declaration, NATIVES)
            make = self.fields if read.kind == "record" else self.sides
            self.known[declaration] = list(make(declaration, read, resolver))
        return self.known[declaration]

    def sides(self, declaration, read, resolver):
        sorts = explicit(read.type)
        for patterns, body, first, last in read.parts:
            scope = {}
            left = [resolver.pattern(pattern, scope, of) for pattern, of in zip(patterns, sorts)]
            yield Line(declaration, self.next_number(), first, last, left, resolver.term(body, scope))

    def fields(self, declaration, read, resolver):
        scope = dict(zip((name for name, _ in read.parameters), map(Var, self.parameters(declaration))))
        for name, of, line in read.parts:
            sort = resolver.sort(of, scope)
            own = fresh(name)
            body = None if sort else resolver.term(of, scope)
            yield Line(declaration, self.next_number(), line, line, Left(name, own, sort), body)
            scope = {**scope, name: Var(own)} if sort or is_record(body) else scope

    def next_number(self):
        self.count_of_lines = getattr(self, "count_of_lines", 0) + 1
        return self.count_of_lines

    def parameters(self, declaration):
        """The variables of a record's parameters."""
        if not hasattr(declaration, "variables"):
            declaration.variables = [fresh(name) for name, _ in declaration.parts().parameters]
            KINDS.update(zip(declaration.variables, (text_of(of) for _, of in declaration.parts().parameters)))
        return declaration.variables

    def change(self, declaration, lines):
        """Puts other lines in the place of a declaration's own, in all functions that say what they say."""
        self.known[declaration] = lines
        waiting, done = [declaration], set()
        while waiting:
            one = waiting.pop()
            if one not in done:
                done.add(one)
                waiting += self.inlined.get(one, ())
        for one in done & set(self.functions):
            self.define(one)
        self.finish()
        self.forget()

    def forget(self):
        """Forgets all values that are kept."""
        for function in self.space.values():
            if hasattr(function, "cache_clear"):
                function.cache_clear()

    # ---- patterns

    def match(self, pattern, subject, tests, bound, closed=lambda term: False):
        """The tests that a subject must pass, and what its parts are then called."""
        if closed(pattern):
            tests.append(f"{subject} == {self.code(pattern)}")
            return
        if isinstance(pattern, Var):
            bound.append((pattern.name, subject))
            return
        if isinstance(pattern, Tuple):
            for n, part in enumerate(pattern.parts):
                self.match(part, f"{subject}[{n}]", tests, bound, closed)
            return
        head, parts = (pattern.head, pattern.arguments) if isinstance(pattern, Call) else (pattern, [])
        if isinstance(head, Case) and len(parts) == head.count:
            tests.append(f"{subject}[0] == {head.name!r}")
            subjects = [f"{subject}[{n}]" for n in range(1, len(parts) + 1)]
        elif isinstance(head, Native) and head.key[1] in SHAPES:
            test, ways = SHAPES[head.key[1]]
            tests.append(test.format(subject))
            subjects = [way.format(subject) for way in ways]
        else:
            raise Unknown(f"{self.current.place()}: {self.current.name}: a pattern of another form")
        for part, way in zip(parts, subjects):
            self.match(part, way, tests, bound, closed)

    # ---- terms

    def code(self, term):
        return getattr(self, "code_" + type(term).__name__)(term)

    def code_Var(self, term):
        return term.name

    def code_Value(self, term):
        return term.code

    def code_Type(self, term):
        raise Unknown(f"{self.current.place()}: {self.current.name}: a type stands where a term should")

    def code_Use(self, term):
        return self.code_Call(Call(term, []))

    def code_Native(self, term):
        return self.code_Call(Call(term, []))

    def code_Case(self, term):
        return self.code_Call(Call(term, []))

    def code_Call(self, term):
        head, arguments = term.head, list(term.arguments)
        while isinstance(head, Call):
            head, arguments = head.head, list(head.arguments) + arguments
        if isinstance(head, Native) and head.key[1] == "◌∷◌" and len(arguments) == 2:
            return self.listed(Call(head, arguments))
        codes = [self.code(one) for one in arguments]
        if isinstance(head, Native):
            made = NATIVES[head.key]
            if made.code is None:
                raise Unknown(f"{self.current.place()}: {self.current.name}: a type stands where a term should")
            return short(head.key[1], codes) or self.applied(made.count, lambda given: made.code.format(*given), codes)
        if isinstance(head, Case):
            return self.applied(head.count, lambda given: f"({', '.join([repr(head.name)] + given)},)", codes)
        if isinstance(head, Use):
            name = self.reach(head.of)
            return self.applied(self.count(head.of), lambda given: f"{name}({', '.join(given)})", codes)
        return self.code(head) + "".join(f"({code})" for code in codes)

    def listed(self, term):
        """A list that is written out, with what stands behind it."""
        items = []
        while (isinstance(term, Call) and isinstance(term.head, Native) and term.head.key[1] == "◌∷◌"
               and len(term.arguments) == 2):
            items.append(self.code(term.arguments[0]))
            term = term.arguments[1]
        is_end = isinstance(term, Native) and term.key[1] == "[]"
        return f"({', '.join(items)},)" if is_end else f"({', '.join(items)}, *{self.code(term)})"

    def applied(self, count, made, codes):
        """A function of so many arguments, with fewer, as many or more."""
        if len(codes) >= count:
            return made(codes[:count]) + "".join(f"({code})" for code in codes[count:])
        missing = [fresh("p") for _ in range(count - len(codes))]
        return "(" + "".join(f"lambda {name}: " for name in missing) + made(codes + missing) + ")"

    def code_Part(self, term):
        if term.name.isdigit():
            return f"{self.code(term.of)}[{term.name}]"
        return f"{self.code(term.of)}.{field(term.name)}"

    def code_Function(self, term):
        return "(" + "".join(f"lambda {name}: " for name in term.names) + self.code(term.body) + ")"

    def code_Put(self, term):
        return f"(lambda {term.name}: {self.code(term.body)})({self.code(term.value)})"

    def code_Tuple(self, term):
        return f"({', '.join(self.code(part) for part in term.parts)},)"

    def code_Make(self, term):
        names = tuple(sorted(term.fields, key=field))
        own = "Record_" + "_".join(names)
        self.space[own] = record_type(names)
        return f"{own}({', '.join(self.code(term.fields[name]) for name in names)})"

    def code_Change(self, term):
        fields = ", ".join(f"{field(name)}={self.code(part)}" for name, part in term.fields.items())
        return f"{self.code(term.base)}._replace({fields})"

    # ---- facts

    def code_Both(self, term):
        return "(" + " and ".join(self.code(part) for part in term.parts) + ")"

    def code_Implies(self, term):
        return self.search("all", [], term)

    def code_Named(self, term):
        return self.search("some", [term], Value("True"))

    def code_Quantified(self, term):
        return self.search("all", [], term) if term.kind == "all" else self.search("some", [term], Value("True"))

    def search(self, kind, premises, conclusion, is_whole=False):
        return Search(self, kind, premises, conclusion, is_whole).code()


# A native case as a test of a subject, and how its parts are got.
SHAPES = {"zero": ("{0} == 0", []), "suc": ("{0} > 0", ["({0} - 1)"]), "[]": ("not {0}", []),
          "◌∷◌": ("{0}", ["{0}[0]", "{0}[1:]"]), "true": ("{0}", []), "false": ("not {0}", []),
          "pos": ("{0} >= 0", ["{0}"]), "negsuc": ("{0} < 0", ["(-{0} - 1)"])}


def short(name, codes):
    """A power of two numbers that are written out, and a quotient or remainder by such a number, as Python has them."""
    if len(codes) == 2 and codes[1].isdigit() and int(codes[1]):
        if name == "◌^◌" and codes[0].isdigit() and int(codes[1]) <= 1 << 10:
            return str(int(codes[0]) ** int(codes[1]))
        if name in ("◌/◌", "◌%◌"):
            return f"({codes[0]} {'//' if name == '◌/◌' else '%'} {codes[1]})"
    return None


def key_of(declaration):
    """A short name of a declaration: `alpha_seq.Run.after`."""
    return f"{declaration.module.name.removeprefix('Rattle.').replace('.specs.', '.')}.{declaration.name}"


def refusal(text):
    def refused(*arguments):
        raise Unknown(text)
    return refused
