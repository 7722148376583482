"""Facts with binders, as loops of Python over what the facts themselves leave.

`(x : T) → P → Q` holds where Q does for every x with P; `(x : T) × P` where some x has P. Which x may have P is read
off P: a solution of an equation, numbers below a bound, the cases of an enum; else the members of a domain that data.py
gives for DEFINITION.VARIABLE. To see more of P, definitions of one equation and records of facts are put in the place
of their names; one of several equations, as a run, becomes a function of its other arguments that gives all x with P.
What has no such bound is refused.
"""
from . import data
from .core import (Binder, Both, Call, Case, Implies, Make, Named, Native, Quantified, Tuple, Use, Value, Var, free,
                   fresh, is_data, is_record, put)
from .natives import NATIVES
from .reader import Unknown

DEEPEST = 8
GATHERED = {"some": "any", "all": "all", "each": "tuple"}
EQUATION, INEQUATION, LESS, MOST, SUM, NOT, FALSE = "◌≡◌", "◌≢◌", "◌<◌", "◌≤◌", "◌+◌", "¬◌", "⊥"


def native(term):
    """The name of a native thing and its arguments."""
    if isinstance(term, Call) and isinstance(term.head, Native):
        return term.head.key[1], term.arguments
    return (term.key[1], []) if isinstance(term, Native) else (None, [])


class Search:
    """One loop: its variables, what they must have, and what is said of those that have it."""

    def __init__(self, translation, kind, premises, conclusion, is_whole=False, binders=()):
        self.translation, self.kind, self.is_whole = translation, kind, is_whole
        self.binders, self.premises, self.rows = list(binders), [], []
        for premise in premises:
            self.enter(premise, 0, is_whole)
        self.conclusion = self.peeled(conclusion)

    # ---- taking apart

    def peeled(self, term):
        """The conclusion behind all binders and premises of a fact that is said of all."""
        while True:
            name, parts = native(term)
            if isinstance(term, Quantified) and term.kind == "all":
                self.binders += term.binders
                term = term.body
            elif isinstance(term, Implies):
                self.enter(term.left, 0)
                term = term.right
            elif name == INEQUATION:
                self.enter(Call(Native(("mathlib.Core.Path", EQUATION)), parts), 0)
                return Value("False")
            elif name == NOT:
                self.enter(parts[0], 0)
                return Value("False")
            else:
                return Value("False") if name == FALSE else term

    def enter(self, term, depth, is_own=False):
        """A premise, as its parts."""
        if isinstance(term, Both):
            for part in term.parts:
                self.enter(part, depth)
        elif isinstance(term, Quantified) and term.kind == "some":
            self.binders += term.binders
            self.enter(term.body, depth)
        elif isinstance(term, Named):
            self.enter(put(term.body, {term.name: self.enter_named(term.fact, depth)}), depth)
        elif not self.unfolded(term, depth, is_own):
            self.premises.append(term)

    def unfolded(self, term, depth, is_own):
        """Puts what a definition says in the place of its name, where a variable is looked for by it."""
        if not (isinstance(term, Call) and isinstance(term.head, Use)) or depth > DEEPEST:
            return False
        of = term.head.of
        unknown = {binder.name for binder in self.binders}
        if not is_own and not unknown & free(term) or len(term.arguments) != self.translation.count(of):
            return False
        read = of.parts()
        if of is self.translation.current and not is_own or is_data(of, NATIVES) or self.is_named(of):
            return False
        if not is_own:
            self.translation.inlined.setdefault(of, set()).add(self.translation.current)
        if read.kind == "record":
            self.enter_record(of, term.arguments, depth)
            return True
        return read.kind == "function" and self.enter_equation(of, term.arguments, depth)

    def is_named(self, of):
        return of in self.translation.refused or self.translation.is_named(of)

    def enter_equation(self, of, arguments, depth):
        lines = self.translation.lines_of(of)
        if (len(lines) != 1 or not all(isinstance(pattern, Var) for pattern in lines[0].left)
            or not says_more(lines[0].body)):
            return False
        self.note(lines[0])
        known = dict(zip((pattern.name for pattern in lines[0].left), arguments))
        self.enter(put(lines[0].body, known), depth + 1)
        return True

    def enter_record(self, of, arguments, depth, is_named=False):
        """The fields of a record: those that are things are variables, the others premises. Gives the things by their
        names, and those of records among the fields, where a later field or who names this record may name them."""
        known = dict(zip(self.translation.parameters(of), arguments))
        scope = dict(zip((name for name, _ in of.parts().parameters), arguments))
        lines, things = self.translation.lines_of(of), {}
        for n, line in enumerate(lines):
            name, own, sort = line.left
            if sort:
                things[name] = known[own] = Var(fresh(name))
                self.binders.append(Binder(known[own].name, sort, f"{of.name}.{name}", {**scope, **things}))
            elif line.body is not None:
                self.note(line)
                fact = put(line.body, known)
                if is_record(fact) and (is_named or any(own in free(later.body) for later in lines[n + 1:])):
                    things[name] = known[own] = self.enter_named(fact, depth)
                else:
                    self.enter(fact, depth + 1)
        return Make(things)

    def enter_named(self, fact, depth):
        """A record that is a premise, and whose things have names behind it."""
        self.translation.inlined.setdefault(fact.head.of, set()).add(self.translation.current)
        return self.enter_record(fact.head.of, fact.arguments, depth + 1, True)

    def note(self, line):
        if self.translation.is_watched:
            self.premises.append(Call(Value("seen"), [Value(str(line.number))]))

    # ---- loops

    def code(self):
        unknown = {binder.name: binder for binder in self.binders}
        while True:
            self.filter(unknown)
            if not unknown:
                break
            self.solve(unknown) or self.bound(unknown) or self.found(unknown) or self.run_through(unknown)
        return self.joined()

    def joined(self):
        conclusion = self.translation.code(self.conclusion)
        if not any(row.startswith("for") for row in self.rows):
            tests = [row.removeprefix("if ") for row in self.rows]
            if self.kind == "some":
                return "(" + (" and ".join(tests) or "True") + ")"
            return f"({conclusion} if {' and '.join(tests)} else True)" if tests else conclusion
        rows = self.rows if self.rows[0].startswith("for") else ["for _ in (0,)"] + self.rows
        return f"{GATHERED[self.kind]}({conclusion} {' '.join(rows)})"

    def filter(self, unknown):
        """Premises without an unknown variable are tests."""
        waiting = []
        for premise in self.premises:
            if free(premise) & set(unknown):
                waiting.append(premise)
            else:
                self.rows.append(f"if {self.translation.code(premise)}")
        self.premises = waiting

    def solve(self, unknown):
        """The solutions of an equation with a known side, whose other side is made of cases and variables."""
        for premise in self.premises:
            name, parts = native(premise)
            if name == EQUATION and len(parts) == 2:
                for known, pattern in (parts, parts[::-1]):
                    if not free(known) & set(unknown) and self.is_shape(pattern, unknown):
                        self.premises.remove(premise)
                        self.take_apart(known, pattern, unknown)
                        return True
        return False

    def is_shape(self, term, unknown):
        if not free(term) & set(unknown) or isinstance(term, Var):
            return True
        if isinstance(term, Tuple):
            return all(self.is_shape(part, unknown) for part in term.parts)
        if (isinstance(term, Call)
            and (isinstance(term.head, Case) or native(term)[0] in ("suc", "◌∷◌", "pos", "negsuc"))):
            return all(self.is_shape(part, unknown) for part in term.arguments)
        return False

    def take_apart(self, known, pattern, unknown):
        subject = fresh("s")
        self.rows.append(f"for {subject} in ({self.translation.code(known)},)")
        tests, bound = [], []
        self.translation.match(pattern, subject, tests, bound, lambda term: not free(term) & set(unknown))
        self.rows += [f"if {test}" for test in tests]
        for name, code in bound:
            if name in unknown:
                self.rows.append(f"for {name} in ({code},)")
                del unknown[name]
            else:  # A variable that stands twice in the pattern.
                self.rows.append(f"if {name} == {code}")

    def bound(self, unknown):
        """The numbers below a bound."""
        for name in unknown:
            lows, highs, used = ["0"], [], []
            for premise in self.premises:
                sign, parts = native(premise)
                if sign in (LESS, MOST) and len(parts) == 2:
                    less, more = parts
                    if more == Var(name) and not free(less) & set(unknown):
                        lows.append(self.translation.code(less) + (" + 1" if sign == LESS else ""))
                        used.append(premise)
                    elif not free(more) & set(unknown) and (added := self.added_to(less, name, unknown)) is not None:
                        highs.append(self.translation.code(more) + added + ("" if sign == LESS else " + 1"))
                        used.append(premise)
            if highs:
                low = f"max({', '.join(lows)})" if len(lows) > 1 else lows[0]
                high = f"min({', '.join(highs)})" if len(highs) > 1 else highs[0]
                self.rows.append(f"for {name} in range({low}, {high})")
                self.premises = [premise for premise in self.premises if premise not in used]
                del unknown[name]
                return True
        return False

    def added_to(self, term, name, unknown):
        """What is to be taken from a bound of `name`, or of `name` and a known number; None of any other term."""
        if term == Var(name):
            return ""
        sign, parts = native(term)
        if sign == SUM and len(parts) == 2 and parts[0] == Var(name) and not free(parts[1]) & set(unknown):
            return f" - {self.translation.code(parts[1])}"
        return None

    def found(self, unknown):
        """What a fact by equations leaves for the one argument of it that is looked for."""
        for premise in self.premises:
            at = self.place_sought(premise, unknown)
            if at is None:
                continue
            of, parts = premise.head.of, premise.arguments
            others = ", ".join(self.translation.code(part) for n, part in enumerate(parts) if n != at)
            self.rows.append(f"for {parts[at].name} in {self.translation.finder(of, at)}({others})")
            self.premises.remove(premise)
            del unknown[parts[at].name]
            return True
        return False

    def place_sought(self, premise, unknown):
        """Which argument of a premise is the one variable in it that is looked for, without a domain; else None."""
        if not (isinstance(premise, Call) and isinstance(premise.head, Use)):
            return None
        of, parts = premise.head.of, premise.arguments
        at, *more = [n for n, part in enumerate(parts) if free(part) & set(unknown)]
        if more or not isinstance(parts[at], Var):
            return None
        binder = unknown[parts[at].name]
        is_bound = binder.sort != "data" or binder.key in data.DOMAINS
        return None if is_bound or not self.translation.can_find(of, at, len(parts)) else at

    def run_through(self, unknown):
        """All cases of the first variable that has cases, or its domain."""
        for name, binder in unknown.items():
            if isinstance(binder.sort, tuple):
                members = f"({', '.join(f'({case!r},)' for case in binder.sort)},)"
            elif binder.sort == "bool":
                members = "(False, True)"
            elif binder.key in data.DOMAINS and not free(list(self.domain_of(binder).values())) & set(unknown):
                members = self.domain(binder)
            else:
                continue
            self.rows.append(f"for {name} in {members}")
            del unknown[name]
            return
        current, keys = self.translation.current, ", ".join(binder.key or name for name, binder in unknown.items())
        raise Unknown(f"{current.place()}: {current.name}: nothing bounds {keys}")

    def domain_of(self, binder):
        """The terms by which the domain of a variable goes."""
        return {name: term for name, term in binder.scope.items() if "{" + name + "}" in data.DOMAINS[binder.key]}

    def domain(self, binder):
        codes = {name: self.translation.code(term) for name, term in self.domain_of(binder).items()}
        return data.DOMAINS[binder.key].format(**codes)


def says_more(term):
    """Whether a body, put in the place of a name, may say which values a variable can have."""
    name, _ = native(term)
    return (isinstance(term, (Both, Named)) or isinstance(term, Quantified) and term.kind == "some"
            or name in (EQUATION, LESS, MOST)
            or isinstance(term, Call) and isinstance(term.head, Use))
