"""Definitions with every name resolved: what translate.py and solving.py go by.

`Resolver` makes these of the trees of reader.py. A variable has a name of its own in the whole program, so that a body
can be put in the place of a call. Facts are terms like any other, whose value is a truth; types stand only behind
binders.
"""
import itertools
import re
from collections import namedtuple

from .reader import Apply, Arrow, Bound, Name, Pair, Product, Universe, Unknown
from .sources import Declaration, Missing, is_fact_type

Var = namedtuple("Var", "name")
Value = namedtuple("Value", "code")
Use = namedtuple("Use", "of")
Case = namedtuple("Case", "name count of")
Native = namedtuple("Native", "key")
Type = namedtuple("Type", "of")
Call = namedtuple("Call", "head arguments")
Part = namedtuple("Part", "of name")
Function = namedtuple("Function", "names body")
Put = namedtuple("Put", "name value body")
Tuple = namedtuple("Tuple", "parts")
Make = namedtuple("Make", "fields")
Change = namedtuple("Change", "base fields")
Both = namedtuple("Both", "parts")
Implies = namedtuple("Implies", "left right")
# A record of facts, whose things `name` stands for in the body.
Named = namedtuple("Named", "name fact body")
# `binders` are Binder; "all" and "some" as in reader.py.
Quantified = namedtuple("Quantified", "kind binders body")
# A variable that is looked for: `sort` is the tuple of an enum's cases, "bool" or "data"; `key` names its domain, which
# is an expression over the variables of `scope`.
Binder = namedtuple("Binder", "name sort key scope")

counter = itertools.count()
# The types of variables as they are written, by which slips.py knows which may stand for which.
KINDS = {}
CONSTRUCTORS = {"zero": 0, "suc": 1, "[]": 0, "◌∷◌": 2, "true": 0, "false": 0, "pos": 1, "negsuc": 1}


def fresh(name):
    return f"{re.sub(r'[^A-Za-z0-9_]', '', name) or 'v'}_{next(counter)}"


def free(term, found=None):
    """The names of the variables of a term."""
    found = set() if found is None else found
    if isinstance(term, Var):
        found.add(term.name)
    elif isinstance(term, Quantified):
        free(term.body, found)
    elif isinstance(term, tuple):
        for part in term:
            free(part, found)
    elif isinstance(term, dict):
        free(tuple(term.values()), found)
    elif isinstance(term, list):
        free(tuple(term), found)
    return found


def put(term, known):
    """The term with these terms for these variables, and every variable that it binds renamed."""
    if isinstance(term, Var):
        return known.get(term.name, term)
    if isinstance(term, (Value, Use, Case, Native, Type, str)) or term is None:
        return term
    if isinstance(term, dict):
        return {name: put(part, known) for name, part in term.items()}
    if isinstance(term, list):
        return [put(part, known) for part in term]
    if isinstance(term, Function):
        names = [fresh(name.rsplit("_", 1)[0]) for name in term.names]
        return Function(names, put(term.body, {**known, **dict(zip(term.names, map(Var, names)))}))
    if isinstance(term, Put):
        name = fresh(term.name.rsplit("_", 1)[0])
        return Put(name, put(term.value, known), put(term.body, {**known, term.name: Var(name)}))
    if isinstance(term, Quantified):
        names = {binder.name: Var(fresh(binder.name.rsplit("_", 1)[0])) for binder in term.binders}
        inner = {**known, **names}
        binders = [Binder(names[b.name].name, b.sort, b.key, put(b.scope, inner)) for b in term.binders]
        return Quantified(term.kind, binders, put(term.body, inner))
    if isinstance(term, Part):
        of = put(term.of, known)
        return of.fields[term.name] if isinstance(of, Make) and term.name in of.fields else Part(of, term.name)
    return type(term)(*(put(part, known) for part in term))


def replaced(term, old, new):
    """The term with another one in the place of each that is just this."""
    if term == old:
        return new
    if isinstance(term, dict):
        return {name: replaced(part, old, new) for name, part in term.items()}
    if isinstance(term, list):
        return [replaced(part, old, new) for part in term]
    if (isinstance(term, tuple) and not isinstance(term, (Var, Value, Use, Case, Native, Type))
        and hasattr(term, "_fields")):
        return type(term)(*(replaced(part, old, new) for part in term))
    return term


class Resolver:
    """Resolves the trees of one declaration."""

    def __init__(self, declaration, natives):
        self.declaration, self.module, self.natives = declaration, declaration.module, natives

    def refuse(self, tree, what):
        raise Unknown(f"{self.module.path}:{tree.line}: {what}")

    # ---- names

    def item(self, path, line):
        try:
            return self.module.find(path)
        except Missing as error:
            raise Unknown(f"{self.module.path}:{line}: {error}") from error

    def name(self, tree, scope):
        head, *rest = tree.path
        if head in scope:
            found = scope[head]
        else:
            item, rest = self.item(tree.path, tree.line)
            found = self.meant(item)
        for part in rest:
            found = Part(found, part)
        return found

    def meant(self, item):
        if item.what == "native":
            return Native(item.name)
        if item.what == "case":
            return case_of(item)
        if item.what == "type":
            return Type(item.of)
        return Use(item.of)

    # ---- terms

    def term(self, tree, scope):
        return getattr(self, "of_" + type(tree).__name__)(tree, scope)

    def of_Name(self, tree, scope):
        return self.name(tree, scope)

    def of_Number(self, tree, scope):
        return Value(str(tree.value))

    def of_Text(self, tree, scope):
        return Value(tree.value)

    def of_Apply(self, tree, scope):
        return Call(self.term(tree.head, scope), [self.term(part, scope) for part in tree.arguments])

    def of_Field(self, tree, scope):
        return Part(self.term(tree.of, scope), tree.name)

    def of_Lambda(self, tree, scope):
        names = [fresh(name) for name in tree.names]
        return Function(names, self.term(tree.body, {**scope, **dict(zip(tree.names, map(Var, names)))}))

    def of_Let(self, tree, scope):
        name = fresh(tree.name)
        return Put(name, self.term(tree.value, scope), self.term(tree.body, {**scope, tree.name: Var(name)}))

    def of_Pair(self, tree, scope):
        return Tuple([self.term(part, scope) for part in tree.parts])

    def of_Record(self, tree, scope):
        fields = {name: self.term(part, scope) for name, part in tree.fields}
        return Make(fields) if tree.base is None else Change(self.term(tree.base, scope), fields)

    def of_Product(self, tree, scope):
        return Both([self.term(part, scope) for part in tree.parts])

    def of_Arrow(self, tree, scope):
        if self.sort(tree.left, scope):
            self.refuse(tree, "a fact for every member of a type that isn't named")
        return Implies(self.term(tree.left, scope), self.term(tree.right, scope))

    def of_Universe(self, tree, scope):
        return self.refuse(tree, "a universe as a term")

    def of_Bound(self, tree, scope):
        return self.bound(tree.kind, list(tree.binders), tree.body, scope)

    def bound(self, kind, binders, body, scope):
        """Binders one by one, since a later type may name an earlier variable; a fact that is bound is a premise."""
        if not binders:
            return self.term(body, scope)
        (name, of), *rest = binders
        sort = self.sort(of, scope)
        own = fresh(name)
        if not sort:
            left = self.term(of, scope)
            if kind == "all":
                return Implies(left, self.bound(kind, rest, body, scope))
            right = self.bound(kind, rest, body, {**scope, name: Var(own)} if is_record(left) else scope)
            return Named(own, left, right) if own in free(right) else Both([left, right])
        KINDS[own] = text_of(of)
        inner = {**scope, name: Var(own)}
        binder = Binder(own, sort, f"{self.declaration.name}.{name}", inner)
        return Quantified(kind, [binder], self.bound(kind, rest, body, inner))

    # ---- types

    def sort(self, tree, scope):
        """What a type's members are: an enum's cases, "bool", or "data"; None where it is a fact."""
        if isinstance(tree, Name):
            if tree.path[0] in scope:
                return None
            try:
                item, _ = self.module.find(tree.path)
            except Missing:
                return "data"  # A type variable, which is bound in braces.
            return self.sort_of(item)
        if isinstance(tree, Apply):
            return self.sort(tree.head, scope) and "data"
        if isinstance(tree, (Arrow, Bound)):
            last = tree.right if isinstance(tree, Arrow) else tree.body
            return "data" if isinstance(last, Universe) or self.sort(last, scope) else None
        if isinstance(tree, Product):
            return "data" if all(self.sort(part, scope) for part in tree.parts) else None
        return "data" if isinstance(tree, Universe) else None

    def sort_of(self, item):
        if item.what == "native":
            return self.natives[item.name].sort
        if item.what == "type":
            return cases_of(item.of)
        return "data" if is_data(item.of, self.natives) and not enum_cases(item.of) else \
            enum_cases(item.of) if is_data(item.of, self.natives) else None

    # ---- patterns

    def pattern(self, tree, scope, of=None):
        """A pattern as a term; its variables are entered in the scope. `of` is the type, where it is known."""
        if isinstance(tree, Name) and len(tree.path) == 1 and not self.is_case(tree.path):
            own = fresh(tree.path[0])
            KINDS[own] = of and text_of(of)
            if tree.path[0] != "_":
                scope[tree.path[0]] = Var(own)
            return Var(own)
        if isinstance(tree, Name):
            return self.name(tree, {})
        if isinstance(tree, Apply) and isinstance(tree.head, Name):
            head = self.name(tree.head, {})
            return Call(head,
                        [self.pattern(part, scope, one) for part, one in zip(tree.arguments, self.inside(head, of))])
        if isinstance(tree, Pair):
            return Tuple([self.pattern(part, scope) for part in tree.parts])
        return self.refuse(tree, "a pattern of another form")

    def inside(self, head, of):
        """The types of a case's parts, each None where it isn't known."""
        if isinstance(head, Case) and isinstance(head.of, Declaration):
            return next(explicit(one) for name, one, _ in head.of.parts().parts if name == head.name)
        element = of.arguments[-1] if isinstance(of, Apply) else None
        if isinstance(head, Native) and head.key[1] == "◌∷◌":
            return [element, of]
        return itertools.repeat(element if isinstance(head, Case) else of)

    def is_case(self, path):
        try:
            item, _ = self.module.find(path)
        except Missing:
            return False
        if item.what == "native":
            return item.name[1] in CONSTRUCTORS
        # A case that is declared further down isn't known yet.
        own = isinstance(item.of, Declaration) and item.of.module is self.module
        return item.what == "case" and not (own and item.of.line > self.declaration.line)


def case_of(item):
    """A case with the number of its parts that stand explicitly."""
    if not isinstance(item.of, Declaration):
        return Case(item.name, item.of.cases[item.name], item.of)
    for name, of, _ in item.of.parts().parts:
        if name == item.name:
            return Case(name, count_of(of), item.of)
    raise Missing(f"{item.of.place()}: no case {item.name}")


def count_of(of):
    """How many explicit arguments a type takes."""
    return len(explicit(of))


def explicit(of):
    """The types of the explicit arguments that a type takes."""
    if isinstance(of, Arrow):
        return [of.left] + explicit(of.right)
    if isinstance(of, Bound) and of.kind == "all":
        return [one for _, one in of.binders] + explicit(of.body)
    return []


def text_of(of):
    """A type as one text, by which two are compared."""
    if isinstance(of, Name):
        return of.path[-1]
    if isinstance(of, Apply):
        return f"({' '.join(text_of(part) for part in (of.head, *of.arguments))})"
    return type(of).__name__ + str(id(of))


def cases_of(of):
    """The cases of a type of the code, if none of them has parts."""
    return tuple(of.cases) if of.kind == "enum" and of.cases and not any(of.cases.values()) else "data"


def enum_cases(declaration):
    read = declaration.parts()
    if read.kind != "data" or any(count_of(of) for _, of, _ in read.parts):
        return None
    return tuple(name for name, _, _ in read.parts)


def is_record(term):
    """Whether a term is the fact of a record."""
    return isinstance(term, Call) and isinstance(term.head, Use) and term.head.of.parts().kind == "record"


def is_data(declaration, natives):
    """Whether a declaration is a type of things, and not a fact."""
    if not hasattr(declaration, "is_data"):
        declaration.is_data = True
        declaration.is_data = look_at(declaration, natives)
    return declaration.is_data


def look_at(declaration, natives):
    read, resolver = declaration.parts(), Resolver(declaration, natives)
    scope = {name: Var(name) for name, of in read.parameters if not isinstance(of, Universe)}
    if read.kind == "record":
        return all(resolver.sort(of, scope) for _, of, _ in read.parts)
    if read.kind == "data":
        return not read.parameters or all(isinstance(of, Universe) for _, of in read.parameters)
    if not is_fact_type(read.type) or not read.parts:
        return False
    patterns, body, _, _ = read.parts[0]
    scope = {}
    for pattern in patterns:
        resolver.pattern(pattern, scope)
    return bool(resolver.sort(body, scope))
