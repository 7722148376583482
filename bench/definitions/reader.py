"""Reads the text of definitions: tokens, declarations, and expressions as trees.

Only the part of the language that definitions are written in is known here: signatures, equations, data, records, λ,
let, if, numbers, quoted texts, and types as facts. Whatever else stands in a definition that is wanted is refused with
its file and line, as `Unknown`. Trees keep the names as they are written; scopes.py says what each of them means.
"""
import re
from collections import namedtuple

TOKEN = re.compile(r'"(?:\\.|[^"\\])*"|«[^»]*»|[(){};,@.]|[^\s(){};,@."«»]+')
MARKS = ("abbrev", "unfoldable", "pub", "pattern")
NUMBER = re.compile(r"(?:0x[0-9a-fA-F_]+|0o[0-7_]+|0b[01_]+|[0-9][0-9_]*)$")
PRODUCT, HIGHEST = 2, 100

Token = namedtuple("Token", "text line start end")
# Trees. `path` is a tuple of names; what stands in braces as an implicit argument is left out.
Name = namedtuple("Name", "path line")
Number = namedtuple("Number", "value line")
Text = namedtuple("Text", "value line")
Apply = namedtuple("Apply", "head arguments line")
Field = namedtuple("Field", "of name line")
Lambda = namedtuple("Lambda", "names body line")
Let = namedtuple("Let", "name value body line")
Pair = namedtuple("Pair", "parts line")
Record = namedtuple("Record", "base fields line")
Arrow = namedtuple("Arrow", "left right line")
# `kind` is "all" for (x : T) → P, "some" for (x : T) × P; binders are pairs of name and type.
Bound = namedtuple("Bound", "kind binders body line")
Product = namedtuple("Product", "parts line")
Universe = namedtuple("Universe", "line")
# A declaration: of a function its type and equations, each (patterns, body, first line, last line); of data its cases,
# each (name, type, line); of a record its fields, likewise; `parameters` are binders of a data type or a record.
Declared = namedtuple("Declared", "kind name parameters type parts line")


class Unknown(Exception):
    """A form that isn't known, with its file and line."""


def tokens_of(lines, first):
    """The tokens of some lines; `first` is the number of the first one."""
    found = []
    for number, line in enumerate(lines, first):
        for match in TOKEN.finditer(line):
            if match.group().startswith("--"):
                break
            found.append(Token(match.group(), number, match.start(), match.end()))
    return found


def chunks_of(text):
    """The declarations of a file as (first line's number, lines), a block's as if it stood alone."""
    lines = text.split("\n")
    starts = [n for n, line in enumerate(lines)
              if line and not line[0].isspace() and not line.startswith(("--", "}", ")"))]
    for start, end in zip(starts, starts[1:] + [len(lines)]):
        head = lines[start].split(" -- ")[0].rstrip()
        if re.match(r"((abbrev|unfoldable) )?mutual$|module _ .*where$", head):
            inner = "\n".join([""] * (start + 1) + [re.sub("^  ", "", line) for line in lines[start + 1:end]])
            yield from chunks_of(inner)
        else:
            yield start + 1, lines[start:end]


class Reader:
    """A reader of the tokens of one declaration. `fixity_of` gives an operator's (associativity, level), or None."""

    def __init__(self, tokens, fixity_of, path):
        self.tokens, self.at, self.fixity_of, self.path = tokens, 0, fixity_of, path

    # ---- tokens

    def refuse(self, what):
        token = self.tokens[min(self.at, len(self.tokens) - 1)]
        raise Unknown(f"{self.path}:{token.line}: {what} at `{token.text}`")

    def text(self, ahead=0):
        return self.tokens[self.at + ahead].text if self.at + ahead < len(self.tokens) else None

    def line(self):
        return self.tokens[min(self.at, len(self.tokens) - 1)].line

    def take(self, wanted=None):
        if self.text() is None or wanted is not None and self.text() != wanted:
            self.refuse(f"`{wanted or 'more'}` isn't there")
        self.at += 1
        return self.tokens[self.at - 1].text

    def touches(self):
        """A dot that stands between two tokens without blanks: a path or a field."""
        if self.text() != "." or self.at + 1 >= len(self.tokens):
            return False
        before, dot, after = self.tokens[self.at - 1:self.at + 2]
        return before.line == dot.line == after.line and before.end == dot.start and dot.end == after.start

    def skip_braces(self):
        depth = 0
        while True:
            depth += {"{": 1, "}": -1}.get(self.take(), 0)
            if depth == 0:
                return

    # ---- expressions

    def expression(self):
        """An expression, as far as it reaches."""
        left = self.operation(0)
        if self.text() == "→":
            line = self.line()
            self.take()
            return Arrow(left, self.expression(), line)
        return left

    def operation(self, level):
        """Operators of this level and above, and their operands."""
        left = self.operand()
        while True:
            text, line = self.text(), self.line()
            if text == "×":
                side, of = "right", PRODUCT
            else:
                side, of = (text is not None and self.fixity_of(f"◌{text}◌")) or (None, -1)
            if side is None or of < level:
                return left
            self.take()
            right = self.operation(of if side == "right" else of + 1)
            if text == "×":
                left = Product([left] + (right.parts if isinstance(right, Product) else [right]), line)
            else:
                left = Apply(Name((f"◌{text}◌",), line), [left, right], line)

    def operand(self):
        line = self.line()
        if self.is_binder():
            return self.bound(line)
        if self.text() == "if":
            return self.choice(line)
        if self.text() == "¬":
            self.take()
            return Apply(Name(("¬◌",), line), [self.operation(HIGHEST)], line)
        if self.text() in ("λ", "let"):
            return self.closing()
        head = self.atom()
        arguments = []
        while True:
            if self.text() == "{":
                self.skip_braces()
            elif self.text() in ("λ", "let"):
                arguments.append(self.closing())
            elif self.starts_atom():
                arguments.append(self.atom())
            else:
                return Apply(head, arguments, line) if arguments else head

    def choice(self, line):
        self.take("if")
        test = self.expression()
        self.take("then")
        chosen = self.expression()
        self.take("else")
        return Apply(Name(("if◌then◌else◌",), line), [test, chosen, self.operation(PRODUCT + 1)], line)

    def closing(self):
        """A λ or a let, which reaches as far right as it can."""
        line = self.line()
        if self.take() == "λ":
            names = []
            while self.text() != ".":
                if self.text() == "(":
                    names += [name for name, _ in self.group()]
                elif re.match(r"[(){};,@\"]", self.text()):
                    self.refuse("a pattern behind λ")
                else:
                    names.append(self.take())
            self.take(".")
            return Lambda(names, self.expression(), line)
        name = self.take()
        if self.text() == ":":
            self.take()
            self.expression()
        self.take("=")
        value = self.expression()
        self.take("in")
        return Let(name, value, self.expression(), line)

    def starts_atom(self):
        text = self.text()
        if text is None or text in (")", "}", ",", ";", ".", "→", "×", "=", ":", "then", "else", "in", "where", "@",
                                    "|", "↦"):
            return False
        return self.fixity_of(f"◌{text}◌") is None

    def atom(self):
        line, text = self.line(), self.take()
        if text == "(":
            found = self.parenthesis(line)
        elif text == "record":
            found = self.record(line)
        elif text == "Type":
            self.atom()
            return Universe(line)
        elif text.startswith('"'):
            return Text(text, line)
        elif NUMBER.match(text):
            return Number(int(text.replace("_", ""), 0), line)
        elif text in ("elim", "do", "coe", "unfold", "∀", ")", "[", "|") or text[0] == "?":
            self.at -= 1
            return self.refuse("a form that isn't known")
        else:
            found = Name((text.strip("«»"),), line)
        while self.touches():
            self.take(".")
            part = self.take()
            found = Name(found.path + (part,), line) if isinstance(found, Name) else Field(found, part, line)
        return found

    def parenthesis(self, line):
        parts = [self.expression()]
        while self.text() == ",":
            self.take()
            if self.text() != ")":
                parts.append(self.expression())
        self.take(")")
        if len(parts) > 1:
            return Pair(parts, line)
        # So that a name in parentheses isn't the head of a path, and a product isn't joined with the one around it.
        return Product([parts[0]], line) if isinstance(parts[0], Product) else parts[0]

    def record(self, line):
        base = None if self.text() == "{" else self.atom()
        fields = []
        self.take("{")
        while self.text() != "}":
            name = self.take()
            self.take("=")
            fields.append((name, self.expression()))
            if self.text() == ";":
                self.take()
        self.take("}")
        return Record(base, fields, line)

    # ---- binders

    def is_binder(self):
        if self.text() not in ("(", "{"):
            return False
        ahead = 1
        while self.text(ahead) is not None and re.match(r"[^(){};,.@:=→×]+$", self.text(ahead)):
            ahead += 1
        return ahead > 1 and self.text(ahead) == ":"

    def group(self):
        """The names of one pair of parentheses with their type; none for an implicit one."""
        opened, names = self.take(), []
        while self.text() != ":":
            names.append(self.take())
        self.take(":")
        of = self.expression()
        self.take({"(": ")", "{": "}"}[opened])
        return [(name, of) for name in names] if opened == "(" else []

    def bound(self, line):
        binders = []
        while self.is_binder():
            binders += self.group()
        if self.text() == "→":
            self.take()
            body = self.expression()
            return Bound("all", binders, body, line) if binders else body
        self.take("×")
        return Bound("some", binders, self.operation(PRODUCT), line)

    # ---- declarations

    def telescope(self):
        """The binders of a data type or a record."""
        binders = []
        while self.text() in ("(", "{"):
            if self.is_binder():
                binders += self.group()
            else:
                self.skip_braces()
        return binders

    def members(self):
        """The fields of a record or the cases of a data type: (name, type, line)."""
        found = []
        column = self.tokens[self.at].start if self.at < len(self.tokens) else 0
        while self.at < len(self.tokens):
            names, line = [], self.line()
            if self.text() == "pub":
                self.take()
            while self.text() != ":":
                if self.text() is None or self.tokens[self.at].start != column and not names and self.text(-1) != "pub":
                    self.refuse("a member of another form")
                names.append(self.take())
            self.take(":")
            end = next((n for n in range(self.at, len(self.tokens)) if self.tokens[n].start <= column),
                       len(self.tokens))
            part = Reader(self.tokens[self.at:end], self.fixity_of, self.path)
            of = part.expression()
            if part.text() is not None:
                part.refuse("more than a type")
            self.at = end
            found += [(name, of, line) for name in names]
        return found

    def equation(self):
        """The patterns and the body of an equation, by the name that it is of."""
        left = self.operation(0)
        self.take("=")
        body = self.expression()
        if self.text() is not None:
            self.refuse("more than an equation")
        head, patterns = (left.head, left.arguments) if isinstance(left, Apply) else (left, [])
        return head, patterns, body
