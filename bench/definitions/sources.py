"""Where definitions stand: files of the repository and of the kit, what each name in them means, and types of the code.

A name is looked for as the language does it: in its file, among the names that the `use` lines bring, as a module's
name with another behind it, and in the prelude. `pub use` lines pass names on. Each name ends as an `Item`: a native
thing, a declaration of a file, a case of a data type, or a type of the code.
"""
import os
import pathlib
import re
import shutil
from collections import namedtuple

from .reader import MARKS, Declared, Name, Reader, Unknown, Universe, chunks_of, tokens_of

TOP = pathlib.Path(__file__).resolve().parents[2]
USE = re.compile(r"(pub )?(?:unfoldable )?(pub )?(?:ghost )?use (\S+?)(?:\.\{(.*)\}| as (\S+))?;?$")
# `what` is "native", "declared", "case" or "type"; `of` is the declaration, for a case that of its type; `name` its
# name.
Item = namedtuple("Item", "what of name")
# A type of the code: its name, what it is, its cases with the number of their parts, or its fields with their types.
CodeType = namedtuple("CodeType", "name kind cases fields path line")


class Missing(Exception):
    """A name that can't be found."""


def kit():
    """The folder of the kit's crates, by the command rt."""
    command = pathlib.Path(shutil.which("rt") or "")
    folder = command.resolve().parent.parent / "rattle"
    if not (folder / "core/specs").is_dir():
        raise SystemExit("the kit's command rt isn't on the path, so its definitions can't be read")
    return folder


class Sources:
    """All modules, read when they are asked for. `natives` are the (module, name) that aren't read from any text."""

    def __init__(self, natives, changed=None):
        self.natives, self.modules, self.types, self.kit = natives, {}, {}, kit()
        self.changed = changed or {}

    def path_of(self, module):
        """The file of a module, None where there is none."""
        parts = module.split(".")
        if parts[0] == "Rattle" and len(parts) > 2 and parts[2] == "specs":
            crate = TOP / "crates" / parts[1]
            folder = (crate if crate.is_dir() else self.kit / parts[1]) / "specs"
            parts = parts[3:] or ["Lib"]
        elif parts[0] == "mathlib":
            folder, parts = self.kit / "antt/port/mathlib/src", parts[1:]
        else:
            folder, parts = self.kit / "logic" / parts[0].capitalize(), parts[1:]
        path = folder / ("/".join(parts) + ".antt")
        return path if path.exists() else None

    def meant(self, module):
        """The module that a path means, where a crate passes another one's modules on."""
        crate, _, rest = module.partition(".specs.")
        if not rest or rest.startswith("declared.") or self.path_of(module):
            return module
        passed = self.module(f"{crate}.specs.Lib")
        head, _, inner = rest.partition(".")
        if passed and head in passed.aliases:
            return passed.aliases[head] + (f".{inner}" if inner else "")
        return module

    def module(self, name):
        name = self.meant(name)
        if name not in self.modules:
            path = self.path_of(name)
            self.modules[name] = path and Module(self, name, path)
        return self.modules[name]

    def item(self, module, name):
        """What a module has under a name."""
        module = self.meant(module)
        if (module, name) in self.natives:
            return Item("native", None, (module, name))
        if module.startswith("Rattle.") and ".specs.declared." in module:
            return self.code_item(module, name)
        found = self.module(module)
        if found is None:
            raise Missing(f"there is no module {module}, in which {name} should be")
        return found.own(name)

    def code_item(self, module, name):
        """A type of the code, or one of its cases."""
        parts = module.removeprefix("Rattle.").split(".")
        crate, parts = parts[0], [part for part in parts[3:] if part not in ("TheInside",)]
        if parts[-1] == "TheVariants":
            of = self.code_type(crate, parts[:-1])
            if name in of.cases:
                return Item("case", of, name)
            raise Missing(f"{of.path}: {of.name} has no case {name}")
        return Item("type", self.code_type(crate, parts, name), name)

    def code_type(self, crate, parts, wanted=None):
        key = (crate, *parts, wanted)
        if key not in self.types:
            own = TOP / "crates" / crate
            root = (own if own.is_dir() else self.kit / crate) / "src"
            *folders, name = parts
            path = root / ("/".join(folders or ["lib"]) + ".rt")
            path = path if path.exists() else root / "/".join(folders) / "mod.rt"
            if not path.exists():
                raise Missing(f"there is no {path}, in which {name} should be")
            self.types[key] = read_type(path, name)
        return self.types[key]


def read_type(path, name):
    """An enum, a struct or a trait of the code, by its text."""
    text = re.sub(r"//[^\n]*", "", path.read_text())
    found = re.search(rf"^\s*pub(?:\(\w+\))? (enum|struct|trait) {name}\b[^{{(;]*([{{(;])", text, re.M)
    if not found:
        raise Missing(f"{path}: there is no type {name}")
    line = text[:found.start()].count("\n") + 1
    inside = body_behind(text, found.end()) if found.group(2) == "{" else ""
    if found.group(1) == "enum":
        return CodeType(name, "enum", cases_in(inside), None, path, line)
    pattern = r"ghost (\w+): (.*)" if found.group(1) == "trait" else r"(\w+): ([^,\n]+)"
    return CodeType(name, found.group(1), {}, dict(re.findall(pattern, inside)), path, line)


def body_behind(text, start):
    depth, at = 1, start
    while depth:
        depth += {"{": 1, "}": -1}.get(text[at], 0)
        at += 1
    return text[start:at - 1]


def cases_in(inside):
    """The cases of an enum with the number of their parts."""
    cases, inside = {}, re.sub(r"#\[[^\]]*\]", "", inside)
    for name, opened in re.findall(r"(?:^|,|\})\s*(\w+)\s*(\([^)]*\)|\{[^}]*\})?", inside):
        if name[0].isupper():
            parts = [part for part in re.split(r",(?![^<]*>)", opened[1:-1]) if part.strip()] if opened else []
            cases[name] = len(parts)
    return cases


class Module:
    """A file of definitions: its imports, and its declarations, which are read when they are asked for."""

    def __init__(self, sources, name, path):
        self.sources, self.name, self.path = sources, name, path
        self.names, self.aliases, self.passed = {}, {}, []
        self.raw, self.cases, self.fixities, self.known, self.resolved = {}, {}, {}, {}, {}
        owner = None
        for first, lines in chunks_of(path.read_text()):
            owner = self.enter(first, lines, owner)

    def enter(self, first, lines, owner):
        """Notes a chunk under the name of what it declares; equations stand behind their signature."""
        head = lines[0].split(" -- ")[0].strip()
        used = USE.match(head)
        if used:
            self.enter_use(used)
            return owner
        words = head.split()
        if words[0] in ("infix", "infixl", "infixr"):
            side = {"infixl": "left", "infixr": "right", "infix": "none"}[words[0]]
            self.fixities.update({name: (side, int(words[1])) for name in words[2:]})
        elif words[0] in ("mod", "unfolding", "open", "axiom", "ruleset") or words[:2] == ["pub", "mod"]:
            pass
        else:
            found = re.match(r"(?:(?:abbrev|unfoldable|pub|pattern) )*(?:(data|record) )?([^\s:({]+)", head)
            if words[0] in MARKS + ("data", "record") or re.match(r"[^\s:({]+ (?:\{[^}]*\} )?: ", head):
                owner = found.group(2)
                self.raw[owner] = [(first, lines)]
                if found.group(1) == "data":
                    self.enter_cases(owner, lines)
            elif owner:
                self.raw[owner].append((first, lines))
        return owner

    def enter_use(self, used):
        is_passed, path = bool(used.group(1) or used.group(2)), used.group(3).removeprefix("package.")
        if used.group(4) is None:
            self.aliases[used.group(5) or path.split(".")[-1]] = path
            return
        for part in used.group(4).split(","):
            old, _, new = part.strip().partition(" as ")
            *inner, old = old.split(".")
            if old == "*":
                self.passed.append(path)
                continue
            self.names[new or old] = (".".join([path] + inner), old, is_passed)

    def enter_cases(self, owner, lines):
        for line in lines[1:]:
            found = re.match(r"  ([^\s:]+(?: [^\s:]+)*) :", line.split(" -- ")[0])
            for name in found.group(1).split() if found and not line.lstrip().startswith("--") else []:
                self.cases[name] = owner

    # ---- names

    def own(self, name):
        """What this module has, or passes on, under a name."""
        if (self.name, name) in self.sources.natives:
            return Item("native", None, (self.name, name))
        if name in self.raw:
            return Item("declared", self.declared(name), name)
        if name in self.cases:
            return Item("case", self.declared(self.cases[name]), name)
        if name in self.names:
            return self.sources.item(*self.names[name][:2])
        for path in self.passed:
            try:
                return self.sources.item(path if "." in path else f"{self.name}.{path}", name)
            except Missing:
                pass
        raise Missing(f"{self.path}: there is no {name}")

    def find(self, path):
        """What a path of names means here, and which of them are left as fields."""
        if path not in self.resolved:
            self.resolved[path] = self.look(path)
        return self.resolved[path]

    def look(self, path):
        head, *rest = path
        if rest and head in self.aliases:
            try:
                return self.sources.item(self.aliases[head], rest[0]), tuple(rest[1:])
            except Missing:
                pass
        if ("Prim", head) in self.sources.natives and head not in self.raw and head not in self.names:
            return Item("native", None, ("Prim", head)), tuple(rest)
        return self.own(head), tuple(rest)

    def fixity_of(self, name):
        """An operator's fixity, by where it is declared; None where the name is no operator here."""
        if ("fixity", name) not in self.resolved:
            self.resolved["fixity", name] = self.look_fixity(name)
        return self.resolved["fixity", name]

    def look_fixity(self, name):
        if name in self.fixities:
            return self.fixities[name]
        if name in self.names:
            module, old, _ = self.names[name]
            native = self.sources.natives.get((self.sources.meant(module), old))
            if native is not None:
                return native.fixity
            found = self.sources.module(module)
            return found and found.look_fixity(old)
        return None

    # ---- declarations

    def declared(self, name):
        if name not in self.known:
            chunks = self.raw[name]
            self.known[name] = Declaration(self, name, chunks)
        return self.known[name]


class Declaration:
    """A declaration of a file, read when its parts are asked for."""

    def __init__(self, module, name, chunks):
        self.module, self.name, self.chunks = module, name, chunks
        self.line = chunks[0][0]
        self.read = None

    def __repr__(self):
        return f"{self.module.name}.{self.name}"

    def place(self):
        path = self.module.path
        return f"{os.path.relpath(path, TOP) if path.is_relative_to(TOP) else path}:{self.line}"

    def parts(self):
        """What is declared, as trees."""
        if self.read is None:
            self.read = self.read_data() or self.read_function()
        return self.read

    def reader(self, chunk):
        first, lines = chunk
        return Reader(tokens_of(lines, first), self.module.fixity_of, self.module.path)

    def read_data(self):
        head = self.reader(self.chunks[0])
        while head.text() in MARKS:
            head.take()
        kind = head.text()
        if kind not in ("data", "record"):
            return None
        head.take()
        head.take()
        parameters = head.telescope()
        of = None
        if head.text() == ":":
            head.take()
            of = head.expression()
        head.take("where")
        return Declared(kind, self.name, parameters, of, head.members(), self.line)

    def read_function(self):
        signature, equations = self.reader(self.chunks[0]), []
        while signature.text() in MARKS:
            signature.take()
        signature.take()
        while signature.text() == "{":
            signature.skip_braces()
        signature.take(":")
        of = signature.expression()
        for chunk in self.chunks[1:]:
            head, patterns, body = self.reader(chunk).equation()
            if not isinstance(head, Name) or head.path != (self.name,):
                raise Unknown(f"{self.module.path}:{chunk[0]}: an equation of another name than {self.name}")
            last = chunk[0] + max(n for n, line in enumerate(chunk[1]) if line.split("--")[0].strip())
            equations.append((patterns, body, chunk[0], last))
        return Declared("function", self.name, [], of, equations, self.line)


def is_fact_type(of):
    """Whether a function's type ends in `Type`."""
    while not isinstance(of, Universe):
        if hasattr(of, "right"):
            of = of.right
        elif hasattr(of, "body"):
            of = of.body
        else:
            return False
    return True
