#!/usr/bin/env python3
"""Prints what somebody reads who wants to know what a clause says: the definitions that it reaches.

    bench/reading.py [--files] CRATE FUNCTION [CLAUSE ..]

For each clause of the function, or for those that are named, this counts the lines of the definitions that it
reaches by names, through all crates of the repository, and the lines of the whole files that these are imported
from; then those that it reaches in the kit's crate `clap`, by which words are read; and those of the types of the code
(types, traits, constants of src/) that these definitions name. Comments, `use` lines and empty lines don't count. What
else the kit defines isn't followed. With --files each file is printed with its lines.

A name is followed where it is imported, declared beside, or reached by a module's name (`runs.steps`); a constructor
brings its whole type. A variable that has the name of a definition counts as that definition.
"""
import pathlib
import re
import shutil
import sys

ROOT = pathlib.Path(__file__).resolve().parent.parent / "crates"
HEAD = re.compile(r"^(?:abbrev |unfoldable )?(?:pub )?(?:(data|record) )?([^\W\d]\S*)\b.*?(?: :|\()")


def clap_specs():
    """The folder of the definitions of the kit's crate `clap`, or None where there is no kit on the path."""
    command = pathlib.Path(shutil.which("rt") or "").resolve()
    folder = command.parent.parent / "rattle" / "clap" / "specs"
    return folder if folder.is_dir() else None


CLAP = clap_specs()


def path_of(module):
    """The file of `Rattle.CRATE.specs.A.B`, or None where it is none of the repository's definitions nor of clap's."""
    parts = module.split(".")
    if parts[0] != "Rattle" or len(parts) < 4 or parts[2] != "specs" or parts[3] == "declared":
        return None
    folder = CLAP if parts[1] == "clap" else ROOT / parts[1] / "specs"
    path = folder and folder / ("/".join(parts[3:]) + ".antt")
    return path if path and path.exists() else None


def type_of(module):
    """The crate, file and name of the type `Rattle.CRATE.specs.declared.A.TYPE`, or None where it is none of the
    repository's."""
    crate, _, path = module.removeprefix("Rattle.").partition(".specs.declared.")
    *modules, name = [part for part in path.split(".") if part not in ("TheVariants", "TheInside")] or [""]
    file = ROOT / crate / "src" / ("/".join(modules or ["lib"]) + ".rt")
    return (file, name) if name and file.exists() else None


def lines_of_type(file, name):
    """How many lines a type, a trait or a constant has in its file, without comments."""
    lines, count = iter(file.read_text().split("\n")), 0
    head = re.compile(rf"(?:pub(?:\(\w+\))? )?(?:enum|struct|trait|const|static) {name}\b")
    for line in lines:
        if not count and not head.match(line):
            continue
        count += bool(line.strip()) and not line.lstrip().startswith("//")
        if line.endswith(("}", ";")) and not line.startswith(" "):
            break
    return count


def imports(lines):
    """What a file's imports bring: names by where they are from, and modules by their names."""
    names, modules = {}, {}
    for line in lines:
        found = re.match(r"(?:pub )?(?:ghost )?use (\S+?)(?:\.\{(.*)\}| as (\S+?))?;?$", line.strip())
        if not found:
            continue
        module, items, alias = found.groups()
        if items is None:
            modules[alias or module.split(".")[-1]] = module
            continue
        for item in items.split(", "):
            name, _, new = item.partition(" as ")
            names[new or name] = (module, name)
    return names, modules


class File:
    """A file of definitions: each one's lines, by its name and those of its constructors."""

    known = {}

    @classmethod
    def of(cls, module):
        path = path_of(module)
        if path and path not in cls.known:
            cls.known[path] = cls(path)
        return cls.known.get(path)

    def __init__(self, path):
        self.path, self.is_own = path, path.is_relative_to(ROOT)
        text = [line.split(" -- ")[0].rstrip() for line in path.read_text().split("\n")]
        self.lines = [line for line in text if line and not line.lstrip().startswith("--")]
        self.names, self.modules = imports(self.lines)
        self.body = [line for line in self.lines if not re.match(r"(pub )?(use|mod) ", line)]
        self.parts, self.owner = {}, {}
        owner, in_data = None, False
        for line in self.body:
            if not line.startswith(" "):
                head = HEAD.match(line)
                first = line.split()[0]
                if first in ("abbrev", "unfoldable", "pub", "data", "record") and head:
                    owner, in_data = head.group(2), head.group(1) == "data"
                elif first in self.owner:
                    owner = self.owner[first]
                elif head:
                    owner = head.group(2)
            elif in_data and re.match(r"  \S+ : ", line):
                self.owner.setdefault(line.split()[0], owner)
            if owner:
                self.owner[owner] = owner
                self.parts.setdefault(owner, []).append(line)

    def reached(self, text):
        """The definitions that a text in this file names."""
        return find(text, self.names, self.modules, self)


def find(text, names, modules, file=None):
    """The definitions that a text names, by these imports and beside it in this file."""
    found = set()
    for token in re.findall(r"(?:[^\W\d]\w*\.)?[^\s(){}\[\],;.λ]+", text):
        head, dot, tail = token.partition(".")
        if dot and head in modules:
            found.add((modules[head], tail))
            token = head
        for name in {token, head}:
            if name in names:
                found.add(names[name])
            elif file and name in file.owner:
                found.add((file, name))
    return found


def reading(text, names, modules):
    """The files of all definitions that a clause reaches, each with how many of its lines these are, and the types."""
    done, files, types = set(), {}, {}
    todo = find(text, names, modules)
    while todo:
        place, name = todo.pop()
        file = place if isinstance(place, File) else File.of(place)
        if file is None:
            declared = type_of(place)
            if declared and declared not in types:
                types[declared] = lines_of_type(*declared)
            continue
        if name not in file.owner:
            continue
        owner = file.owner[name]
        if (file, owner) in done:
            continue
        done.add((file, owner))
        files.setdefault(file, 0)
        files[file] += len(file.parts[owner])
        todo |= file.reached("\n".join(file.parts[owner]))
    return files, types


def whole(files):
    """These files and all that they import, in the repository."""
    done, todo = set(), set(files)
    while todo:
        file = todo.pop()
        if file in done or not file.is_own:
            continue
        done.add(file)
        modules = [module for module, _ in file.names.values()] + list(file.modules.values())
        todo |= {File.of(module) for module in modules} - {None}
    return done


def clauses(crate, function):
    """The clauses of a function by their names, with the imports of its file."""
    for path in sorted((ROOT / crate / "src").rglob("*.rt")):
        text = path.read_text()
        found = re.search(r"fn " + function + r"\b.*?\n(?:\{|    ?\{)", text, re.S)
        if not found:
            continue
        names, modules = imports(text.split("\n"))
        parts = re.split(r"\n\s*(?=ensures )", re.sub(r"\n\s*//[^\n]*", "", found.group(0)))[1:]
        rows = [re.match(r"ensures (\w*) ?\{(.*)\}", part.strip(), re.S) for part in parts]
        return [(row.group(1), row.group(2)) for row in rows if row], names, modules
    raise SystemExit(f"{crate} has no function {function}")


class Counts:
    """What a clause reaches: files of the repository with their lines, those of clap, and the types of the code."""

    def __init__(self, text, names, modules):
        files, self.types = reading(text, names, modules)
        self.own = {file: lines for file, lines in files.items() if file.is_own}
        self.clap = {file: lines for file, lines in files.items() if not file.is_own}
        self.whole = whole(self.own)

    def told(self):
        """Each count as it stands on a page."""
        lines = sum(len(file.body) for file in self.whole)
        return (f"{sum(self.own.values()):,} lines of {len(self.own)} files", f"{lines:,} lines of {len(self.whole)}",
                f"{sum(self.clap.values()):,}", f"{sum(self.types.values()):,} lines of {len(self.types)}")


def main():
    words = [word for word in sys.argv[1:] if word != "--files"]
    if len(words) < 2:
        raise SystemExit(__doc__)
    if CLAP is None:
        raise SystemExit("reading.py: the kit's command rt isn't on the path, so the definitions of clap can't be "
                         "counted")
    crate, function, *wanted = words
    rows, names, modules = clauses(crate, function)
    for name, text in rows:
        if wanted and name not in wanted:
            continue
        counts = Counts(text, names, modules)
        by_names, by_files, clap, types = counts.told()
        print(f"{name}: {by_names} by names, {by_files} by whole files; {clap} lines of clap, {types} types of the "
              f"code")
        if "--files" in sys.argv:
            for file, lines in sorted((counts.own | counts.clap).items(), key=lambda row: -row[1]):
                path = file.path.relative_to(ROOT) if file.is_own else f"clap/specs/{file.path.name}"
                print(f"    {lines:5} of {len(file.body):5}  {path}")
            for (file, name), lines in sorted(counts.types.items(), key=lambda row: -row[1]):
                print(f"    {lines:5} of a type  {file.relative_to(ROOT)}, {name}")
    print("Counted: the repository's definitions, those of the kit's crate clap, and the types of the code; nothing "
          "else of the kit.")


if __name__ == "__main__":
    main()
