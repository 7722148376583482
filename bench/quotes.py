#!/usr/bin/env python3
"""Holds the pages against the sources that they quote.

- A block whose fence says `rattle:FILE` stands in FILE word for word.
- Each clause that is named with its function is there.
- Of docs/theorems.md and docs/promises.md: each fact or type that a quoted clause names stands where the first lines of
  its file say; and each row of a table of clauses says how much its clause reaches: of definitions, of clap, and of
  types of the code (bench/reading.py).
- Each clause of `alpha_top` is named on one of the two. Each law that a page names is a function of some crate.
- Of docs/theorems.md: the reading order has just the files of definitions that its clauses reach, each with those of
  the clauses that reach it (how many of its lines were run is held by bench/definitions/check.py), and each name of a
  quoted clause is in one of them; each promise of the table from claim to clause begins with words of README.md, and
  its clauses are there; each must-fail edit is there; the kit's crates that must be trusted are those of crates.txt.
- Of docs/ARCHITECTURE.md: the constants and definitions that the table of limits names have its numbers; each file that
  another table names is in the crate of its row, and has the names that it is said to have.
- Of all crates: what bench/names.py says of the names that they declare.

    bench/quotes.py [--write]

With `--write` these tables get their numbers and clauses, and a block whose first words are `ensures NAME` the clause
as it stands in its file; whoever does so reads the words beside it again. It ends with 1 where something is wrong.
"""
import functools
import pathlib
import re
import sys

import reading
from names import check as check_declared

TOP = pathlib.Path(__file__).resolve().parent.parent
THEOREMS = TOP / "docs" / "theorems.md"
PROMISES = TOP / "docs" / "promises.md"
BLOCK = re.compile(r"^```rattle:(\S+)\n(.*?)^```$", re.M | re.S)
LAW = re.compile(r"(?:laws|limits)_of_\w+")
EDIT = re.compile(r"^\| `(alpha_\w+)` \| `(\w+)` \|", re.M)
ORDERED = re.compile(r"^\| `(crates/\S+\.antt)` \| (\S+) \| ([^|\n]*) \|", re.M)
PROMISED = re.compile(r"^\| ([^|\n]+) \| ([^|\n]+) \| [^|\n]+ \|$", re.M)
LIMIT = re.compile(r"^\| ([^|\n]+) \| ([^|\n]+) \| ([^|\n]+) \| ([^|\n]+) \|$", re.M)
# Tables of files in docs/ARCHITECTURE.md.
MAPS = ("Where to find what", "One call from end to end", "Where effects happen", "Adding an instruction",
        "Adding a statement")
ROW = re.compile(r"^\| (.+) \|$", re.M)
# A file with the name in front of it, and those in parentheses behind it.
PLACED = re.compile(r"(?:`(\w+)` of )?`([\w/]+\.(?:rt|antt))`(?: \(((?:`\w+`(?:, )?)+)\))?")
# Clauses and their function, with its crate or, where its name tells it from a command, without; and the other way.
CITED = re.compile(r"((?:`[\w-]+`(?:, | and ))*`[\w-]+`)(?:\*\*)? of `(\w+)`(?: of `(alpha_\w+)`)?")
WITH_CLAUSES = re.compile(r"`(\w+)`, clauses? ((?:`[\w-]+`(?:, | and ))*`[\w-]+`)")
REACHED = re.compile(r"^\| `(\w+)` of `(\w+)` of `(alpha_\w+)`([^|\n]*) \| ([\d,]+ lines of \d+ files)"
                     r" \| ([^|\n]*) \| ([^|\n]*) \| ([^|\n]*) \|$", re.M)
CLAUSE = re.compile(r"ensures (\w+) \{")
# What the language itself has.
BUILT_IN = {("", name) for name in ("Type", "Unit", "Result", "Option")}
ARGUMENTS = re.compile(r"^\w+ ([^=\n]*?) =", re.M)
FACT = re.compile(r"(?<![\w.])(?:([a-z]\w*)\.)?([A-Z]\w+)")
# The clauses of the reading order, by the words that its column has for them.
READ = {"law": ("alpha_restart", "laws_of_restarts", "accepted"), "checked": ("alpha_cmd", "alpha_top", "checked"),
        "ran": ("alpha_cmd", "alpha_top", "ran")}


def words(text):
    return " ".join(text.split())


def clause(source, name):
    """The first clause of that name, to its last brace, with its lines moved to the left."""
    at = source.find(f"ensures {name} {{")
    if at < 0:
        return None
    depth, end = 0, at
    for end in range(at, len(source)):
        depth += {"{": 1, "}": -1}.get(source[end], 0)
        if depth == 0 and source[end] == "}":
            break
    return source[at:end + 1].replace("\n    ", "\n") + "\n"


def check_blocks(page, text, write, wrong):
    def checked(found):
        path, block = found.groups()
        file = TOP / path
        if not file.exists():
            wrong.append(f"{page}: {path} isn't there")
            return found.group()
        source = file.read_text()
        if words(block) in words(source):
            return found.group()
        name = CLAUSE.match(block)
        now = clause(source, name.group(1)) if write and name else None
        wrong.append(f"{page}: {'changed' if now else 'not'} in {path}: {words(block)[:60]}")
        return f"```rattle:{path}\n{now}```" if now else found.group()

    return BLOCK.sub(checked, text)


@functools.cache
def clauses(crate, function):
    """What stands in each clause of a function, by its name, with the imports of its file."""
    rows, names, modules = reading.clauses(crate, function)
    return dict(rows), names, modules


def reached(crate, function, clause):
    """What a clause reaches."""
    rows, names, modules = clauses(crate, function)
    return reading.Counts(rows.get(clause, ""), names, modules)


def check_reached(text, write, wrong):
    def checked(found):
        clause, function, crate, words, *said = found.groups()
        now = reached(crate, function, clause).told()
        if list(now) == said:
            return found.group()
        if not write:
            wrong.append(f"{clause} of {function} reaches {' | '.join(now)}")
        return f"| `{clause}` of `{function}` of `{crate}`{words} | {' | '.join(now)} |"

    return REACHED.sub(checked, text)


def check_order(text, write, wrong):
    """Holds the reading order against what its clauses reach."""
    reach = {name: {str(file.path.relative_to(TOP)) for file in reached(*clause).own} for name, clause in READ.items()}
    listed = [path for path, _, _ in ORDERED.findall(text)]
    wrong.extend(f"the reading order lacks {path}" for path in sorted(set().union(*reach.values()) - set(listed)))
    wrong.extend(f"the reading order has {path} twice" for path in sorted(set(listed)) if listed.count(path) > 1)

    def checked(found):
        path, lines, said = found.groups()
        by = [name for name in READ if path in reach[name]]
        if not by:
            wrong.append(f"no clause of the reading order reaches {path}")
            return found.group()
        now = "all" if len(by) == len(READ) else ", ".join(by)
        if now != said and not write:
            wrong.append(f"the reading order has {said} for {path}, not {now}")
        return f"| `{path}` | {lines} | {now} |"

    return ORDERED.sub(checked, text)


def module_of(path):
    return "Rattle." + path.removeprefix("crates/").removesuffix(".antt").replace("/", ".")


def stands(path, head, name):
    """Where a name of a clause in this file stands: a file of definitions, `kit`, `code`, or None for nowhere."""
    text = (TOP / path).read_text()
    names, modules = reading.imports(text.split("\n"))
    module, name = (modules.get(head, ""), name) if head else names.get(name, (module_of(path), name))
    if not module.removeprefix("Rattle.").startswith("alpha_"):
        return "kit" if module else None
    if ".declared" in module:
        return "code" if reading.type_of(module) else None
    file = reading.File.of(module)
    if file and name in file.owner:
        return str(file.path.relative_to(TOP))
    return "code" if re.search(rf"^(?:use|pub (?:enum|struct|trait)) .*\b{name}\b", text, re.M) else None


def check_names(page, text, order, wrong):
    """Holds the names of quoted clauses; where there is a reading order, they stand in its files."""
    listed = {path for path, _, _ in ORDERED.findall(text)} if order else None
    for path, block in BLOCK.findall(text):
        variables = set(" ".join(ARGUMENTS.findall(block)).split())
        for head, name in sorted(set(FACT.findall(block)) - BUILT_IN):
            if name in variables:
                continue
            place = stands(path, head, name) if (TOP / path).exists() else None
            if place is None:
                wrong.append(f"{page}: {path} doesn't say where {name} stands")
            elif listed is not None and place not in ("kit", "code") and place not in listed:
                wrong.append(f"{page}: a clause names {name}, and the reading order lacks {place}")


@functools.cache
def functions():
    """The names of all functions of the repository, each with the crates that have one."""
    found = {}
    for file in TOP.glob("crates/*/src/**/*.rt"):
        for name in re.findall(r"\bfn (\w+)", file.read_text()):
            found.setdefault(name, set()).add(file.relative_to(TOP).parts[1])
    return found


def check_cited(page, text, wrong):
    """Holds the clauses that a page names with their function."""
    cited = CITED.findall(text) + [(names, function, "") for function, names in WITH_CLAUSES.findall(text)]
    for names, function, crate in cited:
        owners = [crate] if crate else functions().get(function, ()) if "_" in function else ()
        there = {name for owner in owners for name in clauses(owner, function)[0]}
        wrong.extend(f"{page}: {function} has no clause {name}" for name in re.findall(r"`([\w-]+)`", names)
                     if owners and name not in there)


def check_claims(text, readme, wrong):
    """Holds the table from claim to clause: a function without a crate is of alpha_cmd, a clause without one of
    alpha_top."""
    section = text.split("\n## From claim to clause\n", 1)[1].split("\n## ", 1)[0]
    for promise, cell in PROMISED.findall(section)[1:]:
        if promise not in readme:
            wrong.append(f"README.md doesn't promise: {promise}")
        for item in [] if cell.startswith("none") else cell.replace("`", "").split("; "):
            names, *owner = item.split(" of ")
            if LAW.fullmatch(names):
                names, owner = "", [names]
            function, crate = (owner + ["alpha_top", "alpha_cmd"][len(owner):])[:2]
            there, *_ = clauses(crate, function)
            wrong.extend(f"{function} has no clause {name}" for name in names.split(", ") if name and name not in there)


def check_trusted(text, wrong):
    """Holds the kit's crates that must be trusted: those on which a crate of the repository stands."""
    lines = [line.split(":") for line in (TOP / "crates.txt").read_text().splitlines()]
    below = {name for _, names in lines for name in names.split()} - {own for own, _ in lines}
    said = set(re.findall(r"`(\w+)`", text.split("**The statements of the kit's crates**", 1)[1].split("\n", 1)[0]))
    wrong.extend(f"of the kit's crates {name} is trusted, and no crate stands on it" for name in sorted(said - below))
    wrong.extend(f"the kit's crate {name} must be trusted too" for name in sorted(below - said))


def files_named(cell, crate):
    """The files that a cell names, each with the name in front of it, if there is one. A path without a crate is of the
    crate of the row, a name without a folder of the folder of the path before it."""
    found, folder, name = [], "", None
    for word in re.findall(r"`([^`]+)`", cell):
        if not word.endswith((".rt", ".antt")):
            name = word
            continue
        path = word if "/" in word else f"{folder}/{word}"
        path = path if path.startswith("alpha_") else f"{crate}/{path}"
        folder = path.rpartition("/")[0]
        found.append((TOP / "crates" / path, name))
        name = None
    return found


def has_number(source, number):
    """Whether a source has the number, in one of the ways in which code and definitions write it."""
    power = number.bit_length() - 1
    ways = [str(number), f"{number:_}"] + ([f"1 << {power}", f"2 ^ {power}"] if number == 1 << power else [])
    return any(re.search(rf"(?<![\w.]){re.escape(way)}(?!\w)", source) for way in ways)


def check_limits(text, wrong):
    """Holds the table of limits against the constants and definitions that it names."""
    section = text.split("\n## Limits and constants\n", 1)[1].split("\n## ", 1)[0]
    for limit, numbers, *cells in LIMIT.findall(section)[1:]:
        crate = re.search(r"alpha_\w+", cells[0]).group(0)
        for named in (files_named(cell, crate) for cell in cells):
            missing = [path for path, _ in named if not path.exists()]
            wrong.extend(f"{limit}: there is no {path.relative_to(TOP)}" for path in missing)
            sources = [(path, name, path.read_text()) for path, name in named if path not in missing]
            wrong.extend(f"{limit}: {path.relative_to(TOP)} has no {name}" for path, name, source in sources
                         if name and not re.search(rf"\b{name}\b", source))
            whole = "".join(source for _, _, source in sources)
            wrong.extend(f"{limit}: {', '.join(path.name for path, _ in named)} has no {number}"
                         for number in re.findall(r"\d[\d,]*", numbers)
                         if not has_number(whole, int(number.replace(",", ""))))


def check_row(row, wrong):
    """Holds the files of a row. A path without a crate is of the crate of the row, which stands in its second cell, or
    of that of the path before it; a name without a folder is of the folder of the path before it."""
    owner = re.match(r"[^|]+ \| `(alpha_\w+)` \|", row)
    crate, folder = owner.group(1) if owner else "", ""
    for name, path, others in PLACED.findall(row):
        path = path if "/" in path else f"{folder}/{path}"
        path = path if path.startswith("alpha_") else f"{crate}/{path}"
        folder, crate = path.rpartition("/")[0], crate if owner else path.split("/")[0]
        file = TOP / "crates" / path
        if not file.exists():
            wrong.append(f"the map names {path}, which isn't there: {row[:60]}")
            continue
        wrong.extend(f"{path} has no {it}" for it in filter(None, [name, *re.findall(r"\w+", others)])
                     if not re.search(rf"\b{it}\b", file.read_text()))


def check_maps(text, wrong):
    """Holds the tables of files, each of which names some."""
    for head in MAPS:
        section = text.split(f"\n## {head}\n", 1)[1].split("\n## ", 1)[0]
        rows = ROW.findall(section)
        if not any(PLACED.search(row) for row in rows):
            wrong.append(f"the table below {head} names no file")
        for row in rows:
            check_row(row, wrong)


def main():
    write, wrong, readme = "--write" in sys.argv[1:], [], (TOP / "README.md").read_text()
    for page in [TOP / "README.md", *sorted(TOP.glob("docs/*.md"))]:
        text, name = page.read_text(), page.relative_to(TOP)
        new = check_blocks(name, text, write, wrong)
        wrong.extend(f"{name}: there is no law {law}" for law in sorted(set(LAW.findall(text)) - set(functions())))
        if page in (THEOREMS, PROMISES):
            new = check_reached(new, write, wrong)
            new = check_order(new, write, wrong) if page == THEOREMS else new
            check_names(name, new, page == THEOREMS, wrong)
        check_cited(name, new, wrong)
        if page.name == "ARCHITECTURE.md":
            check_limits(text, wrong)
            check_maps(text, wrong)
        if page == THEOREMS:
            check_claims(new, readme, wrong)
            check_trusted(new, wrong)
            wrong.extend(f"there is no edit {edit} of {crate}" for crate, edit in EDIT.findall(new)
                         if not (TOP / "crates" / crate / "must-fail" / f"{edit}.edit").exists())
        if write and new != text:
            page.write_text(new)
    check_declared(wrong)
    named = "".join(page.read_text() for page in (THEOREMS, PROMISES))
    wrong.extend(f"no page names the clause {name} of alpha_top" for name in clauses("alpha_cmd", "alpha_top")[0]
                 if f"`{name}`" not in named)
    print("\n".join(wrong) or "the pages say what the sources say")
    sys.exit(1 if wrong else 0)


if __name__ == "__main__":
    main()
