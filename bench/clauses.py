#!/usr/bin/env python3
"""Holds the clauses of all public functions against the must-fail edits.

An edit of crates/NAME/must-fail begins with what it turns, a line each:

    # FUNCTION: CLAUSE, CLAUSE

or `# FUNCTION` where the function's only clause has no name. A method is `TYPE::METHOD`. Mostly the function is public,
and the edit may change what that function calls; where a trait says what a public method does, it is the private
function below.

Each clause of a `pub fn` has such an edit, or a row of bench/edits/without.tsv says why it has none; and a row that no
such clause needs is refused. Each edit, of bench/edits too, can be applied: its texts stand once in its files. What the
prover says isn't asked here: `rt ci` has it refuse the edits of must-fail, bench/edits.py those of bench/edits.

    bench/clauses.py [--list]

With `--list` each public clause is printed with its edits, or with why it has none. It ends with 1 where something is
wrong.
"""
import fnmatch
import pathlib
import re
import sys

TOP = pathlib.Path(__file__).resolve().parent.parent
WITHOUT = TOP / "bench" / "edits" / "without.tsv"
OWNER = re.compile(r"(?:pub(?:\(\w+\))? )?(?:impl|trait)\b(?:<.*?>)? (.*?)(?: where.*)?[ {]*$")
HEAD = re.compile(r"( *)(pub )?(?:pub\(\w+\) )?(?:const )?fn (\w+)")
CLAUSE = re.compile(r"^\s*ensures (\w*) ?\{", re.M)
TURNS = re.compile(r"# ([\w:]+)(?:: (\w+(?:, \w+)*))?")


def owner_of(line):
    """The type of an `impl`, or the trait: `Block` of `impl<T> Sink for Block<T> {`."""
    found = OWNER.match(line)
    return found and re.split(r"[<\s]", found.group(1).split(" for ")[-1].removeprefix("&"))[0]


def contract(lines, at, indent):
    """The lines of a function from its head to where its body begins, or to its end where it has none."""
    ends = (indent + "{", indent + "{}")
    last = next((n for n in range(at, len(lines)) if lines[n] in ends or lines[n].endswith((";", ") {"))), at)
    return "\n".join(lines[at:last + 1])


def functions(crate):
    """Each function of a crate that has a contract: its name, whether it is public, and the names of its clauses. The
    name of a function's only clause may be empty."""
    for file in sorted((crate / "src").rglob("*.rt")):
        lines, owner = file.read_text(encoding="utf-8").split("\n"), None
        for at, line in enumerate(lines):
            head = HEAD.match(line)
            if line and not line.startswith(" "):
                owner = owner_of(line)
            if head:
                indent, public, name = head.groups()
                names = CLAUSE.findall(contract(lines, at, indent))
                if names:
                    yield f"{owner}::{name}" if owner and indent else name, bool(public), names


def turned(edit):
    """What an edit says that it turns: functions, each with a clause."""
    for line in edit.read_text(encoding="utf-8").split("\n"):
        found = TURNS.fullmatch(line)
        if found:
            yield from ((found.group(1), clause) for clause in (found.group(2) or "").split(", "))


def misses(edit, crate):
    """Why an edit can't be applied to the sources of its crate: the text that doesn't stand there once, or None."""
    texts, file, old = {}, None, None
    for line in edit.read_text(encoding="utf-8").split("\n"):
        kind, _, text = line.partition(": ")
        if kind == "file":
            file = crate / text.strip()
            texts[file] = texts.get(file) or (file.read_text(encoding="utf-8") if file.is_file() else "")
        elif kind == "old":
            old = text
        elif line.startswith("new:") and texts[file].count(old) != 1:
            return old.strip()
        elif line.startswith("new:"):
            texts[file] = texts[file].replace(old, text)
    return None


def read_without():
    """The rows of clauses without an edit: the crate, the function, the names of its clauses, and the reason."""
    lines = WITHOUT.read_text(encoding="utf-8").splitlines()
    return [tuple(line.split("\t")) for line in lines if line and not line.startswith("#")]


def reason(rows, clause):
    """The first row that has a clause, with the clause's name in it, and why the clause has no edit."""
    crate, function, name = clause
    for row, (crates, owners, names, why) in enumerate(rows):
        if (fnmatch.fnmatchcase(crate, crates) and fnmatch.fnmatchcase(function, owners)
            and (names == "*" or name in names.split(", "))):
            return (row, "*" if names == "*" else name), why
    return None, None


def unused(rows, used):
    """The names of clauses in the rows that no clause needs."""
    for row, (crate, function, names, _) in enumerate(rows):
        yield from (told((crate, function, name)) for name in names.split(", ") if (row, name) not in used)


def told(clause):
    crate, function, name = clause
    return f"{crate}, {function}" + (f": {name}" if name else "")


def edits_by_clause(wrong):
    """The public clauses, each with its edits, in the order of the sources."""
    found = {}
    for crate in sorted(it for it in (TOP / "crates").iterdir() if (it / "src").is_dir()):
        known = set()
        for function, public, names in functions(crate):
            known |= {(function, name) for name in names}
            found.update({(crate.name, function, name): [] for name in names if public})
        for edit in sorted((crate / "must-fail").glob("*.edit")):
            turns, path = list(turned(edit)), edit.relative_to(TOP)
            if not turns:
                wrong.append(f"{path} doesn't say which clause it turns")
            wrong.extend(f"{path}: {told((crate.name, *it))}: there is no such clause" for it in turns
                         if it not in known)
            for it in turns:
                found.get((crate.name, *it), []).append(edit.stem)
    return found


def check_edits(wrong):
    """Holds the texts of all edits against the sources, and returns how many edits the gate tries."""
    tried, others = sorted(TOP.glob("crates/*/must-fail/*.edit")), sorted(TOP.glob("bench/edits/*/*.edit"))
    for edit, crate in [*((it, it.parent.parent) for it in tried),
                        *((it, TOP / "crates" / it.parent.name) for it in others)]:
        text = misses(edit, crate)
        if text is not None:
            wrong.append(f"{edit.relative_to(TOP)}: its file doesn't have once: {text}")
    return len(tried)


def main():
    words = sys.argv[1:]
    if words not in ([], ["--list"]):
        raise SystemExit(__doc__)
    wrong, rows, used = [], read_without(), set()
    clauses = edits_by_clause(wrong)
    for clause, edits in clauses.items():
        at, why = (None, ", ".join(edits)) if edits else reason(rows, clause)
        used.add(at)
        if not why:
            wrong.append(f"{told(clause)}: no must-fail edit is for it, and bench/edits/without.tsv doesn't say why")
        if words:
            print(f"{told(clause)}: {why}")
    wrong.extend(f"bench/edits/without.tsv: no clause needs {it}" for it in unused(rows, used))
    count, with_edits = check_edits(wrong), sum(map(bool, clauses.values()))
    print("\n".join(wrong)
          or f"{len(clauses)} public clauses: {with_edits} have one of {count} edits, the others a reason for none")
    sys.exit(1 if wrong else 0)


if __name__ == "__main__":
    main()
