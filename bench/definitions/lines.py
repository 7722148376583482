"""Which lines of the definitions were run: by a translation that notes each equation and each field of a fact.

A line of a type counts where a value of it was made or taken apart, and a signature where an equation of it ran.
"""
import re

from . import data
from .core import Call, Case, Change, Make, Part, Tuple, is_data
from .natives import NATIVES
from .running import Definitions, reading
from .sources import TOP, Declaration


# So many cases of a group are watched.
MOST = 3_500
PAGE, ORDERED = TOP / "docs/theorems.md", re.compile(r"^\| `(crates/\S+\.antt)` \| (\S+) \|", re.M)


class Watch:
    """The watched definitions `d`; `ran` has for each number of a line the cases that ran it, as (group, number of the
    case)."""

    def __init__(self):
        self.d, self.ran = Definitions(is_watched=True), {}

    def begin(self):
        """The definitions for a case that is watched."""
        self.d.forget()
        self.d.translation.seen.clear()
        return self.d

    def end(self, group, number):
        """Notes which lines the case ran."""
        for line in self.d.translation.seen:
            self.ran.setdefault(line, []).append((group, number))


def shapes(term, found):
    """The types of cases and the names of fields in a term."""
    if isinstance(term, Case):
        if isinstance(term.of, Declaration):
            found.add(term.of)
    elif isinstance(term, Part):
        found.add(term.name)
        shapes(term.of, found)
    elif isinstance(term, (Make, Change)):
        found.update(term.fields)
        shapes([part for part in term], found)
    elif isinstance(term, dict):
        shapes(list(term.values()), found)
    elif isinstance(term, (list, Call, Tuple)) or hasattr(term, "_fields"):
        for part in term:
            shapes(part, found)
    return found


def own_lines(declaration, chunk):
    """The numbers of a chunk's lines that count."""
    first, lines = chunk
    return {first + n for n, line in enumerate(lines) if line.strip() and not line.lstrip().startswith("--")}


def counted(d, ran, clauses):
    """By file of the repository: the lines of definitions that these clauses reach, and which of them ran."""
    translation, used = d.translation, set()
    for declaration, known in translation.known.items():
        for line in known:
            if line.number in ran:
                shapes([line.left, line.body], used)
    files = {}
    for found in translated(translation, clauses):
        every = set().union(*(own_lines(found, chunk) for chunk in found.chunks))
        files.setdefault(found.module.path, [set(), set()])
        files[found.module.path][0] |= every
        files[found.module.path][1] |= run_in(translation, found, every, ran, used)
    return files


def run_in(translation, found, every, ran, used):
    """Which of a declaration's lines ran."""
    read = found.parts()
    if is_data(found, NATIVES):
        names = {name for name, _, _ in read.parts} if read.kind == "record" else set()
        return every if found in used or names & used or read.kind == "function" else set()
    lines = [line for line in translation.known.get(found, ()) if line.number in ran]
    chunks = {chunk[0]: own_lines(found, chunk) for chunk in found.chunks}
    if read.kind != "function":
        fields = {line.first for line in translation.known.get(found, ())}
        return every - fields | {line.first for line in lines} | things(translation, found) if lines else set()
    return set().union(chunks[found.line], *(chunks[line.first] for line in lines)) if lines else set()


def things(translation, found):
    """The lines of a record's fields that are no facts."""
    return {line.first for line in translation.known.get(found, ()) if line.body is None}


def translated(translation, clauses):
    """The definitions that clauses reach. Names reach more than the translation does, where a field or a variable has
    the name of a definition; but types aren't translated, and count as names reach them."""
    found = [translation.sources.module(module).declared(name) for module, name in sorted(reached(clauses))]
    return [one for one in found if one in translation.known or is_data(one, NATIVES)]


def reached(clauses):
    """The definitions of the repository that clauses reach by names, as bench/reading.py counts them, but those that
    data.py names and what is reached by them alone: (module, name)."""
    found = set()
    for crate, function, clause in clauses:
        rows, names, modules = reading.clauses(crate, function)
        todo = reading.find(next(text for name, text in rows if name == clause), names, modules)
        done = set()
        while todo:
            place, name = todo.pop()
            file = place if isinstance(place, reading.File) else reading.File.of(place)
            if file is None or name not in file.owner or (file, file.owner[name]) in done:
                continue
            owner = file.owner[name]
            done.add((file, owner))
            if file.is_own:
                crate_name, _, *inner = file.path.relative_to(TOP / "crates").with_suffix("").parts
                if ".".join([crate_name, *inner, owner]) in data.NAMED:
                    continue
                found.add((f"Rattle.{crate_name}.specs.{'.'.join(inner)}", owner))
            todo |= file.reached("\n".join(file.parts[owner]))
    return found


def tell(watch):
    """Prints how many lines of each file ran, and which didn't."""
    files = counted(watch.d, watch.ran, data.CLAUSES)
    for path, (every, run) in sorted(files.items()):
        lacking = sorted(every - run)
        print(f"    {len(run):3} of {len(every):3}  {path.relative_to(TOP)}" + (f"; not {lacking}" if lacking else ""))
    every, run = (sum(len(parts[n]) for parts in files.values()) for n in (0, 1))
    print(f"{run:,} of {every:,} lines of {len(files)} files were run")


def held(watch, is_written):
    """Holds the reading order of docs/theorems.md, which has beside each file how many of its lines ran, or writes it
    anew."""
    files = {str(path.relative_to(TOP)): f"{len(run)}/{len(every)}"
             for path, (every, run) in counted(watch.d, watch.ran, data.CLAUSES[:data.READ]).items()}
    text = PAGE.read_text()
    wrong = [f"docs/theorems.md has {said} for {path}, and {files.get(path)} ran"
             for path, said in ORDERED.findall(text) if files.get(path) != said]
    if is_written:
        PAGE.write_text(ORDERED.sub(lambda found: f"| `{found[1]}` | {files.get(found[1], found[2])} |", text))
    for line in wrong:
        print(line)
    return not wrong
