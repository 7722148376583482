"""Slips: the definitions with one small change each, and whether a case of the runs finds it.

A number becomes another, a sign, a test or a case its neighbour, a variable or a field one of the same type; arguments
of one type change places, a part of a fact or a whole case is left out. A change that the language would refuse, since
an argument has another type, a recursion has no end or a case is missing, is no slip and isn't counted; nor is one
behind which nothing bounds what is looked for.
"""
import gc
import os
import resource
import select
import signal
import sys
from collections import Counter

from . import data
from .core import (KINDS, Both, Call, Case, Native, Part, Quantified, Use, Value, Var, explicit, free, is_data, put,
                   text_of)
from .lines import translated
from .natives import NATIVES
from .running import Definitions
from .sources import TOP, Declaration
from .translate import Left, key_of
from .same import SAME

TURNED = {"◌+◌": "◌-◌", "◌-◌": "◌+◌", "◌*◌": "◌+◌", "◌/◌": "◌%◌", "◌%◌": "◌/◌", "◌^◌": "◌*◌", "◌<◌": "◌≤◌",
          "◌≤◌": "◌<◌",
          "◌≡◌": "◌≢◌", "◌≢◌": "◌≡◌", "◌&&◌": "◌||◌", "◌||◌": "◌&&◌", "true": "false", "false": "true", "◌+ℤ◌": "◌-ℤ◌",
          "◌-ℤ◌": "◌+ℤ◌", "◌*ℤ◌": "◌+ℤ◌", "bit_and": "bit_or", "bit_or": "bit_xor", "bit_xor": "bit_and",
          "take": "drop",
          "drop": "take", "list_any": "list_all", "list_all": "list_any", "ltb": "leb", "leb": "ltb", "min": "max",
          "max": "min"}
WIDTHS, ORDERED = ("w8", "w16", "w32", "w64"), ("◌-◌", "◌/◌", "◌%◌", "◌^◌", "◌<◌", "◌≤◌", "◌-ℤ◌", "ltb", "leb")
REFUSED = ("TypeError", "AttributeError", "IndexError", "KeyError", "ValueError", "RecursionError", "Unmatched",
           "Unknown", "NameError")
# LONGEST is in seconds of a processor, so that a busy machine makes no slip too slow.
FIRST, MOST, LONGEST, PROCESSES = 5, 60, 120, 2


# ---- changes of a term

def changes(term, scope, fields):
    """The terms with one change, each with what was changed. `scope` has the variables that may stand for others."""
    yield from own_changes(term, scope, fields)
    if isinstance(term, (Var, Value, Use, Case, Native)) or not isinstance(term, (tuple, list, dict)):
        return
    if isinstance(term, Quantified):
        names = {binder.name for binder in term.binders}
        yield from ((what, term._replace(body=body)) for what, body in changes(term.body, scope | names, fields))
        return
    parts = list(term.items()) if isinstance(term, dict) else list(enumerate(term))
    for key, part in parts:
        for what, other in changes(part, scope, fields):
            if isinstance(term, dict):
                yield what, {**term, key: other}
            elif isinstance(term, list):
                yield what, term[:key] + [other] + term[key + 1:]
            else:
                yield what, type(term)(*(other if n == key else one for n, one in enumerate(term)))


def own_changes(term, scope, fields):
    if isinstance(term, Value) and term.code.isdigit():
        yield f"{term.code} becomes {int(term.code) + 1}", Value(str(int(term.code) + 1))
        if int(term.code) > 1:
            yield f"{term.code} becomes {int(term.code) - 1}", Value(str(int(term.code) - 1))
    elif isinstance(term, Native) and term.key[1] in TURNED:
        other = next(key for key in NATIVES
                     if key[1] == TURNED[term.key[1]] and NATIVES[key].count == NATIVES[term.key].count)
        yield f"{term.key[1]} becomes {other[1]}", Native(other)
    elif isinstance(term, Case):
        yield from neighbours(term)
    elif isinstance(term, Var):
        for name in sorted(scope):
            if name != term.name and KINDS.get(name) is not None and KINDS.get(name) == KINDS.get(term.name):
                yield f"{shown(term.name)} becomes {shown(name)}", Var(name)
    elif isinstance(term, Part) and isinstance(term.of, Var):
        own = fields.get(KINDS.get(term.of.name), {})
        for name, of in own.items():
            if name != term.name and of == own.get(term.name):
                yield f".{term.name} becomes .{name}", Part(term.of, name)
    elif isinstance(term, Both) and len(term.parts) > 1:
        for n in range(len(term.parts)):
            yield f"part {n + 1} is left out", Both(term.parts[:n] + term.parts[n + 1:])
    elif isinstance(term, Call):
        yield from of_call(term)


def shown(name):
    return name.rsplit("_", 1)[0]


def neighbours(term):
    """The next case of the type with as many parts."""
    of = term.of
    if isinstance(of, Declaration):
        known = [(name, len(explicit(one))) for name, one, _ in of.parts().parts]
    else:
        known = list(of.cases.items())
    alike = [name for name, count in known if count == term.count]
    if len(alike) > 1 and term.name in WIDTHS:
        alike = [name for name in alike if name in WIDTHS]
    if len(alike) > 1:
        other = alike[(alike.index(term.name) + 1) % len(alike)]
        yield f"{term.name} becomes {other}", Case(other, term.count, of)


def of_call(term):
    head, parts = term.head, term.arguments
    name = head.key[1] if isinstance(head, Native) else None
    if name == "not" and len(parts) == 1:
        yield "not is left out", parts[0]
    elif name in ("if◌then◌else◌", "cond") and len(parts) == 3:
        yield "the choice is turned", Call(head, [parts[0], parts[2], parts[1]])
    elif name in ORDERED and len(parts) == 2 and parts[0] != parts[1]:
        yield f"{name} with its operands turned", Call(head, parts[::-1])
    elif name == "◌⊎◌" and len(parts) == 2:
        yield "one of two is left out", parts[0]
        yield "one of two is left out", parts[1]
    if (isinstance(head, Use) and head.of.parts().kind == "function"
        or isinstance(head, Case) and isinstance(head.of, Declaration)):
        sorts = [text_of(one) for one in sorts_of(head)]
        for n, (one, other) in enumerate(zip(sorts, sorts[1:])):
            if one == other and n + 1 < len(parts) and parts[n] != parts[n + 1]:
                yield (f"arguments {n + 1} and {n + 2} change places",
                       Call(head, parts[:n] + [parts[n + 1], parts[n]] + parts[n + 2:]))


def sorts_of(head):
    if isinstance(head, Use):
        return explicit(head.of.parts().type)
    return next(explicit(one) for name, one, _ in head.of.parts().parts if name == head.name)


# ---- slips of a declaration

def slips_of(translation, declaration, fields):
    """(number of the line that is changed, its first line, what is changed, all lines)."""
    lines = translation.lines_of(declaration)
    is_record = declaration.parts().kind == "record"
    for n, line in enumerate(lines):
        if line.body is None:
            continue
        scope = set(translation.parameters(declaration)) if is_record else variables(line.left)
        for what, body in changes(line.body, scope, fields):
            yield line, what, lines[:n] + [line._replace(body=body)] + lines[n + 1:]
        for what, left in () if is_record else changes(line.left, set(), {}):
            if used(left, line.body) != used(line.left, line.body):
                yield line, what, lines[:n] + [line._replace(left=left)] + lines[n + 1:]
        if is_record:
            yield line, f"{line.left.name} is left out", lines[:n] + [line._replace(body=Value("True"))] + lines[n + 1:]
        elif len(lines) > 1:
            yield line, "the case is left out", lines[:n] + lines[n + 1:]


def used(left, body):
    """Patterns as far as the body looks at them: of two variables that it doesn't use none is the other."""
    return put(left, {name: Value("any") for name in variables(left) - free(body)})


def variables(term):
    if isinstance(term, Var):
        return {term.name}
    if isinstance(term, (list, tuple)) and not isinstance(term, (Value, Use, Case, Native)):
        return set().union(*map(variables, term)) if len(term) else set()
    return set()


def fields_of(sources):
    """The fields of each record with their types, by the record's name."""
    found = {}
    for module in list(sources.modules.values()):
        for declaration in module.known.values() if module else ():
            if declaration.parts().kind == "record":
                found[declaration.name] = {name: text_of(of) for name, of, _ in declaration.parts().parts}
    for of in sources.types.values():
        if of.kind == "struct":
            found[of.name] = of.fields
    return found


def all_slips(d):
    """Every slip of the definitions of the repository that the clauses reach, with a text that names it."""
    fields, found = fields_of(d.translation.sources), []
    for declaration in translated(d.translation, data.CLAUSES):
        if is_data(declaration, NATIVES):
            continue
        alike = Counter()
        for line, what, lines in slips_of(d.translation, declaration, fields):
            alike[line.number, what] += 1
            what += f" ({alike[line.number, what]})" * (alike[line.number, what] > 1)
            place = f"{declaration.module.path.relative_to(TOP)}:{line.first}"
            name = " ".join([declaration.name, *named(line.left)])
            found.append((declaration, line.number, lines, f"{place}: {name}: {what}"))
    return found


def named(left):
    """What tells a line of a definition from the others: the name of its field, or the cases that its patterns have."""
    if isinstance(left, Left):
        return [left.name]
    return [pattern.head.name if isinstance(pattern, Call) else pattern.name for pattern in left
            if isinstance(pattern.head if isinstance(pattern, Call) else pattern, Case)]


# ---- trying them

def tried(d, slip, cases):
    """What the first case that finds the slip says, "" where none does."""
    declaration, _, lines, _ = slip
    own = d.translation.known[declaration]
    try:
        d.translation.change(declaration, lines)
        for group, case in cases:
            try:
                found = group.difference(d, case)
            except Exception as error:  # Of whatever kind: the changed definition may not run at all.
                found = f"{type(error).__name__}: {error}"
            if found:
                return found
        return ""
    finally:
        d.translation.change(declaration, own)


def chosen(made, ran, number):
    """The cases that run a line: some of each group, and then more of them."""
    by_group = {}
    for group, case in ran.get(number, ()):
        by_group.setdefault(group, []).append(made[group][case])
    first = [(group, case) for group, cases in by_group.items()
             for case in cases[::max(1, len(cases) // FIRST)][:FIRST]]
    more = [(group, case) for group, cases in by_group.items()
            for case in (cases if group.is_quick else cases[::max(1, len(cases) // MOST)])]
    return first + more


def child(number, known, out):
    """Tries one slip, and writes what comes of it. One that takes too long ends the process."""
    resource.setrlimit(resource.RLIMIT_AS, (4 << 30, resource.RLIM_INFINITY))
    sys.setrecursionlimit(30_000)
    gc.disable()  # There is much that stays, and little that must be looked for.
    d, slips, made, ran = known
    signal.setitimer(signal.ITIMER_PROF, LONGEST)
    found = tried(d, slips[number], chosen(made, ran, slips[number][1]))
    os.write(out, (" ".join(found.split())[:150] or "not found").encode())
    os._exit(0)


class Worker:
    """Tries some of the slips, each in a process of its own, so that none sees what another one left."""

    def __init__(self, numbers, known):
        self.waiting, self.known, self.results = list(numbers), known, {}
        self.start()

    def start(self):
        self.current, self.text = self.waiting.pop(0), b""
        self.pipe, out = os.pipe()
        self.process = os.fork()
        if self.process == 0:
            try:
                child(self.current, self.known, out)
            finally:
                os._exit(1)
        os.close(out)

    def read(self):
        """Reads what has come; False at the end."""
        content = os.read(self.pipe, 1 << 16)
        self.text += content
        if content:
            return True
        os.close(self.pipe)
        _, status = os.waitpid(self.process, 0)
        is_late = os.WIFSIGNALED(status) and os.WTERMSIG(status) == signal.SIGPROF
        ended = "TimeoutError: no end" if is_late else "MemoryError: it ended"
        self.results[self.current] = self.text.decode("utf-8", "replace") or ended
        if self.waiting:
            self.start()
            return True
        return False


def results(numbers, known):
    """What comes of each slip, by some processes."""
    workers = [Worker(numbers[n::PROCESSES], known) for n in range(PROCESSES) if numbers[n::PROCESSES]]
    working = list(workers)
    while working:
        ready, _, _ = select.select([worker.pipe for worker in working], [], [])
        working = [worker for worker in working if worker.pipe not in ready or worker.read()]
    return {number: what for worker in workers for number, what in worker.results.items()}


def tell(made, watch, count, names, chooser):
    """Tries so many slips of those with these names, all where it is 0, and tells which no case finds and nobody has
    explained."""
    d = Definitions()
    slips = all_slips(d)
    # Lines are numbered as they are read, which a watched translation may do in another order.
    numbers = {place: number for number, place in places_of(watch.d).items()}
    ran = {number: watch.ran.get(numbers.get(place), []) for number, place in places_of(d).items()}
    drawn = [number for number, slip in enumerate(slips) if not names or any(name in slip[3] for name in names)]
    if count:
        drawn = sorted(chooser.sample(drawn, min(count, len(drawn))))
    found = results(drawn, (d, slips, made, ran))
    return told(slips, found)


def places_of(d):
    """Where each line of a translation stands, by its number: its definition, and its line in the file."""
    return {line.number: (key_of(line.of), line.first) for known in d.translation.known.values() for line in known}


def told(slips, found):
    refused = {number for number, what in found.items() if what.split(":")[0] in REFUSED}
    missed = sorted(number for number, what in found.items() if what == "not found")
    unknown = [number for number in missed if explained(slips[number][3]) is None]
    for number in missed:
        print(f"not found: {slips[number][3]}" + (f" ({explained(slips[number][3])})" if number not in unknown else ""))
    tries = len(found) - len(refused)
    print(f"{tries:,} slips: {tries - len(missed):,} found, {len(missed)} not, {len(missed) - len(unknown)} of them "
          f"explained; "
          f"{len(refused)} changes more that the language would refuse, or that no loop can try")
    return not unknown


def explained(place):
    """Why a slip means the same, or can't be seen: by the file's place without its line."""
    path, _, rest = place.split(":", 2)
    return SAME.get(f"{path.split('/')[1]}:{rest.strip()}")
