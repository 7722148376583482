"""What of two texts beside their instructions must be the same, and what of a text can't be followed where it changes.

The assembler and the linker make numbers of where words stand: distances of labels, addresses reckoned from labels,
values of names that are assigned twice, pairs of relocations. A repair must leave each of them as it was.
"""
import re
from collections import Counter

from . import codes, gas, steps, table

# Directives that make other text of a text, or lay words elsewhere than in the order in which they are written.
UNREAD = (".macro", ".endm", ".purgem", ".exitm", ".altmacro", ".if", ".else", ".endif", ".rept", ".irp", ".endr",
          ".include", ".incbin", ".org", ".subsection", ".pushsection", ".popsection", ".reloc", ".offset", ".struct")
NUMBERED_SECTIONS = (".text", ".data", ".bss")
DOT = re.compile(r"(?<![\w$.])\.(?![\w$.])")
RECKONING = {"lda", "ldah", "addq", "subq", "addl", "subl", "s4addq", "s8addq", "s4subq", "s8subq"}
LINKS = (steps.RA, steps.PV)


def faults(old, new, pairs):
    """What isn't the same of two texts, or can't be shown to be, beside their instructions."""
    if old.given == new.given:
        return
    yield from unread(old)
    yield from others(old, new, pairs)
    yield from added(old, new, pairs)
    if marks(old) != marks(new):
        yield "relocations stand elsewhere, or are others"
    for place in sorted(pairs):
        if sets_pointer(old, place) and old.code.steps[place][:3] != new.code.steps[pairs[place]][:3]:
            yield f"line {old.statement(place).line}: the global pointer is made from its own address, which is another"
    if len({image - place for place, image in pairs.items()}) > 1:
        yield from moved(old, pairs)
    if old.is_whole:
        yield from entries(old, new, pairs)


def unread(old):
    """The directives that can't be followed."""
    assigned = Counter(statement.operands[0] for statement in old.given
                       if statement.name in codes.ASSIGNMENTS and len(statement.operands) == 2)
    for statement in old.given:
        name, operands = statement.name, statement.operands
        if name.startswith(UNREAD) or name in NUMBERED_SECTIONS and operands and operands != ["0"]:
            yield f"line {statement.line}: `{name}` can't be followed"
        elif name in codes.ASSIGNMENTS and len(operands) == 2 and assigned[operands[0]] > 1:
            yield f"line {statement.line}: {operands[0]} is assigned more than once"


def items(text, places):
    """All statements but the instructions, all labels but theirs, and such instructions as are in a map, as the places
    of the old text, in order. Fields that a listing's repair changes are left out."""
    found, at = [], 0
    for statement in text.given:
        found += [("label", label) for label in statement.labels
                  if label not in text.labels and label not in text.numbered]
        if statement.name.startswith("."):
            if statement.name != ".codebase":
                found.append(("directive", statement.name, tuple(statement.operands)))
        elif statement.name:
            found += [("word", places[at])] if at in places else []
            at += 1
    # What is put behind the data of a listing goes back to its code.
    while found[-1:] == [("directive", ".code", ())]:
        found.pop()
    return found


def others(old, new, pairs):
    """Directives and data that are others, or stand elsewhere among the words."""
    mine = items(old, {place: place for place in pairs})
    its = items(new, {image: place for place, image in pairs.items()})
    at = first_other([one for one in mine if one[0] != "word"], [one for one in its if one[0] != "word"])
    if at is not None:
        yield f"`{at[0]}` of the old text, and `{at[1]}` of the new one: directives or data aren't the same"
    elif first_other(mine, its) is not None:
        yield "words, or directives among them, stand in another order"


def first_other(mine, its):
    """The first items that aren't the same of two rows, as they are spelled, or None."""
    if mine == its:
        return None
    at = next((n for n, (one, other) in enumerate(zip(mine, its)) if one != other), min(len(mine), len(its)))
    return tuple(spelled(row[at]) if at < len(row) else "the end" for row in (mine, its))


def spelled(item):
    if item[0] == "label":
        return f"{item[1]}:"
    return " ".join([item[1], ",".join(item[2])]).strip() if item[0] == "directive" else "a word"


def added(old, new, pairs):
    """Words that stand where none stood, and labels by which something else is meant in the old text."""
    sections, images = set(old.sections), set(pairs.values())
    for place, section in enumerate(new.sections):
        if place not in images and section not in sections:
            yield f"line {new.statement(place).line} of the new text: a word stands in a section without any"
            break
    named = {name for statement in old.given for text in statement.operands for name in codes.NAMES.findall(text)}
    for label in sorted((set(new.labels) | set(new.assigned)) - set(old.labels) - set(old.assigned)):
        if label in named:
            yield f"{label} is something else in the old text, and a label of the new one"


def marks(text):
    return [statement.mark for statement in text.given if statement.mark is not None]


def sets_pointer(text, place):
    """Whether an instruction makes the global pointer from the address where it stands itself."""
    statement = text.statement(place)
    return statement.name == "ldgp" or statement.relocation == "gpdisp" and statement.name == "ldah"


def moved(old, pairs):
    """Where words move: what is reckoned from places of code, which comes out otherwise."""
    section, sections = ".text", set(old.sections)
    for statement in old.given:
        if statement.name in codes.SECTIONS or statement.name == ".section":
            section = old.switched(statement, section, section)
        if section.startswith((*codes.UNLOADED, ".eh_frame", ".gcc_except")) or (
                statement.name.startswith(codes.SILENT) and statement.name not in codes.ASSIGNMENTS):
            continue
        for text in statement.operands:
            if not stays(old, pairs, statement, text, section not in sections):
                yield f"line {statement.line}: `{text}` is reckoned from where words stand, and they move"
    for place in sorted(pairs):
        if reckons(old, place):
            yield f"line {old.statement(place).line}: an address of code is reckoned with, and words move"


def stays(old, pairs, statement, text, is_still):
    """Whether an expression says the same where words move. In a section without any, `.` is where it was."""
    names = [name for name in codes.NAMES.findall(text) if name in old.labels]
    is_branch = statement.name in table.BRANCH.values()
    if DOT.search(text) and statement.operands[1:] != ["."]:
        return is_branch or is_still and not names
    if not names:
        return True
    expression = gas.expression_of(codes.BASE.sub("", text))
    if expression is not None and expression.number == 0 or is_branch and len(names) == 1:
        return True
    first = old.labels[names[0]]
    last = old.labels[names[1]] if len(names) == 2 else None
    if expression is not None:
        last = old.behind_label(expression)
    if last is None or len(names) > 2:
        return False
    return all(pairs.get(place) == pairs.get(first, 0) + place - first
               for place in range(min(first, last), max(first, last) + 1))


def reckons(old, place):
    """Whether an instruction makes another number of an address of code, or reads memory by one."""
    step, state = old.code.steps[place], old.code.returns().states.get(place, {})
    if step.word is None or step.symbol is not None or step.insn.name == "bis":
        return False
    if step.insn.span is not None:
        return state.get(steps.base_of(step), ("", None))[0] == "code"
    read = [register for register in range(31) if step.insn.uses >> register & 1]
    if step.insn.name not in RECKONING or step.insn.name == "lda" and not steps.displacement_of(step):
        return False
    values = [state.get(register, ("", None)) for register in read]
    return any(value[0] == "code" or value in [("entry", link) for link in LINKS] for value in values)


def entries(old, new, pairs):
    """An entry that is a number, and stands for another word."""
    for statement in old.given:
        number = gas.number_of(statement.operands[0]) if statement.name == ".entry" and statement.operands else None
        if number is None:
            continue
        place = (number - old.base) // 4
        if place in pairs and new.base + 4 * pairs[place] != number:
            yield f"line {statement.line}: the entry is a number, and its word moves"
