#!/usr/bin/env python3
"""Holds docs/instructions.md to the instruction table and to the built program, or writes it anew.

    bench/instructions.py [PROGRAM]     the page is what the table's rows make, and each worked value is the program's
    bench/instructions.py --write       writes the page

The page's tables are made here; what stands before the first of them stays as it is. Names, opcodes, functions and
levels are read from the table's rows, in crates/alpha_table/src. What each instruction gives is said in
bench/worked.py, in words and as a function of Python, which is held against the measured results of
crates/alpha_vectors/data/values.tsv. The worked values are those of these functions.
"""
import os
import re
import struct
import subprocess
import sys
import tempfile
import typing

from measure import TOP, the_program
from worked import (BRANCHES, CELLS, COUNTING, DATA, FEATURES, JUMPS, LETTERS, MEMORY, MISC, OPERATES, OPERATE_WORDS,
                    PAL, PLACE, SECTIONS, number_text)

PAGE = os.path.join(TOP, "docs/instructions.md")
LEVELS = {"One": 1, "Two": 2}


def table_file(name):
    with open(os.path.join(TOP, "crates/alpha_table/src", name)) as file:
        return file.read()


def operate_rows():
    """Name to opcode, function, and level."""
    row = re.compile(r'^ +\w+ "(\S+)" 0x(..) 0x(..) \w+(?:\(\w+\))? \w+ (One|Two),$', re.M)
    return {name: (code.upper() + "." + function.upper(), LEVELS[level])
            for name, code, function, level in row.findall(table_file("operate.rt"))}


def other_rows(macro):
    """The names of one macro of formats.rt with their numbers."""
    text = table_file("formats.rt").split("macro_rules! " + macro, 1)[1].split("macro_rules!", 1)[0]
    row = re.compile(r'^ +[\w:]+ "(\S+)" (0x[0-9a-f]+|\d+) \(.*\),$', re.M)
    return {name: int(number, 0) for name, number in row.findall(text)}


def table():
    """Name to opcode with function, and level, of all instructions."""
    rows = operate_rows()
    for macro, spelling in (("memory_rows", "{:02X}"), ("branch_rows", "{:02X}"), ("jump_rows", "1A.{:X}"),
                            ("misc_rows", "18.{:04X}"), ("fetch_rows", "18.{:04X}"), ("pal_rows", "00.{:02X}")):
        for name, number in other_rows(macro).items():
            rows[name] = (spelling.format(number), 1)
    return rows


class Worked(typing.NamedTuple):
    """A line at 0x10000, what registers and memory have before it, and what is there behind it."""

    line: str
    before: dict
    after: dict
    pc: int = PLACE + 4
    memory: tuple = None
    first: tuple = ()
    end: str = None
    saturated: int = None


def operate_worked(name, level):
    result, a, b, old = OPERATES[name]
    line = f"{name} " + ("$3" if name == "implver" else "$2,$3" if a is None else "$1,$2,$3")
    before = {1: a, 2: b, 3: old}
    before = {n: value for n, value in before.items() if value is not None}
    value = result(a or 0, b or 0, old or 0, level)
    saturated = None
    if name.endswith("/v"):
        value, saturated, overflowed = value
        assert overflowed, name
    return Worked(line, before, {3: value}, saturated=saturated)


def all_worked(rows):
    worked = {name: operate_worked(name, rows[name][1]) for name in OPERATES}
    for others in (MEMORY, BRANCHES, JUMPS, MISC, PAL):
        for name, (_, line, before, after, more) in others.items():
            worked[name] = Worked(line, before, after, **more)
    return worked


def registers_text(name, values):
    counts = COUNTING.match(name) is not None
    return ", ".join(f"${n} = {number_text(value, counts)}" for n, value in values.items())


def operate_text(name, w):
    """The operands of an operate line, and behind a colon the result."""
    counts = COUNTING.match(name) is not None
    before = ", ".join(number_text(value, counts) for value in w.before.values())
    after = number_text(w.after[3], counts)
    if w.saturated is not None:
        after += f" by `wrap`, {number_text(w.saturated, False)} by `saturate`"
    return f"{before}: {after}" if before else after


def changed_text(at, digits):
    """The bytes that a store has changed, and where they begin; nothing where it stored none."""
    pairs = list(zip(bytes.fromhex(digits), CELLS, strict=True))
    changed = [n for n, (now, before) in enumerate(pairs) if now != before]
    if changed:
        stored = " ".join(f"{now:02x}" for now, _ in pairs[changed[0]:changed[-1] + 1])
        yield f"{stored} from {at + changed[0]:#x} on"


def worked_text(name, w):
    if name in OPERATES:
        return operate_text(name, w)
    shown = {n: value for n, value in w.before.items() if name not in MEMORY or value not in (DATA, LETTERS)}
    before = registers_text(name, shown)
    first = "".join(f"`{line}`, then " for line in w.first)
    after = []
    if w.after:
        after.append(registers_text(name, w.after))
    if w.memory:
        after += changed_text(*w.memory)
    if w.end:
        after.append(f"`{w.end}`")
    elif name in BRANCHES or name in JUMPS or not after:
        after.append(f"PC = {w.pc:#x}")
    return f"{first}`{w.line}`" + (f" with {before}" if before else "") + ": " + ", ".join(after)


OTHER_WORDS = {name: row[0] for rows in (MEMORY, BRANCHES, JUMPS, MISC, PAL) for name, row in rows.items()}


def page():
    """The page as it should be: the text before the first table as it is, and the tables."""
    rows = table()
    worked = all_worked(rows)
    said = {**OTHER_WORDS, **OPERATE_WORDS}
    if set(rows) != set(said) or set(rows) != set(worked):
        sys.exit(f"not in both: {sorted(set(rows) ^ set(said) | set(rows) ^ set(worked))}")
    with open(PAGE) as file:
        parts = [file.read().split(f"## {SECTIONS[0][0]}\n")[0]]
    listed = []
    for title, note, names in SECTIONS:
        parts.append(("\n" if listed else "") + f"## {title}\n\n" + (note + "\n\n" if note else "")
                     + "| Name | Opcode | Gives | Worked value |\n|---|---|---|---|\n")
        for name in names:
            parts.append(f"| `{name}` | {rows[name][0]} | {said[name]} | {worked_text(name, worked[name])} |\n")
            listed.append(name)
    if sorted(listed) != sorted(rows):
        sys.exit(f"listed twice or not at all: {sorted(set(rows) ^ set(listed))}")
    return "".join(parts)


def level_rows():
    """How the page's table of levels begins its rows, by the features that the worked values know."""
    for level, features in FEATURES.items():
        bits = [str(k) for k in range(64) if features >> k & 1]
        yield f"| {level} | {'bit' if len(bits) == 1 else 'bits'} {' and '.join(bits)} | {level} |"


def source(w, level):
    """The line at 0x10000; the registers are filled from data before it."""
    cells = list(w.before.items())
    load = [f"ldq ${n},{0x100 + 8 * k}($28)" for k, (n, _) in enumerate(cells)]
    start = ["ldah $28,0x1000($31)"] + load + ["clr $28"] + list(w.first) + ["br here"]
    data = ([".byte " + ",".join(str(0x80 + n) for n in range(16)), ".align 8"]
            + [f".quad {value}" for _, value in cells])
    head = [".level 2", ".segment 0x10000000"] if level == 2 else [".data"]
    code = [".code", "here: " + w.line] + ["nop"] * 15 + ["start: " + start[0]] + start[1:] + [".entry start"]
    return "\n".join(head + data + code) + "\n"


def run_program(program, *words, script=""):
    done = subprocess.run([program, *words], input=script, capture_output=True, text=True)
    return done.stdout, done.stderr


def field_of(word):
    """The opcode, with the function where the format has one."""
    opcode = word >> 26
    if 0x10 <= opcode <= 0x13 or opcode == 0x1C:
        return f"{opcode:02X}.{word >> 5 & 0x7F:02X}"
    if opcode == 0x1A:
        return f"1A.{word >> 14 & 3:X}"
    if opcode == 0x18:
        return f"18.{word & 0xFFFF:04X}"
    return f"00.{word & 0x3FFFFFF:02X}" if opcode == 0 else f"{opcode:02X}"


def faults_of(program, folder, w, row):
    """What of a row isn't as the program has it."""
    text, image = os.path.join(folder, "row.s"), os.path.join(folder, "row.img")
    with open(text, "w") as file:
        file.write(source(w, row[1]))
    _, notes = run_program(program, "asm", text, image)
    if notes:
        return [notes.strip()]
    with open(image, "rb") as file:
        contents = file.read()
    word = struct.unpack_from("<I", contents, 48 if row[1] == 1 else 56)[0]
    faults = [f"opcode {field_of(word)}"] if field_of(word) != row[0] else []
    script = f"break {PLACE}\ngo\nstep\nregs\n" + (f"mem {w.memory[0]} {len(w.memory[1]) // 2}\n" if w.memory else "")
    answers = run_program(program, "debug", image, script=script)[0].split("\n")
    if answers[2] != (w.end or f"pc {w.pc:016x}"):
        faults.append(answers[2])
    registers = [int(value, 16) for line in answers[3:11] for value in line.split()]
    faults += [f"${n} = {registers[n]:#x}" for n, value in {**w.before, **w.after}.items() if registers[n] != value]
    if w.memory and answers[11].split()[1] != w.memory[1]:
        faults.append(answers[11])
    if w.saturated is not None:
        with open(text, "w") as file:
            file.write(source(w, row[1]).replace("here: " + w.line + "\n" + "nop\n" * 5,
                                                 "here: " + w.line + "\ntrapb\nmov $3,$16\nlda $0,1\ncallsys\nnop\n"))
        run_program(program, "asm", text, image)
        notes = run_program(program, "run", "--complete", "saturate", image)[1].split("\n")
        if f"exit {w.saturated}" not in notes:
            faults.append(f"saturate: {notes}")
    return faults


def measured_faults():
    """The measured results that the functions of the operate instructions don't give."""
    with open(os.path.join(TOP, "crates/alpha_vectors/data/values.tsv")) as file:
        rows = [line.split("\t") for line in file.read().splitlines() if line and not line.startswith("#")]
    for name, *numbers, overflowed in rows:
        a, b, old, wanted = (int(text, 16) for text in numbers)
        level = 2 if name in ("ctlz", "ctpop", "cttz") else 1
        value = OPERATES[name][0](a, b, old, level)
        if name.endswith("/v"):
            if (value[0], value[2]) != (wanted, overflowed == "yes"):
                yield f"{name} {a:x} {b:x}: {value[0]:x}"
        elif value != wanted:
            yield f"{name} {a:x} {b:x}: {value:x}"


def main():
    if sys.argv[1:] == ["--write"]:
        made = page()
        with open(PAGE, "w") as file:
            file.write(made)
        return
    program = the_program()
    faults = list(measured_faults())
    with open(PAGE) as file:
        text = file.read()
        faults += [f"the page doesn't have: {row}" for row in level_rows() if row not in text]
        if text != page():
            faults.append("docs/instructions.md isn't what the table makes: bench/instructions.py --write")
    rows = table()
    worked = all_worked(rows)
    with tempfile.TemporaryDirectory() as folder:
        for name, w in worked.items():
            faults += [f"{name}: {fault}" for fault in faults_of(program, folder, w, rows[name])]
        for name in "amask", "implver":
            at_two = rows[name][:1] + (2,)
            faults += [f"{name} at level 2: {fault}"
                       for fault in faults_of(program, folder, operate_worked(name, 2), at_two)]
    print("\n".join(faults) if faults else f"{len(rows)} instructions are as the page says")
    sys.exit(1 if faults else 0)


if __name__ == "__main__":
    main()
