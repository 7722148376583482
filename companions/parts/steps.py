"""The instructions of a text or of an image one by one, each as a word of the table, for whoever follows what code
does."""
import functools
from collections import namedtuple

from . import gas, instructions, table

# An instruction. `word` is None where the statement is none of the table, as a macro of GNU as or one of floating
# point. `symbol` is what stands in the place of its displacement, or such a statement's whole text; `label` is where it
# branches to. `spoils` are the registers that it may change, which for a known word are those that it sets.
Step = namedtuple("Step", "word insn symbol label spoils")

ALL = (1 << 31) - 1
RA, PV, AT, GP, SP = 26, 27, 28, 29, 30
OPCODES = {name: opcode for rows in (table.MEMORY, table.BRANCH) for opcode, name in rows.items()}
FUNCTIONS = {name: (opcode, function) for opcode, rows in table.OPERATE.items() for function, name in rows.items()}
FIXED = {name: 0x63FF0000 | number for rows in (table.BARRIERS, table.ORDERS) for number, name in rows.items()}
FIXED.update({name: number for number, name in table.PAL.items()})
FIXED.update({"nop": 0x47FF041F, "unop": 0x2FFE0000})
BIS, LITERAL, BY_DIVISION = "bis", 1 << 12, 23
# The name behind the parentheses of a `jsr` is that of the function where the relocation says so.
CALLED = {"lituse_jsr", "lituse_jsrdirect"}
CALLS = {"bsr", "jsr"} | instructions.DIVISIONS
CONDITIONAL = set(table.BRANCH.values()) - {"br", "bsr"}


def bits(*registers):
    """A set of registers, in which R31 never is."""
    found = 0
    for register in registers:
        found |= table.bit(register)
    return found


# What PALcode calls read.
PAL_READS = {"callsys": bits(0, *range(16, 22)), "gentrap": bits(16), "wrunique": bits(16)}
# What a system leaves of a call in registers: its result, and what else Linux answers.
SYSTEM_SPOILS = {"callsys": bits(0, 19, 20), "rdunique": bits(0)}


def of_word(word):
    """The step of a word of the table."""
    insn = table.insn_of(word)
    return Step(word, insn, None, None, insn.sets | SYSTEM_SPOILS.get(insn.name, 0))


def of_statement(statement):
    """The step of an instruction of a text, for GNU as or for `asm`."""
    name = instructions.ALIASES.get(statement.name, statement.name)
    try:
        found = encoded(name, tuple(statement.operands), statement.relocation)
    except (instructions.Untold, ValueError, IndexError):
        found = None
    try:
        return found or macro(name, statement)
    except (instructions.Untold, IndexError):
        return Step(None, table.Insn(name, "unknown", ALL, 0, None), f"{statement.name} {','.join(statement.operands)}",
                    None, ALL)


@functools.lru_cache(maxsize=1 << 14)
def encoded(name, operands, relocation):
    """The step of an instruction that is one word, else None."""
    if name in FIXED and not operands:
        return of_word(FIXED[name])
    if name == "call_pal":
        return of_word(instructions.number(operands[0], 0, 0x3FFFFFF))
    if name in table.MEMORY.values():
        return memory(name, operands, relocation)
    if name in table.BRANCH.values():
        return branch(name, operands)
    if name in table.JUMP:
        return jump(name, operands, relocation)
    return operate(name, operands)


def operate(name, operands):
    if name in ("mov", "clr"):
        source = operands[0] if name == "mov" else "$31"
        if not source.startswith("$"):
            return memory("lda", [operands[1], source], None)
        name, operands = BIS, ["$31", source, operands[-1]]
    elif name in instructions.PAIRS and len(operands) == 2:
        name, operands = instructions.PAIRS[name], ["$31", *operands]
    elif name == "implver":
        operands = ["$31", "1", *operands]
    elif name in table.UNARY:
        operands = ["$31", *operands]
    elif len(operands) == 2:
        operands = [*operands, operands[0]]
    if name not in FUNCTIONS or len(operands) != 3:
        return None
    opcode, function = FUNCTIONS[name]
    second = operands[1]
    middle = (instructions.register(second) << 16 if second.startswith("$")
              else instructions.number(second, 0, 255) << 13 | LITERAL)
    return of_word(opcode << 26 | instructions.register(operands[0]) << 21 | middle | function << 5
                   | instructions.register(operands[2]))


def memory(name, operands, relocation):
    target = instructions.register(operands[0])
    offset, base = instructions.based(operands[1])
    number = gas.number_of(offset or "0")
    if number is None and base is None or number is not None and not -32768 <= number <= 32767:
        return None
    word = OPCODES[name] << 26 | target << 21 | (31 if base is None else base) << 16 | (number or 0) & 0xFFFF
    symbol = None if number is not None and relocation in instructions.LITERAL_USES else f"{offset}!{relocation}"
    return of_word(word)._replace(symbol=symbol)


def branch(name, operands):
    if len(operands) == 1 and name in ("br", "bsr"):
        operands = ["$26" if name == "bsr" else "$31", *operands]
    if len(operands) != 2:
        return None
    return of_word(OPCODES[name] << 26 | instructions.register(operands[0]) << 21)._replace(label=operands[1])


def jump(name, operands, relocation):
    if name == "ret" and not operands:
        operands = ["$31", "($26)"]
    if operands and operands[0].startswith("("):
        operands = ["$26" if name in ("jsr", "jsr_coroutine") else "$31", *operands]
    if name == "ret" and len(operands) == 1:
        operands = ["$31", f"({operands[0]})"]
    _, by = instructions.based(operands[1])
    if by is None:
        return None
    word = 0x1A << 26 | instructions.register(operands[0]) << 21 | by << 16 | table.JUMP.index(name) << 14
    called = operands[2] if name == "jsr" and relocation in CALLED and len(operands) == 3 else None
    return of_word(word)._replace(label=called)


def macro(name, statement):
    """A statement that is no word of the table: some macros of GNU as, and all that isn't known."""
    text = f"{statement.name} {','.join(statement.operands)}!{statement.relocation}"
    operands = statement.operands
    named = [gas.REGISTERS[operand] for operand in operands if operand in gas.REGISTERS]
    if name == "ldgp" and named:
        _, base = instructions.based(operands[1])
        return unknown(name, table.bit(PV if base is None else base), table.bit(GP), text)
    if name in instructions.DIVISIONS:
        return unknown(name, bits(24, 25, GP, SP), bits(BY_DIVISION),
                       text)._replace(spoils=bits(BY_DIVISION, 24, 25, PV, AT))
    if name == "jsr" and operands:
        return unknown("jsr", bits(GP), bits(PV, RA), text)._replace(label=operands[-1])
    if name in table.MEMORY.values() and named and not name.startswith("st"):
        return unknown(name, bits(GP), bits(named[0]), text)._replace(spoils=bits(named[0], AT))
    return Step(None, table.Insn(name, "unknown", ALL, 0, None), text, None, ALL)


def unknown(name, uses, sets, text):
    return Step(None, table.Insn(name, "unknown", uses, sets, None), text, None, sets)


def is_call(step):
    """Whether the flow comes back behind it: a `bsr`, a `jsr`, or a macro that has one."""
    return step.insn.name in CALLS


def is_jump(step):
    """Whether it goes where a register says."""
    return step.insn.name in table.JUMP


def link_of(step):
    """The register in which a call, a branch or a jump leaves the address behind it."""
    if step.word is None:
        return BY_DIVISION if step.insn.name in instructions.DIVISIONS else RA
    return step.word >> 21 & 31


def is_conditional(step):
    return step.insn.name in CONDITIONAL


def base_of(step):
    return step.word >> 16 & 31


def displacement_of(step):
    return (step.word & 0xFFFF ^ 0x8000) - 0x8000
