"""What a run keeps besides registers: regions that were found before, the lock flag, address 0, registers that are
alike, and a pending trap when all units are used up."""
import itertools

from . import blocks, late, runs
from .blocks import CELLS, CODE, MASK, Blocks, waits

LOCKED, CONDITIONAL = ("ldl_l", "ldq_l"), ("stl_c", "stq_c")
LOW = ["        .segment 0x0", "        .zero 128"]
ODD = ["        .segment 0x10002000", "        .byte 1,2,3", "        .zero 10"]
VALUE, DRAWN = 0xF7F6F5F4F3F2F1F0, 0x8877665544332211
REST = bytes(n * 11 % 251 + 1 for n in range(280))


def call(number, descriptor, address="$6", count=8):
    """A system call, of a range that begins in a register."""
    return [f"lda $0,{number}($31)", f"lda $16,{descriptor}($31)", f"mov {address},$17", f"lda $18,{count}($31)",
            "callsys"]


# ---- lines of images of values

def locks():
    """Locked loads and conditional stores whose two registers are one, or R31, and the block at address 0."""
    for load, store in itertools.product(LOCKED, CONDITIONAL):
        for number in (0, 8, -8):
            base = ["stq $1,40($31)", f"lda $3,{40 - number}($31)"]
            alike, other = f"{load} $3,{number}($3)", f"{store} $3,{number}($3)"
            yield f"{store} of that behind {alike}", [*base, alike, "lda $3,7($31)", f"{store} $3,40($31)"]
            before = ["stq $1,40($31)", "stq $2,0($31)", f"{load} $4,40($31)", base[1], other]
            yield f"$3, behind {load}, behind {other}", before
            yield f"the memory, behind {load}, behind {other}", [*before, "ldq $3,40($31)"]
            yield f"the memory at 0, behind {load}, behind {other}", [*before, "ldq $3,0($31)"]
            yield f"the memory, without {load}, behind {other}", ["stl_c $4,0($31)", *base, other, "ldq $3,40($31)"]
        yield (f"{store} of what was loaded behind {load} $3,0($3)",
               ["lda $4,64($31)", "stq $4,40($31)", "lda $3,40($31)", f"{load} $3,0($3)", "lda $3,7($31)",
                f"{store} $3,64($31)"])
        yield f"{store} behind {load} $31,40($31)", [f"{load} $31,40($31)", "lda $3,7($31)", f"{store} $3,40($31)"]
        for at, other in itertools.product((0, 8, 16), (0, 8, 16)):
            yield (f"{store} of {other} behind {load} of {at}",
                   [f"{load} $5,{at}($31)", "lda $3,7($31)", f"{store} $3,{other}($31)"])
        for at, other in ((32, 32), (32, 64), (0, 0), (0, 32)):
            for last in (0, 32):
                yield (f"{store} of {last} behind one of {other} behind {load} of {at}",
                       [f"{load} $5,{at}($31)", f"{store} $4,{other}($31)", "lda $3,7($31)", f"{store} $3,{last}($31)"])
        for other in (0, 8, 32):
            yield (f"{store} behind {load} of {other} and once more",
                   [f"{load} $5,{other}($31)", f"{load} $5,0($31)", "lda $3,7($31)", f"{store} $3,0($31)"])
    for name in late.JUMPS:
        line = f"{name} $31,($5)"
        yield (f"stq_c of 0 behind {line}",
               ["ldq_l $4,8($31)", "br $5,.+4", "lda $5,8($5)", line, "lda $3,7($31)", "stq_c $3,0($31)"])
    for name in (*late.STORES[:5], *late.LOADS):
        told = [f"{name} $3,-8($3)"] + (["ldq $3,40($31)"] if name in late.STORES else [])
        yield f"{'the memory behind ' * (len(told) - 1)}{told[0]}", ["stq $1,40($31)", "lda $3,48($31)", *told]


# Regions for the bits of addresses: the first has 4 MiB.
FAR = ["        .codebase 0x30000000", "        .segment 0x0", "        .zero 4194320",
       *itertools.chain(*((f"        .segment {1 << bit:#x}", "        .zero 16") for bit in range(23, 28)))]
FAR_BEHIND = [f"        .segment {1 << 29:#x}", "        .zero 16"]


def far():
    """Two addresses of which one has a bit that the other hasn't, and what stands at each; and the lock flag of one."""
    for bit in range(4, 30):
        number = 1 << bit
        base = [f"ldah $4,{number >> 16}($31)"] if bit > 15 else ["lda $4,1($31)", f"sll $4,{bit},$4"]
        yield (f"address 0 behind a store to one with bit {bit}",
               [*base, "stq $1,0($31)", "stq $2,8($4)", "stq $2,0($4)", "ldq $3,0($31)"])
        for first, last in (("$31", "$4"), ("$4", "$31"), ("$4", "$4")):
            yield (f"stq_c of {last} behind ldq_l of {first} with bit {bit}",
                   [*base, f"ldq_l $5,0({first})", "lda $3,7($31)", f"stq_c $3,0({last})"])


PLACES = {"low": ("mov $31,{}", 64), "cells": ("mov $9,{}", 0), "odd": ("ldah {},0x2000($31)", 0),
          "stack": ("ldah {},0x4000($31)", -16),
          "code": ("ldah {},1($31)", 0)}
ODD_FAR = ["        .segment 0x20000000", "        .zero 13"]


def pairs():
    """An access to one region behind one to another."""
    for (one, (first, at)), (other, (second, there)) in itertools.permutations(PLACES.items(), 2):
        base = [first.format("$4"), second.format("$5")]
        begin = f"ldq $6,{at}($4)" if one == "code" else f"stq $2,{at}($4)"
        if other == "code":
            yield (f"a load of the code behind a load of {one}",
                   [*base, begin, f"ldq $6,{at}($4)", f"ldl $3,{there}($5)"])
            continue
        yield (f"a load of {other} behind a load of {one}",
               [*base, f"stq $1,{there}($5)", begin, f"ldq $6,{at}($4)", f"ldq $3,{there}($5)"])
        yield (f"a store to {other} behind a load of {one}",
               [*base, f"ldq $6,{at}($4)", f"stq $1,{there}($5)", f"ldq $6,{at}($4)", f"ldq $3,{there}($5)"])
        yield f"a load of {one} behind a store to {other}", [*base, begin, f"stq $1,{there}($5)", f"ldq $3,{at}($4)"]


# ---- regions

READS = {name: [f"{name} $7,0($6)"] for name in late.LOADS} | {"write": call(4, 1)}
WRITES = {name: ["mov $5,$10", f"{name} $10,0($6)"] for name in late.STORES} | {"read": call(3, 0)}


def regions():
    """An access to a region, and then another one to it."""
    made = Blocks("regions",
                  "Two accesses to one region: to the code, of which the second would write, to what may be written, "
                  "and over the ends.",
                  front=LOW, back=ODD)
    for (one, first), (other, second) in itertools.product(READS.items(), WRITES.items()):
        made.add(f"{one}_{other}", [*first, *second, "br dump"])
        made.run(f"code-{one}-{other}", f"{one}_{other}",
                 f"`{one}` from the code, and then `{other}` into it, which may not be",
                 {5: VALUE, 6: CODE})
        more(made)
    for other, second in WRITES.items():
        made.add(f"all_{other}", [word for first in (*READS.values(), *WRITES.values()) for word in
                                  (*first, *second, "ldq $7,0($6)", "s4addq $1,$7,$1", "lda $5,77($5)")] + ["br dump"])
        for name, address in {"low": 0, "cells": CELLS + 64, "odd": CELLS + 0x2000, "stack": runs.TOP - 16}.items():
            made.run(f"{name}-{other}", f"all_{other}",
                     f"`{other}` into the {name} region behind each kind of access to it", {5: VALUE, 6: address})
            more(made)
    ends(made)
    twice(made)
    return made


def twice(made):
    """One word that goes to two regions."""
    for name, words in (READS | WRITES).items():
        label = f"twice_{name}"
        made.add(label, [*words, "mov $2,$6", "subq $4,1,$4", f"bgt $4,{label}", "br dump"])
        size = runs.size_of(name)
        for how, address in {"odd": CELLS + 0x200D - (5 if size == 8 else 1 if size > 1 else 0), "code": CODE,
                             "low": 0}.items():
            made.run(f"twice-{name}-{how}", label, f"`{name}` to the cells, and then the same word to {address:#x}",
                     {2: address, 4: 2, 5: VALUE, 6: CELLS + 64})
            more(made)


def more(made):
    """Gives the last row further input."""
    made.rows[-1] = made.rows[-1]._replace(given=made.rows[-1].given + REST)


def ends(made):
    """An access within a region, and then one over its end, or before it."""
    for name in runs.ACCESSES:
        made.add(f"{name}_behind", ["ldbu $7,-1($6)", f"{name} $5,0($6)", "br dump"])
        made.add(f"{name}_before", ["ldbu $7,0($6)", f"{name} $5,-8($6)", "br dump"])
    end = made.end()
    for name in runs.ACCESSES:
        size = runs.size_of(name)
        for region, (first, behind) in {"low": (0, 128), "odd": (CELLS + 0x2000, CELLS + 0x200D),
                                        "stack": (runs.STACK, runs.TOP), "code": (CODE, end)}.items():
            made.run(f"{region}-{name}-behind", f"{name}_behind",
                     f"`{name}` over the end of the {region} region, behind a load within it",
                     {5: VALUE, 6: behind // size * size})
            if name in ("ldq", "stb", "ldl_l", "stq_c"):
                made.run(f"{region}-{name}-before", f"{name}_before",
                         f"`{name}` before the {region} region, behind a load within it", {5: VALUE, 6: first})


# ---- calls

def calls():
    """Calls whose range begins at address 0, or ends there; and two calls."""
    made = Blocks("calls-zero",
                  "System calls of ranges at address 0, by $1, the number, $2, the descriptor, $3, the address, and "
                  "$4, the count.",
                  front=["        .segment 0x0", "        .byte 65,66,67,68,69,70,71,72", "        .zero 32"], back=ODD)
    asked = ["mov $1,$0", "mov $2,$16", "mov $3,$17", "mov $4,$18", "callsys"]
    shown = ["ldq $5,0($31)", "ldq $6,32($31)", "br dump"]
    made.add("call", [*asked, *shown])
    made.add("again", [*asked, "mov $1,$0", "mov $7,$18", "callsys", *shown])
    made.add("changed", [*asked, "stq $5,0($3)", "mov $1,$0", "callsys", *shown])
    ranges = ([(0, count) for count in (0, 1, 7, 8, 39, 40, 41, MASK, 1 << 63)]
              + [(1, 39), (1, 40), (39, 1), (40, 0), (40, 1)])
    ranges += [(MASK, 0), (MASK, 1), (MASK, 2), (MASK - 7, 8), (MASK - 7, 16), (1 << 32, 8), (1 << 63, 8)]
    for number, (address, count) in itertools.product((3, 4), ranges):
        made.run(f"{number}-{address:x}-{count:x}", "call",
                 f"the call {number} of {count:#x} bytes at address {address:#x}",
                 {1: number, 2: number - 3, 3: address, 4: count})
        more(made)
    for number, (name, address, much, less) in itertools.product((3, 4),
                                                                 (("zero", 0, 41, 40), ("odd", CELLS + 0x2005, 9, 8),
                                                                  ("stack", runs.TOP - 3, 4, 3),
                                                                          ("code", CODE, 1 << 20, 4),
                                                                          ("nowhere", 1 << 29, 1, 0))):
        for how, (first, last) in {"over-good": (much, less), "good-over": (less, much),
                                   "good-good": (less, less)}.items():
            made.run(f"{number}-{name}-{how}", "again",
                     f"the call {number} of {first} bytes at {address:#x}, and then of {last}",
                     {1: number, 2: number - 3, 3: address, 4: first, 7: last})
            more(made)
    made.add("flag", ["ldq_l $5,64($9)", *asked, "lda $5,7($31)", "stq_c $5,64($9)", "br dump"])
    for name, count in (("end", 8), ("none", 0), ("over", 1 << 40)):
        made.run(f"flag-{name}", "flag", f"a read of {count:#x} bytes at the end of the input clears the lock flag",
                 {1: 3, 3: CELLS + 64, 4: count})
    for name, address in (("zero", 0), ("cells", CELLS + 64)):
        made.run(f"changed-{name}", "changed", "bytes that were put stay in the output as they were",
                 {1: 4, 2: 1, 3: address, 4: 8, 5: VALUE})
    return made


# ---- address 0

def zero():
    """A code that begins at address 0."""
    made = Blocks("late-zero", "The code begins at address 0, with a /V word.", code=0,
                  before=[late.SUM, "nop", "nop", "trapb", "br dump"])
    made.add("jumps", [late.SUM, "jmp $31,($6)"])
    made.add("loads", ["ldq $5,0($31)", "stq_c $5,0($31)"])
    made.add("call", ["mov $1,$0", "mov $2,$16", "mov $3,$17", "mov $4,$18", "callsys", "br dump"])
    made.add("turn", ["lda $5,12($31)", "jsr $5,($5)"])
    for completion in late.ALL:
        made.run(f"plain-{completion}", "before", f"the word at address 0 overflows, by {completion}", late.OVERFLOWS,
                 completion=completion)
    for place in (1, 2, 3):
        made.late(f"first-{place}", "before",
                  f"a trap is reported at word {place}: the handler finds the word at address 0", late.OVERFLOWS,
                  [0x77, *waits(*[(1, 0)] * (place - 1)), 0], late.ALL)
    made.late("lost", "jumps", "a trap is reported at address 0: no word stands before it", late.OVERFLOWS,
              [0x77, *waits((0, 0)), 0])
    for name, label, completion, chosen in (("lost", "jumps", "wrap", [0x77, *waits((0, 0)), 0]),
                                            ("stop", "before", "stop", [0x77, 0])):
        for value in (4, 1 << 32, 1 << 63):
            made.row("refuse", f"{name}-{value:x}", label, f"an end at address 0 that is told to be at {value:#x}",
                     late.OVERFLOWS, chosen,
                     completion=completion, change=first_number(value), answer="norun kind 3 at 0")
    made.run("loads", "loads", "a load from the code at address 0, and a store to it", {})
    made.run("turn", "turn", "a jump to address 12", {})
    for number, count in itertools.product((3, 4), (0, 4, 8, 1 << 20)):
        made.run(f"{number}-{count}", "call", f"the call {number} of {count} bytes of the code at address 0",
                 {1: number, 2: number - 3, 4: count})
        more(made)
    return made


def first_number(value):
    def change(kept):
        kept.ending = (kept.ending[0], value, *kept.ending[2:])
        return kept
    return change


# ---- late traps

def alike():
    """Accesses whose two registers are one, while a trap is pending; and drawn values of 0."""
    made = Blocks("late-alike",
                  "While a trap is pending: accesses whose two registers are one, and values of 0 that are drawn.",
                  front=LOW)
    for name in runs.ACCESSES:
        for how, before in ((("locked", "ldq_l $7,64($9)"), ("plain", "nop")) if name in CONDITIONAL
                            else (("plain", "nop"),)):
            made.add(f"{name}_{how}", [before, late.SUM, f"{name} $6,8($6)", late.SUM, "trapb", "br dump"])
            for told, value in (("", DRAWN), ("-zero", 0)):
                made.late(f"{name}-{how}{told}", f"{name}_{how}",
                          f"`{name} $6,8($6)` behind `{before}`, while a trap is pending, by the drawn value "
                          f"{value:#x}: "
                          "its address is of the register before", late.OVERFLOWS | {6: CELLS + 64},
                          [0x77, *waits((value, 0), (0x99, 0))])
    for load, store in itertools.product(LOCKED, CONDITIONAL):
        made.add(f"{load}_{store}",
                 ["ldq_l $7,112($9)", late.SUM, f"{load} $6,8($6)", f"{store} $4,72($9)", late.SUM, "trapb", "br dump"])
        made.late(f"{load}-{store}", f"{load}_{store}",
                  f"`{load} $6,8($6)` while a trap is pending sets the flag with the block of its address, and "
                  f"`{store}` stores there",
                  late.OVERFLOWS | {6: CELLS + 64}, [0x77, *waits((CELLS + 104, 0), (VALUE, 0), (0x99, 0))])
    for name, line in late.with_destination().items():
        if name in ("addq", "addl/v", "mulq", "cmoveq", "cmovne", "sextb", "implver", "lda", "ldah", "br", "jsr"):
            label = f"zero_{name.replace('/', '_')}"
            made.add(label, ["lda $7,16($8)", "lda $5,85($31)", late.SUM, line, late.SUM, "trapb", "br dump"])
            made.late(label.replace("_", "-"), label,
                      f"`{line}` while a trap is pending: $5 gets the drawn value, which is 0", late.OVERFLOWS,
                      [0x77, *waits((0, 0), (0x99, 0))])
    made.add("own", ["addq/v $3,$2,$3", "nop", "trapb", "br dump"])
    blocks_of_locks(made)
    made.add("unique", ["mov $4,$16", "wrunique", late.SUM, "nop", "trapb", "rdunique", "mov $0,$7", "br dump"])
    made.late("unique", "unique", "a report leaves the unique value", late.OVERFLOWS, [0x77, *waits((1, 0))],
              ("wrap", "saturate"))
    for completion in ("wrap", "saturate"):
        made.run(f"unique-{completion}-plain", "unique", "an overflow leaves the unique value", late.OVERFLOWS,
                 completion=completion)
    made.add("anew", [late.SUM, "trapb", "mov $4,$1", "subq $6,1,$6", "bgt $6,anew", "br dump"])
    for name, first, other in (("once", blocks.MAX, 5), ("behind", 5, blocks.MAX), ("always", blocks.MAX, blocks.MAX)):
        made.run(f"anew-{name}-plain", "anew", f"one /V word by {first:#x} and then twice by {other:#x}",
                 {1: first, 2: 1, 4: other, 6: 3})
        made.late(f"anew-{name}", "anew", f"one /V word by {first:#x} and then twice by {other:#x}",
                  {1: first, 2: 1, 4: other, 6: 3}, [0x77, 0x78])
    made.add("same", [late.SUM, "addq/v $4,$6,$3", "addq/v $4,$6,$3", "trapb", "br dump"])
    for first, last in itertools.product((0, 1), (0, 1)):
        made.late(f"same-{first}{last}", "same", "two /V words with the trigger's destination add it once more",
                  late.OVERFLOWS, [0x77, *waits((5, first), (6, last))], late.ALL)
    made.late("own-zero", "own", "a trigger that overwrites its own source by 0", {3: blocks.MAX, 2: 1}, [0, 0],
              late.ALL)
    return made


def blocks_of_locks(made):
    """The lock flag of a word's own block, and of that at address 0."""
    for name in (*late.LOADS[:5], *late.STORES[:5]):
        made.add(f"{name}_own",
                 ["ldq_l $7,80($9)", late.SUM, f"{name} $5,88($9)", "stq_c $4,80($9)", late.SUM, "trapb", "br dump"])
        made.late(f"{name}-own", f"{name}_own",
                  f"`{name}` while a trap is pending leaves the lock flag of its own block", late.OVERFLOWS,
                  [0x77, *waits((DRAWN, 0), (VALUE, 0), (0x99, 0))])
    for load, store in itertools.product(LOCKED, CONDITIONAL):
        label = f"{load}_{store}_low"
        made.add(label,
                 [f"{load} $7,8($31)", late.SUM, f"{store} $4,0($31)", late.SUM, "trapb", "ldq $6,0($31)", "br dump"])
        made.late(label.replace("_", "-"), label,
                  f"`{store}` of the block at address 0 while a trap is pending, behind `{load}`", late.OVERFLOWS,
                  [0x77, *waits((VALUE, 0), (0x99, 0))])
        made.late(f"{label.replace('_', '-')}-report", label,
                  f"the report of a trap clears the lock flag of the block at address 0, before `{store}`",
                  late.OVERFLOWS,
                  [0x77, 0, 0x78, 0])
    made.add("low_late",
             [late.SUM, "ldq_l $7,8($31)", "stq_c $4,0($31)", late.SUM, "trapb", "ldq $6,0($31)", "br dump"])
    made.late("low-late", "low_late", "`ldq_l` and `stq_c` of the block at address 0, both while a trap is pending",
              late.OVERFLOWS,
              [0x77, *waits((DRAWN, 0), (VALUE, 0), (0x99, 0))])


def spent():
    """Units that are used up while a trap is pending."""
    made = Blocks("late-spent",
                  "The last unit is a trigger: what may wait does so all the same, as the choices say, and the handler "
                  "finds the "
                  "/V word behind.")
    lines = late.with_destination()
    names = ("addq", "addl/v", "cmoveq", "lda", "ldq", "ldq_l", "stq_c", "br", "bsr", *late.JUMPS)
    lines = {name: lines[name] for name in names} | {"stq": "stq $4,72($9)", "stb": "stb $4,72($9)",
                                                     "stl_c": "stl_c $4,72($9)", "mb": "mb",
                                                     "fetch": "fetch 0($9)", "ldq $31": "ldq $31,1($31)",
                                                     "beq": "beq $31,.+4", "bne": "bne $31,.+4"}
    for name, line in lines.items():
        label = name.translate(str.maketrans("/$ ", "___"))
        made.add(label, ["lda $7,12($8)", late.SUM, line, late.SUM, "trapb", "br dump"])
        made.late(label.replace("_", "-"), label,
                  f"17 units, of which the last is a trigger: `{line}` and a /V word are executed, and then the trap "
                  f"is reported",
                  late.OVERFLOWS, [0x77, *waits((DRAWN, 0), (0x99, 0))], late.ALL if name == "addq" else ("wrap",),
                  steps=17)
    made.add("adds", [late.SUM, "addq/v $1,$2,$4", late.SUM, "trapb", "br dump"])
    for adds in itertools.product((0, 1), (0, 1)):
        made.late(f"adds-{adds[0]}{adds[1]}", "adds",
                  f"16 units, of which the last is a trigger, and two /V words behind with flags {adds}",
                  late.OVERFLOWS,
                  [0x77, *waits((9, adds[0]), (8, adds[1]))], late.ALL, steps=16)
    made.add("turn", [late.SUM, "br $31,.+4", "trapb"])
    made.late("lost", "turn",
              "16 units, of which the last is a trigger, and a branch that is executed: the trap is lost",
              late.OVERFLOWS,
              [0x77, *waits((9, 0))], late.ALL, steps=16)
    made.late("kept", "turn", "16 units, and the trap is reported before the branch", late.OVERFLOWS, [0x77, 0],
              late.ALL, steps=16)
    made.add("second", [late.SUM, "trapb", late.SUM, "nop", late.SUM, "trapb", "br dump"])
    for steps in (0, 1, 14, 15, 16, 17, 18, 19, 1 << 32, (1 << 32) + 16, MASK):
        made.late(f"second-{steps}", "second", f"{steps} units, by which a second trap is pending or isn't",
                  late.OVERFLOWS,
                  [0x77, 0x78, *waits((1, 0), (0x99, 0))], steps=steps)
    made.add("turns",
             ["lda $5,32767($31)", "turn_back:", "subq $5,1,$5", "bne $5,turn_back", late.SUM, "nop", "trapb",
              "br dump"])
    made.late("turns", "turns", "a Units of 65,550 before a trigger", late.OVERFLOWS, [0x77, *waits((1, 0))])
    for count, first in ((1_023, []), (1_024, ["nop"])):
        made.add(f"long_{count}",
                 [late.SUM, *first, f"again_{count}:", "lda $5,0($31)", f"blbs $5,again_{count}", late.SUM, "trapb"])
        chosen = [*[(1, 0)] * (count - 3), (0, 0), (0, 0), (0x99, 0)]
        made.late(f"long-{count}", f"long_{count}",
                  f"16 units, of which the last is a trigger, and word {count:,} behind it has /V", late.OVERFLOWS,
                  [0x77, *waits(*chosen)], steps=16)
    return made


FIRST = """# The first word overflows.
        .level 2
        .segment 0x10000000
        .zero 8
        .code
start:  addl/v $30,$30,$3
        nop
        addl/v $30,$30,$3
        trapb
        bpt
        .entry start
"""


def first_rows():
    """How many units are made, from the first word on."""
    chosen = blocks.quadwords([0x77, *waits((1, 0), (2, 0))])
    for steps in range(5):
        about = f"at most {steps} units, of which the first is a trigger"
        for kind in ("follow", "choose"):
            yield blocks.Row(f"late-first.{steps}", kind, "late-first", "wrap", steps, b"", chosen, about=about)
        yield blocks.Row(f"late-first.{steps}-plain", "run", "late-first", "wrap", steps, b"", None,
                         about=f"at most {steps} steps, of which the first overflows")


def families():
    return [regions(), calls(), zero(), alike(), spent()]
