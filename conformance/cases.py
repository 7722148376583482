"""What the suite has: which images, how each is run, which journals are recorded of it, and which journals are refused.

An image is that of the source of its name. What it is for is said by the comment at the head of the source. Sources
that would be long and alike are made here.
"""
import os
import random
import struct
from collections import namedtuple

import families
from families import chosen, lines, state, wild
from parts import files

HERE = os.path.dirname(os.path.abspath(__file__))

ALL = ("wrap", "saturate", "stop")
# How an image is run: by which completions, for how many steps, over which input, and whether the registers at barriers
# are asked for; and which journals of it are recorded, by each of these completions.
Case = namedtuple("Case", "completions steps given is_watched journals")
PLAIN = Case(("wrap",), 100_000, b"", True, ())
# How a recorded run chooses: by a seed, or by words of 64 bits. `at-once` reports each trap before the next word,
# `late` as late as possible, and leaves ones in every destination.
CHOICES = {"at-once": b"", "late": b"\xff" * 32_768, "astray": struct.pack("<3Q", 0x10000008, 1, 0x77),
           "behind": struct.pack("<4Q", 5, 1, 6, 0), "second": struct.pack("<7Q", 5, 5, 6, 0, 0, 0, 0)}
SOME, MANY = ("1", "2", "late"), ("1", "2", "3", "at-once", "late")

# ---- values: what operate instructions give

CORNERS = (0, 1, 2, 7, 0x7FFFFFFF, 0x80000000, 0xFFFFFFFF, 0x123456789ABCDEF, 0x8877665544332211, (1 << 63) - 1,
           1 << 63,
           (1 << 64) - 1)
ARITHMETIC = "addl addq subl subq mull mulq umulh s4addl s4addq s4subl s4subq s8addl s8addq s8subl s8subq".split()
TRIGGERS = "addl/v addq/v subl/v subq/v mull/v mulq/v".split()
COMPARISONS = "cmpeq cmplt cmple cmpult cmpule cmpbge and bic bis ornot xor eqv".split()
MOVES = "cmoveq cmovne cmovlt cmovle cmovgt cmovge cmovlbs cmovlbc".split()
EXTRACTS = "extbl extwl extll extql extwh extlh extqh insbl inswl insll insql inswh inslh insqh".split()
MASKS = "mskbl mskwl mskll mskql mskwh msklh mskqh zap zapnot sll srl sra sextb sextw".split()
COUNTS = "ctpop ctlz cttz implver sextb sextw addq".split()
UNARY = {"sextb", "sextw", "amask", "ctpop", "ctlz", "cttz"}
FORMS = {"arithmetic": ARITHMETIC, "triggers": TRIGGERS, "comparisons": COMPARISONS, "moves": MOVES,
         "extracts": EXTRACTS, "masks": MASKS,
         "counts": ["amask", "implver", "ctpop", "ctlz", "cttz"]}
VALUES = {"arithmetic": (ARITHMETIC, 1), "triggers": (TRIGGERS, 1), "comparisons": (COMPARISONS, 1),
          "moves": (MOVES, 1),
          "extracts": (EXTRACTS, 1), "masks": (MASKS, 1), "features": (["amask", "implver"], 1), "counts": (COUNTS, 2)}


def lines_of(name, number):
    """The line of an instruction on $1 and $2 into $3, and the one with a literal of its own for $2, where it has
    one."""
    if name == "implver":
        return [f"{name} $3"]
    first = "" if name in UNARY else "$1,"
    if name in ("ctpop", "ctlz", "cttz"):
        return [f"{name} $2,$3"]
    return [f"{name} {first}$2,$3", f"{name} {first}{37 * number % 256},$3"]


def values_source(names, level):
    """A program that reads three quadwords, a, b and c, and writes what each line gives with a in $1, b in $2 and c in
    $3 before it, until the input ends."""
    lines = [line for number, name in enumerate(names, 1) for line in lines_of(name, number)]
    said = ["# a, b and c of each 24 bytes of the input in $1, $2 and $3: a quadword of output for each of these "
            "lines' $3:"]
    said += ["# " + "; ".join(lines[n:n + 6]) for n in range(0, len(lines), 6)]
    body = []
    for number, line in enumerate(lines):
        body += ["ldq $3,16($9)", line, f"stq $3,{24 + 8 * number}($9)"] + (["trapb"] if "/v" in line else [])
    calls = ["lda $0,4($31)", "lda $16,1($31)", "lda $17,24($9)", f"lda $18,{8 * len(lines)}($31)", "callsys",
             "br next",
             "end: clr $16", "lda $0,1($31)", "callsys"]
    head = ["ldah $9,0x1000($31)", "next: lda $0,3($31)", "clr $16", "mov $9,$17", "lda $18,24($31)", "callsys",
            "subq $0,24,$4", "bne $4,end", "ldq $1,0($9)", "ldq $2,8($9)"]
    code = [f"start: {head[0]}", *head[1:], *body, *calls]
    data = [".level 2", ".segment 0x10000000"] if level == 2 else [".data"]
    return "\n".join(said + data + [f".zero {24 + 8 * len(lines)}", ".code", *code, ".entry start"]) + "\n"


def long_source(words, condition):
    """A shadow of so many words behind its trigger."""
    head = [f"# {condition}: {words} words stand between the trigger and its barrier.", ".code",
            "start: lda $1,-1($31)",
            "srl $1,1,$1", "lda $2,1($31)", "addq/v $1,$2,$3"]
    tail = ["trapb", "addq $3,$4,$16", "lda $0,1($31)", "callsys", ".entry start"]
    return "\n".join([*head, *["lda $4,4($31)"] * words, *tail]) + "\n"


LINES = {"branches": ("Branches, 1 where they are taken.", lines.branches),
         "addresses": ("LDA and LDAH.", lines.addresses),
         "literals": ("Each number of bits or bytes as a literal.", lines.literals),
         "bases": ("Loads whose base is loaded, stores, links, and what R31 takes.", lines.bases),
         "flags": ("Conditional stores behind each kind of word, 1 where the flag was still set.", lines.flags),
         "flags-zero": ("As values-flags, of the block at address 0.", lambda: lines.flags("$31"), state.LOW),
         "locks": ("Locked loads and conditional stores whose registers are one, and the block at address 0.",
                   state.locks, state.LOW),
         "far": ("Two addresses that differ in one bit.", state.far, state.FAR, state.FAR_BEHIND),
         "pairs": ("An access to one region behind one to another.", state.pairs, state.LOW, state.ODD_FAR)}


def made_sources():
    """The sources that are made here, by name."""
    made = {f"values-{name}": values_source(*what) for name, what in VALUES.items()}
    made["values-products"] = values_source(TRIGGERS + ["umulh", "mull", "mulq"], 1)
    made["shadow-c9"] = long_source(1_025, "C9")
    made["shadow-c9-repaired"] = long_source(1_024, "As shadow-c9, with one word less")
    made |= {f"values-forms-{name}": lines.source("Registers that are alike, R31, and literals.",
                                                  list(lines.forms(names)), 2)
             for name, names in FORMS.items()}
    made |= {f"values-{name}": lines.source(about, list(rows_of()), 2, *around)
             for name, (about, rows_of, *around) in LINES.items()}
    two = files.read_text(os.path.join(HERE, "sources", "late-two.s")).split("\n", 2)[2]
    made |= {f"late-two-{steps}": f"# As late-two, which exits with its ninth step, by {steps} steps.\n{two}"
             for steps in (4, 5, 8, 9)}
    return made | wild.sources() | chosen.sources() | families.sources()


def rows(triples):
    return b"".join(struct.pack("<3Q", *(value % (1 << 64) for value in triple)) for triple in triples)


def pairs():
    """Corners with corners, and others."""
    chosen = random.Random(58)
    found = [(a, b, 0x5555AAAA) for a in CORNERS for b in CORNERS if a <= b or (a + b) % 3 == 0]
    return rows(found + [tuple(chosen.getrandbits(64) for _ in range(3)) for _ in range(8)])


def shifts():
    """Values with each number of bytes and some of bits, and with bits that mean nothing."""
    return rows([(a, b, 0x5555AAAA) for a in (0x8877665544332211, 0x123456789ABCDEF) for b in
                 (0, 1, 2, 3, 4, 5, 6, 7, 8, 15, 31, 32, 33, 62, 63, 64, 0xF9, 0x80, 0x8000, -1, 1 << 63)])


def spread():
    """Each bit alone as one operand, numbers that differ in one bit, and those of all widths, so that products lie
    close to the bounds."""
    chosen, found = random.Random(90), []
    for n in range(64):
        a, b = chosen.getrandbits(64), chosen.getrandbits(64)
        found += [(1 << n, a), (b, 1 << n), (-1 << n, 1 << n), (a, a ^ 1 << n)]
    for most in (31, 32, 33, 63, 64, 65):
        for width in range(1, most, 3 if most > 33 else 2):
            one, other = (chosen.getrandbits(size) | 1 << size - 1 for size in (width, min(most - width, 64)))
            found += [(chosen.choice((1, -1)) * one, chosen.choice((1, -1)) * other)]
    return rows([(a, b, 0xA55AA55A5AA55AA5) for a, b in found])


def turned():
    """Each number of bits, and each bit that means nothing."""
    chosen = random.Random(91)
    found = [(chosen.getrandbits(64), b) for b in [*range(64), *[1 << n for n in range(6, 64)]]]
    found += [(sign * chosen.getrandbits(32), b) for b in range(64) for sign in (1, -1)]
    return rows([(a, b, 0xA55AA55A5AA55AA5) for a, b in found])


def overflowing():
    """Operands by which each /V word overflows where its registers are one, R31 or a literal, and those just below."""
    bounds_of = [bound - less for bound in (1 << 31, 1 << 63) for less in (0, 1, 126, 127, 128, 129, 255, 256)]
    found = [*bounds_of, *[-bound for bound in bounds_of], *[sign << n for n in (16, 24, 25, 30, 48, 56, 57, 62)
                                                             for sign in (1, -1)]]
    return rows([(value, value, value) for value in found])


def few():
    """Rows for lines whose registers matter, and not so much what they have."""
    return rows([(0x8877665544332211, 0x123456789ABCDEF, 0x7A6958473625140), (5, 3, 2), (0, 1, -1), (-1, 0, 1 << 63),
                 ((1 << 63) - 1, 1, 1 << 31)])


def bounds():
    """Products and sums at the bounds of 32 and 64 bits, and one to each side of them."""
    whole, half = 1 << 63, 1 << 31
    products = [(3, -(whole + 1) // 3), (-3, (whole + 1) // 3), (3, (whole + 1) // 3), (-1, whole - 1), (1, whole - 1),
                (-1, -whole), (1, -whole), (2, whole // 2),
                (-2, whole // 2), (7, (whole - 1) // 7), (-7, (whole - 1) // 7), (1 << 32, half), (1 << 32, -half),
                (-(1 << 32), half),
                (3, -(half + 1) // 3), (-3, (half + 1) // 3), (3, (half + 1) // 3), (-1, half - 1), (1, -half),
                (-1, -half), (1 << 16, 1 << 15), (1 << 16, -(1 << 15)),
                (1 << 33, 1), (half, half), (-half, half), (-half, -half), (46_341, 46_341), (46_340, 46_341),
                (3_037_000_500, 3_037_000_500), (3_037_000_499, 3_037_000_500),
                ((5 << 32) + 3, (7 << 32) + 4), ((1 << 32) + half - 1, (9 << 32) + 1)]
    sums = [(a + b, c) for a in (whole - 1, -whole, half - 1, -half) for b in (-1, 0, 1) for c in (-2, -1, 0, 1, 2)]
    return rows([(a, b, 0x5555AAAA) for a, b in products + sums])


def values():
    """A value a row, with 0, 1, both signs and each low and high bit alone."""
    return rows([(value, 2, 3)
                 for value in [0, 1, 2, 3, -1, -2, 1 << 63, (1 << 63) + 1, (1 << 63) - 1,
                               *[1 << n for n in (8, 16, 31, 32, 33, 47, 62)], -(1 << 32), 1 << 32 | 1]])


def bits():
    """Each bit alone, and all above it."""
    return rows([(value, value, 3) for n in range(64) for value in (1 << n, -1 << n)])


def quadwords(*values):
    return b"".join(struct.pack("<Q", value % (1 << 64)) for value in values)


# ---- how each image is run

CASES = {
    "values-arithmetic": PLAIN._replace(given=pairs() + spread(), is_watched=False),
    "values-triggers": PLAIN._replace(given=pairs(), is_watched=False, completions=("wrap", "saturate")),
    "values-comparisons": PLAIN._replace(given=pairs() + spread(), is_watched=False),
    "values-moves": PLAIN._replace(given=pairs() + spread(), is_watched=False),
    "values-extracts": PLAIN._replace(given=shifts() + turned(), is_watched=False),
    "values-masks": PLAIN._replace(given=shifts() + turned(), is_watched=False),
    "values-features": PLAIN._replace(given=shifts() + bits(), is_watched=False),
    "values-counts": PLAIN._replace(given=pairs() + bits(), is_watched=False),
    "values-products": PLAIN._replace(given=bounds() + spread(), is_watched=False, completions=("wrap", "saturate")),
    **{f"values-forms-{name}": PLAIN._replace(given=few(), is_watched=False) for name in FORMS},
    "values-forms-triggers": PLAIN._replace(given=few() + overflowing(), is_watched=False,
                                            completions=("wrap", "saturate")),
    **{f"values-{name}": PLAIN._replace(given=values() + bits() if name == "branches" else few(), is_watched=False)
       for name in LINES},
    **{name: PLAIN._replace(completions=ALL, journals=("1", "2", "3", "late")) for name in wild.sources()},
    **{name: PLAIN._replace(completions=ALL, is_watched=False, journals=MANY) for name in chosen.sources()},
    "reads": PLAIN._replace(given=b"twenty bytes, or so\n"),
    **{f"late-two-{steps}": PLAIN._replace(steps=steps, completions=ALL, journals=SOME) for steps in (4, 5, 8, 9)},
    "locks": PLAIN._replace(completions=ALL, journals=SOME),
    "completions": PLAIN._replace(completions=ALL, journals=MANY),
    "late-masks": PLAIN._replace(completions=ALL, journals=MANY),
    "late-loop": PLAIN._replace(completions=ALL, journals=MANY,
                                given=quadwords(5, 1 << 62, 1 << 62, -7, (1 << 63) - 1, -3, 0x80000000, 1 << 63, 12)
                                + b"end"),
    "end-loop": PLAIN._replace(steps=10),
    "end-long": PLAIN._replace(steps=70_000, is_watched=False),
    "end-stop": PLAIN._replace(completions=ALL, journals=SOME),
    "end-exit": PLAIN._replace(journals=("1",)),
    "end-bpt": PLAIN._replace(journals=("1",)),
    "end-return": PLAIN._replace(journals=("1",)),
    "end-nowhere": PLAIN._replace(journals=("1",)),
    "end-odd": PLAIN._replace(journals=("1",)),
    "calls": PLAIN._replace(journals=("1",)),
    "late-orders": PLAIN._replace(completions=ALL, journals=MANY),
    "shadow-drawn": PLAIN._replace(completions=ALL, journals=MANY),
    "shadow-c3-mask": PLAIN._replace(completions=ALL, journals=MANY),
    "shadow-c1-second": PLAIN._replace(completions=ALL, journals=(*SOME, "second")),
    "shadow-c4": PLAIN._replace(completions=ALL, journals=(*SOME, "astray")),
    "shadow-c7": PLAIN._replace(completions=ALL, journals=(*SOME, "at-once", "behind")),
    "shadow-c9": PLAIN._replace(is_watched=False, journals=("1", "late")),
    "shadow-c9-repaired": PLAIN._replace(is_watched=False, journals=("1", "late")),
}


def case_of(name):
    """How an image is run, or None where cases.tsv alone says it."""
    if name in families.sources():
        return None
    if name not in CASES and name.startswith("shadow-"):
        is_repaired = name.endswith("-repaired")
        return PLAIN._replace(completions=ALL, journals=("1", "late") if is_repaired else SOME)
    return CASES.get(name, PLAIN)


# The images of which qemu-alpha gives the same output and exit value, once each /V word is one without: it ends a
# program at an overflow, and without /V an overflow wraps. What isn't here asks for what Linux does otherwise, or for
# more registers than an exit value shows.
UNDER_QEMU = {"memory", "branches", "jumps", "barriers", "reads", "completions", "late-masks", "late-loop",
              *(f"values-{name}" for name in VALUES)}
