"""Images of many blocks, of which the input says which one runs, and the rows of cases.tsv.

The first quadword of the input is the address of the block, and the seven behind it are in $1 to $7 where the block
begins. $8 has its address, $9 that of the cells. A block that goes on at `dump` writes 64 bytes of memory, which the
block may change, and all 32 registers: so one run shows what every register has.
"""
import struct
from collections import namedtuple

CODE, CELLS, MASK = 0x10000, 0x10000000, (1 << 64) - 1
# A case. `kind` is run, image, follow, refuse or choose. `given` is the input, `choices` are those of a run with late
# traps, None where there is none. `change` makes of the journal one that must be refused by `answer`; for an image
# `given` is it.
Row = namedtuple("Row", "name kind image completion steps given choices change answer about",
                 defaults=(None, None, None))
STEPS = 100_000
MAX = (1 << 63) - 1
# A value for each register of the input, and the pattern of the cells behind it.
PATTERN = [0x8786858483828180, 0x8F8E8D8C8B8A8988, 0x9796959493929190, 0x9F9E9D9C9B9A9998, 0x1716151413121110,
           0x1F1E1D1C1B1A1918, 0x2726252423222120, 0x2F2E2D2C2B2A2928]
PROLOGUE = ["ldah $9,0x1000($31)", "lda $0,3($31)", "clr $16", "mov $9,$17", "lda $18,64($31)", "callsys",
            "ldq $8,0($9)",
            *[f"ldq ${n},{8 * n}($9)" for n in range(1, 8)], "jmp $31,($8),0"]
DUMP = [*[f"stq ${n},{128 + 8 * n}($9)" for n in range(32)], "lda $0,4($31)", "lda $16,1($31)", "lda $17,64($9)",
        "lda $18,320($31)",
        "callsys", "clr $16", "lda $0,1($31)", "callsys"]


def quadwords(values):
    return b"".join(struct.pack("<Q", value & MASK) for value in values)


def waits(*pairs):
    """The words by which words are executed while a trap is pending: a value for each, and whether its register is
    added."""
    return [word for value, adds in pairs for word in (1 | adds << 2, value)]


class Blocks:
    """The source of an image of blocks, and its rows."""

    def __init__(self, image, about, code=CODE, front=(), back=(), before=()):
        self.image, self.about, self.rows, self.places = image, about, [], {}
        self.code, self.front, self.back = code, front, back
        self.lines, self.count = [], 0
        if before:
            self.add("before", before)
        self.add("start", PROLOGUE)
        self.add("dump", DUMP)

    def add(self, label, lines):
        """Puts lines behind the others. One of them may be a label of its own, as `there:`."""
        self.places[label] = self.end()
        self.lines.append(f"{label}:")
        for line in lines:
            if line.endswith(":"):
                self.places[line[:-1]] = self.end()
                self.lines.append(line)
            else:
                self.lines.append("        " + line)
                self.count += 1

    def end(self):
        """The address behind the code so far."""
        return self.code + 4 * self.count

    def text(self):
        cells = ["        .quad " + ",".join(f"{value:#x}" for value in [0] * 8),
                 "        .quad " + ",".join(f"{value:#x}" for value in PATTERN)]
        return "\n".join([f"# {self.about}", "        .level 2", f"        .codebase {self.code:#x}", *self.front,
                          "        .segment 0x10000000", *cells,
                          "        .zero 256", *self.back, "        .code", *self.lines, "        .entry start"]) + "\n"

    def given(self, label, operands):
        """The input by which a block runs; `operands` are values of registers 1 to 7 by number."""
        return quadwords([self.places[label], *[operands.get(n, 0) for n in range(1, 8)]])

    def row(self, kind, name, label, about, operands, choices=None, completion="wrap", steps=STEPS, **further):
        given = self.given(label, operands)
        chosen = choices if choices is None or isinstance(choices, bytes) else quadwords(choices)
        self.rows.append(Row(f"{self.image}.{name}", kind, self.image, completion, steps, given, chosen, about=about,
                             **{"change": None, "answer": None} | further))

    def run(self, name, label, about, operands, **how):
        self.row("run", name, label, about, operands, **how)

    def late(self, name, label, about, operands, choices, completions=("wrap",), **how):
        """A run with late traps, whose journal must be followed, and that must be made by its choices."""
        for completion in completions:
            told = name if completion == "wrap" else f"{name}-{completion}"
            self.row("follow", told, label, about, operands, choices, completion, **how)
            self.row("choose", told, label, about, operands, choices, completion, **how)
