"""same: what a repair keeps in the stack hits nothing that the program has below $30, and room that compilers make
there is no hindrance."""
import os
import shutil
import subprocess

from parts import held, sameness, table
from .helpers import DATA, Lacking, want
from .misleading import KEPT, MULTIPLIED, RESULT, framed, function, kept, outcome

BELOW, POINTS, USED = "has an access below $30", "nothing shows that $30 is a stack pointer", "may be in use there"
JUMPED = (function("f", "\tmov $30,$15\n\tldq $30,0($18)\n\tjmp $31,($27)\n") + function("g", MULTIPLIED + RESULT))
# What is kept below $30 hits what the program has there, or $30 is no stack pointer: the bodies of f, g and h.
STACKS = [
    ("an address less what isn't known", BELOW,
     kept(f"\tsubq $30,$18,$1\n\tstq $19,0($1)\n{MULTIPLIED}\tldq $0,0($1)\n\tret\n")),
    ("an address below $30 is given to a function", BELOW,
     kept(framed(f"{MULTIPLIED}\tlda $16,-32($30)\n\tbsr $26,g\n"),
          "\tstq $17,0($16)\n\tldq $0,0($16)\n\tret\n")),
    ("the function that it is given to keeps a register", BELOW,
     kept(framed("\tlda $16,-32($30)\n\tbsr $26,g\n"), f"\tstq $17,0($16)\n{MULTIPLIED}\tldq $0,0($16)\n\tret\n")),
    ("a negative number is added", BELOW,
     kept(f"\tlda $1,-16($31)\n\taddq $30,$1,$2\n\tstq $18,0($2)\n{MULTIPLIED}\tldq $0,0($2)\n\tret\n")),
    ("an access without alignment", BELOW,
     kept("\tmov $30,$15\n\tsubq $30,$18,$30\n\tstq_u $1,-8($30)\n" + MULTIPLIED +
          "\tldq_u $0,-8($30)\n\tmov $15,$30\n\tret\n")),
    ("an address is aligned downwards", BELOW,
     kept(f"\tbic $30,127,$1\n\tstq $18,0($1)\n{MULTIPLIED}\tldq $0,0($1)\n\tret\n")),
    ("an address is below $30 on one way alone", BELOW,
     kept("\tldq $1,0($18)\n\tbeq $19,L1\n\tlda $1,-16($30)\nL1:\tstq $17,0($1)\n" + MULTIPLIED +
          "\tldq $0,0($1)\n\tret\n")),
    ("an address below $30 goes through memory", BELOW,
     kept("\tlda $1,-16($30)\n\tstq $1,0($18)\n\tldq $2,0($18)\n\tstq $17,0($2)\n" + MULTIPLIED +
          "\tldq $0,0($2)\n\tret\n")),
    ("$30 goes up and down again", BELOW,
     kept("\tlda $30,-16($30)\n\tstq $18,0($30)\n\tlda $30,16($30)\n" + MULTIPLIED +
          "\tlda $30,-16($30)\n\tldq $0,0($30)\n\tlda $30,16($30)\n\tret\n")),
    ("a function reads what another one has left below $30", BELOW,
     kept(framed(f"\tbsr $26,g\n{MULTIPLIED}\tbsr $26,h\n"),
          "\tlda $30,-16($30)\n\tstq $16,0($30)\n\tlda $30,16($30)\n\tret\n",
          "\tlda $30,-16($30)\n\tldq $0,0($30)\n\tlda $30,16($30)\n\tret\n")),
    ("a function answers an address of its own part of the stack", BELOW,
     kept(framed(f"\tbsr $26,g\n{MULTIPLIED}\tldq $0,0($0)\n"),
          "\tlda $30,-16($30)\n\tstq $16,0($30)\n\tmov $30,$0\n\tlda $30,16($30)\n\tret\n")),
    ("$30 stands in the caller's part", POINTS,
     kept(f"\tlda $30,32($30)\n{MULTIPLIED}\tlda $30,-32($30)\n{RESULT}")),
    ("$30 stands where no quadword may", POINTS, kept(f"\tlda $30,-4($30)\n{MULTIPLIED}\tlda $30,4($30)\n{RESULT}")),
    ("something is added to $30", POINTS,
     kept(f"\tmov $30,$15\n\taddq $30,$18,$30\n{MULTIPLIED}\tmov $15,$30\n{RESULT}")),
    ("$30 is masked", POINTS, kept(f"\tmov $30,$15\n\tand $30,$18,$30\n{MULTIPLIED}\tmov $15,$30\n{RESULT}")),
    ("a jump leads there with another $30", POINTS,
     (JUMPED, JUMPED.replace(MULTIPLIED, KEPT))),
    ("the register is kept far below", "more than 64 bytes below",
     (MULTIPLIED + RESULT, KEPT.replace("$30,-16(", "$30,-32752(").replace("$30,16(", "$30,32752(") + RESULT)),
]
# Room is made below $30 and used before it is taken: the body of f, with what is made of $18 and used by $19.
MADE, TAKEN, BACK = "\tmov $30,$15\n\tsubq $30,$18,$1\n", "\tmov $1,$30\n", "\tldq $0,0($30)\n\tmov $15,$30\n\tret\n"
ROOMS = [
    ("before it is taken", USED, f"{MADE}\tstq $19,0($1)\n{MULTIPLIED}{TAKEN}{BACK}"),
    ("before a known part is taken", USED,
     f"\tmov $30,$15\n\tlda $1,-32($30)\n\tstq $19,0($1)\n{MULTIPLIED}{TAKEN}{BACK}"),
    ("on one way before it is taken", USED, f"{MADE}\tbeq $19,L1\n\tstq $19,8($1)\nL1:{MULTIPLIED}{TAKEN}{BACK}"),
    ("by a copy", USED, f"{MADE}\tmov $1,$2\n\tstq $19,0($2)\n{MULTIPLIED}{TAKEN}{BACK}"),
    ("at a distance that isn't known", USED, f"{MADE}\ts8addq $20,$1,$2\n\tstq $19,0($2)\n{MULTIPLIED}{TAKEN}{BACK}"),
    ("by an address that is aligned", USED, f"{MADE}\tbic $1,7,$2\n\tstq $19,0($2)\n{MULTIPLIED}{TAKEN}{BACK}"),
    ("by an address that was kept in the stack", USED,
     f"\tlda $30,-16($30)\n{MADE}\tstq $1,8($15)\n\tldq $2,8($15)\n\tstq $19,0($2)\n{MULTIPLIED}{TAKEN}{BACK}"
     .replace("\tret", "\tlda $30,16($30)\n\tret")),
    ("with zeros that are read", USED, f"{MADE}\tstq $31,0($1)\n{MULTIPLIED}{TAKEN}{BACK}"),
    ("below what is made below", USED,
     f"{MADE}\tsubq $1,$20,$2\n\tstq $19,0($2)\n{TAKEN}{MULTIPLIED}\tmov $2,$30\n{BACK}"),
    ("and is never taken", BELOW, f"{MADE}\tstq $19,0($1)\n{MULTIPLIED}\tldq $0,0($1)\n\tret\n"),
    ("below what is made there", BELOW,
     f"{MADE}\tstq $19,-8($1)\n{MULTIPLIED}{TAKEN}\tldq $0,-8($30)\n\tmov $15,$30\n\tret\n"),
    ("over a call", BELOW, f"{MADE}\tstq $19,0($1)\n\tmov $1,$9\n\tbsr $26,h\n\tmov $9,$30\n{MULTIPLIED}{BACK}"),
    ("by an address that is chosen", BELOW, f"{MADE}\tcmoveq $20,$21,$1\n\tstq $19,0($1)\n{MULTIPLIED}{TAKEN}{BACK}"),
    ("where something else is taken", BELOW,
     f"{MADE}\tstq $19,0($1)\n\tsubq $30,$20,$2\n\tmov $2,$30\n{MULTIPLIED}\tldq $0,0($1)\n\tmov $15,$30\n\tret\n"),
    ("where $30 is lowered otherwise", BELOW,
     f"{MADE}\tstq $19,0($1)\n\tlda $30,-16($30)\n{MULTIPLIED}\tldq $0,0($1)\n\tmov $15,$30\n\tret\n"),
    ("where another address is made at the place", BELOW,
     f"{MADE}L1:\tstq $19,0($1)\n\tmov $1,$2\n\tsubq $30,$18,$1\n\tlda $18,-16($18)\n\tbne $18,L1\n{TAKEN}{MULTIPLIED}"
     "\tldq $0,0($2)\n\tmov $15,$30\n\tret\n"),
]


def test_nothing_of_the_program_lies_where_a_register_is_kept(_):
    for what, said, (old, new) in STACKS:
        told = outcome(old, new)
        want((old != new, said in told), (True, True), f"{what}: {told}")


def test_room_that_is_used_before_it_is_taken_is_not_hit(_):
    for what, said, body in ROOMS:
        told = outcome(*kept(body, "\tret\n", "\tret\n"))
        want(said in told, True, f"{what}: {told}")


def test_before_room_is_used_and_once_it_is_taken_registers_are_kept(_):
    used = "\tstq $19,0($1)\n"
    for body in (f"{MADE}{MULTIPLIED}{used}{TAKEN}{BACK}", f"{MADE}{used}{TAKEN}{MULTIPLIED}{BACK}",
                 f"{MULTIPLIED}{MADE}{used}{TAKEN}{BACK}",
                 f"\tmov $30,$15\n\tsubq $30,$18,$30\n\tstq $19,8($30)\n{MULTIPLIED}{BACK}",
                 f"{MADE}{used}\tsubq $1,$20,$2\n\tstq $19,0($2)\n\tmov $2,$30\n{MULTIPLIED}{BACK}"):
        told = outcome(*kept(body))
        want("1 with a register in the stack" in told, True, f"{body}: {told}")


# Rooms whose size isn't known, in a loop and with others in them, and so much arithmetic that registers run short.
ROOMY = """#include "io.h"
static long sums(int n, long k)
{
    long room[(n & 7) + 16], total = 0;
    for (int z = 0; z < 16; z++) room[z] = z * k + n;
    for (int z = 0; z < 16; z++) {
        long more[(z & 3) + 4];
        for (int y = 0; y < 4; y++) more[y] = room[(y * z) & 15] * 3 + y;
        total = (total + more[z & 3] * k) & 0xffffff;
    }
    return total + room[n & 15];
}
static long by_alloca(int n, long a, long b, long c)
{
    long *p = __builtin_alloca((n & 31) * 8 + 8);
    p[0] = a * b; p[1] = b * c;
    for (int z = 0; z < 4; z++) {
        long *q = __builtin_alloca(32);
        q[0] = p[0] + z; q[1] = p[1] * z;
        p[0] = (q[0] * 5 + q[1]) & 0xffff;
    }
    return p[0] + a;
}
int main(void)
{
    long total = 0;
    for (int round = 0; round < 6; round++)
        total = (total * 3 + sums(round, 7 + round) + by_alloca(round, round, 3, 9 + round)) & 0xffffff;
    print(total, '\\n');
    return total & 63;
}
"""


def test_rooms_that_gcc_makes_are_no_hindrance(folder):
    if shutil.which("alpha-linux-gnu-gcc") is None:
        raise Lacking("there is no alpha-linux-gnu-gcc on the path")
    for level in "123s":
        text = subprocess.run(["alpha-linux-gnu-gcc", "-ftrapv", "-ffreestanding", "-mno-fp-regs", f"-O{level}", "-S",
                               "-I", DATA, "-x", "c", "-", "-o", "-"], input=ROOMY.encode(), capture_output=True,
                              check=True).stdout.decode()
        path = os.path.join(folder, "a.s")
        whole = held.text_of(path, None, text)
        returns, code = whole.code.returns(), whole.code
        triggers = [place for place in code.reached if code.steps[place].insn.kind == table.TRIGGER]
        whys = {place: why for place in triggers if (why := sameness.why_no_stack(returns, place)) is not None}
        # Only where gcc has put one between a store into a room and its taking nothing may be kept.
        want((len(triggers) > 15, bool(returns.used), returns.below, len(whys) < 2), (True, True, set(), True),
             f"-O{level}: {whys}")
