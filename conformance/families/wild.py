"""Shadows of words of all kinds, refused by every condition, for runs with late traps."""
import random

from . import late

OPERATES = [name for name in late.operates() if name not in ("ctpop", "ctlz", "cttz", "implver")]
TRIGGERS = ("addl/v", "addq/v", "subl/v", "subq/v", "mull/v", "mulq/v")
REGISTERS = (1, 2, 3, 4, 5, 6, 7, 10)
COUNT, LENGTH, ROUNDS = 6, 110, 2


def source(number):
    """A program of random words, which runs twice over them, and writes its memory and its registers."""
    chosen = random.Random(1_000 + number)
    lines = [f"# Words of all kinds in shadows, which check refuses: number {number} of {COUNT}.", "        .data",
             "cells:  .quad " + ",".join(f"{chosen.getrandbits(64):#x}" for _ in range(8)), "        .zero 160",
             "        .code",
             "start:  ldah $9,0x1000($31)", "        lda $11,-1($31)", "        srl $11,1,$11",
             f"        lda $12,{ROUNDS}($31)", "again:  mov $11,$1",
             "        lda $2,1($31)", "        lda $3,-3($11)"]
    for at in range(LENGTH):
        lines += [f"w{at}:     {line}" if n == 0 else f"        {line}" for n, line in enumerate(word(chosen, at))]
    lines += [f"w{LENGTH}:   trapb", "        subq $12,1,$12", "        bgt $12,again"]
    lines += [f"        stq ${register},{64 + 8 * place}($9)"
              for place, register in enumerate((0, *REGISTERS, 11, 12, 26))]
    lines += ["        lda $0,4($31)", "        lda $16,1($31)", "        mov $9,$17", "        lda $18,160($31)",
              "        callsys", "        xor $3,$4,$16", "        lda $0,1($31)", "        callsys",
              "        .entry start"]
    return "\n".join(lines) + "\n"


def word(chosen, at):
    """A line of code, or a few."""
    register, other, result = (chosen.choice(REGISTERS) for _ in range(3))
    # A turn in a shadow nearly always loses the trap, so there are few.
    kind = chosen.choices(("trigger", "operate", "address", "load", "store", "locked", "branch", "turn", "barrier",
                           "order", "great"),
                          (30, 26, 5, 10, 8, 5, 1, 1, 14, 3, 10))[0]
    if kind in ("trigger", "operate"):
        name = chosen.choice(TRIGGERS if kind == "trigger" else OPERATES)
        second = f"${other}" if chosen.randrange(3) else str(chosen.randrange(256))
        return [f"{name} {second},${result}" if name in late.UNARY
                else f"{name} ${register},{second},${31 if kind == 'operate' and result == 10 else result}"]
    if kind == "address":
        return [f"{chosen.choice(('lda', 'ldah'))} ${result},{chosen.randrange(-32_768, 32_768)}(${register})"]
    if kind in ("load", "store", "locked"):
        names = {"load": late.LOADS[:5], "store": late.STORES[:5], "locked": (*late.LOADS[5:], *late.STORES[5:])}[kind]
        return [f"{chosen.choice(names)} ${result},{8 * chosen.randrange(8)}($9)"]
    if kind == "branch":
        return [f"{chosen.choice(late.BRANCHES)} ${register},w{min(at + chosen.randrange(1, 6), LENGTH)}"]
    if kind == "turn":
        return [f"{chosen.choice(('br', 'bsr'))} $26,w{min(at + chosen.randrange(1, 4), LENGTH)}"]
    if kind == "barrier":
        return [chosen.choice(("trapb", "excb", "imb"))]
    return [chosen.choice(("mb", "wmb", "fetch 0($9)", "fetch_m 0($9)"))] if kind == "order" else [f"mov $11,${result}"]


def sources():
    return {f"wild-{number}": source(number) for number in range(1, COUNT + 1)}
