"""A pending trap, by every kind of word: the lock flag over it, R31 and alike registers as its destination, its
register in the mask, how long the trap waits, how far the handler looks back, and choices that end."""
from . import blocks, late
from .blocks import Blocks, waits

SUM, OVERFLOWS = late.SUM, late.OVERFLOWS
VALUE, DRAWN = 0xF7F6F5F4F3F2F1F0, 0x8877665544332211
# What is drawn for a word of which nothing shows it: were it not drawn, it would choose a report.
UNSEEN = 0x1122334455667788
TURNS = ("br", "bsr", *late.JUMPS, *late.BRANCHES)


def turn_line(name, target, register="$6"):
    return f"{name} {register},($7)" if name in late.JUMPS else f"{name} {register},{target}"


def taken(name):
    """A value of a register by which a branch is taken, and one by which it isn't."""
    return {"bne": (1, 0), "blt": (1 << 63, 1), "bgt": (1, 0), "blbs": (1, 2), "ble": (0, 1), "bge": (2, 1 << 63),
            "blbc": (2, 1)}.get(name, (0, 1))


def every_word():
    """A line for each kind of word that a trap may wait at, by its name; jumps go to the next word by $7."""
    lines = late.with_destination() | {name: f"{name} $4,64($9)" for name in late.STORES[:5]}
    lines |= {name: f"{name} $6,.+4" for name in late.BRANCHES}
    return lines | {"mb": "mb", "wmb": "wmb", "fetch": "fetch 0($9)", "fetch_m": "fetch_m 0($9)"}


def flags():
    """The lock flag over each kind of word while a trap is pending, and over each turn back and far."""
    made = Blocks("late-flags",
                  "While a trap is pending, a word between a locked load and a conditional store: it leaves the flag.",
                  before=["stq_c $4,80($9)", SUM, "trapb", "br dump"])
    for name, line in every_word().items():
        if name in ("ldl_l", "ldq_l", "stl_c", "stq_c"):
            continue
        label = name.replace("/", "_")
        made.add(label, ["ldq_l $10,80($9)", "lda $7,16($8)", SUM, line, "stq_c $4,80($9)", SUM, "trapb", "br dump"])
        made.late(label.replace("_", "-"), label,
                  f"`{line}` between a locked load and `stq_c` while a trap is pending leaves the lock flag", OVERFLOWS,
                  [0x77, *waits((DRAWN, 0), (VALUE, 0), (0x99, 0))])
    for name in TURNS:
        made.add(f"{name}_back", ["ldq_l $10,80($9)", SUM, turn_line(name, "before"), "trapb"])
        made.late(f"{name}-back", f"{name}_back", f"`{name}` back while a trap is pending leaves the lock flag",
                  OVERFLOWS | {6: taken(name)[0], 7: made.places["before"]},
                  [0x77, *waits((DRAWN, 0), (VALUE, 0), (0x99, 0))])
    return made


def zeros():
    """Each kind of word whose destination is R31: a value is drawn for it all the same."""
    made = Blocks("late-zeros",
                  "While a trap is pending, each instruction whose destination is $31: a value is drawn for it, and "
                  "nothing keeps it.")
    lines = {name: line.replace("$5", "$31") for name, line in late.with_destination().items()}
    lines |= {name: f"{name} $31,64($9)" for name in late.STORES[:5]}
    for name, line in lines.items():
        label = name.replace("/", "_")
        before = ["ldq_l $10,64($9)"] if name in late.STORES[5:] else ["nop"]
        made.add(label, [*before, "lda $7,16($8)", SUM, line, SUM, "trapb", "addq $31,$31,$5", "br dump"])
        stored = ", which are stored" if name in late.STORES else ""
        made.late(label.replace("_", "-"), label,
                  f"`{line}` while a trap is pending draws a value{stored}; $31 stays 0", OVERFLOWS,
                  [0x77, *waits((UNSEEN, 0), (0x99, 0))])
    for name in late.STORES[5:]:
        made.add(f"{name}_clear", ["nop", SUM, f"{name} $31,64($9)", SUM, "trapb", "br dump"])
        made.late(f"{name}-clear", f"{name}_clear", f"`{name} $31` that doesn't store draws a value all the same",
                  OVERFLOWS, [0x77, *waits((UNSEEN, 0), (0x99, 0))])
    for name in late.BRANCHES:
        made.add(f"{name}_zero", [SUM, f"{name} $31,.+4", SUM, "trapb", "br dump"])
        made.late(f"{name}-zero", f"{name}_zero",
                  f"`{name} $31` while a trap is pending draws a value that nothing has",
                  OVERFLOWS, [0x77, *waits((UNSEEN, 0), (0x99, 0))])
    return made


def moves():
    """Words that move, clear or change nothing, and others whose registers are one."""
    made = Blocks("late-moves",
                  "While a trap is pending, words whose registers are one or R31, and those with a literal: $5 gets "
                  "the "
                  "drawn value.")
    lines = {"mov": "mov $6,$5", "clr": "clr $5", "mov-literal": "mov 7,$5", "mov-zero": "bis $6,0,$5",
             "lda-own": "lda $5,0($5)", "lda-zero": "lda $5,0($31)",
             "lda-move": "lda $5,0($6)", "ldah-own": "ldah $5,0($5)", "ldah-zero": "ldah $5,1($31)"}
    for name in late.operates():
        if name != "implver":
            lines[f"{name}-own"] = late.operate_line(name, "$5", "$5", "$5")
        if name not in (*late.UNARY, "implver"):
            lines[f"{name}-literal"] = late.operate_line(name, "$4", "1", "$5")
    for name, line in lines.items():
        label = name.replace("/", "_").replace("-", "_")
        made.add(label, ["lda $5,85($31)", SUM, line, SUM, "trapb", "br dump"])
        made.late(name.replace("/", "-"), label, f"`{line}` while a trap is pending: $5 gets the drawn value",
                  OVERFLOWS,
                  [0x77, *waits((DRAWN, 0), (0x99, 0))])
    return made


def added():
    """Each register in a mask, that of a further word."""
    made = Blocks("late-added",
                  "A /V word behind the trigger adds its register to the mask, and a branch loses the trap.")
    for register in range(31):
        first = "addq/v $1,$2,$5" if register == 3 else SUM
        made.add(f"to_{register}", [first, f"addq/v $4,$6,${register}", "br $31,.+4", "trapb"])
        made.late(f"to-{register}", f"to_{register}",
                  f"${register} is added to the mask of a trap that is lost", OVERFLOWS, [0x77, *waits((0, 1), (0, 0))])
        made.late(f"not-{register}", f"to_{register}",
                  f"${register} isn't added to the mask of a trap that is lost", OVERFLOWS,
                  [0x77, *waits((0, 0), (0, 0))])
    return made


LONG, TRAPS = 8_300, 70_000
COUNTED = {"adding": "addq/v $6,$31,$7", "trapping": "addq/v $6,$31,$31", "plain": "addq $4,$6,$7",
           "lda": "lda $7,1($31)", "load": "ldq $7,64($9)", "store": "stq $4,64($9)", "locked": "ldq_l $7,64($9)",
           "conditional": "stq_c $7,64($9)", "order": "mb", "fetch": "fetch 0($9)", "unused": "ldq $31,1($31)",
           "turn": "br $31,.+4"}


def counted():
    """Which words count for how long a trap waits: all."""
    made = Blocks("late-counted",
                  "A loop in a shadow, of a word of each kind: each counts for the 1,024 that a trap waits at most.")
    for name, line in COUNTED.items():
        made.add(name, [SUM, f"again_{name}:", line, "addq $4,0,$5", f"blbs $5,again_{name}", "trapb", "br dump"])
        turn = [(0, int(name == "adding")), (1, 0), (0, 0)]
        chosen = [0x77, *waits(*(turn * 342)[:1_024])]
        made.late(name, name, f"a trap waits for 1,024 words, every third of them `{line}`", OVERFLOWS | {4: 4}, chosen)
        made.row("refuse", f"{name}-long", name, f"a trap waits for 1,025 words, every third of them `{line}`",
                 OVERFLOWS | {4: 4}, chosen, change=lambda kept: late.longer(kept, 1)[0],
                 answer=lambda kept: f"norun kind 1 at {late.longer(kept, 1)[1]}")
    made.add("many", [SUM, "subq $4,1,$4", "bgt $4,many", "br dump"])
    made.late("many", "many", f"{TRAPS:,} traps: a run of more than {3 * TRAPS:,} items, which ends",
              OVERFLOWS | {4: TRAPS}, [], steps=1_000_000)
    return made




def far():
    """A very long way back."""
    made = Blocks("late-far", f"The handler looks back over up to {LONG:,} words.",
                  before=[SUM, "jmp $31,($6)"])
    made.add("long", [SUM, *["nop"] * LONG, "trapb", "br dump"])
    for count in (1_500, 2_047, 2_048, 2_049, 4_096, 4_097, 8_192, 8_193, LONG):
        made.late(f"{count}", "before", f"the handler looks back over {count:,} words",
                  OVERFLOWS | {6: made.places["long"] + 4 * count}, [0x77, *waits((0, 0)), 0])
    return made


def rest():
    """Choices that end before the run does, and each word that chooses."""
    made = Blocks("late-rest", "Behind the last word of the choices each word is 0; and words of all kinds.")
    own = "addq/v $3,$2,$3"
    made.add("own", [*[own, "trapb", "mov $1,$3"] * 9, own, "nop", "trapb", "br dump"])
    for count in (0, 1, 2, 3, 7, 8, 9, 10):
        made.late(f"own-{count}", "own",
                  f"{count} words of choices for ten triggers, of which each is completed from the value that it drew",
                  OVERFLOWS | {3: blocks.MAX}, [0x55 + 4 * n for n in range(count)])
    made.add("kept", [*[SUM, "lda $5,1($31)", "stq $5,64($9)", "trapb"] * 4, "br dump"])
    for count in range(1, 9):
        made.late(f"kept-{count}", "kept", f"{count} words of choices for four traps, which then don't wait", OVERFLOWS,
                  [0x77, *waits((DRAWN, 0), (VALUE, 0)), 0x78, *waits((DRAWN, 0))][:count], late.ALL)
    made.add("word", [SUM, "addl/v $4,$6,$5", SUM, "trapb", "br dump"])
    for low in range(8):
        for name, high in (("bit-63", 1 << 63), ("bit-32", 1 << 32), ("bit-3", 8), ("all", blocks.MASK - 7)):
            made.late(f"word-{low}-{name}", "word",
                      f"the word {high | low:#x} chooses at a /V word: its two low bits, and then the third", OVERFLOWS,
                      [0x77, high | low, DRAWN, 1, 0x99])
    return made


def turns():
    """The lock flag over turns back and far, by the input's $6 and $7."""
    made = Blocks("locks-far",
                  "A jump or a branch between a locked load and its conditional store, back or far: it leaves the "
                  "flag.",
                  before=["stq_c $5,64($9)", "trapb", "br dump"])
    for name in TURNS:
        for how, target in (("back", "before"), ("far", "behind")):
            label = f"{name}_{how}"
            made.add(label, ["ldq_l $5,64($9)", turn_line(name, target), "stq_c $5,64($9)", "trapb", "br dump"])
        made.add(f"{name}_near", ["ldq_l $10,64($9)", "br $31,.+12", f"there_{name}:", "stq_c $5,64($9)", "br $31,.+8",
                                  turn_line(name, f"there_{name}"), "trapb", "br dump"])
    made.add("space", ["nop"] * 600)
    made.add("behind", ["stq_c $5,64($9)", "trapb", "br dump"])
    for name in TURNS:
        for how, target in (("back", "before"), ("far", "behind"), ("near", f"there_{name}")):
            for number, value in enumerate(taken(name) if name in late.BRANCHES else (0,)):
                passed = " that isn't taken" * number
                made.run(f"{name}-{how}{'-passed' * number}", f"{name}_{how}",
                         f"`{name}` {'far' if how == 'far' else 'back'}{passed} leaves the lock flag",
                         {5: VALUE, 6: value, 7: made.places[target]})
    return made


def families():
    return [flags(), zeros(), moves(), added(), counted(), far(), rest(), turns()]
