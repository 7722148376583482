"""Choices that are drawn behind a report that was forced, or that end within a word; masks of many registers; and a
program whose recorded runs show each drawn value."""
import random

from . import blocks, late, waiting
from .blocks import CELLS, MAX, Blocks, waits

SUM, OVERFLOWS = late.SUM, late.OVERFLOWS
VALUE = 0x8877665544332211
# A trigger that is completed from the value that it drew.
OWN = "addq/v $7,$2,$7"
KEPT = OVERFLOWS | {7: MAX}


def forced():
    """What is drawn behind a report that no choice was drawn for."""
    made = Blocks("late-forced",
                  "Behind a report that is forced a second trigger draws the next word, and is completed from it.")
    own = ["trapb", OWN, "trapb", "br dump"]
    made.add("limit", [SUM, "again:", "lda $5,0($31)", "blbs $5,again", *own])
    made.late("limit", "limit", "a report behind 1,024 words draws nothing", KEPT,
              [0x77, *waits(*[(1, 0)] * 1_024), VALUE, 0, 0x99])
    for name in (*late.LOADS, *late.STORES):
        made.add(name, [SUM, "addq $4,0,$6", f"{name} $5,0($6)", *own])
        bad = {"nowhere": 8} | ({} if name in ("ldbu", "stb", "ldq_u", "stq_u") else {"odd": CELLS + 65})
        for how, address in bad.items():
            made.late(f"{name}-{how}", name, f"a report at `{name} $5,0($6)` that would fault draws nothing",
                      KEPT | {4: CELLS + 64}, [0x77, *waits((address, 0)), VALUE, 0, 0x99])
    for name in late.BARRIERS[:6]:
        made.add(name, [SUM, name, OWN, "trapb", "br dump"])
        made.late(name, name, f"a report at `{name}` draws nothing", KEPT, [0x77, VALUE, 0, 0x99])
    made.add("lost", ["addq/v $1,$2,$0", "addq/v $1,$2,$16", "addq/v $1,$2,$30", "again_lost:", "lda $5,0($31)",
                      "br $31,.+4", "blbs $5,again_lost", "trapb"])
    for adds in ((1, 1), (0, 1), (1, 0)):
        made.late(f"lost-{adds[0]}{adds[1]}", "lost", "a trap of many registers is lost behind 1,024 words", OVERFLOWS,
                  [0x77, *waits((5, adds[0]), (6, adds[1]), *[(1, 0)] * 1_022)])
    own_words(made)
    spent(made)
    made.add("last", [SUM, "addq/v $1,$2,$4", "addq/v $1,$2,$4"])
    made.late("end", "last", "a report at the code's end draws nothing: then two further traps are reported", OVERFLOWS,
              [0x77, *waits((5, 0), (6, 0)), 0x78, 0, 0x79])
    return made


def own_words(made):
    """Choices that end within the word that a trigger draws; and /V words whose destination is a source."""
    made.add("own", [OWN, "trapb", "mov $1,$6", "addq/v $6,$2,$6", "trapb", "br dump"])
    whole = blocks.quadwords([VALUE, 0, VALUE ^ blocks.MASK])
    for size in range(25):
        made.late(f"own-{size}", "own", f"{size} bytes of choices, of which triggers are completed that drew them",
                  KEPT,
                  whole[:size])
    for name in late.OVERFLOWING:
        for how, line in (("own", f"{name} $5,$5,$5"), ("first", f"{name} $5,$6,$5"), ("second", f"{name} $4,$5,$5"),
                          ("literal", f"{name} $5,129,$5"), ("other", f"{name} $4,129,$5")):
            label = f"{name.replace('/', '_')}_{how}"
            made.add(label, [SUM, line, SUM, "trapb", "br dump"])
            for drawn in (VALUE, 1 << 62, 5):
                made.late(f"{label.replace('_', '-')}-{drawn:x}", label,
                          f"`{line}` adds $5 to the mask, and the handler completes it by the value that $5 drew, "
                          f"{drawn:#x}", OVERFLOWS, [0x77, *waits((drawn, 1), (0x99, 0))], ("wrap", "saturate"))


def spent(made):
    """A trap of an empty mask is lost, also where its trigger was the last unit; and /V words far before the report."""
    made.add("empty", ["addq/v $1,$2,$31", "nop", "trapb", "br dump"])
    for steps in (16, 17, 18):
        for chosen in ([0x77, 0], [0x77, *waits((5, 0))]):
            made.late(f"empty-{steps}-{len(chosen)}", "empty",
                      f"{steps} units, of which unit 16 is a trigger into $31: its trap is lost", OVERFLOWS, chosen,
                      late.ALL, steps=steps)
    for name in late.OVERFLOWING:
        for how, line in (("literal", f"{name} $5,129,$5"), ("own", f"{name} $5,$5,$5")):
            label = f"{name.replace('/', '_')}_{how}_far"
            made.add(label, [SUM, "trapb", SUM, line, "nop", "nop", "nop", SUM, "trapb", "br dump"])
            for drawn in (VALUE, 5):
                made.late(f"{label.replace('_', '-')}-{drawn:x}", label,
                          f"`{line}` adds $5 to the mask, and three words later the handler completes it by the value "
                          f"that $5 drew, {drawn:#x}, behind another trap", OVERFLOWS,
                          [0x76, 0x77, *waits((drawn, 1), (1, 0), (1, 0), (1, 0), (0x99, 0))], ("wrap", "saturate"))


def masks():
    """Many /V words, each of which adds its register or doesn't, and a report at some word."""
    made = Blocks("late-masks-random", "Shadows of /V words whose registers come again, and masks of some of them.")
    chosen = random.Random(92)
    free = [register for register in range(32) if register not in (1, 2, 4, 6, 9)]
    for number in range(36):
        registers = chosen.sample(free, chosen.randrange(2, 5))
        lines = [f"addq/v {chosen.choice(('$1,$2', '$4,$6', '$1,$2'))},${chosen.choice(registers)}"
                 if chosen.randrange(5) else chosen.choice(("nop", "mb", f"addq $4,$6,${chosen.choice(registers)}"))
                 for _ in range(chosen.randrange(4, 14))]
        made.add(f"block_{number}", [f"addq/v $1,$2,${registers[0]}", *lines, "trapb", "br dump"])
        for turn in range(3):
            words = [(chosen.getrandbits(64), chosen.randrange(2)) for _ in range(chosen.randrange(1, len(lines) + 1))]
            made.late(f"{number}-{turn}", f"block_{number}",
                      f"a shadow of {len(lines)} words, of which {len(words)} are executed at most", OVERFLOWS,
                      [0x77, *waits(*words), 0, *[chosen.getrandbits(64) for _ in range(20)]],
                      ("wrap", "saturate") if number < 12 else ("wrap",))
    return made


def zero():
    """Words that are executed at address 0 while a trap is pending."""
    made = Blocks("late-zero-waits", "The code begins at address 0, with a /V word that is executed late.", code=0,
                  before=[SUM, "nop", "nop", "trapb", "br dump"])
    made.add("jumps", ["addq/v $1,$2,$5", "jmp $31,($6)"])
    for count in (1, 2, 3):
        for adds in (0, 1):
            made.late(f"{count}-{adds}", "jumps",
                      f"{count} words from address 0 on are executed while a trap is pending",
                      OVERFLOWS, [0x77, *waits((0, 0), (0x66, adds), (0, 0), (0, 0))[:2 + 2 * count], 0])
    return made


# ---- a program whose recorded runs show what was drawn

def recorded():
    """The source: behind each word, or each register's own overflow, what it left is put."""
    turns = (*late.BRANCHES, *late.JUMPS, "br", "bsr")
    words = {name: line for name, line in waiting.every_word().items() if name not in turns}
    body, at = [], 128
    for name, line in words.items():
        seen = "$10" if name in late.STORES[:5] else "$5"
        body += ["stq $31,64($9)", "ldq_l $10,64($9)", SUM, line, SUM, "trapb",
                 *(["ldq $10,64($9)"] if seen == "$10" else []), f"stq {seen},{at}($9)"]
        at += 8
    # Twice, since a draw decides whether its own overflow waits and counts.
    for register in (*range(31), *range(31)):
        if register in (1, 2, 4, 6, 9):
            continue
        body += [f"mov $1,${register}", SUM if register != 3 else "addq/v $1,$2,$5",
                 f"addq/v ${register},$2,${register}", SUM, "trapb", f"stq ${register},{at}($9)",
                 f"mov $1,${register}", f"addq/v ${register},$2,${register}", "trapb", f"stq ${register},{at + 8}($9)"]
        at += 16
    ends = ["lda $0,4($31)", "lda $16,1($31)", "lda $17,128($9)", f"lda $18,{at - 128}($31)", "callsys", "clr $16",
            "lda $0,1($31)", "callsys"]
    head = ["# Behind each word of a shadow, and behind each register's own overflow, what it left is put: so a "
            "recorded run shows", "# each value that it drew.", "        .level 2", "        .segment 0x10000000",
            f"        .zero {at}", "        .code"]
    code = ["ldah $9,0x1000($31)", "lda $1,-1($31)", "srl $1,1,$1", "lda $2,1($31)", "lda $4,5($31)", "lda $6,3($31)",
            *body, *ends]
    return "\n".join([*head, f"start:  {code[0]}", *[f"        {line}" for line in code[1:]],
                      "        .entry start"]) + "\n"


def lost(registers):
    """The source of a run whose trap is lost, where it isn't reported at once."""
    first, *others = registers
    lines = ["lda $1,-1($31)", "srl $1,1,$1", "lda $2,1($31)", f"addq/v $1,$2,${first}",
             *[f"addq/v $1,$2,${other}" for other in others], "br $31,.+4", "trapb", "lda $16,7($31)", "lda $0,1($31)",
             "callsys"]
    return "\n".join([f"# A branch behind overflows into {', '.join(f'${one}' for one in registers)}.", "        .code",
                      f"start:  {lines[0]}", *[f"        {line}" for line in lines[1:]], "        .entry start"]) + "\n"


def sources():
    return {"record-words": recorded(), "record-lost-30": lost((30, 17, 29)), "record-lost-16": lost((16, 28))}


def families():
    return [forced(), masks(), zero()]
