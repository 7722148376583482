"""The machine whose traps come late: what words leave, what the handler looks back over, and where a trap may wait."""
import random

from parts import table
from . import blocks
from .blocks import CELLS, CODE, MAX, Blocks, waits

OVERFLOWS = {1: MAX, 2: 1, 4: 5, 6: 3}
SUM = "addq/v $1,$2,$3"
DRAWN = random.Random(76)
# Operands by which each /V instruction overflows.
OVERFLOWING = {"addl/v": (0x7FFFFFFF, 1), "addq/v": (MAX, 1), "subl/v": (1 << 31, 1), "subq/v": (1 << 63, 1),
               "mull/v": (1 << 20, 1 << 20),
               "mulq/v": (1 << 40, 1 << 40)}
UNARY = ("sextb", "sextw", "amask", "ctpop", "ctlz", "cttz")
ALL = ("wrap", "saturate", "stop")
LOADS = ("ldbu", "ldwu", "ldl", "ldq", "ldq_u", "ldl_l", "ldq_l")
STORES = ("stb", "stw", "stl", "stq", "stq_u", "stl_c", "stq_c")
BRANCHES = ("beq", "bne", "blt", "ble", "bgt", "bge", "blbs", "blbc")
JUMPS = ("jmp", "jsr", "ret", "jsr_coroutine")
BARRIERS = ("trapb", "excb", "imb", "rdunique", "wrunique", "callsys", "bpt", "bugchk", "gentrap")


def operates():
    """The names of all operate instructions."""
    return [name for rows in table.OPERATE.values() for name in rows.values()]


def operate_line(name, first="$4", second="$6", third="$5"):
    if name == "implver":
        return f"implver {third}"
    return f"{name} {second},{third}" if name in UNARY else f"{name} {first},{second},{third}"


def with_destination():
    """A line for each instruction with a destination, which is $5; jumps go to the next word by $7."""
    lines = {name: operate_line(name) for name in operates()}
    lines |= {"lda": "lda $5,8($6)", "ldah": "ldah $5,8($6)"}
    lines |= {name: f"{name} $5,72($9)" for name in (*LOADS, "stl_c", "stq_c")}
    lines |= {name: f"{name} $5,.+4" for name in ("br", "bsr")}
    return lines | {name: f"{name} $5,($7)" for name in JUMPS}


def drawn():
    """What every instruction leaves while a trap is pending: the value that is drawn."""
    made = Blocks("late-words",
                  "While a trap is pending, each instruction that has a destination: $5 gets the drawn value, which "
                  "stays, since "
                  "the handler finds the /V word behind.")
    for name, line in with_destination().items():
        label = name.replace("/", "_")
        made.add(label, ["lda $7,12($8)", SUM, line, SUM, "trapb", "br dump"])
        value = DRAWN.getrandbits(64)
        made.late(name.replace("/", "-"), label,
                  f"`{line}` is executed while a trap is pending: $5 gets the drawn value",
                  OVERFLOWS, [0x77, *waits((value, 0), (0x99, 0))])
        if name.endswith("/v"):
            told = name.replace("/", "-")
            made.late(f"{told}-added", label,
                      f"`{line}` adds $5 to the mask: the handler completes it, and then the sum behind it overflows "
                      f"anew",
                      OVERFLOWS, [0x77, *waits((value, 1), (0x99, 0))])
            first, second = OVERFLOWING[name]
            made.late(f"{told}-over", label,
                      f"`{line}` would overflow while a trap is pending: it is executed as others, and $5 gets the "
                      f"drawn value",
                      OVERFLOWS | {4: first, 6: second}, [0x77, *waits((value, 0), (0x99, 0))], ALL)
    choosing(made)
    zeros = {"addq": "addq $4,$6,$31", "addlv": "addl/v $4,$6,$31", "cmoveq": "cmoveq $31,$6,$31",
             "lda": "lda $31,8($6)",
             "ldq": "ldq $31,1($31)", "ldbu": "ldbu $31,1($31)", "ldq_u": "ldq_u $31,1($31)", "ldl": "ldl $31,2($31)",
             "ldwu": "ldwu $31,2($31)",
             "ldq_l": "ldq_l $31,72($9)", "ldl_l": "ldl_l $31,72($9)", "stq_c": "stq_c $31,72($9)", "br": "br $31,.+4",
             "jmp": "jmp $31,($7)"}
    for name, line in zeros.items():
        made.add(f"zero_{name}", ["lda $7,12($8)", SUM, line, SUM, "trapb", "addq $31,$31,$5", "br dump"])
        made.late(f"zero-{name}", f"zero_{name}",
                  f"`{line}` is executed while a trap is pending: $31 stays 0, and a load into it makes no "
                  "access, but for locked ones", OVERFLOWS, [0x77, *waits((DRAWN.getrandbits(64), 0), (0x99, 0))])
    for name in ("mb", "wmb", "fetch 0($31)", "fetch_m 0($31)"):
        label = name.split()[0]
        made.add(f"plain_{label}", [SUM, name, SUM, "trapb", "br dump"])
        made.late(f"plain-{label}", f"plain_{label}",
                  f"`{name}` is executed while a trap is pending, and changes nothing", OVERFLOWS,
                  [0x77, *waits((1, 0), (2, 0))])
    made.add("ours", ["lda $5,16($8)", SUM, "jsr $5,($5)", "trapb", SUM, "trapb", "br dump"])
    made.late("jump-own", "ours", "a jump while a trap is pending reads its register before that gets the drawn value",
              OVERFLOWS,
              [0x77, *waits((0x1234, 0), (5, 0))])
    return made


def choosing(made):
    """Which words choose what, where what is left shows it."""
    value = 0x8877665544332211
    for number, word in enumerate((1, 2, 3, 7, 9, 1 << 63 | 1, -1, 4, 8, 12, 1 << 63, -4, 1 << 32)):
        made.late(f"word-{number}", "addq",
                  f"the word {word & blocks.MASK:#x} chooses: a report where its two low bits are 0, else $5 is drawn",
                  OVERFLOWS,
                  [0x77, word, value, 1, 0x99])
        made.late(f"adds-{number}", "addl_v",
                  f"the word {word & blocks.MASK:#x} chooses at a /V word: its third bit adds to the mask", OVERFLOWS,
                  [0x77, word, value, 1, 0x99])
    whole = blocks.quadwords([0x77, 1, value, 1, 0x99])
    for size in (*range(16, 24), 25, 33):
        made.late(f"short-{size}", "addq", f"{size} bytes of choices: a short last word is filled up with zeros",
                  OVERFLOWS, whole[:size])
    made.add("again", [SUM, "lda $5,1($31)", SUM, "trapb", SUM, "lda $6,1($31)", SUM, "trapb", "br dump"])
    second = [0x78, *waits((0x6655, 0), (0x9A, 0))]
    made.late("again", "again", "a report that is forced draws no word", OVERFLOWS,
              [0x77, *waits((value, 0), (0x99, 0)), *second], ALL)
    made.late("again-chosen", "again", "a report that is chosen draws one word, and a trigger one", OVERFLOWS,
              [0x77, 0, 0x79, 0, *second], ALL)
    made.add("exact", [SUM, "nop", "nop", "trapb", "mov $3,$16", "lda $0,1($31)", "callsys"])
    for steps in range(15, 24):
        made.late(f"exact-{steps}", "exact",
                  f"{steps} steps, of which words that wait are none: the program exits with the last of 22", OVERFLOWS,
                  [0x77, *waits((1, 0), (1, 0))], ALL, steps=steps)


def stores():
    """Which bytes a store puts while a trap is pending, and what becomes of the lock flag."""
    made = Blocks("late-stores",
                  "While a trap is pending, each store: its drawn bytes are in memory, since the handler finds the /V "
                  "word behind.")
    for name in STORES[:5]:
        made.add(name, [SUM, f"{name} $4,72($9)", SUM, "trapb", "br dump"])
        made.late(name, name, f"`{name}` while a trap is pending puts the low bytes of the drawn value, and no others",
                  OVERFLOWS,
                  [0x77, *waits((0xF7F6F5F4F3F2F1F0, 0), (0x99, 0))])
    for name in ("stl_c", "stq_c"):
        for how, locked in (("set", "ldq_l $7,64($9)"), ("clear", "nop"), ("other", "ldq_l $7,80($9)")):
            made.add(f"{name}_{how}", [locked, SUM, f"{name} $4,72($9)", SUM, "trapb", "br dump"])
            made.late(f"{name}-{how}", f"{name}_{how}",
                      f"`{name}` while a trap is pending, behind `{locked}`: its register gets the drawn "
                      "value, whether it stores or not; it stores the low bytes where the flag matches", OVERFLOWS,
                      [0x77, *waits((0xF7F6F5F4F3F2F1F0, 0), (0x99, 0))])
        for how, first in (("again", f"{name} $5,88($9)"), ("load", "ldq $5,64($9)"), ("store", "stq $5,120($9)"),
                           ("lda", "lda $5,1($5)"),
                           ("mb", "mb"), ("br", "br $31,.+4"), ("add", "addq $5,1,$5"), ("trigger", "addl/v $5,1,$5")):
            made.add(f"{name}_{how}", ["ldq_l $7,80($9)", SUM, first, f"{name} $4,80($9)", SUM, "trapb", "br dump"])
            made.late(f"{name}-{how}", f"{name}_{how}",
                      f"`{first}` between a locked load and `{name}`, all while a trap is pending: a "
                      "conditional store clears the flag, and others leave it", OVERFLOWS,
                      [0x77, *waits((0xA5, 0), (0xF7F6F5F4F3F2F1F0, 0), (0x99, 0))])
        for load, register in (("ldl_l", 5), ("ldq_l", 5), ("ldl_l", 31), ("ldq_l", 31)):
            made.add(f"{name}_{load}_{register}",
                     ["ldq_l $7,64($9)", SUM, f"{load} ${register},88($9)", f"{name} $4,80($9)", SUM, "trapb",
                      "br dump"])
            made.late(f"{name}-{load}-{register}", f"{name}_{load}_{register}",
                      f"`{load} ${register}` while a trap is pending sets the flag with its block, and `{name}` "
                      "stores there", OVERFLOWS, [0x77, *waits((0xA5, 0), (0xF7F6F5F4F3F2F1F0, 0), (0x99, 0))])
    for name in ("stb", "stw", "stl", "stq", "stq_u"):
        made.add(f"{name}_drawn", [SUM, "lda $6,0($31)", f"{name} $4,0($6)", SUM, "trapb", "br dump"])
        made.late(f"{name}-base", f"{name}_drawn",
                  f"`{name}` while a trap is pending goes by its base as it is, and that was drawn", OVERFLOWS,
                  [0x77, *waits((CELLS + 88, 0), (0xE7E6E5E4E3E2E1E0, 0), (0x99, 0))])
    made.add("report", ["ldq_l $7,80($9)", SUM, "nop", "lda $4,7($31)", "stq_c $4,80($9)", "trapb", "br dump"])
    made.late("flag-report", "report",
              "the report of a trap clears the lock flag: the conditional store behind doesn't store", OVERFLOWS,
              [0x77, 0], ("wrap", "saturate"))
    made.add("kept", ["ldq_l $7,80($9)", "addq/v $4,$6,$3", "lda $4,7($31)", "stq_c $4,80($9)", "trapb", "br dump"])
    made.late("flag-kept", "kept", "a /V word that doesn't overflow leaves the lock flag", OVERFLOWS, [])
    return made


def scans():
    """What the handler looks back over."""
    made = Blocks("late-scans",
                  "A branch goes from a shadow behind a word that stands behind another /V word: a barrier, a branch "
                  "or a jump "
                  "there ends the handler's way back, and others don't.")
    turns = ([f"{name} $31,.+4" for name in ("br", "bsr")] + [f"{name} $6,.+4" for name in BRANCHES]
             + [f"{name} $31,($8)" for name in JUMPS])
    plain = ["mb", "wmb", "fetch 0($9)", "fetch_m 0($9)", "lda $5,1($31)", "ldq $5,64($9)", "ldq_u $31,64($9)",
             "stq $4,64($9)", "ldq_l $5,64($9)", "stq_c $5,64($9)", "addq $4,$6,$5", "addq/v $4,$6,$5",
             "cmovne $4,$6,$5"]
    for number, line in enumerate([*BARRIERS, *turns, *plain]):
        label = f"over_{number}"
        what = line.split()[0].replace("/", "-")
        made.add(label,
                 [f"br trigger_{number}", SUM, line, f"behind_{number}:", "nop", "trapb", "br dump",
                  f"trigger_{number}:",
                         SUM, f"br behind_{number}"])
        said = "doesn't end" if line in plain else "ends"
        for how, chosen in (("", waits((0, 0), (0, 0))), ("-near", [*waits((0, 0)), 0])):
            made.late(f"{what}-{number}{how}", label, f"`{line}` {said} the handler's way back to `{SUM}`", OVERFLOWS,
                      [0x77, *chosen])
    return made


def masks():
    """Of which words the handler counts the destinations."""
    made = Blocks("late-masks-by-word",
                  "A mask of two registers, and words with the trigger's destination behind its second one: those "
                  "without /V don't count, and those with it do, whether they overflow or not.")
    for name, line in with_destination().items():
        if name in ("br", "bsr", *JUMPS):
            continue
        line = line.replace("$5", "$3")
        label = name.replace("/", "_")
        adds = int(name.endswith("/v"))
        made.add(label, [SUM, "addq/v $6,$31,$4", line, "trapb", "br dump"])
        made.late(name.replace("/", "-"), label,
                  f"`{line}` behind the trigger, whose destination it has, and behind a second word of the mask: "
                  + ("it counts, as it has /V" if adds else "it doesn't count, as it has no /V"), OVERFLOWS,
                  [0x77, *waits((0x55, 1), (0x66, 0))])
    for register in range(31):
        if register in (1, 2, 9):
            continue
        made.add(f"bit_{register}", [f"addq/v $1,$2,${register}", "br $31,.+4", "trapb"])
        made.late(f"bit-{register}", f"bit_{register}", f"a lost trap of ${register}: its mask has bit {register}",
                  OVERFLOWS,
                  [0x77, *waits((0, 0))], ("wrap", "stop") if register == 5 else ("wrap",))
        made.add(f"done_{register}",
                 [f"addq/v $1,$2,${register}", "trapb", *(["mov $30,$5"] if register == 30 else []), "br dump"])
        made.late(f"done-{register}", f"done_{register}",
                  f"the handler completes a word whose destination is ${register}", OVERFLOWS, [0x77],
                  ("wrap", "saturate") if register in (16, 17, 18, 29, 30) else ("wrap",))
    made.add("empty", [SUM.replace("$3", "$31"), "nop", "trapb"])
    made.late("empty", "empty", "a trigger whose destination is $31: the mask is empty, and the trap is lost",
              OVERFLOWS, [0x77, 0], ALL)
    made.add("second", [SUM, SUM.replace("$3", "$31"), "trapb", "br dump"])
    made.late("second-zero", "second", "a /V word behind the trigger whose destination is $31 adds nothing", OVERFLOWS,
              [0x77, *waits((9, 1))], ALL)
    made.add("three", [SUM, "addq/v $1,$2,$4", "addq/v $1,$2,$5", "nop", "trapb", "br dump"])
    for number in range(4):
        adds = number & 1, number >> 1
        made.late(f"three-{number}", "three",
                  f"two /V words behind the trigger, of which {['none', 'the first', 'the second', 'both'][number]} "
                  "adds to the mask", OVERFLOWS, [0x77, *waits((0x10, adds[0]), (0x20, adds[1]), (0, 0)), 0x88], ALL)
    for number, (one,
                 other) in enumerate(((2, 7), (3, 6), (1 << 63 | 1, 1 << 63 | 5), (-1, -2), (4, 1), (8, 1), (1, 12),
                                      (6, 1 << 63))):
        made.late(f"words-{number}", "three",
                  f"the words {one & blocks.MASK:#x} and {other & blocks.MASK:#x} choose: a report where the two low "
                  f"bits are 0, and "
                  "the third bit adds to the mask", OVERFLOWS, [0x77, one, 0x10, other, 0x20, 3, 0x30, 0x88, 0])
    for size in (1, 7, 8, 9, 12, 23):
        made.late(f"short-{size}", "three", f"{size} bytes of choices: a short last word is filled up with zeros",
                  OVERFLOWS,
                  blocks.quadwords([0x8877665544332211, 0xF7F6F5F4F3F2F1F1, 0xE7E6E5E4E3E2E1E0])[:size])
    made.add("nearest", ["addq/v $1,$2,$4", SUM, "addq/v $4,$6,$3", "addq/v $4,$6,$4", "trapb", "br dump"])
    made.late("nearest", "nearest",
              "the greatest place that all registers of the mask can come from isn't the nearest /V word", OVERFLOWS,
              [0x77, 0, 0x78, *waits((0x20, 0), (0x30, 1))])
    return made


def completed():
    """What the handler completes."""
    made = Blocks("late-completed",
                  "Words of a shadow draw other operands for the trigger: the handler completes it from the registers "
                  "as "
                  "they are, and logs it also where it no longer overflows.")
    lines = {"addlv": "addl/v $1,$2,$3", "addqv": "addq/v $1,$2,$3", "sublv": "subl/v $1,$2,$3",
             "subqv": "subq/v $1,$2,$3",
             "mullv": "mull/v $1,$2,$3", "mulqv": "mulq/v $1,$2,$3"}
    over = {name.replace("/", ""): operands for name, operands in OVERFLOWING.items()}
    under = {"addlv": (1 << 31, -1), "addqv": (1 << 63, -1), "sublv": (0x7FFFFFFF, -1), "subqv": (MAX, -1),
             "mullv": (-1 << 20, 1 << 20),
             "mulqv": (-1 << 40, 1 << 40)}
    for name, line in lines.items():
        made.add(name, [line, "lda $1,0($31)", "lda $2,0($31)", "trapb", "br dump"])
        for how, operands, values in (("exact", over, (12, 5)), ("over", over, over[name]),
                                      ("under", over, under[name]), ("from-under", under, over[name])):
            given = {1: operands[name][0], 2: operands[name][1]}
            made.late(f"{name}-{how}", name,
                      f"`{line}` is completed with the operands that were drawn behind it, and logged all the same",
                      given, [0x77, *waits((values[0] & blocks.MASK, 0), (values[1] & blocks.MASK, 0))], ALL)
    made.add("later", [SUM, "lda $1,0($31)", "addq/v $1,$2,$4", "trapb", "br dump"])
    made.late("later", "later",
              "a /V word of the mask that the handler completes no longer overflows, and the trigger neither",
              OVERFLOWS,
              [0x77, *waits((5, 0), (0x44, 1))], ALL)
    made.add("own", ["addq/v $3,$2,$3", "nop", "trapb", "br dump"])
    made.late("own", "own", "a trigger that overwrites its own source is completed from what it left", {3: MAX, 2: 1},
              [0x55, 0], ALL)
    made.add("literal", ["addq/v $1,200,$3", "lda $1,0($31)", "trapb", "br dump"])
    made.late("literal", "literal", "a trigger with a literal", OVERFLOWS, [0x55, *waits((MAX - 3, 0))], ALL)
    return made


def turns():
    """Branches and jumps while a trap is pending."""
    made = Blocks("late-turns",
                  "While a trap is pending a branch goes by its register as it is, which was drawn, and a jump too.")
    values = {"beq": (0, 1 << 63), "bne": (1 << 40, 0), "blt": (1 << 63, 1), "ble": (0, 1), "bgt": (1, 1 << 63),
              "bge": (0, 1 << 63),
              "blbs": (0x101, 0x100), "blbc": (0x100, 0x101)}
    for name in BRANCHES:
        made.add(name,
                 [SUM, "addq $4,0,$5", f"{name} $5,there_{name}", "lda $6,1($31)", SUM, "trapb", "br dump",
                  f"there_{name}:", "lda $7,2($31)",
                        SUM, "trapb", "br dump"])
        for how, value, true in (("taken", *values[name]), ("passed", *values[name][::-1])):
            made.late(f"{name}-{how}", name, f"`{name}` while a trap is pending, by a drawn register: {how}",
                      OVERFLOWS | {4: true},
                      [0x77, *waits((value, 0), (0, 0), (0x61, 0), (0x62, 0))])
    for name in JUMPS:
        made.add(name, [SUM, "addq $4,0,$5", f"{name} $5,($5)", "trapb", SUM, "trapb", "br dump"])
        made.late(name, name,
                  f"`{name}` while a trap is pending goes by a drawn register, with its two low bits cleared",
                  OVERFLOWS,
                  [0x77, *waits((made.places[name] + 19, 0), (0x1111, 0), (0x61, 0))])
        for how, target in (("behind", CODE - 4), ("far", 1 << 32 | CODE), ("top", blocks.MASK - 3)):
            made.late(f"{name}-{how}", name,
                      f"`{name}` while a trap is pending goes to {target:#x}: outside the code the trap is lost",
                      OVERFLOWS,
                      [0x77, *waits((target, 0), (0x1111, 0))])
    for name in ("br", "bsr"):
        made.add(name, [SUM, f"{name} $5,.+8", "trapb", SUM, "trapb", "br dump"])
        made.late(name, name, f"`{name}` while a trap is pending is taken, and leaves the drawn value", OVERFLOWS,
                  [0x77, *waits((0x1111, 0), (0x61, 0))])
    return made


def access_line(name, base="$6"):
    return f"{name} $5,0({base})"


def faults():
    """Accesses that would fault while a trap is pending, and those that wouldn't."""
    made = Blocks("late-faults",
                  "An access behind a trigger that would fault: the trap is reported there, and can't wait.")
    for name in (*LOADS, *STORES):
        size = table.SIZES.get(name, 8)
        made.add(name, [SUM, access_line(name), "trapb", "br dump"])
        bad = {"nowhere": 0, "past": (1 << 30), "high": 1 << 32 | CELLS}
        bad |= {"odd": CELLS + 64 + size // 2} if size > 1 and not name.endswith("_u") else {}
        bad |= {"code": CODE} if name in STORES else {}
        for how, address in bad.items():
            made.late(f"{name}-{how}", name,
                      f"`{access_line(name)}` at {address:#x} would fault, so the trap is reported there; then it "
                      f"faults",
                      OVERFLOWS | {6: address}, [0x77, *waits((0x1111, 0))])
            refuse_wait(made, f"{name}-{how}", name,
                        f"a Wait at `{access_line(name)}` at {address:#x}, which would fault",
                        OVERFLOWS | {6: address}, 1)
        if name in LOADS:
            made.late(f"{name}-code", name, f"`{access_line(name)}` may load from the code while a trap is pending",
                      OVERFLOWS | {6: CODE},
                      [0x77, *waits((0x1111, 0))])
        made.add(f"{name}_drawn", [SUM, "addq $4,0,$6", access_line(name), "trapb", "br dump"])
        made.late(f"{name}-drawn", f"{name}_drawn",
                  "the base as it is says whether an access faults: a drawn one that is good", OVERFLOWS,
                  [0x77, *waits((CELLS + 64, 0), (0x2222, 0))])
        made.late(f"{name}-drawn-bad", f"{name}_drawn",
                  "the base as it is says whether an access faults: a drawn one that is bad",
                  OVERFLOWS | {4: CELLS + 64}, [0x77, *waits((8, 0))])
        refuse_wait(made, f"{name}-drawn-bad", f"{name}_drawn", "a Wait at an access whose drawn base is bad",
                    OVERFLOWS | {4: CELLS + 64}, 2,
                    before=waits((8, 0)))
    for name in BARRIERS:
        made.add(name, [SUM, name, "trapb", "br dump"])
        made.late(f"at-{name}", name, f"a trap is reported at `{name}`, before that is executed", OVERFLOWS,
                  [0x77, *waits((0x1111, 0))])
        refuse_wait(made, f"at-{name}", name, f"a Wait at `{name}`, which is a barrier", OVERFLOWS, 1)
    made.add("leaves", [SUM, "br $31,dump"])
    return made


def refuse_wait(made, name, label, about, operands, behind, before=()):
    """A journal with a Wait where a trap can only be reported: `behind` steps behind the trigger."""
    made.row("refuse", f"wait-{name}", label, about, operands, [0x77, *before],
             change=lambda kept, n=behind: wait_for_report(kept, n),
             answer=lambda kept, n=behind: f"norun kind 1 at {trigger_of(kept) + n}")


def trigger_of(kept):
    return [item[0] for item in kept.items].index("trigger")


def wait_for_report(kept, behind):
    """The journal with a Wait in the place of the first Report, and nothing behind it."""
    kept.items = [*kept.items[:trigger_of(kept) + behind], ("wait", 0, 0x1234)]
    return kept


def limits():
    """How long a trap waits."""
    made = Blocks("late-limits",
                  "A loop in a shadow that goes on for as long as its register is drawn odd: a trap waits for 1,024 "
                  "words, and "
                  "those of each trap are counted anew.")
    made.add("loop",
             [SUM, "again:", "lda $5,0($31)", "blbs $5,again", "trapb", "subq $4,1,$4", "bgt $4,.-20", "br dump"])
    for count, what in ((1_023, "1,023 words"), (1_024, "1,024 words")):
        chosen = waits(*[(1, 0)] * count)
        made.late(f"once-{count}", "loop", f"a trap waits for {what}", {1: MAX, 2: 1, 4: 1}, [0x77, *chosen])
        made.late(f"thrice-{count}", "loop", f"each of three traps waits for {what}", {1: MAX, 2: 1, 4: 3},
                  [0x77, *chosen, *([0] if count == 1_023 else []), 0x78, *chosen, *([0] if count == 1_023 else []),
                   0x79, *chosen])
    for traps in (1, 3):
        made.row("refuse", f"too-long-{traps}", "loop", f"trap {traps} waits for 1,025 words", {1: MAX, 2: 1, 4: traps},
                 [word for _ in range(traps) for word in (0x77, *waits(*[(1, 0)] * 1_024))],
                 change=lambda kept, n=traps: longer(kept, n)[0],
                 answer=lambda kept, n=traps: f"norun kind 1 at {longer(kept, n)[1]}")
    made.add("steps", [SUM, "nop", "nop", "trapb", "br dump"])
    for steps in range(15, 20):
        made.late(f"steps-{steps}", "steps",
                  f"{steps} steps are made, and a trap that is pending then is still reported", OVERFLOWS,
                  [0x77, *waits((1, 0), (1, 0))], ALL, steps=steps)
    return made


def longer(kept, traps):
    """The journal with a 1,025th Wait of a trap, and where that stands."""
    reports = [at for at, item in enumerate(kept.items) if item[0] == "report"]
    at = reports[traps - 1] if len(reports) >= traps else len(kept.items) - 1
    kept.items = [*kept.items[:at], ("wait", 0, 1)]
    return kept, at


def edges():
    """Where the code begins and ends, and a long way back."""
    made = Blocks("late-edges",
                  "The handler looks back to the first word of the code, from behind its last one, and over any number "
                  "of words.",
                  before=[SUM, "nop", "nop", "trapb", "br dump"])
    made.add("jumps", [SUM, "jmp $31,($6)"])
    made.add("long", [SUM, *["nop"] * 1_300, "trapb", "br dump"])
    made.add("last", [SUM])
    for place in (1, 2, 3):
        made.late(f"first-{place}", "jumps", f"a trap is reported at word {place}: the handler finds the first word",
                  OVERFLOWS | {6: CODE + 4 * place},
                  [0x77, *waits((0, 0)), 0])
    made.late("first-0", "jumps", "a trap is reported at the first word: no word stands before it",
              OVERFLOWS | {6: CODE}, [0x77, *waits((0, 0)), 0])
    for how, distance in (("end", 0), ("behind-end", 4), ("far-behind", 4_096), ("before", CODE - 4 - made.end()),
                          ("wide", 1 << 32), ("top", -made.end() - 4)):
        made.late(how, "jumps",
                  f"a trap is reported at {made.end() + distance & blocks.MASK:#x}, with the code's end at "
                  f"{made.end():#x}: outside the code "
                  "there is no way back, but from its end", OVERFLOWS | {6: made.end() + distance & blocks.MASK},
                  [0x77, *waits((0, 0))], ALL)
    for bit in (30, 31, 32, 63):
        address = made.places["long"] + 8 | 1 << bit
        made.late(f"over-{bit}", "jumps",
                  f"a jump while a trap is pending goes to {address:#x}, where no code is: the trap is reported there, "
                  f"and lost",
                  OVERFLOWS | {6: address}, [0x77, *waits((0, 0), (0, 0), (0, 0))])
    for count in (1, 2, 255, 256, 1_000, 1_023, 1_024, 1_025, 1_026, 1_300):
        made.late(f"long-{count}", "jumps",
                  f"the handler looks back over {count:,} words: no number of them is too many",
                  OVERFLOWS | {6: made.places["long"] + 4 * count},
                  [0x77, *waits((0, 0)), 0])
    return made


def starts():
    """A code without a /V word at its front."""
    made = Blocks("late-starts",
                  "No /V word stands before the places where a trap is reported, and one is the last word of the code.")
    made.add("jumps", [SUM, "jmp $31,($6)"])
    made.add("last", [SUM])
    for place in range(5):
        made.late(f"none-{place}", "jumps", f"a trap is reported at word {place}, and no /V word stands before it",
                  OVERFLOWS | {6: CODE + 4 * place},
                  [0x77, *waits((0, 0)), 0])
    return made


def families():
    return [edges(), starts(), drawn(), stores(), scans(), masks(), completed(), turns(), faults(), limits()]
