"""Journals whose items are impossible where they stand: flags at words without /V, Units and Triggers at words that
don't fit, ends that are told otherwise; and journals of runs that read and write."""
from . import late, waiting
from .blocks import CELLS, Blocks, waits
from .following import NO_END, ending, more_output, of_items, put, with_input

SUM, OVERFLOWS = late.SUM, late.OVERFLOWS
BEFORE = 15  # so many units are made before the first word of a block
REST = b"The rest of the input, 40 bytes of it.!!"


def behind(kept):
    """How many items stand up to the trigger, and it with them."""
    return [item[0] for item in kept.items].index("trigger") + 1


def instead(*items):
    """A change: these items behind the trigger, in the place of all others."""
    return lambda kept: of_items(lambda old: [*old[:behind(kept)], *items])(kept)


def refuse(made, name, label, about, items, at=0, operands=None, chosen=(0x77,)):
    """A row of a journal whose item is impossible that stands `at` places behind the trigger."""
    made.row("refuse", name, label, about, operands or OVERFLOWS, list(chosen), change=instead(*items),
             answer=lambda kept: f"norun kind 1 at {behind(kept) + at}")


def waiting_words():
    """A Wait with flag 1 at each word that adds nothing, a Units and a Trigger at each word."""
    made = Blocks("pending-words", "A trigger, and each word behind it: what can't be done there.")
    lines = waiting.every_word()
    lines |= {f"{name} $31": late.operate_line(name, third="$31") for name in late.OVERFLOWING}
    for name, line in lines.items():
        told = name.replace("/", "-").replace(" $", "-")
        label = told.replace("-", "_")
        made.add(label, ["lda $7,12($8)", SUM, line, "trapb", "br dump"])
        if not name.endswith("/v"):
            refuse(made, f"{told}-flag", label, f"flag 1 at `{line}`, which adds nothing", [("wait", 1, 5)])
        refuse(made, f"{told}-units", label, f"a Units at `{line}`, while a trap is pending", [("units", 1)])
        refuse(made, f"{told}-trigger", label, f"a Trigger at `{line}`, while a trap is pending", [("trigger", 1)])
    for name in late.BARRIERS:
        label = f"at_{name}"
        made.add(label, [SUM, name, "trapb", "br dump"])
        for item in (("units", 1), ("trigger", 1), ("wait", 0, 1), ("wait", 1, 1)):
            refuse(made, f"{name}-{'-'.join(map(str, item[:2]))}", label, f"{item[0]} at `{name}`, with a pending trap",
                   [item])
    outside(made)
    return made


def outside(made):
    """The same at an access that would fault, outside the code, and with an empty mask."""
    made.add("jumps", [SUM, "jmp $31,($6)"])
    made.add("faults", [SUM, "stq $5,0($6)", "trapb"])
    made.add("empty", ["addq/v $1,$2,$31", SUM, "addq/v $4,$6,$5", "trapb"])
    items = (("units", 1), ("trigger", 1), ("wait", 0, 1), ("wait", 1, 1))
    for item in items:
        name = "-".join(map(str, item[:2]))
        for where, address in (("zero", 0), ("behind", 1 << 20), ("high", 1 << 63)):
            refuse(made, f"outside-{where}-{name}", "jumps", f"{item[0]} at {address:#x}, with a pending trap",
                   [("wait", 0, 1), item], 1, OVERFLOWS | {6: address})
        for where, address in (("nowhere", 8), ("odd", CELLS + 65), ("code", 0x10000)):
            refuse(made, f"faults-{where}-{name}", "faults",
                   f"{item[0]} at a store to {address:#x}, with a pending trap",
                   [item], 0, OVERFLOWS | {6: address})
        if item[0] != "wait":
            refuse(made, f"empty-{name}", "empty", f"{item[0]} while a trap is pending whose mask is empty", [item])
            refuse(made, f"empty-later-{name}", "empty", f"{item[0]} while a trap is pending whose mask is empty",
                   [("wait", 0, 1), item], 1)
    made.add("last", [SUM])
    for item in items:
        refuse(made, f"end-{'-'.join(map(str, item[:2]))}", "last", f"{item[0]} at the code's end, with a pending trap",
               [item])


def overflowing():
    """Units and Triggers at each /V word, which overflows or doesn't, by each completion."""
    made = Blocks("units-words", "Each /V word: a Units where it overflows, and a Trigger where it doesn't.")
    for name, (first, second) in late.OVERFLOWING.items():
        for register in (5, 31):
            told = f"{name.replace('/', '-')}-{register}"
            label = told.replace("-", "_")
            made.add(label, [f"{name} $4,$6,${register}", "trapb", "br dump"])
            for completion in late.ALL:
                made.row("refuse", f"{told}-{completion}-units", label,
                         f"a Units that goes on at `{name}` into ${register}, which overflows, by {completion}",
                         {4: first, 6: second}, [0x77], completion, change=of_items(lambda _: [("units", BEFORE + 1)]),
                         answer="norun kind 1 at 0")
                made.row("refuse", f"{told}-{completion}-trigger", label,
                         f"a Trigger at `{name}` into ${register}, which doesn't overflow, by {completion}",
                         {4: 5, 6: 3}, [], completion,
                         change=of_items(lambda _: [("units", BEFORE), ("trigger", 5), ("report",)]),
                         answer="norun kind 1 at 1")
    return made


# Words of opcodes that those of `late-counted` haven't.
FURTHER = {"ldah": "ldah $7,1($31)", "ldbu": "ldbu $7,64($9)", "bis": "bis $31,$6,$7", "sll": "sll $6,1,$7",
           "mulq": "mulq $6,3,$7", "jmp": "jmp $31,($8)", "sextb": "sextb $6,$7", "ldl": "ldl $7,64($9)",
           "ldl_l": "ldl_l $7,64($9)", "beq": "beq $4,.+4"}


def limits():
    """A Wait behind 1,024 others, at a word of each kind."""
    made = Blocks("limit-words", "A loop in a shadow, so that the 1,025th word is of each kind.")
    for name, line in (waiting.COUNTED | FURTHER).items():
        # Where `jmp` goes.
        front = ["br $8,.+4", "lda $8,16($8)"] if name == "jmp" else []
        made.add(name, [*front, SUM, "nop", f"again_{name}:", line, "addq $4,0,$5", f"blbs $5,again_{name}", "trapb",
                        "br dump"])
        chosen = [0x77, *waits((0, 0), *[(0, 0), (1, 0), (0, 0)] * 341)]
        for flag in (0, 1):
            made.row("refuse", f"{name}-{flag}", name, f"the 1,025th word that would wait is `{line}`",
                     OVERFLOWS | {4: 4}, chosen,
                     change=lambda kept, flag=flag: of_items(
                         lambda old: [*old[:behind(kept) + 1_024], ("wait", flag, 1)])(kept),
                     answer=lambda kept: f"norun kind 1 at {behind(kept) + 1_024}")
    return made


def ends():
    """Each end, with input that is left, another output, and another end, by itself and with each other."""
    made = Blocks("ends-otherwise", "Each end of a run, and journals with more input, another output, or another end.")
    words = {"exit": ["mov $6,$16", "lda $0,1($31)", "callsys"], "bpt": ["bpt"], "bugchk": ["bugchk"],
             "gentrap": ["gentrap"], "fetch": ["jmp $31,($31)"], "access": ["ldq $5,8($31)"],
             "align": ["ldq $5,1($31)"],
             "lost": [SUM, "br $31,.+4", "trapb"], "overflow": [SUM, "nop", "trapb"], "none": ["nop", "nop"]}
    for name, code in words.items():
        for count in (0, 24):
            label = f"{name}_{count}"
            made.add(label, ["lda $0,4($31)", "lda $16,1($31)", "lda $17,64($9)", f"lda $18,{count}($31)", "callsys",
                             *code])
            how = {"completion": "stop" if name == "overflow" else "wrap",
                   "steps": BEFORE + 6 if name == "none" else 100_000}
            chosen = [0x77, *waits((0x99, 0))] if name in ("lost", "overflow") else []
            otherwise(made, name, label, count, chosen, how)
    return made


def otherwise(made, name, label, count, chosen, how):
    """The rows of one end."""
    other = ending("fetch" if name == "exit" else "exit", 77, 0)
    more, left = (lambda kept: more_output(kept, 3)), with_input(5)
    less = (lambda kept: put_of(kept, kept.put[:-1])) if count else more
    size = count - 1 if count else 0
    told = {"left": (left, "norun kind 4 at 5"), "end": (other, NO_END), "more": (more, f"norun kind 2 at {count}"),
            "less": (less, f"norun kind 2 at {size}"), "end-left": (both(other, left), NO_END),
            "more-end": (both(more, other), f"norun kind 2 at {count}"),
            "more-left": (both(more, left), f"norun kind 2 at {count}"),
            "more-end-left": (both(more, other, left), f"norun kind 2 at {count}"),
            "kind": (lambda kept: put(kept.spelled(), 9, bytes([9])), "journal kind 3 at 2")}
    for less_bytes in (1, 2, count) if count else (1, 64):
        # Without an item, so that nothing stands behind the output.
        told[f"short-{less_bytes}"] = (
            lambda kept, n=less_bytes: of_items(lambda _: [])(kept).spelled()[:-n],
            lambda kept, n=less_bytes: f"journal kind 1 at {38 + len(kept.given) + len(kept.put) - n}")
        told[f"cut-{less_bytes}"] = (
            lambda kept, n=less_bytes: kept.spelled()[:38 + len(kept.given) + len(kept.put) - n],
            lambda kept, n=less_bytes: f"journal kind 1 at {38 + len(kept.given) + len(kept.put) - n}")
    if count:
        told["nothing"] = (both(of_items(lambda _: []), ending("none", 0, 0), no_input), "norun kind 2 at 0")
    made.row("follow", f"{name}-{count}", label, f"a write of {count} bytes, and the end {name}", OVERFLOWS, chosen,
             **how)
    for what, (change, answer) in told.items():
        made.row("refuse", f"{name}-{count}-{what}", label,
                 f"the end {name} behind a write of {count} bytes, with this otherwise: {what.replace('-', ', ')}",
                 OVERFLOWS, chosen, change=change, answer=answer, **how)


def both(*changes):
    """Some changes, one behind the other."""
    def change(kept):
        for one in changes:
            kept = one(kept)
        return kept
    return change


def put_of(kept, content):
    kept.put = content
    return kept


def no_input(kept):
    kept.given = b""
    return kept


def calls():
    """Journals of runs that read to the end of their input and on, and of calls that fail."""
    made = Blocks("calls-followed",
                  "Three system calls by $1 to $4, of which the others have $5 and $7 bytes; $6 is R0.")
    asked = ["mov $1,$0", "mov $2,$16", "mov $3,$17"]
    shown = ["addq $6,$6,$6", "addq $0,$6,$6", "s4addq $19,$6,$6"]
    made.add("calls", [word for count in (4, 5, 7) for word in (*asked, f"mov ${count},$18", "callsys", *shown)]
             + ["br dump"])
    for number, descriptor in ((3, 0), (4, 1), (3, 1), (4, 0), (9, 0), (1 << 32 | 3, 0)):
        for name, counts in {"parts": (16, 16, 16), "end": (40, 8, 1), "none": (0, 40, 0), "over": (41, 0, 41),
                             "long": (1 << 40, 24, 24)}.items():
            operands = {1: number, 2: descriptor, 3: CELLS + 64, 4: counts[0], 5: counts[1], 7: counts[2]}
            made.late(f"{number:x}-{descriptor}-{name}", "calls",
                      f"the call {number:#x} with descriptor {descriptor} of {counts[0]:#x}, {counts[1]} and "
                      f"{counts[2]} bytes", operands, [])
            made.rows[-2:] = [row._replace(given=row.given + REST) for row in made.rows[-2:]]
    return made


def families():
    return [waiting_words(), overflowing(), limits(), ends(), calls()]
