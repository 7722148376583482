"""Tables: the rows of instructions and of statuses, and the line of each instruction.

Against the table of the companions, the lines that the program lists, and docs/commands.md.
"""
from . import drawn
from .reference import CALLS, LOADS, NONE, STORES, image, op_of, some, table
from .translate import record
from .words import rows

ONE, TWO = ("One",), ("Two",)
MEMORIES = {"ldq_u": "LdqU", "stq_u": "StqU", "ldl_l": "LdlL", "ldq_l": "LdqL", "stl_c": "StlC", "stq_c": "StqC"}
JUMPS = {"jsr_coroutine": "JsrCoroutine"}


def entry(name, row):
    return record(name=tuple(name.encode()), row=row)


def operate_rows():
    """What an operate instruction is called, where it stands, what it does to its destination, what it takes, and the
    least level that has it."""
    for opcode, names in table.OPERATE.items():
        for function, name in names.items():
            role = ("Move",) if name.startswith("cmov") else ("Plain",)
            role = ("Trap", op_of(name)) if name.endswith("/v") else role
            rule = ("Version" if name == "implver" else "UnaryRegister" if name in table.LEVEL_TWO
                    else "Unary" if name in table.UNARY else "Any")
            level = TWO if name in table.LEVEL_TWO else ONE
            yield op_of(name), entry(name, record(opcode=opcode, function=function, role=role, operands=(rule,),
                                                  level=level))


def memory_rows():
    for opcode, name in table.MEMORY.items():
        if name in ("lda", "ldah"):
            role, size = ("Address",), 0
        elif name in LOADS:
            extension, size = LOADS[name]
            role = ("LoadLocked" if name.endswith("_l") else "Load", (extension,))
        else:
            role, size = ("StoreConditional" if name.endswith("_c") else "Store",), STORES[name]
        yield (MEMORIES.get(name, name.capitalize()),), entry(name, record(opcode=opcode, role=role, bytes=size,
                                                                           clears=name.endswith("_u")))


def other_rows():
    for opcode, name in table.BRANCH.items():
        condition = NONE if name in ("br", "bsr") else some((name[1:].capitalize(),))
        yield "branch_entry", (name.capitalize(),), entry(name, record(opcode=opcode, condition=condition))
    for kind, name in enumerate(table.JUMP):
        yield "jump_entry", (JUMPS.get(name, name.capitalize()),), entry(name, kind)
    for function, name in {**table.BARRIERS, **table.ORDERS}.items():
        yield ("misc_entry", (name.capitalize(),),
               entry(name, record(function=function, reports=function in table.BARRIERS)))
    for function, name in table.FETCHES.items():
        yield "fetch_entry", name == "fetch_m", entry(name, function)
    for function, name in table.PAL.items():
        yield "pal_entry", (CALLS[name],), entry(name, function)


# Statuses with the number and the line that docs/commands.md has of each, and what they are a kind of.
SOURCE = [(("Line", 77, record(kind=(kind,), column=55)), f"kind 1 line 77 column 55 detail {n}")
          for n, kind in enumerate(("BadToken", "UnknownName", "BadOperands", "OutOfRange"), 1)]
SOURCE += [((name, 77), f"kind {n} line 77 column 0 detail 0")
           for n, name in ((2, "Duplicate"), (3, "Undefined"), (4, "Reach"), (5, "Section"), (7, "LongLine"))]
SOURCE += [(("NoEntry",), "kind 6 line 0 column 0 detail 0"), (("ImageField", 8), "kind 8 line 0 column 0 detail 8"),
           (("NoMemory",), "kind 9 line 0 column 0 detail 0")]
IMAGE = [(("Short", 8), "1 first 8 second 0"), (("Magic",), "2 first 0 second 0"),
         (("Field", 77), "3 first 77 second 0"), (("Length", 8, 9), "4 first 8 second 9"),
         (("BadWord", 8, 9), "5 first 8 second 9"), (("NoMemory",), "6 first 0 second 0")]
MODULE = [(("Header",), "1 first 0"), (("Size", 77), "2 first 77"), (("Cut", 77), "3 first 77"),
          (("Word", 77), "4 first 77"), (("Symbol", 77), "5 first 77"), (("Relocation", 77), "6 first 77"),
          (("Rest", 77), "7 first 77"), (("NoMemory",), "8 first 0")]
LINK = [(("Duplicate", 8, 9), "1 first 8 second 9"), (("Undefined", 8, 9), "2 first 8 second 9"),
        (("Entry",), "3 first 0 second 0"), (("ImageField", 7), "4 first 7 second 0"),
        (("Reach", 8, 9), "5 first 8 second 9"), (("NoMemory",), "6 first 0 second 0")]
JOURNAL = [(("Short", 77), "1 at 77"), (("Magic",), "2 at 0"), (("Field", 77), "3 at 77"), (("Item", 77), "4 at 77"),
           (("Units",), "5 at 0"), (("Rest", 77), "6 at 77"), (("NoMemory",), "7 at 0")]
NO_RUN = [(("Item", 77), "1 at 77"), (("Output", 77), "2 at 77"), (("End",), "3 at 0"), (("Input", 77), "4 at 77"),
          (("NoMemory",), "5 at 0")]
BROKEN = record(trigger=1, at=2, condition=("Turn",))
STATUSES = [
    (("Done", 9), 0, None, "done"), (("NotRestartable", BROKEN), 1, None, "refused"),
    (("BadWords",), 2, "words", "refused"),
    *((("BadSource", fault), 3, "source " + line, "refused") for fault, line in SOURCE),
    *((("BadImage", fault), 4, "image kind " + line, "refused") for fault, line in IMAGE),
    (("Stopped", ("Exit", 9)), 5, "exit 9", "ended"), (("StepsSpent",), 6, "steps", "ended"),
    (("Lost", record(trap_pc=0x10008, mask=6)), 7, "lost 0000000000010008 mask 6", "ended"),
    (("ShelfFault",), 8, "shelf", "failed"), (("InputFault",), 9, "input", "failed"),
    (("SinkFault",), 10, None, "failed"),
    (("TooLarge", 77), 11, "too large 77", "refused"), (("NoMemory",), 12, "no memory", "failed"),
    (("Unfixable", BROKEN), 13, None, "refused"), (("FixedLine", 7), 14, "fixed line 7", "refused"),
    *((("Far", fault), 15, "far " + line, "refused") for fault, line in SOURCE),
    *((("BadModule", 33, fault), 16, "module 33 kind " + line, "refused") for fault, line in MODULE),
    *((("BadLink", fault), 17, "link kind " + line, "refused") for fault, line in LINK),
    *((("BadJournal", fault), 18, "journal kind " + line, "refused") for fault, line in JOURNAL),
    *((("NotARun", fault), 19, "norun kind " + line, "refused") for fault, line in NO_RUN),
    (("JournalFull",), 20, "journal full", "ended")]


class Tables:
    name, about = "tables", "the rows of instructions by the companions' table, and of statuses by the page of commands"
    counts = {"sample": 1, "whole": 1}
    is_quick = True

    def cases(self, chooser, count, asked):
        yield from (("alpha_table.Op.op_entry", op, row) for op, row in operate_rows())
        yield from (("alpha_table.Rows.mem_entry", op, row) for op, row in memory_rows())
        yield from ((f"alpha_table.Rows.{name}", case, row) for name, case, row in other_rows())
        for status, number, line, kind in STATUSES:
            text = () if line is None else tuple(f"{line}\n".encode())
            yield "alpha_cmd.Status.row_of", status, record(number=number, line=text, class_=(kind,))

    def difference(self, d, case):
        name, argument, wanted = case
        given = d(name)(argument)
        return "" if given == wanted else f"{name} of {argument} is {given}, and {wanted} is wanted"


class Lines:
    name, about = "lines", "the line of each word that GNU as made, and of others, as the program lists them"
    counts = {"sample": 700, "whole": 60_000}
    is_quick = True
    # Branches to the next word, to themselves, and as far as they may; and the ends of a displacement.
    EDGES = ([drawn.branch(name, 1, far) for name in ("br", "beq") for far in (0, 1, -1, -2, (1 << 20) - 1, -1 << 20)]
             + [drawn.memory("lda", 1, 2, far) for far in (0, 1, -1, 0x7FFF, -0x8000)])

    def cases(self, chooser, count, asked):
        made = [int(number, 16) for _, number in rows("encodings.tsv")]
        words = self.EDGES + made
        while len(words) < len(self.EDGES) + len(made) + count:
            word = chooser.choice(made) & ~(0x3FF << 16) | chooser.getrandbits(10) << 16
            words += [word] if table.insn_of(word) else []
        whole = image.Image(words, drawn.CODE, drawn.CODE, [], 64, 2)
        status, out, _ = asked.call("dis", "FILE", FILE=whole.spelled())
        listed = out.split(b"\n.code\n")[1].splitlines()
        if status != 0 or len(listed) < len(words):
            raise SystemExit(f"lines: dis has status {status} and {len(listed)} lines of {len(words)} words")
        yield from zip(words, listed)

    def difference(self, d, case):
        word, line = case
        form = d("alpha_table.Decoded.decoded")(word)
        given = None if form == NONE else bytes(d("alpha_text.Canon.canon")(form[1]))
        return "" if given == line else f"{word:08x} is {given}, and {line} is wanted"
