"""same: where a jump by a table leads is shown by what was tested of its index, and nothing else is believed of it."""
import os

from parts import held, sameness
from .helpers import companion, read, want, write
from .misleading import KEPT, LIVE, MULTIPLIED, RESULT, SCRATCH, function, outcome, scratch

TEST = "\tcmpule $19,1,$2\n\tbeq $2,L3\n"
LOAD = "\tldah $1,T($29)!gprelhigh\n\tlda $1,T($1)!gprellow\n\ts4addq $19,$1,$1\n\tldl $2,0($1)\n"
GO = "\taddq $2,$29,$2\n\tjmp $31,($2),0\n"
# The third entry leads to a word that reads $28.
ENDS = f"L1:{RESULT}L2:{RESULT}L3:{RESULT}L4:\taddq $28,$16,$0\n\tret\n"
ENTRIES = "\t.section .rodata\nT:\t.gprel32 L1\n\t.gprel32 L2\n\t.gprel32 L4\n"
DIVIDED = "\tmov $16,$24\n\tmov $17,$25\n\tldq $27,__divq($29)!literal!3\n\tjsr $23,($27),__divq!lituse_jsrdirect!3\n"


def switch(words, more=""):
    return function("f", f"\tmov $18,$28\n{MULTIPLIED}{words}{ENDS}") + more + ENTRIES


def framed_switch(words):
    """A function that calls itself between the test and the table, and has its part of the stack at the jump too."""
    text = switch(f"{FRAMED}\tstq $26,8($30)\n{words}{TEST}\tbsr $26,f\n\tldq $19,0($30)\n{LOAD}{GO}")
    return text.replace("\tret\n", "\tldq $26,8($30)\n\tlda $30,16($30)\n\tret\n")


FRAMED = "\tlda $30,-16($30)\n\tstq $19,0($30)\n"
AGAIN = "\tldq $19,0($30)\n\tlda $30,16($30)\n"
# A test of the lower 4 bytes of an index.
LOWER = "\tzapnot $19,15,$2\n" + TEST.replace("$19", "$2")
NARROWED = "\tbeq $21,L5\n\taddl $19,$20,$19\n\tbr $31,L6\nL5:\tand $19,15,$19\nL6:"
KEPT_NARROW = "\tlda $30,-16($30)\n" + NARROWED.replace("$19\n", "$19\n\tstq $19,0($30)\n") + AGAIN
CHOSEN = "\taddl $31,$20,$20\n\tand $19,15,$19\n\tcmovne $21,$20,$19\n"
LOOP = f"\tldah $1,T($29)!gprelhigh\n\tlda $1,T($1)!gprellow\n\tcmpule $19,1,$3\nL5:\tlda $20,-1($20)\n\tbgt $20,L5\n" \
    f"\tbeq $3,L3\n\ts4addq $19,$1,$1\n\tldl $2,0($1)\n"
# What a compiler writes: the table's first two entries are all that may be gone to, so $28 is free.
SHOWN = [
    ("a test before the table", switch(TEST + LOAD + GO)),
    ("a test that is lower", switch(TEST.replace("cmpule $19,1", "cmpult $19,2") + LOAD + GO)),
    ("a mask", switch(LOAD.replace("\ts4addq", "\tand $19,1,$19\n\ts4addq") + GO)),
    ("an index of 4 bytes", switch("\tzapnot $19,15,$2\n" + TEST.replace("$19", "$2") +
                                   LOAD.replace("\ts4addq", "\taddl $31,$19,$19\n\ts4addq") + GO)),
    ("an index that is scaled apart", switch(TEST + LOAD.replace(
        "\ts4addq $19,$1,$1\n", "\ts4addq $19,0,$2\n\taddq $2,$1,$1\n") + "\taddl $31,$2,$2\n" + GO)),
    ("a test and a table before a loop", switch(LOOP + GO)),
    ("an index in the stack", switch(
        FRAMED + TEST + "\tldq $19,0($30)\n\tlda $30,16($30)\n" + LOAD + GO)),
    ("a division behind the table", switch(TEST + LOAD + DIVIDED + GO)),
    ("a division behind the test", switch(TEST.replace("\tbeq", f"{DIVIDED}\tbeq") + LOAD + GO)),
    ("a division that is called of the same file", switch(
        TEST + LOAD + "\tbsr $23,d\n" + GO, function("d", "\tsubq $24,$25,$27\n\tret $31,($23),1\n", True))),
    ("an index of 4 bytes on each of two ways", switch(NARROWED + LOWER + LOAD + GO)),
    ("an index of 4 bytes that two ways keep in the stack", switch(KEPT_NARROW + LOWER + LOAD + GO)),
    ("an index that is chosen of two of 4 bytes", switch(CHOSEN + LOWER + LOAD + GO)),
    ("an index of 4 bytes that the caller keeps in the stack", switch("\tldl $19,16($30)\n" + LOWER + LOAD + GO)),
    ("an index that a shift makes narrow", switch("\tsra $19,32,$19\n" + LOWER + LOAD + GO)),
    ("an index in the stack over a call of the function itself", framed_switch("")),
]
# What looks alike, and lets the third entry through.
WRONG = [
    ("no test", switch(LOAD + GO)),
    ("a test that lets one more through", switch(TEST.replace(",1,", ",2,") + LOAD + GO)),
    ("a test of another register", switch(TEST.replace("$19", "$20") + LOAD + GO)),
    ("a test with signs", switch(TEST.replace("cmpule", "cmple") + LOAD + GO)),
    ("a test that is the other way round", switch(TEST.replace("beq", "bne") + LOAD + GO)),
    ("a test that is passed on one way", switch("\tbeq $21,L5\n" + TEST + "L5:" + LOAD + GO)),
    ("a test whose result is changed", switch(TEST.replace("\tbeq", "\taddq $2,1,$2\n\tbeq") + LOAD + GO)),
    ("an index that is changed behind the test", switch(TEST + "\taddq $19,1,$19\n" + LOAD + GO)),
    ("an index that is chosen behind the test", switch(TEST + "\tcmovne $20,$21,$19\n" + LOAD + GO)),
    ("an index of 8 bytes, of which 4 are tested",
     switch("\tzapnot $19,15,$2\n" + TEST.replace("$19", "$2") + LOAD + GO)),
    ("an index in the stack that is stored again", switch(
        FRAMED + TEST + "\tstq $20,0($30)\n\tldq $19,0($30)\n\tlda $30,16($30)\n" + LOAD + GO)),
    ("an index in the stack that is stored again in part", switch(
        FRAMED + TEST + "\tstl $20,4($30)\n\tldq $19,0($30)\n\tlda $30,16($30)\n" + LOAD + GO)),
    ("an index in the stack whose address is given away", switch(
        FRAMED + TEST + "\tlda $16,0($30)\n\tbsr $23,d\n\tldq $19,0($30)\n\tlda $30,16($30)\n" + LOAD + GO,
        function("d", "\tldq $1,0($16)\n\taddq $1,1,$1\n\tstq $1,0($16)\n\tret $31,($23),1\n", True))),
    ("an index in the stack that a called function stores again", switch(
        FRAMED + TEST + "\tbsr $23,d\n\tldq $19,0($30)\n\tlda $30,16($30)\n" + LOAD + GO,
        function("d", "\tstq $20,0($30)\n\tret $31,($23),1\n", True))),
    ("an index in the stack into which a system call reads", switch(
        FRAMED + TEST + "\tlda $17,0($30)\n\tlda $0,3($31)\n\tcallsys\n\tldq $19,0($30)\n\tlda $30,16($30)\n" + LOAD
        + GO)),
    ("an index that is another one in a loop",
     switch(LOOP.replace("\tbgt", "\taddq $19,1,$19\n\tbgt") + GO)),
    ("a division that changes the index", switch(
        TEST.replace("\tbeq", "\tbsr $23,d\n\tbeq") + LOAD + GO,
        function("d", "\taddq $19,1,$19\n\tret $31,($23),1\n", True))),
    ("a division that changes the distance", switch(
        TEST + LOAD + "\tbsr $23,d\n" + GO, function("d", "\taddq $2,4,$2\n\tret $31,($23),1\n", True))),
    ("another place in the table", switch(TEST + LOAD.replace("0($1)", "4($1)") + GO)),
    ("an address that is moved on", switch(TEST + LOAD.replace("\ts4addq", "\tlda $1,4($1)\n\ts4addq") + GO)),
    ("a distance that is moved on", switch(TEST + LOAD + "\taddq $2,4,$2\n" + GO)),
    ("a global pointer that is moved on", switch(TEST + LOAD + "\tlda $29,4($29)\n" + GO)),
    ("an index that is scaled by 8", switch(TEST + LOAD.replace("s4addq", "s8addq") + GO)),
    ("a table that ends before", switch(TEST.replace(",1,", ",7,") + LOAD + GO)),
    ("an index that is wide on one of two ways", switch(NARROWED.replace("addl", "addq") + LOWER + LOAD + GO)),
    ("an index that one of two ways keeps in the stack wide", switch(
        KEPT_NARROW.replace("addl", "addq") + LOWER + LOAD + GO)),
    ("an index in the stack that one of two ways doesn't keep", switch(
        KEPT_NARROW.replace("\tstq $19,0($30)\n", "", 1) + LOWER + LOAD + GO)),
    ("an index that is chosen of a wide one and another", switch(CHOSEN.replace("addl", "addq") + LOWER + LOAD + GO)),
    ("an index of 8 bytes that the caller keeps in the stack", switch("\tldq $19,16($30)\n" + LOWER + LOAD + GO)),
    ("an index that a shift leaves wide", switch("\tsra $19,31,$19\n" + LOWER + LOAD + GO)),
    ("an index in the stack that a call of the function itself changes", framed_switch("\tstq $20,16($30)\n")),
    ("a jump to the same table without a test", switch(
        TEST + LOAD + GO, function("g", LOAD + GO, True) + function("h", "\tbsr $26,g\n\tret\n"))),
]


def test_a_jump_by_a_table_leads_where_its_test_says(_):
    for what, old in SHOWN:
        told = outcome(*scratch(old))
        want("shown to do" in told, True, f"{what}: {told}")


def test_a_table_whose_index_is_not_tested_is_none(_):
    for what, old in WRONG:
        told = outcome(*scratch(old))
        want(("shown to do" in told, LIVE in told), (False, True), f"{what}: {told}")


# Two jumps: the second one's test or distance stands before it, and code that only an entry behind those that the first
# one takes leads to, or the second one, goes on to it past these.
SECOND = TEST.replace("$19", "$20") + "L7:" + LOAD.replace("$19", "$20").replace("T", "U") + GO
KEPT_DISTANCE = TEST.replace("$19", "$20") + "\tlda $30,-16($30)\n" + LOAD.replace("$19", "$20").replace("T", "U") + \
    "\tstl $2,8($30)\nL7:\tldl $2,8($30)\n" + GO
FIRST_TABLE, SECOND_TABLE = "\t.section .rodata\nT:\t.gprel32 L0\n\t.gprel32 L2\n", "U:\t.gprel32 L1\n\t.gprel32 L2\n"


def two(second, more, first_behind="L6", second_behind="L4", last=SECOND_TABLE):
    """A text of two jumps by tables with an entry behind those that each takes."""
    return function("f", f"\tmov $18,$28\n{MULTIPLIED}{TEST}{LOAD}{GO}L0:{second}L6:{more}\tbr $31,L7\n{ENDS}") + \
        f"{FIRST_TABLE}\t.gprel32 {first_behind}\n{last}\t.gprel32 {second_behind}\n"


NEVER = [
    ("past the test", two(SECOND, "")),
    ("past the distance", two(KEPT_DISTANCE, "\tstl $20,8($30)\n")),
    ("in a loop", two(KEPT_DISTANCE, "\tlda $19,-2($19)\n", last=SECOND_TABLE.replace("L1", "L6"))),
]
SOMETIMES = [
    ("past the test", two(SECOND, "").replace("\t.gprel32 L2\n\t.gprel32 L6\n", "\t.gprel32 L6\n\t.gprel32 L2\n")),
    ("past the distance, in a loop", two(KEPT_DISTANCE, "\tstl $20,8($30)\n", last=SECOND_TABLE.replace("L1", "L6"))),
]


def test_ways_from_where_nobody_comes_to_are_none(_):
    for what, old in NEVER:
        told = outcome(*scratch(old))
        want("shown to do" in told, True, f"{what}: {told}")
    for what, old in SOMETIMES:
        told = outcome(*scratch(old))
        want(("shown to do" in told, LIVE in told), (False, True), f"{what}: {told}")


def test_code_to_which_only_the_end_of_a_table_leads_is_repaired(folder):
    """Of a listing it is known where the map has its function: else other numbers may stand behind the table."""
    path, map_path, out = (os.path.join(folder, name) for name in ("a.s", "a.map", "b.s"))
    text = two(SECOND, "\taddq/v $16,$17,$16\n")
    write(path, text.encode())
    companion("shadowfix", path, "-o", out)
    want(read(out).count("trapb"), 2, read(out))
    old = listed("", [("long", label, FROM) for label in ("L1", "L2", "L4")],
                 unseen="\tbr L2\nL4:\taddq/v $16,$17,$16\n\tbr L2\n")[0]
    write(path, old.encode())
    write(map_path, f"{0x10000:016x} {4 * (len(held.text_of('a.s', None, old).code.steps) - 3):016x} func f\n".encode())
    companion("shadowfix", "--aside", "--map", map_path, path, "-o", out)
    want(read(out).count("trapb"), 2, read(out))
    _, notes = companion("shadowfix", "--aside", path, "-o", out, status=3)
    want("nothing leads there" in notes, True, notes)


# A whole program: its table stands at 0x10000000, and the global pointer at 0x10010000.
CALLED = "d:\tsubq $24,$25,$27\n\tret $31,($23),1\n"
LISTED = ".codebase 0x10000\n.database 0x10000000\n.entry f\n.code\nf:\tldah $29,4096($27)\n\tlda $29,0($29)\n" \
    f"\tldq $16,16($30)\n{MULTIPLIED}\tcmpule $19,1,$2\n\tbeq $2,L3\n\tldah $1,-1($29)\n\ts4addq $19,$1,$1\n" \
    "\tldl $2,0($1)\n{between}\taddq $2,$29,$2\n\tjmp $31,($2),0\nL1:\tnop\n{unseen}L2:\tnop\nL3:\tbsr $26,g\n" \
    "\tlda $0,1($31)\n\tcallsys\ng:\tret\n" + CALLED
BETWEEN = "\tbsr $23,d\n"


def listed(between, numbers, words=SCRATCH, unseen=""):
    """A pair of listings: in the second the words that multiply stand behind the code."""
    old = LISTED.replace("{between}", between).replace("{unseen}", unseen)
    at = {label: 0x10000 + 4 * place for label, place in held.text_of("a.s", None, old).labels.items()}
    data = ".data\n" + "".join(f".{size} {at[name] - base if name in at else name}\n" for size, name, base in numbers)
    return old + data, old.replace(MULTIPLIED, "\tbr fix\nback:\n") + f"fix:{words}\tbr back\n" + data


FROM = 0x10010000
TWO = [("long", "L1", FROM), ("long", "L2", FROM)]


def test_a_linked_table_is_followed_past_a_division(_):
    for between in ("", BETWEEN):
        for words in (SCRATCH, KEPT):
            told = outcome(*listed(between, TWO, words))
            want("shown to do" in told, True, f"{between}{told}")
    told = outcome(*listed("\tbsr $23,d\n\taddq $2,4,$2\n", TWO))
    want(LIVE in told, True, told)


def test_an_address_counts_only_where_something_may_go_by_it(_):
    """The address of a place in the midst of a function stands in the data, and a number is one too."""
    numbers = TWO + [("quad", "L3", 0)]
    odd = "\tldah $3,1($31)\n\tlda $3,64($3)\n"
    for between in (BETWEEN, BETWEEN + odd):
        told = outcome(*listed(between, numbers, KEPT))
        want("shown to do" in told, True, told)
    for given in (numbers, TWO):
        old, new = listed(BETWEEN, given, KEPT, "\tldq $27,8($19)\n\tjsr $26,($27)\n")
        code = held.text_of("a.s", None, old).code
        place = next(place for place, step in enumerate(code.steps) if step.insn.name == "mulq/v")
        want(sameness.why_no_stack(code.returns(), place) is None, given == TWO, old)
        want("shown to do" in outcome(old, new), given == TWO, old)
