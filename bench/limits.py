#!/usr/bin/env python3
"""Makes the largest things that the program's limits let through (docs/ARCHITECTURE.md has the table), and holds each
call to its whole answer, and one more of each to its refusal. By every contract memory may run out in place of any
answer, so a program that gave up early would be proved all the same: this shows that it doesn't. Each answer is worked
here by the rules in docs/. Prints the processor time of each call, and the most memory that it had.

    bench/limits.py [PROGRAM]    two runs and a replay have a thousand million steps each
"""
import random
import struct
import sys
import tempfile

from called import Calls
from formats import REPORT, journal, module, symbol, trigger, units, wait
from measure import NOP, TRAPB, WORDS, addqv, branch, image, level_image, operate, the_program
from trials import written

MEBIBYTE = 1 << 20
DATA, SOURCE, MODULE, JOURNAL, IMAGE = 16 * MEBIBYTE, 16 * MEBIBYTE, 20 * MEBIBYTE, 32 * MEBIBYTE, 18 * MEBIBYTE
INPUT, ITEMS, UNITS, CHOICES, SCRIPT = 8 * MEBIBYTE, MEBIBYTE, 1_000_000_000, MEBIBYTE, MEBIBYTE
LINE, NAME, WAITED, FILES = 1_024, 1_024, 1_024, 64
BASE, DATA_BASE = 0x10000, 0x10000000


# Journals.

# Takes all input up to a byte more than a journal may have, and puts as many bytes as it may have and so many more;
# then there are so many overflows, each with its barrier, and steps without an end or an exit. Sixteen words stand
# before `again`.
COPY = """
        .data
buf:    .zero 8388609
        .code
start:  ldah $17,%hi(buf)($31)
        lda $17,%lo(buf)($17)
        clr $16
        ldah $18,128($31)
        lda $18,1($18)
        lda $0,3($31)
        callsys
        lda $16,1($31)
        ldah $18,128($31)
        lda $18,{more}($18)
        lda $0,4($31)
        callsys
        lda $1,-1($31)
        srl $1,1,$1
        ldah $9,{high}($31)
        lda $9,{low}($9)
again:  addq/v $1,$1,$4
{between}trapb
        subq $9,1,$9
        bne $9,again
{end}
        .entry start
"""
FRONT, OVERFLOW = 16, "overflow 0000000000010040\n"
TURNS = (ITEMS - 1) // 3


def copying(turns, more=0, between="", end="on: br on"):
    return COPY.format(more=more, high=turns >> 16, low=turns & 0xFFFF, between=between, end=end)


def records(calls):
    """One run whose journal is at all four limits, by the largest file of choices, and those that are past one of
    them."""
    chance = random.Random(5)
    given, choices = chance.randbytes(INPUT), chance.randbytes(CHOICES)
    values = list(struct.unpack(f"<{CHOICES // 8}Q", choices)) + [0] * (TURNS - CHOICES // 8)
    rest = UNITS - FRONT - 4 * TURNS
    items = [units(FRONT)] + [trigger(value) + REPORT + units(3) for value in values]
    items[-1] = trigger(values[-1]) + REPORT + units(3 + rest)
    whole = journal(items, ITEMS, given, given)
    file, many = calls.assemble("all", copying(TURNS)), calls.assemble("many", copying(TURNS + 1))
    more, drawn = calls.assemble("more", copying(TURNS, 1)), calls.keep("choices", choices)

    def record(image_file, steps, choices_file=drawn):
        return "record", "--choices", choices_file, "--steps", str(steps), image_file, calls.path("kept")

    overflows = TURNS * OVERFLOW
    calls.call("a run at the four limits of journals", *record(file, UNITS), given=given, status=6, out=given,
               notes=overflows + "steps\n", keeps=whole)
    calls.call("its replay", "replay", file, calls.keep("journal", whole),
               out=f"run units {UNITS} reports {TURNS}\n".encode())
    for what, words, taken, put, notes in (
            ("a unit", record(file, UNITS + 1), given, given, overflows),
            ("an item", record(many, UNITS), given, given, overflows),
            ("a byte of output", record(more, UNITS), given, given + b"\0", ""),
            ("a byte of input", record(file, UNITS), given + b"x", b"", "")):
        calls.refuses(f"a run of {what} more", *words, given=taken, status=20, out=put, notes=notes + "journal full")
    longer = calls.keep("longer", choices + b"x")
    calls.refuses("a file of choices with a byte more", *record(file, 1, longer), status=11,
                  notes=f"too large {CHOICES}")
    items[-1] = trigger(values[-1]) + REPORT + units(4 + rest)
    more_units = calls.keep("journal", journal(items, ITEMS, given, given))
    calls.refuses("a journal with a unit more", "replay", file, more_units, status=18, notes="journal kind 5 at 0")


def longest(calls):
    """The journal with the most bytes that could be found for a run: nearly all of its items are the longest ones."""
    given = random.Random(6).randbytes(INPUT)
    full, left = divmod(ITEMS - 1, WAITED + 3)
    waits = [WAITED] * full + [left - 3]
    last = WAITED + 3
    items = [units(FRONT)] + [trigger(n) + wait(n) * count + REPORT + units(last) for n, count in enumerate(waits)]
    items[-1] = trigger(1) + wait(1) * (left - 3) + REPORT + units(last + 3)
    end = "clr $16\nlda $0,1($31)\ncallsys"
    file = calls.assemble("waits", copying(len(waits), between="nop\n" * WAITED, end=end))
    whole = journal(items, ITEMS, given, given, 1)
    answer = f"run units {FRONT + len(waits) * (1 + last) + 3} reports {len(waits)}\n"
    calls.call(f"the longest journal, {len(whole):,} bytes", "replay", file, calls.keep("journal", whole),
               out=answer.encode())
    for what, other, notes in (
            ("an item more", journal(items + [REPORT], ITEMS + 1, given, given, 1), "kind 3 at 6"),
            ("a byte of input more", journal(items, ITEMS, given + b"x", given, 1), "kind 3 at 4"),
            ("a byte of output more", journal(items, ITEMS, given, given + b"x", 1), "kind 3 at 5"),
            ("as many bytes as its file may have", whole.ljust(JOURNAL, b"x"), f"kind 6 at {len(whole)}")):
        calls.refuses(f"a journal with {what}", "replay", file, calls.keep("journal", other), status=18,
                      notes=f"journal {notes}")
    larger = calls.keep("journal", bytes(JOURNAL + 1))
    calls.refuses("a journal whose file has a byte more", "replay", file, larger, status=11,
                  notes=f"too large {JOURNAL}")


def waiting(calls):
    """Journals of a trap that waits for as many words as it may, and for one more, which its code has before the
    barrier."""
    file = calls.keep("image",
                      image([lda(1, -1)[1], SRL[1], operate(0x10, 0x60, 1, 1, 4), *[NOP] * (WAITED + 1), TRAPB]))
    most, more = ([units(2), trigger(0), *[wait(0)] * count, REPORT] for count in (WAITED, WAITED + 1))
    kept = calls.keep("journal", journal(most, len(most), b"", b""))
    calls.call("a trap that waits for the most words", "replay", file, kept, out=b"run units 3 reports 1\n")
    kept = calls.keep("journal", journal(more, len(more), b"", b""))
    calls.refuses("one that waits for a word more", "replay", file, kept, status=19,
                  notes=f"norun kind 1 at {WAITED + 2}")


# Modules.

EACH, SHARE = WORDS // FILES, DATA // FILES


def name(letter, number):
    return letter + b"%0*d" % (NAME - 1, number)


def part(number, words=EACH, data=SHARE, size=0):
    """The module of a number of 64, whose last word is a branch to another one, and whose data begins with the address
    of that one's. Names fill it up to its size."""
    other = (7 * number + 3) % FILES
    own = {name(b"c", number): 0, name(b"d", number): 1}
    places = sorted({name(b"c", other): 2, name(b"d", other): 2, **own}.items())
    names = [text for text, _ in places]
    relocations = [struct.pack("<BIIi", 0, 4 * EACH - 4, names.index(name(b"c", other)), 0),
                   struct.pack("<BIIi", 3, 0, names.index(name(b"d", other)), 0)]
    symbols = [symbol(section, text) for text, section in places]
    code, filled = [NOP] * (EACH - 1) + [branch(0)] + [NOP] * (words - EACH), bytes(8) + bytes([number]) * (data - 8)
    left = size - len(module(code, filled, symbols, relocations))
    more = max((left - 8) // (NAME + 7), 0)
    symbols += [symbol(0, name(b"e", at)) for at in range(more)]
    symbols += [symbol(0, b"f" * (left - more * (NAME + 7) - 7))] if size else []
    return module(code, filled, symbols, relocations)


def linked():
    """The image of the 64 modules, in their order."""
    words, data = [], b""
    for number in range(FILES):
        other = (7 * number + 3) % FILES
        words += [NOP] * (EACH - 1) + [branch((other - number - 1) * EACH)]
        data += struct.pack("<Q", DATA_BASE + other * SHARE) + bytes([number]) * (SHARE - 8)
    return image(words, data)


def links(calls):
    files = [calls.keep(f"m{number}", part(number, size=0 if number else MODULE)) for number in range(FILES)]
    out, small = calls.path("kept"), calls.keep("small", module([NOP], b"", [symbol(0, b"start")]))
    entry = ("link", "--entry", name(b"c", 0).decode(), out)
    calls.call("a link of 64 modules", *entry, *files, keeps=linked())
    calls.refuses("a link of a module more", *entry, *files, small, status=2, notes="words")
    for what, more, number in (("word", {"words": EACH + 1}, 3), ("data byte", {"data": SHARE + 1}, 4)):
        last = calls.keep("last", part(FILES - 1, **more))
        calls.refuses(f"a link of a {what} more", *entry, *files[:-1], last, status=17,
                      notes=f"link kind 4 first {number} second 0")
    longer = calls.keep("last", part(0, size=MODULE + 1))
    calls.refuses("a module whose file has a byte more", *entry, longer, status=11, notes=f"too large {MODULE}")
    words, data, start = [NOP] * WORDS, b"\7" * DATA, [symbol(0, b"s" * NAME)]
    largest = calls.keep("last", module(words, data, start))
    calls.call("a link of a module with all words and data", "link", "--entry", "s" * NAME, out, largest,
               keeps=image(words, data))
    for what, other, fault in (("a name of a byte more", module(words, data, [symbol(0, b"s" * (NAME + 1))]),
                                "kind 5 first 0"),
                               ("a word more", module(words + [NOP], data, start), "kind 2 first 1"),
                               ("a data byte more", module(words, data + b"\7", start), "kind 2 first 2"),
                               ("a zeroed byte more", module(words, data, start, zeroed=1), "kind 2 first 3")):
        calls.refuses(f"a module with {what}", "link", out, small, calls.keep("last", other), status=16,
                      notes=f"module 1 {fault}")


# Sources and images.

SHARES, RUNS = 8, 255
SRL = "srl $1,1,$1", operate(0x12, 0x34, 1, 0, 1) | 1 << 13 | 1 << 12
CALL = "callsys", 0x83
ENTRY = [".entry 0x10000"]


def lda(to, number, text="lda", opcode=0x08):
    return f"{text} ${to},{number}($31)", opcode << 26 | to << 21 | 31 << 16 | number & 0xFFFF


def ldah(to, number):
    return lda(to, number, "ldah", 0x09)


def puts(share):
    """Lines and words that put 2 MiB of the data."""
    return [lda(16, 1), ldah(17, (DATA_BASE + share * DATA // SHARES) >> 16), ldah(18, DATA // SHARES >> 16), lda(0, 4),
            CALL]


BEFORE = [lda(1, -1), SRL, lda(2, 1)] + puts(0) + puts(1) + puts(2) + puts(3)
LATE = [("addq/v $1,$2,$3", addqv(3))] + [lda(5, 1)] * WAITED + [("trapb", TRAPB)]
AFTER = [lda(16, 0), lda(0, 1), CALL]
BETWEEN = [lda(5, 1)] * (WORDS - len(BEFORE) - RUNS * len(LATE) - len(AFTER))
# It puts half of its data, overflows before as many words as a trap waits for, over and over, and exits.
CODE = BEFORE + LATE * RUNS + BETWEEN + AFTER
LINES, IS = [line for line, _ in CODE], [word for _, word in CODE]
BYTES = b"".join(bytes([n % 251 + 1]) + bytes(8_191) for n in range(DATA // 8_192))
OVERFLOWS = "".join(f"overflow {BASE + 4 * (len(BEFORE) + n * len(LATE)):016x}\n" for n in range(RUNS))


def paddings(share, of):
    """Lines of a share of the data: each byte that isn't 0, and behind it zeros up to a multiple of 8,192."""
    size = len(BYTES) // of
    return [line for at in range(share * size, (share + 1) * size, 8_192)
            for line in (f".byte {BYTES[at]}", ".align 13")]


def segments():
    return [line for n in range(SHARES)
            for line in (f".segment {DATA_BASE + n * DATA // SHARES}", *paddings(n, SHARES))]


def padded(lines, size=SOURCE):
    """The lines with comments, the first ones as long as lines may be, so that they have so many bytes in all."""
    left, out = size - sum(len(line) + 1 for line in lines), []
    for line in lines:
        more = max(min(left, LINE - len(line)), 0)
        left -= more
        out.append(line + "#" * more + "\n")
    return "".join(out).encode()


def sources(calls):
    """The source of the largest image by `asm` and `fix`, which leaves it as it is, and the same without segments by
    `module`."""
    out, front, behind, own = calls.path("kept"), [".level 2", *ENTRY], segments(), [".data", *paddings(0, 1)]
    whole, parted = front + LINES + behind, LINES + own
    # The last number is the field that a data byte more makes bad: one section has it, or all segments together.
    for command, lines, keeps, field in (("asm", whole, level_image(IS, SHARES, BYTES), 5),
                                         ("fix", whole, padded(whole), 5),
                                         ("module", parted, module(IS, BYTES, []), 4)):
        calls.call(f"{command} of the largest source", command, calls.keep("source", padded(lines)), out, keeps=keeps)
        at = lines.index(LINES[0])
        longer = lines[:at] + [LINES[0].ljust(LINE + 1, "#")] + lines[at + 1:]
        for what, source, status, notes in (
                ("a byte more", padded(lines) + b"#", 11, f"too large {SOURCE}"),
                ("a byte more in a line", padded(longer), 3, f"source kind 7 line {at + 1} column 0 detail 0"),
                ("a word more", padded(lines[:at] + ["nop"] + lines[at:]), 3, "source kind 8 line 0 column 0 detail 3"),
                ("a data byte more", padded(lines + [".byte 1"]), 3, f"source kind 8 line 0 column 0 detail {field}")):
            calls.refuses(f"{command} of {what}", command, calls.keep("source", source), out, status=status,
                          notes=notes)


def barriers(calls):
    """A source that has as many words as an image may have, once it has its barriers: one for each pair."""
    pairs, out = ["addq/v $1,$2,$3", "ldq $4,0($3)"] * (WORDS // 3) + ["nop"], calls.path("kept")
    before = padded(pairs + ENTRY)
    after = "".join("trapb\n" * line.startswith("ldq") + line
                    for line in before.decode().splitlines(keepends=True)).encode()
    assert len(pairs) + WORDS // 3 == WORDS
    calls.call("fix that adds the most barriers", "fix", calls.keep("source", before), out, keeps=after)
    calls.refuses("asm of what it made", "asm", calls.keep("source", after), out, status=11,
                  notes=f"too large {SOURCE}")
    calls.refuses("fix that makes a word more", "fix", calls.keep("source", padded(pairs + ["nop"] + ENTRY)), out,
                  status=15,
                  notes="far kind 8 line 0 column 0 detail 3")


def listing():
    """The lines of docs/listing.md, of the largest image."""
    lines = [".level 2", f".codebase {BASE:#x}", ".stack 65536", f".entry {BASE:#x}", ".code", *LINES]
    size = DATA // SHARES
    for n in range(SHARES):
        lines.append(f".segment {DATA_BASE + n * size:#x}")
        lines += [".byte " + ",".join(map(str, BYTES[at:at + 16])) for at in range(n * size, (n + 1) * size, 16)]
        lines.append(".zero 0")
    return "".join(line + "\n" for line in lines).encode()


def late_items():
    """The items of its run by the largest file of choices, whose words all have 64 ones: each trap waits as long as it
    may, as long as there are words. Behind them come zeros, by which it is reported at once."""
    ones, left, items, straight = (1 << 64) - 1, CHOICES // 8, [units(len(BEFORE))], WAITED + 1
    for n in range(RUNS):
        value, left = (ones, left - 1) if left else (0, 0)
        waits = min(WAITED, left // 2)
        left -= 2 * waits
        end = len(BETWEEN) + len(AFTER) if n == RUNS - 1 else 0
        items += [trigger(value), *[wait(ones)] * waits, REPORT, units(straight + end)]
    return items


def images(calls):
    contents, ones, half = level_image(IS, SHARES, BYTES), calls.keep("ones", b"\xff" * CHOICES), BYTES[:DATA // 2]
    file, notes = calls.keep("image", contents), OVERFLOWS + "exit 0\n"
    calls.call("check of the largest image", "check", file, out=b"accepted\n")
    text = listing()
    calls.call("dis", "dis", file, out=text)
    calls.refuses("asm of its listing", "asm", calls.keep("source", text), calls.path("kept"), status=11,
                  notes=f"too large {SOURCE}")
    calls.call("run", "run", file, out=half, notes=notes)
    calls.call("run --imprecise", "run", "--imprecise", "--choices", ones, file, out=half, notes=notes)
    items = late_items()
    kept = journal(items, len(items), b"", half, 1)
    calls.call("record", "record", "--choices", ones, file, calls.path("kept"), out=half, notes=notes, keeps=kept)
    steps = f"run units {WORDS} reports {RUNS}\n".encode()
    calls.call("replay", "replay", file, calls.keep("journal", kept), out=steps)
    stack = bytearray(image(IS, BYTES))
    struct.pack_into("<I", stack, 44, MEBIBYTE)
    calls.call("check of all data in one segment, with the largest stack", "check", calls.keep("image", stack),
               out=b"accepted\n")
    struct.pack_into("<I", stack, 44, MEBIBYTE + 16)
    zeroed = bytearray(contents)
    struct.pack_into("<I", zeroed, 40 + 12, 1)
    for what, other, fault in (
            ("a word more", level_image([*IS, NOP], SHARES, BYTES), "kind 3 first 3 second 0"),
            ("more stack", stack, "kind 3 first 6 second 0"),
            ("a data byte more", image(IS, BYTES + b"x"), "kind 3 first 4 second 0"),
            ("a zeroed byte more", zeroed, "kind 3 first 5 second 0"),
            ("a segment more", level_image(IS, SHARES + 1, BYTES[:(SHARES + 1) * MEBIBYTE]),
             "kind 3 first 10 second 0"),
            ("as many bytes as its file may have", contents.ljust(IMAGE, b"x"),
             f"kind 4 first {IMAGE} second {len(contents)}")):
        calls.refuses(f"an image with {what}", "check", calls.keep("image", other), status=4, notes=f"image {fault}")
    longer = calls.keep("image", bytes(IMAGE + 1))
    calls.refuses("an image whose file has a byte more", "check", longer, status=11, notes=f"too large {IMAGE}")
    long = image([addqv(3), *[NOP] * (WAITED + 1), TRAPB])
    calls.refuses("a shadow of a word more", "check", calls.keep("image", long), status=1,
                  notes=f"broken trigger {BASE:016x} at {BASE + 4 * (WAITED + 1):016x} condition C9")


# The debugger and trials.

def session():
    """A script of nearly so many bytes as it may have, and its answers, on a loop of 1,024 words."""
    loop, steps = 1_024, 1_000_000
    places = "".join(f"{BASE + 4 * n:016x} bis $31,$31,$31\n" for n in range(256))
    bytes_there = "".join(f"{BASE + n:016x} {(struct.pack('<I', NOP) * 4).hex()}\n" for n in range(0, 256, 16))
    pc = "".join(f"pc {BASE + 4 * ((steps + n) % loop):016x}\n" for n in range(2))
    said = [(f"break {0x20000 + 4 * n}", "ok\n") for n in range(64)]
    said += [("break 1", "full\n"), (f"dis {BASE} 256", places), (f"dis {BASE} 257", "?\n"), (f"mem {BASE} 257", "?\n"),
             (f"step {steps}", pc[:20]), (f"step {steps + 1}", "?\n"), ("step".ljust(LINE), pc[20:]),
             ("step".ljust(LINE + 1), "?\n"), (" " * (LINE + 1), "?\n")]
    front, answers = "".join(line + "\n" for line, _ in said), "".join(answer for _, answer in said)
    again = f"mem {BASE} 256\n"
    count = (SCRIPT - 5 - len(front)) // len(again)
    return (front + again * count).encode(), (answers + bytes_there * count).encode()


def debugs(calls):
    script, answers = session()
    file = calls.keep("image", image([NOP] * 1_023 + [branch(-1_024)]))
    whole = script.ljust(SCRIPT, b"\n")
    calls.call("the longest script", "debug", file, given=whole, out=answers)
    calls.call("the longest script that ends by quit, and bytes behind it", "debug", file,
               given=script.ljust(SCRIPT - 5, b"\n") + b"quit\n" + script, out=answers)
    calls.refuses("a script of a byte more", "debug", file, given=whole + b"\n", status=11, out=answers,
                  notes=f"too large {SCRIPT}")


def main():
    with tempfile.TemporaryDirectory() as folder:
        calls = Calls(the_program(), folder)
        for makes in (debugs, images, sources, barriers, links, waiting, longest, records):
            makes(calls)
        calls.call("the largest trial", "trial", "20000", out=written(20_000).encode())
        calls.refuses("a block more", "trial", "20001", status=2, notes="words")
    print(f"{calls.count} calls, {calls.wrong} wrong")
    sys.exit(bool(calls.wrong))


if __name__ == "__main__":
    main()
