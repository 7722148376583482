"""The journals of the suite that must be refused: each with its image, what the answer must be, and why.

The answers are worked by hand from docs/journals.md; `make` stops where the program has another.
"""
import struct
from collections import namedtuple

# `text` is one for companions/journal. Where it is None, `change` makes the bytes of those of a good journal.
Bad = namedtuple("Bad", "name image answer why text change", defaults=(None, None))
SUMS = "exit 9223372036854775806"
# A run of late-two, and one of reads.
GOOD = "units 3, trigger 9, wait 1 9, report, trigger 9, report, units 4"
READS_INPUT, READS_UNITS = b"twenty bytes, or so\n", 29


def text(items, ending=SUMS, completion="wrap", given=b"", put=b""):
    lines = [f"completion {completion}", f"ending {ending}"]
    lines += [f"input {given.hex()}"] if given else []
    lines += [f"output {put.hex()}"] if put else []
    return "\n".join([*lines, *items.split(", ")]) + "\n"


def item(name, image, at, why, items, **how):
    return Bad(f"item-{name}", image, f"norun kind 1 at {at}", why, text(items, **how))


def by_bytes(name, answer, why, change, image="late-two"):
    return Bad(f"bytes-{name}", image, f"journal kind {answer}", why, None, change)


def put(at, content):
    """A change of bytes: these from an offset on."""
    return lambda whole: whole[:at] + content + whole[at + len(content):]


ITEMS = [
    item("units-overflow", "late-two", 0, "the fourth word of a Units overflows", "units 4, report"),
    item("units-again", "late-two", 3, "a Units where the word behind the report overflows",
         "units 3, trigger 9, report, units 1"),
    item("units-pending", "late-two", 2, "a Units while a trap is pending", "units 3, trigger 9, units 1"),
    item("trigger-early", "late-two", 1, "a Trigger at a word without /V", "units 2, trigger 9, report"),
    item("trigger-exact", "end-stop", 1, "a Trigger at a /V word that doesn't overflow", "units 2, trigger 9, report"),
    item("trigger-pending", "late-two", 2, "a Trigger while a trap is pending: the word is executed as a Wait",
         "units 3, trigger 9, trigger 9"),
    item("wait-first", "late-two", 1, "a Wait with no trap pending", "units 3, wait 0 9"),
    item("report-first", "late-two", 1, "a Report with no trap pending", "units 3, report"),
    item("report-twice", "late-two", 3, "a second Report of one trap", "units 3, trigger 9, report, report"),
    item("wait-barrier", "late-two", 3, "a Wait at a barrier", "units 3, trigger 9, wait 1 9, wait 0 9"),
    item("wait-call", "shadow-c8-repaired", 3, "a Wait at a system call, which is a barrier",
         "units 3, trigger 9, wait 0 9, wait 0 9"),
    item("wait-fault", "shadow-c4", 2, "a Wait at a store that would fault: its base has the trigger's value",
         "units 7, trigger 9, wait 0 9"),
    item("wait-behind", "shadow-c8", 3, "a Wait behind the code", "units 3, trigger 9, wait 0 9, wait 0 9"),
    item("wait-long", "shadow-c9", 1_026, "a Wait behind 1,024 others of the same trap",
         "units 3, trigger 9" + ", wait 0 9" * 1_025),
    item("flag-plain", "shadow-c8", 2, "flag 1 at a word without /V", "units 3, trigger 9, wait 1 9"),
    item("flag-r31", "shadow-c1-second", 2, "flag 1 at a /V word whose destination is R31",
         "units 3, trigger 9, wait 1 9"),
    item("behind-exit", "late-two", 6, "a fifth step of a Units, behind the exit", GOOD[:-1] + "5"),
    item("behind-exit-too", "late-two", 7, "an item behind the exit", GOOD + ", trigger 9"),
    item("behind-lost", "shadow-c1", 3, "an item behind a lost trap",
         "units 3, trigger 9, report, report", ending="lost 0x10010 0"),
    item("behind-stop", "late-two", 3, "an item behind the stop", "units 3, trigger 9, report, units 1",
         completion="stop",
         ending="overflow 0x1000c"),
    item("before-output", "late-two", 1, "an impossible item is told before another output", "units 2, trigger 9",
         put=b"x"),
]

RUNS = [
    Bad("output-more", "late-two", "norun kind 2 at 0", "the journal has a byte of output, and the run puts none",
        text(GOOD, put=b"x")),
    Bad("end-value", "late-two", "norun kind 3 at 0", "another exit value",
        text(GOOD, ending="exit 9223372036854775807")),
    Bad("end-kind", "late-two", "norun kind 3 at 0", "the run exits, and the journal ends by a signal",
        text(GOOD, ending="signal 0 0x10020")),
    Bad("end-completion", "late-two", "norun kind 3 at 0", "by the nearest bound the program exits with 0",
        text(GOOD, completion="saturate")),
    Bad("end-none", "late-two", "norun kind 3 at 0", "the run exits, and the journal doesn't end",
        text(GOOD, ending="none")),
    Bad("end-early", "late-two", "norun kind 3 at 0", "the items end before the exit", text(GOOD[:-len(", units 4")])),
    Bad("end-pending", "late-two", "norun kind 3 at 0", "a run that doesn't end has nothing pending",
        text("units 3, trigger 9", ending="none")),
    Bad("end-place", "late-two", "norun kind 3 at 0",
        "the stop is at the word that overflowed, and not where it was reported",
        text("units 3, trigger 9, wait 1 9, report", completion="stop", ending="overflow 0x10014")),
    Bad("end-mask", "shadow-c7", "norun kind 3 at 0", "a lost trap with another mask",
        text("units 3, trigger 9, wait 0 9, report", ending="lost 0x10018 0x18")),
    Bad("input-left", "late-two", "norun kind 4 at 2", "two bytes of the input aren't taken", text(GOOD, given=b"xy")),
]


def good_reads():
    """A run of reads, whose output is the bytes that it has read with ones around them."""
    cells = b"\xff" + READS_INPUT[:8] + b"\xff" * 3 + READS_INPUT[8:] + bytes(8)
    return cells[:32]


READS = [
    Bad("output-byte", "reads", "norun kind 2 at 12", "another byte of output",
        text(f"units {READS_UNITS}", ending="exit 0", given=READS_INPUT,
             put=good_reads()[:12] + b"?" + good_reads()[13:])),
    Bad("output-less", "reads", "norun kind 2 at 31", "the run puts a byte more",
        text(f"units {READS_UNITS}", ending="exit 0", given=READS_INPUT, put=good_reads()[:31])),
    Bad("output-input", "reads", "norun kind 2 at 23", "with a byte less of input the output differs",
        text(f"units {READS_UNITS}", ending="exit 0", given=READS_INPUT[:19], put=good_reads())),
]

BYTES = [
    by_bytes("none", "1 at 0", "no bytes", lambda whole: b""),
    by_bytes("head", "1 at 37", "a byte less than stand before the input", lambda whole: whole[:37]),
    by_bytes("output", "1 at 60", "the output isn't whole", lambda whole: whole[:60], "reads"),
    by_bytes("magic", "2 at 0", "it begins with ALPHAJR2", put(7, b"2")),
    by_bytes("completion", "3 at 1", "completion 3", put(8, b"\3")),
    by_bytes("ending", "3 at 2", "ending 8", put(9, b"\x08")),
    by_bytes("unused", "3 at 3", "a second number of an exit", put(18, b"\1")),
    by_bytes("input-count", "3 at 4", "a byte too many of input", put(26, struct.pack("<I", 8_388_609))),
    by_bytes("output-count", "3 at 5", "a byte too many of output", put(30, struct.pack("<I", 8_388_609))),
    by_bytes("item-count", "3 at 6", "an item too many", put(34, struct.pack("<I", 1_048_577))),
    by_bytes("no-units", "4 at 0", "a Units of 0", put(39, b"\0\0\0\0")),
    by_bytes("kind", "4 at 1", "an item of kind 4", put(43, b"\4")),
    by_bytes("flag", "4 at 2", "flag 2", put(53, b"\2")),
    by_bytes("units-units", "4 at 1", "a Units behind a Units", put(43, b"\0\1\0\0\0")),
    by_bytes("cut", "4 at 6", "the last item isn't whole", lambda whole: whole[:-1]),
    by_bytes("count", "4 at 7", "an item less than the head says", put(34, b"\x08")),
    by_bytes("too-long", "5 at 0", "1,000,000,001 units", put(39, struct.pack("<I", 1_000_000_000 - 5))),
    by_bytes("rest", "6 at 78", "a byte behind the items", lambda whole: whole + b"\0"),
]
REFUSED = ITEMS + RUNS + READS + BYTES


def good_text(image):
    """The text of the good journal that bytes are changed of."""
    if image == "reads":
        return text(f"units {READS_UNITS}", ending="exit 0", given=READS_INPUT, put=good_reads())
    return text(GOOD)
