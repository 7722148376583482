"""Journals: their text, damaged ones, and what `journal` and the model say of each."""
import os
import random

from parts import files, image, journal, machine, playing
from .emulator import image_of, in_suite, of_kind
from .helpers import Failed, companion, needs_program, read, want, write


def test_journals_go_to_text_and_back(folder):
    path, text = os.path.join(folder, "a.journal"), os.path.join(folder, "a.text")
    for line in of_kind("journal"):
        content = read(in_suite(line["file"]), "rb")
        whole = journal.journal_of(content)
        want(whole.spelled() == content, True, line["file"])
        want(journal.parsed(journal.text_of(whole), "text").spelled() == content, True, line["file"])
        want(f"run units {whole.units()} reports {whole.reports()}", line["answer"], line["file"])
    given = in_suite("journals/late-loop.wrap.1.journal")
    companion("journal", "dump", given, "-o", text)
    companion("journal", "make", text, path)
    want(read(path, "rb") == read(given, "rb"), True, "by the companion")


def test_damaged_journals_and_texts_are_refused(folder):
    path, out = os.path.join(folder, "a"), os.path.join(folder, "out")
    content = read(in_suite("journals/late-loop.wrap.1.journal"), "rb")
    for size in range(0, len(content), 7):
        try:
            journal.journal_of(content[:size])
            raise Failed(f"{size} bytes are a journal")
        except journal.BadJournal as bad:
            want(bad.line.startswith("journal kind "), True, bad.line)
    write(path, content[:50])
    companion("journal", "dump", path, "-o", out, status=1)
    for text, said in [("ending none", "completion"), ("completion wrap", "ending"),
                       ("completion up\nending none", ":1:"),
                       ("completion wrap\nending exit", ":2:"), ("completion wrap\nending none\nunits", ":3:"),
                       ("completion wrap\nending none\nunits 0", "journal kind 4 at 0"),
                       ("completion wrap\nending none\nwait 2 5", ":3:"),
                       ("completion wrap\nending none\ntrigger -5", ":3:"),
                       ("completion wrap\nending none\ninput 0g", ":3:"),
                       ("completion wrap\nending none\nunits 5\nunits 5", "journal kind 4 at 1"),
                       ("completion wrap\nending none\nunits 1000000001", "journal kind 5 at 0"),
                       ("completion wrap\nending none\nunits 0x100000000", ":3:"),
                       ("completion wrap\nending none\nhello", ":3:")]:
        write(path, text.encode())
        _, notes = companion("journal", "make", path, out, status=1)
        want((said in notes, os.path.exists(out)), (True, False), f"{text}: {notes}")
    companion("journal", "first", path, status=2)
    companion("journal", "make", os.path.join(folder, "no-such-file"), out, status=1)
    companion("emulate", "run", path, status=4)


def test_other_bytes_are_refused_or_run(_):
    """Images and journals with other bytes: each is refused in a line, or runs."""
    chosen = random.Random(7)
    for name in ("segments", "layout", "late-two"):
        content = read(in_suite(f"images/{name}.img"), "rb")
        for _ in range(150):
            try:
                made = machine.Machine(image.image_of(other_bytes(chosen, content), name), "wrap", b"")
                for _ in range(50):
                    if made.end is None:
                        made.step()
            except files.Refused as refused:
                want("\n" in str(refused), False, str(refused))
    whole, content = (image.read_image(in_suite("images/late-two.img")),
                      read(in_suite("journals/late-masks.wrap.1.journal"), "rb"))
    for _ in range(300):
        try:
            playing.Replay(whole, journal.journal_of(other_bytes(chosen, content))).play()
        except journal.BadJournal as bad:
            want(bad.line.startswith("journal kind "), True, bad.line)


def other_bytes(chosen, content):
    """The content with three other bytes, of which some are in its head."""
    other = bytearray(content)
    for end in (50, len(other), len(other)):
        other[chosen.randrange(end)] = chosen.choice((0, 1, 2, 0x7F, 0x80, 0xFF))
    return bytes(other)


def test_the_model_refuses_each_journal_as_the_suite_says(_):
    for line in of_kind("refused"):
        try:
            fault = playing.Replay(image.read_image(image_of(line)),
                                   journal.read_journal(in_suite(line["file"]))).play()
            want(fault and fault.line(), line["answer"], line["file"])
        except journal.BadJournal as bad:
            want(bad.line, line["answer"], line["file"])


FIRST = """norun kind 1 at 2
item 2, units 1, step 1 of it: a trap is pending, so the word is executed as a Wait, or the trap is reported
pc 0000000000010010 addq/v $1,$1,$4
behind 4 units and 0 reports; a trap is pending, with mask 8, and 0 words were executed since its trigger
0000000000000000 7fffffffffffffff 0000000000000001 0000000000000009
"""


@needs_program
def test_the_first_wrong_step_is_named(_):
    told = {}
    for line in of_kind("refused"):
        if line["file"].startswith(("refused/item-", "refused/output-", "refused/end-", "refused/input-")):
            told[line["file"]], _ = companion("journal", "first", image_of(line), in_suite(line["file"]), status=1)
            want(told[line["file"]].split("\n")[0], line["answer"], line["file"])
    want(told["refused/item-units-pending.journal"].startswith(FIRST), True, told["refused/item-units-pending.journal"])
    want("item 0, units 4, step 4 of it: the word overflows" in told["refused/item-units-overflow.journal"], True,
         "a step")
    want("a Wait" in told["refused/item-units-pending.journal"], True, "a reason")
    line = of_kind("journal")[0]
    out, _ = companion("journal", "first", image_of(line), in_suite(line["file"]))
    want(out, f"{line['answer']}\nnothing is wrong\n", line["file"])
    _, notes = companion("journal", "first", image_of(line), in_suite("refused/bytes-magic.journal"), status=1)
    want("journal kind 2 at 0" in notes, True, notes)


STEPS = """1 trigger 0xffffffffffffffff: 0000000000010018 addq/v $1,$2,$3; $3 ffffffffffffffff, mask 8
2 wait 0 0xffffffffffffffff: 000000000001001c ldq $2,0($9); $2 ffffffffffffffff, mask 8
3 report: 0000000000010020 trapb; $3 7ffffffffffffffe
4 units: 000000000001001c ldq $2,0($9); $2 0000000000000003
4 units: 0000000000010020 trapb
4 units: 0000000000010024 stq $3,16($9); 0000000010000010 fe ff ff ff ff ff ff 7f
"""


@needs_program
def test_the_steps_of_a_journal_are_written(_):
    image_path, path = in_suite("images/shadow-drawn.img"), in_suite("journals/shadow-drawn.wrap.late.journal")
    out, _ = companion("journal", "steps", image_path, path)
    kept = journal.read_journal(path)
    steps = sum(item[1] if item[0] == journal.UNITS else 1 for item in kept.items)
    want((STEPS in out, len(out.splitlines()), out.splitlines()[-3:-2]),
         (True, steps + 2, [f"{len(kept.items) - 1} units: "
         "00000000000100f8 callsys; exit 0"]), "a run")
    bad = in_suite("refused/item-wait-barrier.journal")
    first, _ = companion("journal", "first", in_suite("images/late-two.img"), bad, status=1)
    out, _ = companion("journal", "steps", in_suite("images/late-two.img"), bad, status=1)
    want((out.endswith(first), out.count("\n") - first.count("\n")), (True, 5),
         "what is no run, up to its first wrong step")
    companion("journal", "steps", image_path, status=2)
