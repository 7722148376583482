"""explain: each line that the program can write, and what is told of its numbers."""
import os
import re

from parts import lines, program
from .helpers import ASKED, Failed, companion, needs_program, read, source, want, write

ADDRESS = "0000000000010004"
# The functions that put a kind behind a word, and what stands in a line behind the kind.
REST = {"placed_line": "line 3 column 5 detail {}", "numbered_line": "first {} second 1", "module_line": "first {}",
        "kind_line": "at {}"}
CALL = re.compile(r"(\w+)::(\w+)(?:\([^()]*(?:\([^()]*\)[^()]*|\{[^}]*\}[^()]*)?\))? =>\s*\{?\s*(" + "|".join(REST)
                  + r")\(\s*([^,]+),\s*(\d+),")
PIECE = re.compile(r'push\(b"([^"]*)"\)|(push_hex)\(|(push_decimal)\(|(Line::new\(\)|=> \{|\.end\(\))')
# The details of a kind, by the beginning of the line: of source kind 1 the faults of a line, else numbers of fields.
DETAILS = {"source kind 1 ": range(1, 5), "far kind 1 ": range(1, 5), "source kind 8 ": range(1, 11),
           "far kind 8 ": range(1, 11),
           "image kind 3 ": range(1, 11), "link kind 4 ": range(3, 6), "module 2 kind 2 ": range(1, 4),
           "journal kind 3 ": range(1, 7)}


def crate(path):
    return read(source(path))


def fault_lines():
    """The lines of `word kind K ..`, by the calls that make them. Where memory ran out the line is `no memory` in their
    place."""
    text = crate("alpha_cmd/src/line.rt")
    calls = CALL.findall(text)
    made = sum(len(re.findall(rf"(?<!fn )\b{name}\(", text)) for name in REST)
    want(len(calls), made, "calls that were found, of those that are there")
    for _, name, function, word, kind in calls:
        words = ["source", "far"] if word == "word" else ["module 2"] if word == "file" else [word.strip('b"')]
        for one in words if name != "NoMemory" else []:
            start = f"{one} kind {kind} "
            yield from (start + REST[function].format(detail) for detail in DETAILS.get(start, [0]))


def other_lines():
    """The lines that are put together piece by piece, and those that are words alone."""
    yield from re.findall(r'text\(b"([^"]*)\\n"\)', crate("alpha_cmd/src/line.rt"))
    for path in ("alpha_cmd/src/line.rt", "alpha_seq/src/lines.rt", "alpha_verdict/src/report.rt"):
        line = ""
        for text, is_hex, is_decimal, is_end in PIECE.findall(crate(path)):
            if is_end and line:
                yield line
            line = "" if is_end else line + text + (ADDRESS if is_hex else "2" if is_decimal else "")


def every_line():
    found = [*fault_lines(),
             *(line for line in other_lines() if not line.startswith((" kind ", " first ", "module 2", "run units")))]
    found += [f"{word} trigger {ADDRESS} at {ADDRESS} condition C{n}" for word in ("broken", "unfixable")
              for n in range(1, 10)]
    return (found + [f"signal {n} at {ADDRESS}" for n in range(3)]
            + [" ".join([ADDRESS] * 4), "alpha: building", "look: no answer"])


def test_each_line_that_the_program_can_write_is_explained(_):
    forms = lines.Forms()
    found = every_line()
    beginnings = {line.split()[0] for line in found}
    wanted = set("source far image module link journal norun words shelf steps input no too lost fixed broken "
                 "unfixable overflow exit signal "
                 "fetch access align stop barrier alpha: look:".split()) | {ADDRESS}
    want(beginnings, wanted, "the first words of all lines")
    for line in found:
        said = forms.of(line)
        if said is None:
            raise Failed(f"no page has the form of: {line}")
        texts = lines.explained(said)
        if len([text for text in texts if isinstance(text, str)]) < 2:
            raise Failed(f"too little is said of: {line}: {texts}")


def test_each_status_is_explained(_):
    numbers = re.findall(r"Status::\w+(?:\([_, ]*\))? => (\d+),", crate("alpha_cmd/src/status.rt"))
    want(sorted(map(int, numbers)), list(range(21)), "statuses")
    for number in (*numbers, "70"):
        out, _ = (companion("explain", "--status", number) if number in ("0", "17", "70")
                  else ("\n".join(map(str, lines.of_status(int(number)))), ""))
        want(len(out) > 100, True, f"{number}: {out}")
    companion("explain", "--status", "21", status=1)
    companion("explain", "--status", "3", "words", status=2)


def test_what_is_no_line_of_the_program_is_refused(_):
    for line in ("wordz", "source kind 1 line 3", "image kind 9 first 0 second 0",
                 "source kind 1 line 1 column 1 detail 5", "link kind 4 first 12 second 0",
                 "broken trigger 1 at 2 condition C2", "norun kind 0 at 0", "module 0 kind 9 first 0"):
        companion("explain", *line.split(), status=1)
    companion("explain", given=b"accepted\n\xff\n", status=1)


def test_numbers_are_told(folder):
    out, _ = companion("explain",
                       given=b"x\nimage kind 5 first 3 second 1610612736\naccepted\nlost 0000000000010010 mask 40\n")
    want(("60000000, GNU's word of trapb, which is 63ff0000 here" in out, "M is 40: the registers $3 $5" in out),
         (True, True), out)
    want("the word 1610612736 (in decimal) at place 3 is in no row" in out, True, out)
    source = os.path.join(folder, "a.s")
    write(source, b"x:\tnop\n\taddqv\t$1,$2,$3\n")
    out, _ = companion("explain", "source kind 1 line 2 column 2 detail 2", "--source", source)
    want(f"    {source}:2:\n            addqv   $1,$2,$3\n            ^\n" in out, True, out)
    companion("explain", "source kind 1 line 4 column 2 detail 2", "--source", source, status=1)
    companion("explain", "source kind 1 line 1 column 2 detail 2", "--source", os.path.join(folder, "none"), status=1)


@needs_program
def test_addresses_and_symbols_are_told(folder):
    asked = program.Program(ASKED)
    source, made, kept = (os.path.join(folder, name) for name in ("a.s", "a.img", "a.mod"))
    write(source, b"\t.entry s\ns:\tnop\nt:\taddq/v $1,$2,$1\n\ttrapb\n\tcallsys\n")
    want(asked.call("asm", source, made), (0, b"", ""), "asm")
    status, _, notes = asked.call("check", made)
    want(status, 1, "check")
    out, _ = companion("explain", "--source", source, "--image", made, given=notes.encode())
    want("A is 0000000000010004: t, a.s:3: addq/v $1,$2,$1" in out, True, out)
    out, _ = companion("explain", "--image", made, given=notes.encode())
    want("A is 0000000000010004: line 7 of the listing: addq/v $1,$2,$1" in out, True, out)
    write(source, b"f:\tldah $1,%hi(far)($31)\n\tbr near\n")
    want(asked.call("module", source, kept), (0, b"", ""), "module")
    status, _, notes = asked.call("link", "--entry", "f", made, kept)
    want((status, notes), (17, "link kind 2 first 0 second 1\n"), "link")
    out, _ = companion("explain", notes.strip(), "--module", kept)
    want((f"F is 0: {kept}" in out, "S is 1: the symbol far" in out), (True, True), out)
    for content in (b"", b"ALPHAOB1", read(kept, "rb")[:-1]):
        write(kept, content)
        companion("explain", notes.strip(), "--module", kept, status=1)
