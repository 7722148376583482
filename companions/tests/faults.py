"""allfaults: all faults of a source at once."""
import os
import random

from .helpers import companion, needs_program, want, write

# A source with a fault on each line but the twelfth, and what docs/source.md says of each: line, column, kind, detail.
BAD = """\t.text
start:\tlda $1,table
\taddqv $1,256,$2
\taddq $1,256,$2
\tbr nowhere
start:\tnop
\t.byte 7
\t.section .rodata
table:\t.quad 1, nothing
\tnop
\t.asciz "x"
\t.zero 8
\t.byte 9
$L3:\tnop
"""
WANTED = [(0, 0, 6, 0), (1, 2, 1, 2), (2, 15, 1, 3), (3, 2, 1, 2), (4, 10, 1, 4), (5, 0, 3, 0), (6, 0, 2, 0),
          (7, 0, 5, 0), (8, 2, 1, 2),
          (9, 0, 3, 0), (10, 0, 5, 0), (11, 2, 1, 2), (13, 0, 5, 0), (14, 1, 1, 2)]


def told(folder, content, *words):
    """(line, column, kind, detail) of each fault that is told of a source, and the notes."""
    path = os.path.join(folder, "a.s")
    write(path, content)
    out, notes = companion("allfaults", path, *words)
    numbers = [line.rpartition("(kind ")[2].rstrip(")").split() for line in out.splitlines() if line.startswith(path)]
    found = [(int(line), int(column), int(kind), int(detail)) for kind, _, line, _, column, _, detail in numbers]
    return found, out, notes


@needs_program
def test_of_a_module_the_option_is_named(folder):
    content = b"\t.code\nf:\tbr other\n"
    found, out, notes = told(folder, content)
    want((found, out.splitlines()[-1]), ([(0, 0, 6, 0), (2, 0, 3, 0)], "2 faults"), "as a source of an image")
    want(notes, f"allfaults: {folder}/a.s: if it is the source of a module, say --module\n", "what to do")
    want(told(folder, content, "--module"), ([], "0 faults\n", ""), "as one of a module")


@needs_program
def test_each_faulty_line_is_told_once(folder):
    found, out, notes = told(folder, BAD.encode())
    want(found, WANTED, "faults")
    want((out.splitlines()[-1], "companions/gas2source makes a source" in notes), ("14 faults", True),
         "the last line, and the advice")
    want("a.s:4:10: a number outside its range (kind 1 line 4 column 10 detail 4)\n            addq $1,256,$2\n        "
         "            ^\n" in out,
         True, out)


@needs_program
def test_what_follows_a_fault_is_judged_as_if_it_were_mended(folder):
    nop = b"\tnop\n"
    cases = [(b"\t.entry s\ns:\tnop\n", []), (b"\t.entry s\n\t.entry s\n" + b"s:" + nop, [(2, 0, 2, 0)]),
             (b"\t.entry t\ns:\tnop\n", [(1, 0, 3, 0)]),
             (b"\t.codebase 0x12000\n\t.entry t\ns:\tnop\n\tctpop $1,$2\n", [(2, 0, 3, 0), (4, 0, 5, 0)]),
             (b"\t.entry s\ns:\tbr s+2\n\tbr s+1\n", [(2, 0, 4, 0), (3, 0, 4, 0)]),
             (b"\t.entry 7\n" + nop, [(0, 0, 8, 7)]),
             (b"\t.entry s\ns:\tldq $1\n\tbr s\n", [(2, 10, 1, 3)]),
             (b"\t.entry s\ns:\tnop\n" + b"#" * 1025 + b"\n\tnip\n", [(3, 0, 7, 0), (4, 2, 1, 2)]),
             (b"\t.entry s\r\ns:\tnop\r\n\t.segment 8192\r\n\t.quad t\r\n", [(3, 0, 5, 0), (4, 0, 3, 0)])]
    for content, wanted in cases:
        found, _, notes = told(folder, content)
        want((found, notes), (wanted, ""), content)


@needs_program
def test_where_no_more_can_be_said_a_line_says_so(folder):
    for content, wanted, said in [(b"", [(0, 0, 6, 0), (0, 0, 8, 3)], "there may be more"),
                                  (b"\t.stack 8\n\t.entry s\ns:\tbr s+2\n", [(0, 0, 8, 6)], "there may be more"),
                                  (b"\t.level 1\n\t.data\n\tnop\n", [(2, 0, 5, 0)], "there may be more")]:
        found, _, notes = told(folder, content)
        want((found, said in notes), (wanted, True), notes)
    found, _, notes = told(folder, BAD.encode(), "--most", "2")
    want((len(found), "more than 2" in notes), (2, True), notes)


@needs_program
def test_the_source_of_a_module_is_asked_of_module(folder):
    found, _, _ = told(folder, b"\t.entry s\ns:\tldq $1,%lo(x)($1)\n\tbr far\n\taddq/v $1,$2,$1\n", "--module")
    want(found, [(1, 0, 5, 0), (2, 0, 5, 0)], "faults")


@needs_program
def test_files_that_are_no_sources_are_told_or_refused(folder):
    chosen = random.Random(7)
    for size in (1, 30, 200):
        told(folder, bytes(chosen.getrandbits(8) for _ in range(size)), "--most", "5")
    companion("allfaults", os.path.join(folder, "none"), status=1)
    companion("allfaults", "--most", "0", os.path.join(folder, "none"), status=2)
