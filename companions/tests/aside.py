"""shadowfix: the registers that it takes, function by function, and repairs that move no word."""
import os
import subprocess

from parts import image, program, table
from .helpers import ASKED, TOP, companion, data, needs_program, read, runs_alike, want, write

# Texts with their repairs, and what the line on standard error says of registers.
TAKEN = [
    # The second function reads $28 behind its word, the first doesn't.
    ("\t.ent f\nf:\taddqv $1,$2,$1\n\tret\n\t.end f\n\t.ent g\ng:\tsubqv $1,$2,$1\n\tmov $28,$3\n\tret\n\t.end g\n",
     "\t.ent f\nf:\taddqv $1,$2,$28\n\ttrapb\n\tmov $28,$1\n\tret\n\t.end f\n\t.ent g\ng:\tsubqv $1,$2,$22\n\ttrapb\n"
     "\tmov $22,$1\n\tmov $28,$3\n\tret\n\t.end g\n", "2 go through $28, $22"),
    # The seldom part of a function belongs to it, and so does what it branches to.
    ("\t.ent f\nf:\taddqv $1,$2,$1\n\tbeq $1,$L1\n\tret\n\t.end f\n\t.ent f.cold\nf.cold:\n$L1:\tmov "
     "$28,$0\n\tret\n\t.end f.cold\n",
     "\t.ent f\nf:\taddqv $1,$2,$22\n\ttrapb\n\tmov $22,$1\n\tbeq $1,$L1\n\tret\n\t.end f\n\t.ent "
     "f.cold\nf.cold:\n$L1:\tmov $28,$0\n"
     "\tret\n\t.end f.cold\n", "1 go through $22"),
]
ALL = "$28 $22 $23 $24 $25 $8 $7 $6 $5 $4 $3 $2 $1".split()
USES = "".join(f"\taddq $0,{name},$0\n" for name in ALL)
KEPT = ("\tlda $30,-16($30)\n\tstq $28,0($30)\n\tmulqv $16,$9,$28\n\ttrapb\n\tmov $28,$16\n\tldq $28,0($30)\n\tlda "
        "$30,16($30)\n")
LOADS = "".join(f"\tlda {name},{n}($31)\n" for n, name in enumerate(ALL))


def repaired(folder, text, *words, status=0):
    path, out = os.path.join(folder, "a.s"), os.path.join(folder, "b.s")
    write(path, text.encode())
    _, notes = companion("shadowfix", *words, path, "-o", out, status=status)
    return read(out), notes


def test_each_function_has_a_register_of_its_own(folder):
    for text, wanted, told in TAKEN:
        made, notes = repaired(folder, text)
        want((made, told in notes), (wanted, True), notes)


def test_a_register_is_free_where_nobody_reads_it_any_more(folder):
    # All are loaded and read. Behind the last read of $22, and before it is loaded again, it is free; the others are
    # read later, or are sources. $28 is read behind the branch alone.
    text = (f"f:\n{LOADS}\taddq $0,$22,$0\n\tsubqv $0,$9,$0\n\tbeq $0,$L1\n\tmov 1,$22\n{USES}$L1:\taddq "
            f"$0,$28,$0\n\tret\n")
    made, notes = repaired(folder, text)
    want("\tsubqv $0,$9,$22\n\ttrapb\n\tmov $22,$0\n" in made, True, notes + made)
    # A call by $26 spoils them all, so behind the last read before it $28 is free; arguments are read by it.
    text = f"f:\n{LOADS}{USES}\tmulqv $16,$9,$16\n\tbsr $26,g\n{USES}\tret\n"
    made, notes = repaired(folder, text)
    want("\tmulqv $16,$9,$28\n" in made, True, made)
    # A jump by a table may lead to any read, and a call by another register too. $9 is kept for the caller.
    for end in ("\tjmp $31,($1),0\n", "\tbsr $9,g\n\tret\n", "\tbr $31,elsewhere\n"):
        text = f"f:\n{LOADS}{USES}\tmulqv $16,$9,$16\n{end}"
        made, notes = repaired(folder, text)
        want((made, "1 keep one in the stack" in notes), (text.replace("\tmulqv $16,$9,$16\n", KEPT), True), end)
    # A return by another register leaves all but $28 as it is.
    want("\tmulqv $16,$9,$28\n" in repaired(folder, f"f:\n{LOADS}{USES}\tmulqv $16,$9,$16\n\tret $31,($23),1\n")[0],
         True, "$23")


def test_where_none_is_free_and_the_stack_is_none_the_others_are_done(folder):
    # $30 is a number here, or memory below it is used.
    for front, why in (("\tldq $30,0($9)\n", "nothing shows that $30 is a stack pointer there"),
                       ("\tstq $9,-8($30)\n", "line 3 has an access below $30")):
        full = (f"\t.ent full\nfull:\n{front}{LOADS}\tmulqv $16,$9,$16\n\taddqv $16,$9,$10\n{USES}\tjmp "
                f"$31,($0),0\n\t.end full\n")
        other = "\t.ent other\nother:\taddqv $1,$2,$1\n\tret\n\t.end other\n"
        made, notes = repaired(folder, full + other, status=3)
        wanted = (full.replace("$9,$10\n", "$9,$10\n\ttrapb\n")
                  + other.replace("$1,$2,$1\n", "$1,$2,$28\n\ttrapb\n\tmov $28,$1\n"))
        want(made, wanted, notes)
        want([line.split("a.s", 1)[1].split(";")[0] for line in notes.splitlines()],
             [": 3 /V words: 0 had a barrier, 1 got one, 1 go through $28, 1 are as they were",
              f":17: full: `mulqv` is as it was: no register is free, and {why}"], "notes")
    made, notes = repaired(folder, other.replace("other", "f") + other
                           + "\t.ent g\ng:\taddqv $1,$2,$1\n\tmov $7,$1\n\t.end g\n",
                           "--scratch", "7", status=3)
    want((made.count("mov $7,$1"), "`addqv` is as it was: $7 may still be read there" in notes), (3, True), notes)


def test_a_function_with_a_linkage_of_its_own_gives_back_what_it_had(folder):
    made, notes = repaired(folder, "\t.ent d\nd:\taddqv $1,$2,$1\n\tret $31,($23),1\n\t.end d\n")
    want("go through $28" in notes, True, notes)
    text = "\t.ent d\nd:\tmov $28,$3\n\taddqv $1,$2,$1\n\tbne $28,d\n\tret $31,($23),1\n\t.end d\n"
    want("1 keep one in the stack" in repaired(folder, text)[1], True, "$28 is read")


def test_no_word_moves_where_repairs_stand_aside(folder):
    text = ".codebase 0x10000\n.code\nL_10000: mulq/v $1,$2,$1\nsubq/v $1,$2,$3\nbr $31,L_10000\n.data\n.byte 1\n"
    wanted = (".codebase 0x10000\n.code\nL_10000: br $31,fix_1\n\tback_1:\nbr $31,fix_2\n\tback_2:\nbr "
              "$31,L_10000\n.data\n.byte 1\n"
              "\t.code\n\tbugchk\n\tfix_1:\n\tmulq/v $1,$2,$28\n\ttrapb\n\tbis $31,$28,$1\n\tbr $31,back_1\n"
              "\tfix_2:\n\tsubq/v $1,$2,$3\n\ttrapb\n\tbr $31,back_2\n")
    made, _ = repaired(folder, text, "--aside")
    want(made, wanted, "text")
    want(repaired(folder, made, "--aside")[0], made, "a second repair")
    path = os.path.join(folder, "a.s")
    write(path, b"\t.text\n\taddqv $1,$2,$1\n")
    want("a.s:1:" in companion("shadowfix", "--aside", path, status=1)[1], True, "a text for GNU as")


@needs_program
def test_a_linked_program_is_repaired_and_no_address_changes(folder):
    asked = program.Program(ASKED)
    names = ("sort.img", "sort.map", "sort.s", "fixed.s", "fixed.img")
    made, symbols, listing, fixed, out = (os.path.join(folder, name) for name in names)
    companion("elf2image", data("sort.elf"), made, "--map", symbols)
    write(listing, with_labels(asked.listing(made)))
    _, notes = companion("shadowfix", "--aside", "--map", symbols, listing, "-o", fixed)
    want("26 /V words: 0 had a barrier, 8 got one, 18 go through" in notes and "; 460 words shown" in notes, True,
         notes)
    want(asked.call("asm", fixed, out), (0, b"", ""), "asm")
    want(asked.verdict(out), None, "verdict")
    runs_alike(asked, "sort", out)
    old, new = image.read_image(made), image.read_image(out)
    want((new.code_base, new.entry, new.segments[0].base, new.segments[0].data),
         (old.code_base, old.entry, old.segments[0].base, old.segments[0].data), "fields and data")
    other = [n for n, (one, two) in enumerate(zip(old.words, new.words)) if one != two]
    want([table.insn_of(old.words[n]).kind for n in other], [table.TRIGGER] * 26, "words that are no more")
    want({table.insn_of(new.words[n]).name for n in other}, {"br"}, "words in their places")
    # Without the map the listing counts as one function; a listing with more words isn't that of the map.
    _, notes = companion("shadowfix", "--aside", listing, "-o", fixed)
    want("18 go through" in notes, True, notes)
    write(listing, with_labels(asked.listing(made)).replace(b".code\n", b".code\nbis $31,$31,$31\n", 1))
    want("the text isn't that of the map" in companion("shadowfix", "--map", symbols, listing, status=1)[1], True,
         "another listing")


def with_labels(lines):
    """A listing with labels, by the script of the examples."""
    script = os.path.join(TOP, "examples", "labels.awk")
    return subprocess.run(["awk", "-f", script], input=("\n".join(lines) + "\n").encode(), capture_output=True,
                          check=True).stdout
