"""same: repairs that are right are shown, and wrong ones refused with the place."""
import os

from parts import files, held, program
from .helpers import ASKED, companion, data, needs_program, read, want, write

OLD = """	.globl f
	.ent f
f:	lda $30,-16($30)
	stq $26,0($30)
	mulq/v $16,$17,$16
	beq $18,L1
	addq/v $16,$18,$16
L1:	stq $16,8($19)
	ldl $1,0($19)
	trapb
	subl/v $1,$16,$0
	bsr $26,g
	ldq $26,0($30)
	lda $30,16($30)
	ret
	.end f
	.ent g
g:	ldq_l $2,0($19)
	addq/v $2,$16,$2
	stq_c $2,0($19)
	addq $0,$28,$0
	ret
	.end g
	.data
x:	.quad 5
"""
MULTIPLIED = "\tmulq/v $16,$17,$16\n"
FIRST = "\tmulq/v $16,$17,$22\n\ttrapb\n\tmov $22,$16\n"
NEW = OLD.replace(MULTIPLIED, FIRST).replace("\taddq/v $16,$18,$16\n",
                                             "\taddq/v $16,$18,$23\n\ttrapb\n\tbis $23,$23,$16\n") \
    .replace("\tsubl/v $1,$16,$0\n", "\tsubl/v $1,$16,$0\n\ttrapb\n")
KEPT = ("\tlda $30,-16($30)\n\tstq $28,0($30)\n\tmulq/v $16,$17,$28\n\ttrapb\n\tmov $28,$16\n\tldq $28,0($30)\n\tlda "
        "$30,16($30)\n")
ASIDE = NEW.replace(FIRST, "\tbr fix\nback:\n").replace("\t.end g\n",
                                                        "\t.end g\nfix:\tmulq/v $16,$17,$22\n\ttrapb\n\tmov "
                                                        "$22,$16\n\tbr back\n")
# An aside that several places may have: it goes back by a register.
CALLED = NEW.replace(FIRST, "\tbsr $23,fix\n").replace(
    "\t.end g\n", "\t.end g\nfix:\tmulq/v $16,$17,$22\n\ttrapb\n\tmov $22,$16\n\tret $31,($23),1\n")

RIGHT = [NEW, OLD, NEW.replace(FIRST, KEPT), ASIDE, NEW.replace(FIRST, FIRST.replace("$22", "$2")),
         # The way back may be held elsewhere.
         CALLED, CALLED.replace("fix:\tmulq", "fix:\tmov $23,$24\n\tmulq").replace("($23),1", "($24),1"),
         # A branch that is taken where the old one isn't, and the other way round, isn't wrong where each meets its
         # image.
         NEW.replace("\ttrapb\n\tmov $22", "\texcb\n\ttrapb\n\tmov $22"),
         # The same is kept in two slots, and in one that is taken apart from the pointer's move.
         NEW.replace(FIRST,
                     KEPT.replace("-16($30)\n",
                                  "-32($30)\n\tstq $28,8($30)\n").replace("lda $30,16",
                                                                          "ldq $28,8($30)\n\tlda $30,32"))]
# Each repair with what makes it wrong, the line of the old text, and what is said.
WRONG = [
    ("the move goes to another register", NEW.replace("mov $22,$16", "mov $22,$17"), 5, "$16 may be read behind it"),
    ("the move is left out", NEW.replace("\tmov $22,$16\n", ""), 5, "$16 may be read behind it"),
    ("the move takes another register", NEW.replace("mov $22,$16", "mov $23,$16"), 5, "$16 may be read behind it"),
    ("the scratch register is live", NEW.replace(FIRST, FIRST.replace("$22", "$19")), 5, "$19 may be read behind it"),
    ("the callee reads the scratch register", NEW.replace(FIRST, FIRST.replace("$22", "$28")), 5,
     "$28 may be read behind it"),
    ("the caller's caller reads it", NEW.replace(FIRST, FIRST.replace("$22", "$9")), 5, "$9 may be read behind it"),
    ("an operand is another one", NEW.replace("$16,$17,$22", "$16,$18,$22"), 5,
     "does overflow, and the repair another overflow"),
    ("operands are swapped", NEW.replace("subl/v $1,$16,$0", "subl/v $16,$1,$0"), 11,
     "does overflow, and the repair another overflow"),
    ("it doesn't overflow", NEW.replace("mulq/v $16,$17,$22", "mulq $16,$17,$22"), 5,
     "does overflow, which the repair leaves out"),
    ("the store is left out", NEW.replace("L1:\tstq $16,8($19)\n", "L1:"), 8, "stq"),
    ("the store goes elsewhere", NEW.replace("8($19)", "16($19)"), 8, "does stq, and the repair another stq"),
    ("an access more", NEW.replace("\tmov $22", "\tldq $23,0($17)\n\tmov $22"), 5,
     "doesn't do ldq, which the repair does"),
    ("the barrier is left out", NEW.replace("\ttrapb\n\tsubl/v", "\tsubl/v"), 9,
     "doesn't do overflow, which the repair does"),
    ("the test is the other one", NEW.replace("beq", "bne"), 5, "goes on by beq, and the repair on by bne"),
    ("a branch to another place", ASIDE.replace("\tbr back\n", "\tbr L1\n"), 5,
     "goes on elsewhere, and the repair on elsewhere"),
    ("words that never end", ASIDE.replace("\tbr back\n", "\tbr fix\n"), 5, "more than 256 words"),
    ("the way back is read later", CALLED.replace("$23,fix", "$19,fix").replace("($23),1", "($19),1"), 5,
     "$19 may be read behind it"),
    ("another way back", CALLED.replace("($23),1", "($24),1"), 5, "goes on elsewhere, and the repair on by ret"),
    ("a way back that is moved on", CALLED.replace("\tret $31,($23),1\n", "\tlda $23,4($23)\n\tret $31,($23),1\n"), 5,
     "and the repair on by ret"),
    ("a way back to another place", CALLED.replace("fix:\t", "fix:\tbr $23,away\naway:\t"), 5, "more than 256 words"),
    ("another's aside", CALLED.replace("fix:\tmulq/v $16,$17", "fix:\tmulq/v $16,$18"), 5,
     "does overflow, and the repair another overflow"),
    ("an aside that calls itself", CALLED.replace("\tmov $22,$16\n\tret", "\tbsr $23,fix\n\tret"), 5,
     "more than 256 words"),
    ("a call of the old code", CALLED.replace("\tbsr $23,fix\n", "\tbsr $23,L1\n"), 5,
     "goes on elsewhere, and the repair on by bsr"),
    ("a shared aside between a locked load and its store",
     NEW.replace("\taddq/v $2,$16,$2\n", "\tbsr $23,fix\n").replace(
        "\t.end g\n", "\t.end g\nfix:\taddq/v $2,$16,$22\n\ttrapb\n\tmov $22,$2\n\tret $31,($23),1\n"), 19,
     "between a locked load and its"),
    ("the return address is another one", NEW.replace("\tbsr $26,g\n", "\tbr $26,fix\nfix:\tbr $31,g\n"), 12, ""),
    ("another return", NEW.replace("\tret\n\t.end f", "\tret $31,($23)\n\t.end f"), 15,
     "goes on by ret, and the repair on by ret"),
    ("the slot lies below the stack pointer",
     NEW.replace(FIRST, "\tstq $28,-8($30)\n" + FIRST.replace("$22", "$28") + "\tldq $28,-8($30)\n"),
     5, "an access below the stack pointer"),
    ("the slot is given back before it is read",
     NEW.replace(FIRST, KEPT.replace("\tldq $28,0($30)\n\tlda $30,16($30)\n",
                                                                                "\tlda $30,16($30)\n\tldq "
                                                                                "$28,-16($30)\n")), 5,
     "an access below"),
    ("the stack pointer goes up and down again",
     NEW.replace(FIRST, KEPT.replace("\ttrapb\n", "\ttrapb\n\tlda $30,16($30)\n\tlda $30,-16($30)\n")),
     5, "a load from a slot in the stack where nothing is kept"),
    ("the slot is overwritten", NEW.replace(FIRST, KEPT.replace("\ttrapb\n", "\tstq $17,0($30)\n\ttrapb\n")), 5,
     "$28 may be read behind it"),
    ("a part of the slot is overwritten", NEW.replace(FIRST, KEPT.replace("\ttrapb\n", "\tstl $17,4($30)\n\ttrapb\n")),
     5, "a part of a slot"),
    ("the stack pointer stays below", NEW.replace(FIRST, KEPT.replace("\tlda $30,16($30)\n", "")), 5,
     "$30 may be read behind it"),
    ("the stack pointer goes above", NEW.replace(FIRST, f"\tlda $30,16($30)\n{FIRST}\tlda $30,-16($30)\n"), 5,
     "above what is in use"),
    ("a store into the caller's frame", NEW.replace(FIRST, FIRST + "\tstq $22,0($30)\n"), 5,
     "doesn't do stq, which the repair does"),
    ("an access between a locked load and its store",
     NEW.replace("\taddq/v $2,$16,$2\n", KEPT.replace("mulq/v $16,$17,$28", "addq/v $2,$16,$28").replace(
        "$28,$16", "$28,$2")), 19, "between a locked load and its conditional store"),
    ("branches between a locked load and its store", NEW.replace("\taddq/v $2,$16,$2\n", "\tbr fix\nback:\n").replace(
        "\t.end g\n", "\t.end g\nfix:\taddq/v $2,$16,$22\n\ttrapb\n\tmov $22,$2\n\tbr back\n"), 19,
     "between a locked load and its conditional store"),
    ("data are others", NEW.replace(".quad 5", ".quad 6"), None, "directives or data aren't the same"),
    ("a label stands elsewhere", NEW.replace("L1:\tstq $16,8($19)\n", "\tstq $16,8($19)\nL1:"), 7,
     "doesn't do stq, which the repair does"),
    ("a function isn't known by its name any more", NEW.replace("\t.globl f\n", ""), None,
     "directives or data aren't the same"),
]


def outcome(old, new):
    """What `same` says of two texts, or why it refuses them."""
    texts = [held.text_of(path, None, text) for path, text in (("old.s", old), ("new.s", new))]
    try:
        return held.held_texts("old.s", *texts, held.alike(*texts)).told_whole()
    except files.Refused as refused:
        return str(refused)


def called(folder, old, new, *words, status=0):
    paths = [os.path.join(folder, name) for name in ("old.s", "new.s")]
    for path, text in zip(paths, (old, new)):
        write(path, text.encode())
    return companion("same", *paths, *words, status=status)


def test_right_repairs_are_shown(_):
    for text in RIGHT:
        want(outcome(OLD, text).startswith("18 words are shown to do what they did"), True, outcome(OLD, text))


def test_wrong_repairs_are_refused_with_the_place(_):
    for what, text, line, said in WRONG:
        want(text != NEW and text != OLD, True, what)
        told = outcome(OLD, text)
        want((f"old.s:{line}:" in told if line else "old.s: " in told, said in told), (True, True), f"{what}: {told}")


def test_a_register_is_kept_only_by_a_stack_pointer(_):
    for front, said in (("\tlda $30,5($31)\n", "nothing shows that $30 is a stack pointer there"),
                        ("\tstq $9,-8($30)\n", "line 4 has an access below $30")):
        old = OLD.replace("f:\tlda", f"f:\n{front}\tlda")
        want(said in outcome(old, old.replace(MULTIPLIED, KEPT)), True, said)
    # Where the old word sets $30 itself nothing may be kept below it.
    old = OLD.replace(MULTIPLIED, "\tsubq/v $30,$17,$30\n")
    kept = KEPT.replace("mulq/v $16,$17,$28", "subq/v $30,$17,$28").replace("$28,$16", "$28,$30")
    want("old.s:5:" in outcome(old, old.replace("\tsubq/v $30,$17,$30\n", kept)), True, "$30")


def test_a_map_is_only_a_proposal(folder):
    symbols, words = os.path.join(folder, "words"), os.path.join(folder, "again.s")
    write(words, OLD.encode())
    companion("shadowfix", words, "-o", os.path.join(folder, "fixed.s"), "--words", symbols)
    fixed = read(os.path.join(folder, "fixed.s"))
    want("18 words are shown to do what they did, 4 of them by execution" in called(folder, OLD, fixed, symbols)[0],
         True, "its own map")
    rows = read(symbols).splitlines()
    for lie, said in ((["3 4 1"] + rows[1:], "old.s:3:"),
                      (["3 3 1"], "may be come to from elsewhere, and the map has no image of it"),
                      ([*rows, "4 3"], "the map has its image twice"), (["3 900"], "no line `OLD NEW COUNT`"),
                      (["x y"], "no line `OLD NEW COUNT`"),
                      (["3 3 100000000"], "no line `OLD NEW COUNT`")):
        write(symbols, ("\n".join(lie) + "\n").encode())
        _, notes = called(folder, OLD, fixed, symbols, status=1)
        want(said in notes, True, f"{lie}: {notes}")


@needs_program
def test_images_are_held_against_each_other(folder):
    old, new, source = (os.path.join(folder, name) for name in ("old.img", "new.img", "a.s"))
    asked = program.Program(ASKED)
    text = "addq/v $1,$2,$1\nbis $31,$1,$16\nlda $0,1($31)\ncallsys\n{}.entry 0x10000\n{}.data\n.quad 5\n"
    for path, front, behind, word in ((old, "", "", None),
                                      (new, "bugchk\nfix: addq/v $1,$2,$28\ntrapb\nbis $31,$28,$1\nbr back\n", "",
                                       "br fix\nback: ")):
        write(source,
              (text.format(front, behind) if word is None
               else text.format(front, behind).replace("addq/v $1,$2,$1\n", word, 1)).encode())
        want(asked.call("asm", source, path), (0, b"", ""), "asm")
    want(companion("same", old, new)[0], "4 words are shown to do what they did, 1 of them by execution\n", "aside")
    companion("elf2image", data("sum.elf"), old)
    companion("elf2image", data("sum.fixed.elf"), new)
    want("the data of the repair are others" in companion("same", old, new, status=1)[1], True, "another file")
    want("two images are wanted, or two texts" in companion("same", old, source, status=1)[1], True,
         "an image and a text")
