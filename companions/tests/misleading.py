"""same: repairs that look right, and do something else than the program did."""
from parts import files, held, image
from .helpers import want

MULTIPLIED = "\tmulq/v $16,$17,$16\n"
SCRATCH = "\tmulq/v $16,$17,$28\n\ttrapb\n\tmov $28,$16\n"
KEPT = f"\tlda $30,-16($30)\n\tstq $28,0($30)\n{SCRATCH}\tldq $28,0($30)\n\tlda $30,16($30)\n"
RESULT = "\tmov $16,$0\n\tret\n"
# The address of a function, or of another place of code, from the data.
POINTER = "\tldah $27,k($29)!gprelhigh\n\tldq $27,k($27)!gprellow\n"


def function(name, body, is_static=False):
    return ("" if is_static else f"\t.globl {name}\n") + f"\t.ent {name}\n{name}:{body}\t.end {name}\n"


def kept(*bodies):
    """A pair of texts: in the second a register is kept in the stack around the multiplication."""
    old = "".join(function(name, body, name != "f") for name, body in zip("fgh", bodies))
    return old, old.replace(MULTIPLIED, KEPT, 1)


def scratch(old, register="28"):
    """A pair of texts: in the second the product goes through a register."""
    return old, old.replace(MULTIPLIED, SCRATCH.replace("$28", f"${register}"), 1)


def framed(body):
    """The body of a function that calls."""
    return f"\tlda $30,-16($30)\n\tstq $26,0($30)\n{body}\tldq $26,0($30)\n\tlda $30,16($30)\n\tret\n"


LIVE = "may be read behind it"
CALLER = framed("\tmov $16,$28\n\tbsr $26,h\n\taddq $0,$28,$0\n")
ENTERED = function("g", f"\tmov 3,$16\nmid:{MULTIPLIED}{RESULT}", True)
BY_LINK = "\tmov 7,$28\n\tldq $26,0($18)\n\tbr $31,mid\n"
TABLE = ("\tldah $1,T($29)!gprelhigh\n\tlda $1,T($1)!gprellow\n\ts4addq $19,$1,$1\n\tldl $2,0($1)\n\taddq $2,$29,$2\n"
         "\tjmp $31,($2),0\n")
# A register that is believed dead is read: by whom, what is said, and the old text.
READ = [
    ("the caller of the one that jumped there", LIVE,
     function("f", CALLER) + function("h", f"{POINTER}\tjmp $31,($27)\n", True) +
     function("g", MULTIPLIED + RESULT, True) + "\t.data\nk:\t.quad g\n"),
    ("where a jump into the midst of a function says", LIVE,
     function("f", framed(f"\tbsr $26,g\n{POINTER}\tldq $26,8($27)\n\tmov $0,$28\n\tjmp $31,($27)\n")) + ENTERED +
     function("h", "other:\taddq $0,$28,$0\n\tlda $30,16($30)\n\tret\n", True) + "\t.data\nk:\t.quad mid,other\n"),
    ("behind a coroutine's jump", LIVE, function("f", f"\tjsr_coroutine $26,($27),0\n{BY_LINK}") +
     function("h", "\tbsr $26,g\n\tret\n") + ENTERED),
    ("behind a branch that leaves an address", LIVE, function("f", f"\tbr $23,sub\n{BY_LINK}sub:\tret $31,($23),1\n") +
     function("h", "\tbsr $26,g\n\tret\n") + ENTERED),
    ("a caller by another name", LIVE,
     function("f", "\tmov $18,$28\n\tbsr $26,k\n\taddq $0,$28,$0\n\tret $31,($22)\n") +
     function("g", MULTIPLIED + RESULT, True) + "\t.set k,g\n"),
    ("a caller by a distance from a label", LIVE,
     function("f", "\tmov $18,$28\n\tbsr $26,g+4\n\taddq $0,$28,$0\n\tret $31,($22)\n") +
     function("g", f"\tnop\n{MULTIPLIED}{RESULT}", True)),
    ("behind a system call that isn't the exit", LIVE, "\t.text\n" + function(
        "f", f"\tmov 5,$28\n{MULTIPLIED}\tlda $0,4($31)\n\t.section .text2\ng:\tlda $0,1($31)\n\t.text\n\tcallsys\n"
        "\taddq $0,$28,$0\n\tret\n")),
    ("a function in a table of jumps", LIVE, function(
        "f", f"\tmov $18,$28\n{MULTIPLIED}{TABLE}L1:{RESULT}") + function("g", "\taddq $28,$16,$0\n\tret\n", True) +
     "\t.section .rodata\nT:\t.gprel32 L1\n\t.gprel32 g\n"),
    ("where a jump goes whose table isn't the only one", LIVE, function(
        "f", f"\tmov $18,$28\n{MULTIPLIED}\tmov $20,$2\n\tbeq $19,L2\n" + TABLE.replace("\taddq", "L2:\taddq") +
        f"L1:{RESULT}") + "\t.section .rodata\nT:\t.gprel32 L1\n"),
    ("a part of the section that stands elsewhere", "`.text` can't be followed",
     "\t.text\n" + function("f", f"\tmov $18,$28\n{MULTIPLIED}") + "\t.text 1\nh:\tret\n\t.text 0\n"
     "k:\taddq $28,$16,$0\n\tret\n"),
]
PRODUCT, BARRED = "\tmulq/v $16,$17,$2\n", "\tmulq/v $16,$17,$2\n\ttrapb\n"
LISTING = (".codebase 0x10000\n.database 0x10000000\n.entry f\n.code\nf: ldah $29,4096($27)\nlda $29,16($29)\n"
           f"{PRODUCT}bsr $26,g\nldah $29,4096($26)\nlda $29,0($29)\nldq $16,0($29)\nlda $0,1($31)\ncallsys\ng: ret\n"
           ".data\n.quad 5\n")
ONE = "\tmov 1,$0\n\tret\n"
# A barrier more moves words, and something is reckoned from where they stand: what, what is said, and the old text.
MOVED = [
    ("a branch to a label with a distance", "goes on elsewhere",
     function("f", f"\tbr $31,L1+8\nL1:{PRODUCT}\tmulq/v $16,$17,$3\n\tmov 2,$0\n{ONE}")),
    ("a label with a distance among the data", "`f+8` is reckoned from where words stand",
     function("f", f"{PRODUCT}\tnop\n{ONE}") + "\t.data\n\t.quad f+8\n"),
    ("an address with a distance", "`f+8` is reckoned from where words stand",
     function("f", f"{PRODUCT}\tlda $1,f+8\n{ONE}")),
    ("the distance of two labels", "`L1-f` is reckoned from where words stand",
     function("f", f"{PRODUCT}L1:{ONE}") + "\t.data\n\t.quad L1-f\n"),
    ("the address behind a branch", "an address of code is reckoned with",
     function("f", f"\tbr $1,L1\nL1:\tlda $1,12($1)\n{PRODUCT}\tjmp $31,($1)\n{ONE}")),
    ("the word behind a call", "an address of code is reckoned with",
     function("f", f"\tbsr $26,g\n{PRODUCT}\tmov 2,$0\n\tret $31,($22)\n") +
     function("g", "\tlda $26,4($26)\n\tret\n", True)),
    ("words that are read as data", "an address of code is reckoned with",
     function("f", f"\tbr $1,L1\nL1:{PRODUCT}\tldl $0,4($1)\n\tret\n")),
    ("the global pointer of a listing", "an address of code is reckoned with", LISTING),
    ("an entry that is a number", "the entry is a number",
     f".entry 0x10004\n.code\na:{PRODUCT}b:\tmov 1,$16\n\tlda $0,1($31)\n\tcallsys\n"),
    ("words to which nothing leads", "the word is another one",
     function("f", f"\tbr $31,L1\n\tldq $16,0($1)\n{PRODUCT}\tnop\nL1:{ONE}")),
]
LOADED = "\tldah $29,0($27)!gpdisp!1\n\tlda $29,0($29)!gpdisp!1\n"
LOCKED = "\tldq_l $2,0($19)\n\taddq/v $2,$16,$3\n\tstq_c $3,0($19)\n\tmov $3,$0\n\tret\n"
AWAY = ("\tldq_l $2,0($19)\n\tbr fix\nback:\tmov $3,$0\n\tret\nfix:\taddq/v $2,$16,$3\n\ttrapb\n"
        "\tstq_c $3,0($19)\n\tbr back\n")
PLAIN = function("f", MULTIPLIED + RESULT)
# Pairs of texts with what is said, and the map of places where another one is wanted.
OTHERS = [
    ("a branch right behind a locked load", "between a locked load and its", function("f", LOCKED), function("f", AWAY),
     {0: 0, 1: 4, 2: 6, 3: 2, 4: 3}),
    ("a slot of the stack right behind a locked load", "between a locked load and its", function("f", LOCKED),
     function("f", LOCKED.replace("\taddq/v", "\tlda $30,-16($30)\n\tstq $2,0($30)\n\tldq $2,0($30)\n"
                                  "\tlda $30,16($30)\n\taddq/v")), {0: 0, 1: 5, 2: 6, 3: 7, 4: 8}),
    ("another word before the global pointer's", "the global pointer is made from its own address",
     function("f", LOADED + ONE), function("f", f"\ttrapb\n{LOADED}{ONE}"), {0: 0, 1: 2, 2: 3, 3: 4}),
    ("another word before the macro's", "isn't a word of the table", function("f", f"\tldgp $29,0($27)\n{ONE}"),
     function("f", f"\tnop\n\tldgp $29,0($27)\n{ONE}"), {0: 0, 1: 2, 2: 3}),
    ("the pairs of the global pointer's words", "relocations stand elsewhere",
     function("f", LOADED + ONE) + function("g", LOADED.replace("!1", "!2") + ONE),
     function("f", LOADED.replace("$29)!gpdisp!1", "$29)!gpdisp!2") + ONE) +
     function("g", LOADED.replace("!1", "!2").replace("$29)!gpdisp!2", "$29)!gpdisp!1") + ONE)),
    ("a name that is assigned again", "x is assigned more than once",
     function("f", f"\tx = 1\n\tlda $1,x\n\tx = 2\n{ONE}"), function("f", f"\tx = 1\n\tx = 2\n\tlda $1,x\n{ONE}")),
    ("a name for where a word stands", "doesn't stand at the image",
     function("f", f"{PRODUCT}\there = .\n{ONE}") + "\t.data\n\t.quad here\n",
     function("f", f"\there = .\n{BARRED}{ONE}") + "\t.data\n\t.quad here\n"),
    ("text that is left out", "`.if` can't be followed",
     function("f", "\t.if 0\n\tmov 1,$0\n\t.endif\n\tmov 2,$0\n\tret\n"),
     function("f", "\t.if 0\n\tmov 1,$0\n\tmov 2,$0\n\t.endif\n\tret\n")),
    ("text that is repeated", "`.rept` can't be followed",
     function("f", "\t.rept 2\n\taddq $0,1,$0\n\t.endr\n\tmov 2,$1\n\tret\n"),
     function("f", "\t.rept 2\n\taddq $0,1,$0\n\tmov 2,$1\n\t.endr\n\tret\n")),
    ("data among the words", "", function("f", f"\tbr $31,L1\nx:\t.long 5\nL1:{ONE}"),
     function("f", f"\tbr $31,L1\nL1:{ONE}x:\t.long 5\n")),
    ("the size of a symbol", "stand in another order", PLAIN.replace("\t.end f", "\t.size f,.-f\n\t.end f"),
     PLAIN.replace(RESULT, f"\t.size f,.-f\n{RESULT}")),
    ("words among the data", "a word stands in a section without any", f"{PLAIN}\t.data\n\t.quad 5\n",
     function("f", f"\tbr fix\nback:{RESULT}") + f"\t.data\nfix:{SCRATCH}\tbr back\n\t.quad 5\n"),
    ("a byte of the data", "directives or data aren't the same", f"{PLAIN}\t.data\n\t.byte 5\n",
     function("f", SCRATCH + RESULT) + "\t.data\n\t.byte 6\n"),
    ("a name that other files have", "h is something else in the old text",
     function("f", f"\tldq $27,h($29)!literal!1\n{MULTIPLIED}\tjsr $26,($27),h\n\tret\n"),
     function("f", "\tldq $27,h($29)!literal!1\n\tbr h\nback:\tjsr $26,($27),h\n\tret\n") + f"h:{SCRATCH}\tbr back\n"),
    ("an end that goes on in another file", "more than 256 words", function("f", MULTIPLIED),
     function("f", "\tbr fix\nback:\n") + f"\tbugchk\nfix:{SCRATCH}\tbr back\n"),
    ("two words with one image", "the map has its image twice", function("f", f"\tnop\n\tnop\n{ONE}"),
     function("f", f"\tnop\n\tnop\n{ONE}"), {0: 0, 1: 0, 2: 2, 3: 3}),
    ("a word that overflows more", "doesn't do overflow", function("f", "\taddq $16,$17,$0\n\tret\n"),
     function("f", "\taddq/v $16,$17,$0\n\tret\n")),
    ("a system call more", "doesn't do imb", PLAIN, function("f", SCRATCH.replace("\ttrapb\n", "\timb\n") + RESULT)),
    ("a barrier less", "does barrier, which the repair leaves out", function("f", BARRED + ONE),
     function("f", PRODUCT + ONE)),
    ("a branch into an aside", "$16 may be read behind it", function("f", f"\tbeq $18,L1\n{MULTIPLIED}L1:{RESULT}"),
     function("f", f"\tbeq $18,mid\n\tbr fix\nL1:{RESULT}fix:\tmulq/v $16,$17,$28\n\ttrapb\nmid:\tmov $28,$16\n"
              "\tbr L1\n")),
    ("a word that isn't in the table", "isn't a word of the table", PLAIN,
     function("f", "\trpcc $1\n" + SCRATCH + RESULT)),
]


def outcome(old, new, pairs=None):
    """What `same` says of two texts, or why it refuses them."""
    texts = [held.text_of(path, None, text) for path, text in (("old.s", old), ("new.s", new))]
    try:
        return held.held_texts("old.s", *texts, pairs or held.alike(*texts)).told_whole()
    except files.Refused as refused:
        return str(refused)


def refused(what, said, old, new, pairs=None):
    told = outcome(old, new, pairs)
    want((old != new or pairs is not None, "shown to do" in told, said in told), (True, False, True), f"{what}: {told}")


def image_of(words, **fields):
    told = {"code_base": 0x10000, "entry": 0x10000, "segments": [image.Segment(0x10000000, b"\5" * 8)], "level": 1}
    told |= fields
    return image.Image(words, told["code_base"], told["entry"], told["segments"], 65_536, told["level"])


def test_images_with_other_fields_are_refused(_):
    words = [0x47FF041F, 0x47FF041F, 0x6BFA8001]
    others = [{"entry": 0x10004}, {"level": 2}, {"segments": [image.Segment(0x10000000, b"\6" * 8)]},
              {"segments": [image.Segment(0x10000000, b"\5" * 8, 8)]}, {"code_base": 0x12000, "entry": 0x12000}]
    old = image_of(words)
    for fields in others:
        new = image_of(words, **fields)
        try:
            pairs = held.same_addresses(old, new) if "code_base" not in fields else {0: 0, 1: 1, 2: 2}
            held.held_images("new.img", old, new, pairs)
        except files.Refused:
            continue
        want(fields, None, "another field is taken for the same")
    want(held.held_images("new.img", old, image_of(words), held.same_addresses(old, old)).equal, 3, "the same image")


def test_what_others_read_is_no_scratch_register(_):
    for what, said, old in READ:
        refused(what, said, *scratch(old))


def test_nothing_is_reckoned_from_where_words_stand(_):
    for what, said, old in MOVED:
        refused(what, said, old, old.replace(PRODUCT, BARRED, 1))


def test_other_repairs_that_look_right_are_refused(_):
    for what, said, *texts in OTHERS:
        refused(what, said, *texts)


# Operands that can't be read, of words that the table has by their names.
UNREADABLE = ["lda $1,100000($2)", "ldah $29,x", "jmp $31", "ret $31,f", "jmp $f1,($2)", "cmoveq $30,$30,$30",
              "lda $30,x+4", "ldgp", "ldq_u $30,0($30)", "bsr $30,f", "br f+", "s4addq $30,$30,$30"]


def test_operands_that_cannot_be_read_are_no_fault_of_python(_):
    for word in UNREADABLE:
        for front in ("", ".codebase 0x10000\n.entry f\n.code\n"):
            old = f"{front}f:\tsubq $30,$1,$30\n\t{word}\n{MULTIPLIED}{RESULT}"
            want(outcome(*scratch(old)) != "", True, word)
