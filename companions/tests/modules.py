"""gas2source --module: parts of a program that are compiled, judged and linked apart."""
import os
import shutil
import subprocess

from parts import image, program
from .helpers import ASKED, DATA, HERE, Lacking, companion, needs_program, read, want

PARTS = ("main", "numbers", "print")
# Numbers whose product is more than 2^63, and what comes of them, worked by hand: 12 * 3,000,000 * 70,000,000,000 * 9
# is 22,680,000,000,000,000,000, less 2^64; the mean is the sum by four, cut.
GIVEN = b"12 3000000 70000000000 9\n"
PUT = b"numbers 4\nsum 70003000021\nproduct 4233255926290448384\nmean 17500750005\n"


def modules(folder, repaired=True, texts=os.path.join(DATA, "three")):
    """The sources of the modules of the program of three parts, in the order of its link, by name."""
    made = {}
    for name in ("start", *PARTS, "divide"):
        text = os.path.join(texts if name in PARTS else HERE, f"{name}.s")
        if name in PARTS and repaired:
            fixed = os.path.join(folder, f"{name}.s")
            companion("shadowfix", text, "-o", fixed)
            text = fixed
        made[name] = os.path.join(folder, f"{name}.as")
        companion("gas2source", "--module", text, "-o", made[name])
    return made


def linked(asked, folder, sources):
    """The image of the modules of some sources."""
    kept = []
    for source in sources:
        kept.append(source.replace(".as", ".mod"))
        want(asked.call("module", source, kept[-1]), (0, b"", ""), source)
    made = os.path.join(folder, "three.img")
    want(asked.call("link", "--entry", "_start", made, *kept), (0, b"", ""), "link")
    return made


@needs_program
def test_three_parts_of_c_are_judged_apart_and_linked(folder):
    asked = program.Program(ASKED)
    made = linked(asked, folder, modules(folder).values())
    want(asked.verdict(made), None, "the verdict of the whole")
    first = runs(asked, made)
    want(asked.call("run", "--imprecise", "--seed", "3", made, given=GIVEN), first, "run --imprecise")


def runs(asked, made):
    """The answer of a run, whose output must be that which was worked by hand."""
    first = asked.call("run", made, given=GIVEN)
    want((first[0], first[1], first[2].split("\n")[-2]), (0, PUT, "exit 4"), "run")
    return first


@needs_program
def test_other_options_of_the_compiler_make_modules_that_run_alike(folder):
    if shutil.which("alpha-linux-gnu-gcc") is None:
        raise Lacking("there is no alpha-linux-gnu-gcc on the path")
    for options in (["-O0"], ["-O3", "-msmall-data"], ["-Os", "-mno-explicit-relocs"],
                    ["-O2", "-fPIC", "-fsection-anchors"]):
        texts = os.path.join(folder, "texts")
        os.makedirs(texts, exist_ok=True)
        subprocess.run(["alpha-linux-gnu-gcc", *options, "-ftrapv", "-ffixed-28", "-ffreestanding", "-fno-jump-tables",
                        "-S",
                        *(os.path.join(DATA, "three", f"{name}.c") for name in PARTS)], cwd=texts, check=True)
        runs(program.Program(ASKED), linked(program.Program(ASKED), folder, modules(folder, texts=texts).values()))


@needs_program
def test_a_part_that_is_not_repaired_is_refused(folder):
    sources = modules(folder, repaired=False)
    status, _, notes = program.Program(ASKED).call("module", sources["numbers"], os.path.join(folder, "numbers.mod"))
    want((status, notes[:15], os.path.exists(os.path.join(folder, "numbers.mod"))), (1, "broken trigger ", False),
         "module")


# Each access by a lower half, and names of each kind. The data are `two` and `far`, and the symbol of .comm.
MODULE = """\t.text
\t.globl f
\t.globl g
\t.set g,f
\t.ent f
f:\tldah $29,0($27)\t\t!gpdisp!1
\tlda $29,0($29)\t\t!gpdisp!1
$L3:\tldah $1,two($29)\t\t!gprelhigh
\tldq $2,two($1)\t\t!gprellow
\tldq $3,two+8($1)\t\t!gprellow
\tlda $4,two+8($1)\t\t!gprellow
\tstq $2,two+8($1)\t\t!gprellow
\tldq $27,other($29)\t\t!literal!4
\tjsr $26,($27),other\t\t!lituse_jsr!4
\tbsr $26,f
\tbeq $2,$L3
\tldq $5,far
1:\tbr 1b
\t.data
\t.align 3
two:\t.quad far, other+8
\t.local far
\t.comm far,16,8
"""
MADE = """.code|f:|g:|m.L3:|ldah $1,%hi(m.two)($31)|lda $2,%lo(m.two)($1)|ldq $2,0($2)|lda $3,%lo(m.two)($1)
ldq $3,8($3)
lda $4,%lo(m.two)($1)|lda $4,8($4)|lda $28,%lo(m.two)($1)|stq $2,8($28)|ldah $27,%hi(other)($31)|lda $27,%lo(other)($27)
jsr $26,($27),0|bsr $26,f|beq $2,m.L3|ldah $5,%hi(m.far)($31)|lda $5,%lo(m.far)($5)|ldq $5,0($5)|m.1_1:|br $31,m.1_1
.data
.align 3|m.two:|.quad m.far,other+8|.align 3|m.far:|.zero 16|.align 4""".replace("\n", "|").split("|")


@needs_program
def test_the_source_of_a_module_is_as_modules_want_it(folder):
    path, out = os.path.join(folder, "m.s"), os.path.join(folder, "m.as")
    with open(path, "w", encoding="ascii") as file:
        file.write(MODULE)
    companion("gas2source", "--module", path, "-o", out)
    lines = [line.split("#")[0].strip() for line in read(out).splitlines()]
    want([line for line in lines if line], MADE, "lines")
    want(program.Program(ASKED).call("module", out, os.path.join(folder, "m.mod")), (0, b"", ""), "module")
    again, _ = companion("gas2source", "--module", "--prefix", "mine", path)
    want(("mine.two:" in again, "m.two" in again), (True, False), "--prefix")


def test_what_a_module_cannot_be_is_refused(folder):
    path, out = os.path.join(folder, "a.s"), os.path.join(folder, "a.as")
    halves = ("\tldah $1,x($29) !gprelhigh\n\tldah $2,x+9000($29) !gprelhigh\n\tldq $3,x+9000($2) "
              "!gprellow\n\t.data\nx:\t.zero 9008\n")
    cases = [(halves, "may be another one after a link"), ("\tctpop $1,$2\n", "a module is of level 1"),
             ("\tbr $31,$nowhere\n", "nothing defines $nowhere"),
             ("\t.globl a$b\na$b:\tnop\n", "a$b is a name for other modules"),
             ("\tldah $1,x($29) !gprelhigh\n\tstq $28,x($1) !gprellow\n\t.data\nx:\t.quad 0\n",
              "compile with -ffixed-28")]
    for text, said in cases:
        with open(path, "w", encoding="ascii") as file:
            file.write("\t.text\n" + text)
        _, notes = companion("gas2source", "--module", path, "-o", out, status=1)
        want((said in notes, os.path.exists(out)), (True, False), notes)
    for words in (["--entry", "a"], ["--stack", "4096"], ["--level", "1"], ["--prefix", "7"]):
        companion("gas2source", "--module", *words, path, status=2)
    companion("gas2source", "--prefix", "a", path, status=2)


def test_what_a_compiler_calls_by_itself_is_told_with_its_remedy(folder):
    path = os.path.join(folder, "a.s")
    for name, said in (("__divq", "companions/divide.s"), ("__remlu", "companions/divide.s"),
                       ("memcpy", "gcc calls it")):
        with open(path, "w", encoding="ascii") as file:
            file.write(f"\t.text\n\t.globl _start\n_start:\tjsr $26,{name}\n")
        _, notes = companion("gas2source", path, status=1)
        want((f"a.s:3: nothing defines {name}: " in notes, said in notes), (True, True), notes)


@needs_program
def test_statics_of_one_name_are_two(folder):
    """`.local` says of a name of `.comm` that it is the file's own."""
    made = []
    for name in "ab":
        made.append(os.path.join(folder, f"{name}.s"))
        with open(made[-1], "w", encoding="ascii") as file:
            file.write(f"\t.text\n\t.globl {name}\n{name}:\tlda $1,own\n\tret\n\t.local own\n\t.comm own,8,8\n")
    source, out = os.path.join(folder, "ab.as"), os.path.join(folder, "ab.img")
    companion("gas2source", "--entry", "a", *made, "-o", source)
    want(program.Program(ASKED).call("asm", source, out), (0, b"", ""), "asm")
    want(image.read_image(out).segments[0].zeroed, 16, "zeroed bytes")
