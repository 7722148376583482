"""image2elf: the files that it makes, by their bytes and under qemu-alpha."""
import os
import shutil
import struct
import subprocess

from parts import elf, image, program
from .helpers import ASKED, TOP, Lacking, companion, data, needs_program, read, want, write, write_image

EXAMPLES = ("factorial", "lost", "dot", "segments", "locked", "results", "late", "hello", "cat", "sum", "accepted",
            "dot-repaired")
# The words that run first; the test puts those for the entry.
BEGIN = """
{entry}
        ldah $30,16384($31)
{clear}
        jmp $31,($27)
"""
CLEAR = "\n".join(f"        clr ${n}" for n in range(30) if n != 27)
# sigaltstack is call 235, rt_sigaction 352 and sigreturn 103; SIGFPE is 8. The tables stand before the words.
HANDLED = """
        mov $30,$16
        lda $0,103($31)
        callsys
        ldq $1,16($18)
        ldl $2,-4($1)
        lda $2,-170($2)
        beq $2,own
        ret $31,($26),0
own:    lda $1,-4($1)
        stq $1,16($18)
        lda $16,8($31)
        ldah $17,20480($31)
        lda $17,24($17)
        clr $18
        lda $19,8($31)
        ldah $20,20480($31)
        lda $20,48($20)
        lda $0,352($31)
        callsys
        ret $31,($26),0
"""
SET = """
        ldah $16,20480($31)
        lda $16,0($16)
        clr $17
        lda $0,235($31)
        callsys
        lda $16,8($31)
        ldah $17,20480($31)
        lda $17,{action}($17)
        clr $18
        lda $19,8($31)
        ldah $20,20480($31)
        lda $20,48($20)
        lda $0,352($31)
        callsys
"""


def assembled_words(asked, folder, text):
    source, made = os.path.join(folder, "w.s"), os.path.join(folder, "w.img")
    write(source, (text + "\n.entry 0x10000\n").encode())
    want(asked.call("asm", source, made), (0, b"", ""), "asm")
    return image.read_image(made).words


def sections(path):
    return {section.name: section for section in elf.Elf(path).sections}


@needs_program
def test_an_image_is_an_elf_file_with_its_parts(folder):
    asked, made, out = program.Program(ASKED), os.path.join(folder, "a.img"), os.path.join(folder, "a.elf")
    symbols = os.path.join(folder, "a.map")
    companion("elf2image", data("sort.elf"), made, "--map", symbols)
    companion("image2elf", "--map", symbols, made, out)
    whole, found = image.read_image(made), sections(out)
    segment, = whole.segments
    want((found[".text"].address, found[".text"].content),
         (0x12000, struct.pack(f"<{len(whole.words)}I", *whole.words)), "code")
    want((found[".data"].address, found[".data"].content), (segment.base, segment.data), "data")
    want((found[".data.zero"].address, found[".data.zero"].size), (segment.base + len(segment.data), segment.zeroed),
         "zeroed bytes")
    want((found[".stack"].address, found[".stack"].size), ((1 << 30) - 65_536, 65_536), "stack")
    # The entry of sort.elf is 0x123c0: 65536 + 0x23c0.
    entry = "        ldah $27,1($31)\n        lda $27,9152($27)"
    wanted = assembled_words(asked, folder, BEGIN.format(entry=entry, clear=CLEAR))
    want(found[".start"].content, struct.pack(f"<{len(wanted)}I", *wanted), "the words that run first")
    want(elf.Elf(out).entry, found[".start"].address, "entry")
    told = {(symbol.address, symbol.name) for symbol in elf.Elf(out).symbols}
    want({(0x12000, "main"), (0x125F0, "sift"), (0x123C0, "_start")} <= told, True, "symbols")
    want(os.access(out, os.X_OK), True, "may be run")


@needs_program
def test_the_words_of_the_handler_are_those_of_the_text(folder):
    asked, made, out = program.Program(ASKED), os.path.join(folder, "a.img"), os.path.join(folder, "a.elf")
    companion("elf2image", data("sort.elf"), made)
    companion("image2elf", "--handler", made, out)
    start = sections(out)[".start"].content
    handled = assembled_words(asked, folder, HANDLED)
    action = 48 + 4 * len(handled)
    entry = SET.format(action=action) + "        ldah $27,1($31)\n        lda $27,9152($27)"
    begun = assembled_words(asked, folder, BEGIN.format(entry=entry, clear=CLEAR))
    # The stack of the handler, the default action, the words that return and handle, and the action: flag 1 is
    # ON_STACK.
    wanted = struct.pack("<6Q", 0x50010000, 0, 0x8000, 0, 0, 0) + struct.pack(f"<{len(handled)}I", *handled)
    wanted += struct.pack("<3Q", 0x50000000 + 48 + 12, 1, 0) + struct.pack(f"<{len(begun)}I", *begun)
    want(start, wanted, "words")
    want(elf.Elf(out).entry, 0x50000000 + action + 24, "entry")


def emulator():
    found = shutil.which("qemu-alpha")
    if found is None:
        raise Lacking("there is no qemu-alpha on the path")
    return found


@needs_program
def test_qemu_gives_the_output_of_the_program(folder):
    emulator()
    asked, out = program.Program(ASKED), os.path.join(folder, "a.elf")
    for name in EXAMPLES:
        made = os.path.join(folder, f"{name}.img")
        want(asked.call("asm", os.path.join(TOP, "examples", f"{name}.s"), made), (0, b"", ""), name)
        for words in ([], ["--handler"]):
            companion("image2elf", "--check-qemu", *words, made, out, given=b"abc\n")


@needs_program
def test_qemu_gives_the_stored_output_of_real_programs(folder):
    qemu = emulator()
    made, out = os.path.join(folder, "a.img"), os.path.join(folder, "a.elf")
    for name, path in (("sort", "sort.elf"), ("sort", "sort.ecoff"), ("sum", "sum.elf"), ("sum", "sum.fixed.elf")):
        companion("elf2image", data(path), made)
        companion("image2elf", "--handler", made, out)
        done = subprocess.run([qemu, out], input=read(data(f"{name}.in"), "rb"), capture_output=True, check=False)
        want((done.stdout, done.returncode), (read(data(f"{name}.out"), "rb"), int(read(data(f"{name}.exit")))), path)


# Each text with how a run of it under qemu-alpha ends: an exit value, or a signal of Linux below 0.
ENDS = [
    ("s: lda $16,-2($31)\n gentrap\n br s", ["--handler"], -8),
    ("s: lda $16,-2($31)\n gentrap\n br s", [], -8),
    ("s: bugchk\n", ["--handler"], -5),
    ("s: ldq $1,0($31)\n", ["--handler"], -11),
    # An overflow whose program uses $30 for a number, and one with a stack of 16 bytes.
    (".stack 16\ns: lda $30,-1($31)\n srl $30,1,$30\n addq/v $30,1,$16\n trapb\n srl $16,60,$16\n lda $0,1($31)\n "
     "callsys", ["--handler"], 8),
    # All that isn't set is 0 at the start, and $27 is the entry: 0x10000.
    ("s: bis $0,$1,$2\n bis $2,$15,$2\n bis $2,$26,$2\n bis $2,$29,$2\n srl $27,16,$16\n addq $16,$2,$16\n lda "
     "$0,1($31)\n callsys", [], 1),
    # The first and the last quadword of the stack, which holds 0.
    (".stack 32\ns: ldq $1,-8($30)\n stq $27,-32($30)\n ldq $2,-32($30)\n subq $2,$27,$2\n addq $1,$2,$16\n lda "
     "$0,1($31)\n callsys", [], 0),
    # Data that ends in the page in which the stack begins.
    (".database 0x3fffe000\n.stack 16\ns: lda $1,7($31)\n stq $1,-16($30)\n ldah $2,16384($31)\n ldq $3,-8192($2)\n "
     "ldq $4,-16($30)\n "
     "addq $3,$4,$16\n lda $0,1($31)\n callsys\n.data\n.quad 5\n.zero 8000", [], 12),
    (".level 2\ns: lda $1,7($31)\n ctpop $1,$16\n lda $0,1($31)\n callsys", [], 3),
]


@needs_program
def test_programs_end_under_qemu_as_the_page_says(folder):
    qemu, asked = emulator(), program.Program(ASKED)
    source, made, out = (os.path.join(folder, name) for name in ("a.s", "a.img", "a.elf"))
    for text, words, wanted in ENDS:
        write(source, f"{text}\n.entry s\n".encode())
        want(asked.call("asm", source, made), (0, b"", ""), text)
        companion("image2elf", *words, made, out)
        done = subprocess.run([qemu, out], input=b"", capture_output=True, check=False)
        want(done.returncode, wanted, text)


@needs_program
def test_a_difference_is_told_and_a_bad_image_refused(folder):
    asked = program.Program(ASKED)
    source, made, out = (os.path.join(folder, name) for name in ("a.s", "a.img", "a.elf"))
    write_image(made, [0x5FFF041F])
    want("image kind 5" in companion("image2elf", made, out, status=1)[1], True, "a word outside the table")
    want(os.path.exists(out), False, "OUT")
    companion("image2elf", os.path.join(folder, "nothing"), out, status=1)
    emulator()
    # A write to descriptor 2 is error 9 here, and is made there: R0 is 1 there.
    write(source,
          b".entry s\ns: lda $16,2($31)\n bis $31,$27,$17\n lda $18,1($31)\n lda $0,4($31)\n callsys\n bis "
          b"$31,$0,$16\n "
          b"lda $0,1($31)\n callsys\n")
    want(asked.call("asm", source, made), (0, b"", ""), "asm")
    _, notes = companion("image2elf", "--check-qemu", made, out, status=1)
    want("`exit 9`, and qemu-alpha with status 1" in notes and os.path.exists(out), True, notes)


@needs_program
def test_the_original_file_is_run_beside_the_repaired_one(folder):
    emulator()
    asked, made, out = program.Program(ASKED), os.path.join(folder, "a.img"), os.path.join(folder, "a.elf")
    companion("elf2image", data("sort.elf"), made)
    given = read(data("sort.in"), "rb")
    companion("image2elf", "--check-qemu", "--original", data("sort.elf"), made, out, given=given)
    _, notes = companion("image2elf", "--check-qemu", "--original", data("sum.elf"), made, out, given=given, status=1)
    want("sum.elf runs otherwise" in notes and os.path.exists(out), True, notes)
    # An image that runs as its own file does, and not as the one of which it should be: its first word is another.
    changed = image.read_image(made)
    changed.words[changed.place(changed.entry)] = 0x47FF041F
    write(made, changed.spelled())
    want(asked.verdict(made) is not None, True, "verdict")
    companion("image2elf", "--check-qemu", "--original", data("sort.elf"), made, out, given=given, status=1)
    companion("image2elf", "--original", data("sort.elf"), made, out, status=2)
