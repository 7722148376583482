"""elf2image --functions: objects, archives, all broken places, addresses as it writes them, and many functions by few
calls."""
import os
import shutil
import struct
import subprocess
import sys

from parts import broken, program, written
from .helpers import ASKED, HERE, Lacking, companion, data, needs_program, read, want, write

AWAY = 0x120000000
# `addq/v $1,$2,$1`, `trapb`, `ret`, a word of floating point, `addq/v $1,$2,$3`, `nop`, `ldq $4,0($3)`, and
# `lda $4,0($31)`.
LOST, TRAPB, RET, FLOAT, SUM, NOP, LOAD = (0x40220C01, 0x63FF0000, 0x6BFA8001, 0x5FFF040B, 0x40220C03, 0x47FF041F,
                                           0xA4830000)
NUMBER = 0x209F0000
OBJECT = """\t.set noat
\t.set noreorder
\t.text
\t.ent f
f:\taddqv $1,$2,$1
\tret $31,($26),1
\t.end f
\t.ent g
g:\taddqv $1,$2,$3
\tldq $4,x($29)\t\t!gprellow
\tstq $5,y($29)\t\t!gprellow
\ttrapb
\tret $31,($26),1
\t.end g
\t.section .text.h,"ax",@progbits
\t.ent h
h:\taddqv $1,$2,$3
\tldq $27,f($29)\t\t!literal!1
\ttrapb
\tjsr $26,($27),f\t\t!lituse_jsr!1
\tret $31,($26),1
\t.end h
\t.comm x,8,8
\t.comm y,8,8
"""


def tool(name):
    if shutil.which(name) is None:
        raise Lacking(f"there is no {name} on the path")
    return name


def written_elf(path, functions, base=AWAY):
    words = [word for _, ones in functions for word in ones]
    code, symbols, at = struct.pack(f"<{len(words)}I", *words), [], base
    for name, ones in functions:
        symbols.append((at, name, 4 * len(ones)))
        at += 4 * len(ones)
    write(path, written.Written([written.Part(".text", 5, base, code, len(code))], base, symbols).spelled())


@needs_program
def test_objects_and_archives_are_judged_by_name(folder):
    text, made, library, out = (os.path.join(folder, name)
                                for name in ("a.s", "a-part-with-a-long-name.o", "l.a", "a.img"))
    write(text, OBJECT.encode())
    subprocess.run([tool("alpha-linux-gnu-as"), text, "-o", made], check=True)
    write(os.path.join(folder, "note"), b"no object\n")
    subprocess.run([tool("alpha-linux-gnu-ar"), "rc", library, made, os.path.join(folder, "note")], check=True)
    wanted = ["0000000000000000 00000008 {}f: broken trigger 0000000000000000 at 0000000000000000 condition C2",
              "0000000000000008 00000014 {}g: no verdict: 0000000000000010 is b4bd0000: stq behind a load by the same "
              "register, and the "
              "linker makes one's distance, in the shadow of 0000000000000008",
              "0000000000000020 00000014 {}h: accepted"]
    last = " symbols: 1 accepted, 1 broken, {} without a verdict; no /V word in 0"
    want(companion("elf2image", "--functions", made, status=3)[0].splitlines(),
         [line.format("") for line in wanted] + ["3" + last.format(1)], "an object")
    want(companion("elf2image", "--functions", library, status=3)[0].splitlines(),
         [line.format(f"{os.path.basename(made)}:") for line in wanted] +
         [f"{0:016x} {0:08x} note: no verdict: {library}(note): no ELF file", "4" + last.format(2)], "an archive")
    for path, said in ((made, "it is an object file, of which --functions"),
                       (library, "an archive of objects, of which --functions")):
        want(said in companion("elf2image", path, out, status=1)[1], True, path)
    write(library, read(library, "rb")[:-200] + b"x" * 60)
    companion("elf2image", "--functions", library, status=1)


@needs_program
def test_all_broken_places_of_a_function_with_other_words_are_named(folder):
    """f has three /V words: one in whose shadow a word of floating point stands, and two broken ones behind it."""
    path = os.path.join(folder, "a.elf")
    written_elf(path, [("f", [SUM, FLOAT, TRAPB, LOST, TRAPB, FLOAT, SUM, LOAD, RET]), ("g", [SUM, TRAPB, FLOAT, RET])])
    out, _ = companion("elf2image", "--functions", "--all", path, status=3)
    want(out.splitlines(), [
        f"{AWAY:016x} 00000024 f: broken trigger {AWAY + 12:016x} at {AWAY + 12:016x} condition C2; 2 words outside "
        f"the table",
        f"  no verdict of trigger {AWAY:016x}: {AWAY + 4:016x} is 5fff040b: floating point, opcode 17",
        f"  broken trigger {AWAY + 12:016x} at {AWAY + 12:016x} condition C2",
        f"  broken trigger {AWAY + 24:016x} at {AWAY + 28:016x} condition C4",
        f"{AWAY + 36:016x} 00000010 g: accepted but for words in no shadow: {AWAY + 44:016x} is 5fff040b: floating "
        f"point, opcode 17",
        "2 symbols: 1 accepted, 1 broken, 0 without a verdict; no /V word in 0"], "lines")


@needs_program
def test_an_address_is_taken_as_it_is_written(folder):
    out = os.path.join(folder, "a.img")
    line = next(line for line in companion("elf2image", "--functions", data("sort.elf"), status=3)[0].splitlines()
                if " print: " in line)
    companion("elf2image", "--function", line.split()[0], data("sort.elf"), out)
    by_address = read(out, "rb")
    for name in ("print", "0x" + line.split()[0].lstrip("0")):
        companion("elf2image", "--function", name, data("sort.elf"), out)
        want(read(out, "rb"), by_address, name)
    want(companion("elf2image", "--all", data("sort.elf"), out, status=2)[0], "", "--all alone")


@needs_program
def test_many_functions_are_judged_by_few_calls(folder):
    """As each is judged alone, one that ends within a shadow among them; and the calls are counted."""
    asked, calls = program.Program(ASKED), []
    rows = ([[SUM, NOP, TRAPB, RET]] * 40 + [[LOST, TRAPB, RET], [SUM, NOP], [SUM, LOAD, TRAPB, RET]]
            + [[SUM, TRAPB, RET]] * 40)
    alone = {}
    with program.Scratch() as scratch:
        for words in rows[40:43]:
            alone[tuple(words)] = asked.verdict(scratch.file("a.img", broken.image_of(words).spelled()))
    verdict = asked.verdict
    asked.verdict = lambda path: (calls.append(path), verdict(path))[1]
    want(broken.first_of_each(asked, rows, 2), [alone.get(tuple(words)) for words in rows], "verdicts")
    want(alone[(SUM, NOP)], (0x10000, 0x10008, 8), "the end of a shadow's row")
    # One for the batch, one behind each of its two broken rows, and one for the row that ends within a shadow.
    want(len(calls), 4, "calls")


@needs_program
def test_a_file_of_six_thousand_functions_is_judged_within_30_seconds(folder):
    """Of the processor's time, the program's included. No two have the same words, and each tenth one is broken."""
    path, count, most = os.path.join(folder, "a.elf"), 6004, 30
    written_elf(path, [(f"f{n}", [NUMBER | n, SUM, NOP, LOST if n % 10 == 0 else NOP, TRAPB, RET])
                       for n in range(count)])
    asked = subprocess.Popen([sys.executable, os.path.join(HERE, "elf2image"), "--functions", path],
                             stdout=subprocess.PIPE, env=os.environ | {"ALPHA": ASKED})
    out = asked.stdout.read().decode()
    _, status, used = os.wait4(asked.pid, 0)
    asked.returncode = os.waitstatus_to_exitcode(status)
    want((asked.returncode, out.splitlines()[-1]),
         (3, "6004 symbols: 5403 accepted, 601 broken, 0 without a verdict; no /V word in 0"), "the verdicts")
    want(used.ru_utime + used.ru_stime < most, True, f"{used.ru_utime + used.ru_stime:.1f} seconds")
