"""What a user gives wrongly: each companion says what is wrong, and never answers for something else."""
import os
import struct

from parts import program
from .helpers import ASKED, HERE, companion, data, needs_program, read, want, write
from .modules import linked, modules

OF_X86 = b"\t.text\nmain:\n\tpushq %rbp\n\tmovq %rsp, %rbp\n\tmovl $0, %eax\n\tret\n"


def refused(name, *words, status=1):
    """The notes of a call that must be refused, without anything on standard output."""
    out, notes = companion(name, *words, status=status)
    want(out, "", f"the output of {name} {words}")
    return notes


def test_what_is_no_source_has_no_addresses(folder):
    """The compiler's text and the C program itself would be laid out at addresses that aren't theirs."""
    for path, line, name in ((data("sum.s"), 1, ".set"), (data("sum.c"), 4, "static")):
        want(refused("where", "--source", path, "10010"),
             f"where: {path}:{line}: `{name}` isn't of the source language: is it "
             "a source that `asm` takes, as gas2source makes one?\n", path)
    path = os.path.join(folder, "a.as")
    write(path,
          b"\t.level 2\n\t.stack 4096\n\t.entry s\n\t.segment 0x10000000\nx:\t.quad 1\n\t.code\ns:\tctpop "
          b"$1,$2\n\tfetch ($1)\n"
          b"\tcall_pal 131\n\tjsr_coroutine $26,($27),0\n\tnegq/v $1,$2\n\tsextl $1,$2\n\tclr $3\n\timplver "
          b"$0\n\tunop\n\twmb\n")
    want(companion("where", "--source", path, "10024")[0], "0000000000010024 s+0x24, a.as:16: wmb\n",
         "all kinds of names")


def test_what_is_no_text_is_named(folder):
    path = os.path.join(folder, "a")
    for content, said in ((read(data("sum.elf"), "rb"),
                           "an ELF file, which companions/elf2image reads where it is linked"),
                          (b"ALPHAIM1\0", "an image"), (b"ALPHAOB1\0", "a module"), (b"ALPHAJR1\0", "a journal")):
        write(path, content)
        for words in (("gas2source", path), ("shadowfix", path), ("where", "--source", path, "10000")):
            want(refused(*words), f"{words[0]}: {path}: no text: {said}\n", said)
    write(path, b"\tnop\n\0")
    want(refused("shadowfix", path), f"shadowfix: {path}: no text\n", "a byte of 0")


def test_shadowfix_takes_texts_for_the_alpha_alone(folder):
    path, out = os.path.join(folder, "a.s"), os.path.join(folder, "b.s")
    write(path, OF_X86)
    want(refused("shadowfix", path, "-o", out),
         f"shadowfix: {path}:3: `pushq` is no instruction of the Alpha, nor are 2 others "
         "of 4: is it a text for its assembler?\n", "a text for another processor")
    want("`static` is no instruction" in refused("shadowfix", data("sum.c"), "-o", out), True, "a C program")
    want(os.path.exists(out), False, "a file that is made")
    for content in (b"", b"\t.data\n\t.quad 1\n",
                    b"\taddqv $1,$2,$3\n\tmymacro $1\n\tldt $f1,0($2)\n\tldgp $29,0($27)\n\tdraint\n"):
        write(path, content)
        companion("shadowfix", path, "-o", out)


def test_a_label_without_globl_is_named(folder):
    path = os.path.join(folder, "a.s")
    write(path, b"\t.ent main\nmain:\tret\n\t.end main\n")
    start = os.path.join(HERE, "start.s")
    want(refused("gas2source", start, path),
         f"gas2source: {start}:8: nothing defines main: it is a label of {path}, without .globl\n",
         "what is missing")


@needs_program
def test_a_file_that_is_no_image_is_called_so(folder):
    path = os.path.join(folder, "none.img")
    for words in (("allbroken", path), ("shadowmap", path), ("where", "--listing", path, "10000")):
        want(refused(*words), f"{words[0]}: {path}: No such file or directory\n", words[0])
    want(refused("journal", "first", data("sum.s"), data("sum.s")),
         f"journal: {data('sum.s')}: no image: the program answers status 4: "
         "image kind 2 first 0 second 0\n", "journal")
    for name in ("allbroken", "shadowmap"):
        want(refused(name, data("sum.s")),
             f"{name}: {data('sum.s')}:1: `.set` isn't of the source language: is it a source that `asm` "
             "takes, as gas2source makes one?\n", name)
        want("an ELF file, which companions/elf2image reads" in refused(name, data("sum.elf")), True, name)


def test_gas2source_never_writes_over_what_it_reads(folder):
    path = os.path.join(folder, "a.s")
    write(path, b"\t.globl f\nf:\tret\n\t.globl g\ng:\tret\n")
    notes = refused("gas2source", "--entry", "f", path, "-o", os.path.join(folder, ".", "a.s"), status=2)
    want(("a.s is both a file to read and the source to make" in notes, read(path)[:9]), (True, "\t.globl f"),
         "the file")


def test_gas2source_says_what_is_missing(folder):
    path = os.path.join(folder, "a.s")
    write(path, b"\t.globl f\nf:\tret\n\t.globl g\ng:\tret\n")
    want(refused("gas2source", "--entry", "h", path),
         f"gas2source: {path}:1: no file defines the entry h with .globl; defined so "
         "are f, g\n", "another entry")
    write(path, b"\t.globl f\nf:\tjsr $26,__mulvti3\n\tjsr $26,__other\n")
    want(refused("gas2source", "--entry", "f", path),
         f"gas2source: {path}:2: nothing defines __mulvti3: gcc has it in its own "
         f"library, libgcc, so a further file must have it\ngas2source: {path}:3: nothing defines __other\n",
         "names of a library")


def test_a_map_has_the_symbols_of_memory_alone(folder):
    """A symbol of a section that isn't in memory, as a debugger's is, has an address all the same."""
    content, made, symbols = (bytearray(read(data("sum.elf"), "rb")), os.path.join(folder, "a.img"),
                              os.path.join(folder, "a.map"))
    at = content.index(struct.pack("<QQ", 0x14000, 64))
    content[at - 2:at] = content[62:64]
    write(os.path.join(folder, "a.elf"), bytes(content))
    companion("elf2image", os.path.join(folder, "a.elf"), made, "--map", symbols)
    want(("weights" in read(symbols), "func print" in read(symbols)), (False, True), "the map")
    lines = companion("where", "--map", symbols, "12004", "10000", "99999999")[0].splitlines()
    want(lines, ["0000000000012004 main+0x4", *(f"{address} nothing is known of it" for address in
                                                ("0000000000010000", "0000000099999999"))], "where")


@needs_program
def test_a_map_of_another_program_is_refused(folder):
    made, other, symbols = (os.path.join(folder, name) for name in ("a.img", "b.img", "a.map"))
    companion("elf2image", data("sum.elf"), made, "--map", symbols)
    with open(os.path.join(folder, "b.s"), "w", encoding="ascii") as file:
        file.write("\t.entry s\ns:\taddq/v $1,$2,$1\n\ttrapb\n")
    want(program.Program(ASKED).call("asm", file.name, other)[0], 0, "asm")
    for words in (("where", "--map", symbols, "--image", other, "12000"), ("allbroken", "--map", symbols, other)):
        want(refused(*words),
             f"{words[0]}: {other} has no code at 0000000000012000, where the map has main: is it the map of that "
             "image?\n", words[0])
    out, _ = companion("where", "--image", other, "10000")
    want(out, "0000000000010000 line 6 of the listing: addq/v $1,$2,$1\n", "an image alone")


@needs_program
def test_sources_of_another_image_are_found_by_its_notes(folder):
    """`where` is told no image. But an overflow is at a /V word, and in another order one of the sources has none
    there."""
    asked = program.Program(ASKED)
    sources = list(modules(folder).values())
    made = linked(asked, folder, sources)
    notes = asked.call("run", made, given=b"12 3000000 70000000000 9\n")[2]
    address = notes.split()[1]
    why = f"by --source no /V word is at {address}: are these the sources of the image, in the order of the link? " \
        "--image IMAGE tells where they differ\n"
    for order, status in ((sources, 0), ([sources[0], *sources[:0:-1]], 1), (sources[:1], 1)):
        given = [word for source in order for word in ("--source", source)]
        out, said = companion("where", *given, given=notes.encode(), status=status)
        told = out.startswith(f"overflow {address}\n"), "mulq/v" in out, out.endswith("exit 4\n")
        want((told, said), ((True, status == 0, True), f"where: {why}" if status else ""), f"status {status}")
        out, said = companion("explain", "overflow", address, *given, status=status)
        want(("mulq/v" in out, said), (status == 0, f"explain: {why}" if status else ""), "explain")
