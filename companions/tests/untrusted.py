"""Files that nobody vouches for: of two faces, with sizes that can't be, and with names that a terminal would obey."""
import os
import shlex
import struct
import subprocess
import sys
import tempfile

from parts import ecoff, elf, files, image, places, program, shown, written
from .helpers import ASKED, HERE, TOP, Failed, companion, data, needs_program, read, want, write

AWAY = 0x120000000
# `addq/v $1,$2,$1` and `ret`, which is broken by C2, and the same without /V.
BROKEN, WHOLE = struct.pack("<II", 0x40220C01, 0x6BFA8001), struct.pack("<II", 0x40220401, 0x6BFA8001)
MEGABYTE = 1 << 20


def written_elf(code=BROKEN, symbols=((AWAY, "f", 8),), base=AWAY):
    return written.Written([written.Part(".text", written.READ | written.EXECUTE, base, code, len(code))], base,
                           list(symbols)).spelled()


def header_of(content, name):
    """The offset of the header of a section."""
    whole = struct.unpack_from("<Q", content, 40)[0]
    count, names = struct.unpack_from("<HH", content, 60)
    text, = struct.unpack_from("<Q", content, whole + 64 * names + 24)
    return next(at for at in range(whole, whole + 64 * count, 64)
                if content[text + struct.unpack_from("<I", content, at)[0]:].startswith(name + b"\0"))


# Calls a companion and says what memory it took. What a process is said to take counts from where it was forked, so it
# is called by a small one.
CALLS = """import resource, subprocess, sys
status = subprocess.call(sys.argv[2:])
with open(sys.argv[1], "w") as taken:
    taken.write(str(resource.getrusage(resource.RUSAGE_CHILDREN).ru_maxrss))
sys.exit(status)"""


def measured(name, *words):
    """The status of a companion, its output, its notes, and the kilobytes of memory that it took."""
    with tempfile.NamedTemporaryFile("r") as taken:
        call = subprocess.run([sys.executable, "-c", CALLS, taken.name, sys.executable, os.path.join(HERE, name),
                               *words],
                              capture_output=True, env=os.environ | {"ALPHA": ASKED})
        out, notes = (text.decode("utf-8", "replace") for text in (call.stdout, call.stderr))
        return call.returncode, out, notes, int(taken.read())


def refused_in_one_line(name, *words):
    """The line of a refusal, for which no more than 200 MB may be taken."""
    status, out, notes, kilobytes = measured(name, *words)
    want((status, out, notes.count("\n"), "Traceback" in notes), (1, "", 1, False),
         f"{name} {' '.join(words)}: {notes[-300:]}")
    want(kilobytes < 200 << 10, True, f"{kilobytes} kB of memory for {name} {' '.join(words)}")
    return notes


def reads_or_refuses(path, kind, what):
    """Reads a linked file in this process. It may be refused, by one line."""
    try:
        kind(path, files.Parts(path), True)
    except files.Refused as refused:
        want(str(refused).count("\n"), 0, what)


@needs_program
def test_a_file_of_two_faces_is_refused(folder):
    """Sections of words without /V, over a part of memory that is loaded with broken ones."""
    path, out = os.path.join(folder, "a.elf"), os.path.join(folder, "a.img")
    base = 0x12000
    honest = written_elf(base=base, symbols=[(base, "f", 8)])
    write(path, honest)
    companion("elf2image", path, out)
    os.unlink(out)
    content = bytearray(honest) + WHOLE
    struct.pack_into("<Q", content, header_of(content, b".text") + 24, len(honest))
    write(path, bytes(content))
    for words in ([path, out], ["--functions", path], ["--function", "f", path, out]):
        want("has other bytes than are loaded there" in refused_in_one_line("elf2image", *words), True, "other bytes")
    # A section that isn't loaded at all, and one of instructions that isn't loaded as code.
    for at, layout, value, said in ((16, "<Q", base + 0x2000, "isn't loaded"), (4, "<I", 6, "isn't loaded as code")):
        content = bytearray(honest)
        struct.pack_into(layout, content, (header_of(content, b".text") if layout == "<Q" else 64) + at, value)
        write(path, bytes(content))
        want(said in refused_in_one_line("elf2image", path, out), True, said)
    want(os.path.exists(out), False, "OUT")


def test_an_ecoff_file_of_two_faces_is_refused(folder):
    """A section of other words than a system loads by the sizes and addresses of the program."""
    path, whole, text = os.path.join(folder, "a.ecoff"), read(data("sort.ecoff"), "rb"), 24 + 80
    at, = struct.unpack_from("<Q", whole, text + 32)
    length, = struct.unpack_from("<Q", whole, text + 24)

    def refuses(say, *numbers, more=b""):
        content = bytearray(whole)
        for offset, layout, number in numbers:
            struct.pack_into(layout, content, offset, number)
        write(path, bytes(content) + more)
        try:
            ecoff.Ecoff(path, files.Parts(path))
        except files.Refused as why:
            want(say in str(why), True, str(why))
            return
        raise Failed(f"{say}: it is taken")

    other = bytearray(whole[at:at + length])
    struct.pack_into("<I", other, 0, 0x40220C01)
    write(path, whole)
    ecoff.Ecoff(path, files.Parts(path))
    refuses("has other bytes than are loaded there", (text + 32, "<Q", len(whole)), more=bytes(other))
    refuses("isn't loaded, or not all of it", (24 + 8, "<Q", 0x10))
    refuses("has instructions, and isn't loaded as code", (text + 64 + 60, "<I", 0x20))
    refuses("share addresses", (24 + 48, "<Q", 0x13000))
    refuses("neither OMAGIC", (24, "<H", 0x10A))
    # Words between the headers and the text, which a system that goes from the first byte on would run.
    refuses("has other bytes than are loaded there", (0x1000, "<I", 0x40220C01))


@needs_program
def test_words_loaded_as_code_that_no_section_has_are_refused_or_said(folder):
    """The section is shorter than what is loaded: behind it stands a broken word."""
    path, out, base = os.path.join(folder, "a.elf"), os.path.join(folder, "a.img"), 0x12000
    content = bytearray(written_elf(WHOLE + BROKEN, [(base, "f", 8)], base))
    struct.pack_into("<Q", content, header_of(content, b".text") + 32, 8)
    write(path, bytes(content))
    want("8 bytes from 0x12008 on are loaded as code" in refused_in_one_line("elf2image", path, out), True, "an image")
    told, _ = companion("elf2image", "--functions", path)
    want("8 bytes from 0x12008 on are loaded as code too" in told, True, told)


@needs_program
def test_two_parts_of_memory_in_one_page_are_refused(folder):
    """Linux maps whole pages, so the second part would hide the first one's words."""
    path, out, base = os.path.join(folder, "a.elf"), os.path.join(folder, "a.img"), 0x12000
    content = bytearray(written.Written([written.Part(".text", 5, base, WHOLE, 8),
                                         written.Part(".data", 6, base + 0x2000, BROKEN, 8)],
                                        base, []).spelled())
    data_at = header_of(content, b".data")
    moved = base + 0x10
    struct.pack_into("<Q", content, data_at + 16, moved)
    offset, = struct.unpack_from("<Q", content, data_at + 24)
    for at, value in ((8, offset + 0x10), (16, moved)):
        struct.pack_into("<Q", content, 64 + 56 + at, value)
    struct.pack_into("<Q", content, data_at + 24, offset + 0x10)
    write(path, bytes(content))
    want("share the page" in refused_in_one_line("elf2image", path, out), True, "a page")


@needs_program
def test_images_come_back_from_the_files_that_image2elf_makes(folder):
    asked, made, there, back = (program.Program(ASKED),
                                *(os.path.join(folder, name) for name in ("a.img", "a.elf", "b.img")))
    for name in ("factorial", "segments", "cat"):
        want(asked.call("asm", os.path.join(TOP, "examples", f"{name}.s"), made), (0, b"", ""), name)
        for words in ([], ["--handler"]):
            companion("image2elf", *words, made, there)
            companion("elf2image", there, back)
            want(read(back, "rb"), read(made, "rb"), f"{name} {words}")
    # Other first words than image2elf writes are code as all other.
    content = bytearray(read(there, "rb"))
    offset, = struct.unpack_from("<Q", content, header_of(content, b".start") + 24)
    content[offset + 60] ^= 1
    write(there, bytes(content))
    companion("elf2image", there, back, status=1)


HUGE = (1 << 64) - 1


def test_sizes_that_cannot_be_are_refused_in_one_line(folder):
    path = os.path.join(folder, "a")
    whole = read(data("sum.elf"), "rb")
    symtab, text = header_of(whole, b".symtab"), header_of(whole, b".text")
    for at, value in [(40, HUGE), (32, HUGE), (symtab + 24, HUGE), (symtab + 32, 1 << 63), (text + 24, 1 << 63),
                      (text + 32, HUGE - 7),
                      (text + 16, HUGE - 7), (64 + 56 + 32, HUGE), (64 + 56 + 8, HUGE - 0x1FFF)]:
        write(path, with_number(whole, "<Q", at, value))
        try:
            elf.Elf(path)
        except files.Refused as refused:
            want(str(refused).count("\n"), 0, f"{value:#x} at {at}")
        else:
            want("read", "refused", f"{value:#x} at {at}")
    refused_in_one_line("elf2image", "--functions", path)
    whole = read(data("sort.ecoff"), "rb")
    at, = struct.unpack_from("<Q", whole, 8)
    for layout, first, count in (("<Q", at + 48, 12), ("<I", at + 4, 11)):
        size = struct.calcsize(layout)
        for n in range(count):
            write(path, with_number(whole, layout, first + size * n, (1 << 8 * size) - 1))
            reads_or_refuses(path, ecoff.Ecoff, f"number {n} of {size} bytes of the symbolic header")


def with_number(content, layout, at, value):
    changed = bytearray(content)
    struct.pack_into(layout, changed, at, value)
    return bytes(changed)


@needs_program
def test_a_symbol_of_impossible_size_has_no_verdict(folder):
    path = os.path.join(folder, "a")
    write(path, written_elf(BROKEN, [(AWAY, "f", 1 << 63)]))
    out, _ = companion("elf2image", "--functions", path)
    want(out.splitlines()[0], f"{AWAY:016x} {1 << 63:08x} f: no verdict: no row of words: {1 << 63} bytes in .text",
         "the line")


@needs_program
def test_many_names_of_one_function_are_judged_once(folder):
    path, asked, log = (os.path.join(folder, name) for name in ("a.elf", "asked", "log"))
    write(path, written_elf(symbols=[(AWAY, f"f{n}", 8) for n in range(300)]))
    write(asked, f'#!/bin/sh\necho >> {shlex.quote(log)}\nexec {shlex.quote(ASKED)} "$@"\n'.encode())
    os.chmod(asked, 0o755)
    told, _ = companion("elf2image", "--functions", "--all", "--alpha", asked, path, status=3)
    want((told.count("broken trigger"), read(log).count("\n") < 10), (600, True), told[-300:])


def test_files_with_holes_are_not_read_whole(folder):
    path, out = os.path.join(folder, "a"), os.path.join(folder, "b")
    for front, words in ((b"\x7fELF", ["elf2image", path, out]), (b"\x83\x01", ["elf2image", "--functions", path]),
                         (b"!<arch>\n", ["elf2image", "--functions", path]), (b"ALPHAIM1", ["allbroken", path]),
                         (b"ALPHAOB1", ["shadowmap", path]), (b"ALPHAJR1", ["journal", "dump", path]),
                         (b"", ["image2elf", path, out]),
                         (b"", ["where", "--map", path, "10000"]), (b"", ["gas2source", path])):
        write(path, front)
        os.truncate(path, 4 << 30)
        refused_in_one_line(*words)
    want(os.path.exists(out), False, "OUT")


def test_a_text_takes_a_few_times_its_memory(folder):
    """Many lines, and more names and more bytes than a source may have."""
    path, out = os.path.join(folder, "a.s"), os.path.join(folder, "a.out")
    write(path, b"\t.globl f\nf:\n" + b"\taddq $1,$2,$3\n" * 60_000)
    status, _, notes, kilobytes = measured("gas2source", "--entry", "f", path, "-o", out)
    want((status, kilobytes < 60 << 10), (0, True), f"{kilobytes} kB of memory: {notes}")
    os.unlink(out)
    write(path, "".join(f"a{n}:\n" for n in range(530_000)).encode())
    refused_in_one_line("gas2source", path, "-o", out)
    want(os.path.exists(out), False, "OUT")


EVIL = "ok\x1b[2J\nbroken trigger 0000000000010000 at 0000000000010000 condition C1"


@needs_program
def test_names_of_a_file_are_escaped_wherever_they_are_printed(folder):
    """A symbol whose name clears a screen and forges a verdict."""
    path, out, symbols = (os.path.join(folder, name) for name in ("a.elf", "a.img", "a.map"))
    names = [EVIL, " blank ", "a\u2028b", "a\x85b", "ü"]
    write(path, written_elf(BROKEN * 5, [(AWAY + 8 * n, name, 8) for n, name in enumerate(names)]))
    told, _ = companion("elf2image", "--functions", path, status=3)
    lines = told.splitlines()
    wanted = ["ok\\x1b[2J\\x0abroken trigger 0000000000010000 at 0000000000010000 condition C1", "\\x20blank\\x20",
              "a\\u2028b", "a\\x85b", "ü"]
    want([line.split(" ", 2)[2].split(": broken")[0] for line in lines[:5]], wanted, "names")
    want(len(lines), 6, "lines")
    companion("elf2image", "--function", f"{AWAY:016x}", path, out, "--map", symbols)
    want(list(places.read_map(symbols).functions), wanted[:1], "the map")
    for words in (["where", "--map", symbols, "--image", out, "10000"], ["shadowmap", "--map", symbols, out],
                  ["allbroken", "--map", symbols, out], ["image2elf", "--map", symbols, out, path]):
        told, notes = companion(*words, status=3 if words[0] == "allbroken" else 0)
        want(("\x1b" in told + notes, "\nbroken trigger 0000000000010000 at 0000000000010000 condition C1\n" in told),
             (False, False), told)
    want([symbol.name for symbol in elf.Elf(path).symbols], wanted[:1], "the file again")


def test_text_from_files_is_escaped_in_refusals(folder):
    path = os.path.join(folder, "a.s")
    write(path, b"\t.text\n\t\x1b]0 $1\n\tldq $1,\xff\x07\n")
    _, notes = companion("gas2source", path, status=1)
    want(("\x1b" in notes, "`\\x1b]0 $1`" in notes, "\x07" in notes), (False, True, False), notes)
    want([shown.name("a\tb "), shown.text("\udcff"), shown.name("  ")], ["a\\x09b\\x20", "\\xff", "\\x20\\x20"],
         "shown")


def test_no_more_is_read_than_a_kind_of_file_may_have(folder):
    path = os.path.join(folder, "a.img")
    write(path, b"ALPHAIM1")
    os.truncate(path, files.MOST_IMAGE + 1)
    try:
        image.read_image(path)
    except files.Refused as refused:
        want(str(refused), f"{path}: more than {files.MOST_IMAGE} bytes, the most that are read", "an image")
    else:
        want("read", "refused", "an image")
