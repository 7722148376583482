"""Sources that an image was made of, and others: where, shadowmap and allbroken."""
import os
import random

from parts import files, image, module, places, program
from .helpers import ASKED, Failed, companion, needs_program, read, want, write
from .modules import linked, modules

NAMES = ("where", "shadowmap", "allbroken")


def companion_on(name, made, sources, status=0):
    """A companion's call on an image with sources."""
    said = [word for source in sources for word in ("--source", source)]
    if name == "where":
        return companion(name, *said, "--image", made, "10000", status=status)
    return companion(name, made, *said, status=status)


@needs_program
def test_each_address_of_a_linked_image_has_the_line_of_its_module(folder):
    sources = list(modules(folder).values())
    made = linked(program.Program(ASKED), folder, sources)
    said = [word for source in sources for word in ("--source", source)]
    lines = program.Program(ASKED).code_lines(made)
    out, _ = companion("where", *said, "--image", made, *(f"{0x10000 + 4 * n:x}" for n in range(len(lines))))
    rows = out.splitlines()
    want(len(rows), len(lines), "rows")
    # The module of each word, by where a link puts it: the code of each behind that before it.
    owners = [os.path.basename(source) for source in sources
              for _ in module.read_module(source.replace(".as", ".mod")).words]
    for row, owner, line in zip(rows, owners, lines):
        told = row.partition(f", {owner}:")[2].partition(": ")[2]
        if (not told
            or told.split()[0] != line.split()[0] and not told.startswith(("mov ", "clr ", "nop", "unop", "ret"))):
            raise Failed(f"{row}, and the word is {line} of {owner}")


def fits(asked, made, sources, said=""):
    """Holds sources to an image, in this process: where `said` isn't empty, a refusal must say it."""
    try:
        places.Places(sources).hold(asked, made)
    except files.Refused as refused:
        want((said != "", said in str(refused)), (True, True), str(refused))
        return
    want(said, "", "what was wanted to be refused was not")


@needs_program
def test_sources_of_other_modules_are_refused(folder):
    asked, sources = program.Program(ASKED), list(modules(folder).values())
    made = linked(asked, folder, sources)
    fits(asked, made, sources)
    fits(asked, made, sources[:-1], "in the order")
    fits(asked, made, [sources[1], sources[0], *sources[2:]], "main.as:")
    for name in NAMES:
        _, notes = companion_on(name, made, sources[1:2], status=1)
        want("--source for each module" in notes, True, notes)


@needs_program
def test_a_changed_line_is_named(folder):
    asked = program.Program(ASKED)
    source, made = os.path.join(folder, "a.as"), os.path.join(folder, "a.img")
    text = ("\t.entry s\n\t.code\ns:\tlda $1,%lo(x)($31)\n\tbr t\nt:\taddq/v "
            "$1,$2,$3\n\ttrapb\n\tcallsys\n\t.data\nx:\t.quad t\n\t.byte 7\n")
    write(source, text.encode())
    want(asked.call("asm", source, made), (0, b"", ""), "asm")
    fits(asked, made, [source])
    changes = [("addq/v $1,$2,$3", "addq/v $1,$2,$4", "a.as:5: this line makes 40220c04 at 0000000000010008, where"),
               ("br t", "br s", "a.as:4:"), (".byte 7", ".byte 8", "another byte at 0000000010000008"),
               ("\ttrapb\n", "", "5 code words"),
               (".byte 7", ".byte 7,7", "data bytes"),
               ("\t.code", "\t.codebase 0x12000\n\t.code", "begins at 0x10000, by"),
               ("lda $1", "ldq $1,", "source kind 1 line 3 "), ("lda $1", "ldq $1", "a.as:3:")]
    for old, new, said in changes:
        write(source, text.replace(old, new).encode())
        fits(asked, made, [source], said)


@needs_program
def test_a_source_with_a_level_is_held_by_its_segments(folder):
    asked = program.Program(ASKED)
    source, made = os.path.join(folder, "a.as"), os.path.join(folder, "a.img")
    text = ("\t.level 2\n\t.entry s\n\t.code\ns:\tctpop $1,$2\n\tcallsys\n\t.segment 0x10000000\n\t.byte 7\n\t.segment "
            "0x10002000\n\t.zero 9\n")
    write(source, text.encode())
    want(asked.call("asm", source, made), (0, b"", ""), "asm")
    fits(asked, made, [source])
    write(source, text.replace(".zero 9", ".zero 8").encode())
    fits(asked, made, [source], "has the segments")


@needs_program
def test_modules_are_read_as_the_program_writes_them(folder):
    asked = program.Program(ASKED)
    source, made = os.path.join(folder, "a.as"), os.path.join(folder, "a.mod")
    write(source,
          b"\t.code\nf:\tldah $1,%hi(far+70000)($31)\n\tlda $1,%lo(far-4)($1)\n\tbeq $1,f\n\t.data\n\t.quad "
          b"f+8\nd:\t.zero 3\n")
    want(asked.call("module", source, made), (0, b"", ""), "module")
    one = module.read_module(made)
    # The words of GNU as, with displacements of 0: ldah $1,0($31), lda $1,0($1), beq $1,.+4.
    want((one.words, one.data, one.zeroed), ([0x243F0000, 0x20210000, 0xE4200000], bytes(8), 3),
         "words, data, zeroed bytes")
    want([tuple(it) for it in one.symbols], [(1, "d", 8), (0, "f", 0), (2, "far", 0)], "symbols")
    want([tuple(it) for it in one.relocations], [(1, 0, 2, 70000), (2, 4, 2, -4), (0, 8, 1, 0), (3, 0, 1, 8)],
         "relocations")
    content = read(made, "rb")
    for cut in range(len(content)):
        try:
            module.module_of(content[:cut], "a.mod")
        except files.Refused:
            continue
        raise Failed(f"a module that is cut to {cut} bytes is read")


@needs_program
def test_damaged_images_and_sources_are_refused(folder):
    """where, shadowmap and allbroken end with a line and status 1, whatever the files hold."""
    asked = program.Program(ASKED)
    source, made, bad = (os.path.join(folder, name) for name in ("a.as", "a.img", "bad"))
    write(source, b"\t.entry s\ns:\taddq/v $1,$2,$3\n\tcallsys\n")
    want(asked.call("asm", source, made), (0, b"", ""), "asm")
    content = read(made, "rb")
    damaged = [b"", content[:20], content[:-1], content + b"\0", b"ALPHAIM2" + content[8:],
               content[:32] + b"\xff" * 4 + content[36:],
               content[:48] + b"\xff" * 4 + content[52:]]
    for count, one in enumerate(damaged):
        write(bad, one)
        companion_on(NAMES[count % 3], bad, [source], status=1)
    for count, one in enumerate([b"", b"\0" * 9, b"\xff\xfe\t.entry s\n", content, b"\t.align\n", b".zero x\n",
                                 b".codebase\n"]):
        write(bad, one)
        companion_on(NAMES[count % 3], made, [bad], status=1)


def random_module(chosen, number):
    """The lines of a module with labels in its code and its data, and the names of these labels."""
    lines, names = ["\t.code"], []
    for n in range(chosen.randrange(4)):
        names.append(f"c{number}_{n}")
        lines += [f"{names[-1]}:\tnop"] + ["\tlda $1,1($31)"] * chosen.randrange(3)
    lines.append("\t.data")
    values = ["\t.byte 1,2,3", '\t.ascii "a\\x41,\\"b"', "\t.quad 5", "\t.align 3", "\t.align 13", "\t.word 7"]
    for n in range(chosen.randrange(6)):
        names.append(f"d{number}_{n}")
        lines += [f"{names[-1]}:", chosen.choice(values)]
    if chosen.randrange(2):
        names.append(f"z{number}")
        lines.append(f"{names[-1]}:\t.zero {chosen.choice((0, 1, 8191, 8192, 20000))}")
    return lines, names


@needs_program
def test_labels_of_modules_stand_where_the_link_puts_them(folder):
    """The last module has the address of each label of the others as a quadword, which the link fills in."""
    asked, chosen = program.Program(ASKED), random.Random(19)
    for _ in range(4):
        made = [random_module(chosen, number) for number in range(4)]
        names = [name for _, part in made for name in part]
        made.append((["_start:\tcallsys", "\t.data", *(f"\t.quad {name}" for name in names)], []))
        sources = [os.path.join(folder, f"{number}.as") for number in range(len(made))]
        for source, (lines, _) in zip(sources, made):
            write(source, "".join(f"{line}\n" for line in lines).encode())
        path = linked(asked, folder, sources)
        fits(asked, path, sources)
        laid = places.laid_out(sources)
        table = image.read_image(path).segments[0].data[laid[-1].begin - laid[0].begin:]
        addresses = {name: address for source in laid for address, name, _ in source.names.rows}
        want([addresses[name] for name in names],
             [int.from_bytes(table[8 * n:8 * n + 8], "little") for n in range(len(names))], "labels")
