"""elf2image, on linked files that are whole and damaged."""
import os
import random
import struct
import subprocess
import sys

from parts import elf, image, program
from .helpers import ASKED, HERE, companion, data, needs_program, read, runs_alike, want


@needs_program
def test_linked_programs_are_refused_and_repaired(folder):
    asked = program.Program(ASKED)
    made, symbols = os.path.join(folder, "sum.img"), os.path.join(folder, "sum.map")
    companion("elf2image", data("sum.elf"), made, "--map", symbols)
    want(asked.verdict(made), (0x1205C, 0x12060, 7), "sum.elf")
    want("0000000000012000 00000144 func main\n" in read(symbols), True, "map")
    out, _ = companion("where", "--map", symbols, "--listing", made, given=asked.call("check", made)[2].encode())
    want(out.split("\n")[1:3], ["  000000000001205c main+0x5c, line 29 of the listing: subq/v $31,$0,$6",
                                "  0000000000012060 main+0x60, line 30 of the listing: ble $6,.+144"], "where")
    companion("elf2image", data("sum.fixed.elf"), made)
    want(asked.verdict(made), None, "sum.fixed.elf")
    runs_alike(asked, "sum", made)
    second = os.path.join(folder, "second.img")
    companion("elf2image", data("sum.fixed.elf"), second, "--level", "2", "--stack", "4096")
    want(read(second, "rb")[:8], b"ALPHAIM2", "version")
    runs_alike(asked, "sum", second)


def test_elf2image_sets_barriers_and_lists_other_words(folder):
    path, out = os.path.join(folder, "a.elf"), os.path.join(folder, "a.img")
    content = bytearray(read(data("sum.fixed.elf"), "rb"))
    text = next(section for section in elf.Elf(data("sum.fixed.elf")).sections if section.flags & elf.EXEC)
    at = content.index(text.content)
    companion("elf2image", data("sum.fixed.elf"), out)
    made = image.read_image(out)
    want(0x60000000 in struct.unpack(f"<{text.size // 4}I", text.content), True, "GNU's word of trapb")
    want((0x60000000 in made.words, made.words.count(0x63FF0000)), (False, 12), "barriers")
    keep = read(out, "rb")
    companion("elf2image", data("sum.elf"), out, "--map", os.path.join(folder, "no-folder", "map"), status=1)
    companion("elf2image", data("sum.elf"), folder, status=1)
    want((read(out, "rb"), os.listdir(folder)), (keep, ["a.img"]), "files after a refusal")
    struct.pack_into("<III", content, at + 8, 0x5FFF041F, 0x63E0C000, 0x0000009D)
    with open(path, "wb") as file:
        file.write(content)
    _, notes = companion("elf2image", path, out, status=1)
    want(notes.split("\n")[1:4], [f"elf2image:   {text.address + 4 * n:016x} main+{4 * n:#x}: {word}" for n, word in
                                  [(2, "5fff041f floating point, opcode 17"), (3, "63e0c000 rpcc"),
                                   (4, "0000009d PALcode call 0x9d")]],
         "words")
    want(read(out, "rb"), keep, "OUT after a refusal")


def test_damaged_files_are_refused_whole(folder):
    """An ELF file cut short anywhere or with other bytes gives an image or a line, and never a part of a file."""
    path, out = os.path.join(folder, "a.elf"), os.path.join(folder, "a.img")
    content, chosen = read(data("sum.elf"), "rb"), random.Random(3)
    damaged = [content[:chosen.randrange(len(content))] for _ in range(8)]
    for _ in range(16):
        other = bytearray(content)
        for _ in range(3):
            start = chosen.choice((0, len(content) - 900))
            other[chosen.randrange(start, min(len(content), start + 900))] = chosen.choice((0, 1, 0x7F, 0xFF))
        damaged.append(bytes(other))
    for one in damaged:
        with open(path, "wb") as file:
            file.write(one)
        done = subprocess.run([sys.executable, os.path.join(HERE, "elf2image"), path, out], capture_output=True,
                              check=False)
        notes = done.stderr.decode("utf-8", "replace")
        want(done.returncode in (0, 1) and "Traceback" not in notes, True, notes)
        want(os.path.exists(out), done.returncode == 0, notes)
        if done.returncode == 0:
            image.read_image(out)
            os.unlink(out)
    want(os.listdir(folder), ["a.elf"], "files that are left")
