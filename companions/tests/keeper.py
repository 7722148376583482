"""The keeper's road: verdicts of functions, ECOFF files, ELF files of images, and repairs that move no word."""
import os
import random
import re
import shutil
import struct
import subprocess
import sys

from parts import elf, functions, image, judged, linked, program, table
from .helpers import (ASKED, HERE, TOP, Failed, Lacking, blocks, companion, data, needs_program, read, rows,
                      runs_as_shown, want, write)

RAW = os.path.join(TOP, "examples", "raw_image.py")
AWAY = 0x120000000


def by_hand(asked, folder, path):
    """What a loop of cutting bytes, raw_image.py and check says of each function of an ELF file that has a size."""
    whole = elf.Elf(path)
    text = next(section for section in whole.sections if section.flags & elf.EXEC)
    code, made = os.path.join(folder, "one.code"), os.path.join(folder, "one.img")
    told = {}
    for symbol in whole.symbols:
        if symbol.kind == "func" and symbol.size:
            start = symbol.address - text.address
            write(code, text.content[start:start + symbol.size])
            subprocess.run([sys.executable, RAW, code, made], check=True)
            found = asked.verdict(made)
            moved = symbol.address - 0x10000
            told[f"{symbol.address:016x} {symbol.size:08x} {symbol.name}"] = "accepted" if found is None else (
                f"broken trigger {found[0] + moved:016x} at {found[1] + moved:016x} condition C{found[2]}")
    return told


def verdicts_of(path):
    """What --functions says, by the front of each line, and its last line."""
    out, _ = companion("elf2image", "--functions", path, status=3)
    lines = out.splitlines()
    return dict(line.split(": ", 1) for line in lines[:-1]), lines[-1]


def moved_elf(path, distance):
    """A linked ELF file with all addresses of its parts, sections and symbols a distance higher. Its words are as they
    were."""
    content = bytearray(read(path, "rb"))
    programs, table = struct.unpack_from("<QQ", content, 32)
    for at in range(programs, programs + 56 * content[56], 56):
        address, = struct.unpack_from("<Q", content, at + 16)
        struct.pack_into("<Q", content, at + 16, address + distance)
    size, count = struct.unpack_from("<HH", content, 58)
    for n in range(count):
        at = table + n * size
        kind, flags, address, offset, length = struct.unpack_from("<4xIQQQQ", content, at)
        if flags & 2:
            struct.pack_into("<Q", content, at + 16, address + distance)
        for symbol in range(offset, offset + length, 24) if kind == elf.SYMTAB else ():
            value, = struct.unpack_from("<Q", content, symbol + 8)
            struct.pack_into("<Q", content, symbol + 8, value + distance)
    return bytes(content)


@needs_program
def test_functions_are_judged_as_a_loop_by_hand_judges_them(folder):
    asked = program.Program(ASKED)
    wanted = by_hand(asked, folder, data("sort.elf"))
    told, last = verdicts_of(data("sort.elf"))
    want(sorted(name.split()[2] for name, verdict in wanted.items() if verdict != "accepted"),
         ["main", "print", "sift"], "broken")
    want({name: told[name].split(";")[0] for name in wanted}, wanted, "verdicts")
    want(told["0000000000012424 0000000c by_zero"], "accepted; no /V word", "a label without a size")
    want(told["0000000000017c10 00000000 _end"], "no verdict: no code", "a symbol outside the code")
    want(last, "24 symbols: 18 accepted, 3 broken, 3 without a verdict; no /V word in 18", "counts")
    away = os.path.join(folder, "away.elf")
    write(away, moved_elf(data("sort.elf"), AWAY))
    higher = {re.sub(r"^[0-9a-f]{16}", lambda hit: f"{int(hit[0], 16) + AWAY:016x}", name):
              re.sub(r"[0-9a-f]{16}", lambda hit: f"{int(hit[0], 16) + AWAY:016x}", verdict)
              for name, verdict in told.items()}
    want(verdicts_of(away), (higher, last), "the same at another address")
    companion("elf2image", away, os.path.join(folder, "a.img"), status=1)


@needs_program
def test_a_function_without_a_verdict_says_why(folder):
    path, content = os.path.join(folder, "a.elf"), bytearray(read(data("sum.elf"), "rb"))
    text = next(section for section in elf.Elf(data("sum.elf")).sections if section.flags & elf.EXEC)
    at = content.index(text.content)
    # main has 0x144 bytes and /V words, _start has 0x20 and none.
    struct.pack_into("<II", content, at + 8, 0x5FFF041F, 0x63E0C000)
    struct.pack_into("<I", content, at + 0x150, 0x9D)
    write(path, content)
    told, _ = verdicts_of(path)
    want(told["0000000000012000 00000144 main"],
         "broken trigger 000000000001205c at 0000000000012060 condition C7; 2 words outside the table", "main")
    want(told["0000000000012150 00000020 _start"],
         "accepted but for words in no shadow: 0000000000012150 is 0000009d: PALcode call 0x9d; no /V word", "_start")
    companion("elf2image", "--function", "main", path, os.path.join(folder, "a.img"), status=1)
    for table in range(len(content) - 9 * 64, len(content), 64):
        if struct.unpack_from("<I", content, table + 4)[0] == elf.SYMTAB:
            struct.pack_into("<I", content, table + 4, 0)
    struct.pack_into("<II", content, at + 8, 0x47FF041F, 0x47FF041F)
    struct.pack_into("<I", content, at + 0x150, 0x47FF041F)
    write(path, content)
    told, last = verdicts_of(path)
    want(told["0000000000012000 00000144 .text"], "broken trigger 000000000001205c at 0000000000012060 condition C7",
         "a stripped file")
    want(last.startswith(f"{len(told)} rows of words in no symbol: "), True, last)
    companion("elf2image", "--function", ".text", path, os.path.join(folder, "a.img"))


# Four functions, of which two have names: `addq/v $1,$2,$3`, a word of floating point, `trapb`, `ret`; then `addq/v
# $1,$2,$1`, `ret`, a filler; then `addq/v $1,$2,$3`, `trapb`, a word of floating point, `ret`; then `ret`.
MIXED = struct.pack("<12I", 0x40220C03, 0x5FFF040B, 0x63FF0000, 0x6BFA8001, 0x40220C01, 0x6BFA8001, 0x47FF041F,
                    0x40220C03, 0x63FF0000,
                    0x5FFF040B, 0x6BFA8001, 0x6BFA8001)


@needs_program
def test_code_in_no_symbol_and_words_of_floating_point_have_verdicts(_):
    whole = linked.Linked("a file", b"")
    text = linked.Section(".text", linked.PROGBITS, linked.EXEC, AWAY, MIXED, len(MIXED))
    whole.sections = [text]
    whole.symbols = [linked.Symbol(AWAY, 16, "func", "first"), linked.Symbol(AWAY + 44, 4, "func", "last")]
    wanted = {"first": f"no verdict: {AWAY + 4:016x} is 5fff040b: floating point, opcode 17, in the shadow of "
                       f"{AWAY:016x}",
              ".text+0x10": f"broken trigger {AWAY + 16:016x} at {AWAY + 16:016x} condition C2",
              ".text+0x1c": f"accepted but for words in no shadow: {AWAY + 36:016x} is 5fff040b: floating point, "
                            f"opcode 17",
              "last": "accepted; no /V word"}
    for symbols, names in [(whole.symbols, list(wanted)), ([], [".text", ".text+0x10", ".text+0x1c", ".text+0x2c"])]:
        whole.symbols = symbols
        found = functions.functions_of(whole)
        told = [lines[0] for lines in judged.verdicts(program.Program(ASKED), found, 2)]
        want([(one.symbol.name, said) for one, said in zip(found, told)], list(zip(names, wanted.values())), names)
    want([one.size for one in found], [16, 8, 16, 4], "sizes")


@needs_program
def test_one_symbol_has_an_image(folder):
    asked, made, symbols = program.Program(ASKED), os.path.join(folder, "a.img"), os.path.join(folder, "a.map")
    companion("elf2image", "--function", "sift", data("sort.elf"), made, "--map", symbols)
    # sift begins at 125f0, and its verdict names 125f8 and 125fc.
    want((asked.verdict(made), read(symbols)), ((0x10008, 0x1000C, 3), "0000000000010000 00000138 func sift\n"), "sift")
    first = read(made, "rb")
    companion("elf2image", "--function", "0x125f0", data("sort.elf"), made)
    want(read(made, "rb"), first, "by its address")
    for words, said in ([["--function", "nobody", data("sort.elf"), made], "nobody"],
                        [["--function", "_end", data("sort.elf"), made], "no code"]):
        want(said in companion("elf2image", *words, status=1)[1], True, words)
    for words in (["--functions", data("sort.elf"), made], [data("sort.elf")],
                  ["--functions", "--function", "x", data("sort.elf")]):
        companion("elf2image", *words, status=2)
    want(read(made, "rb"), first, "OUT after a refusal")


def test_ecoff_files_say_what_elf_files_say(folder):
    names = ("one.img", "two.img", "one.map", "two.map")
    one, two, one_map, two_map = (os.path.join(folder, name) for name in names)
    companion("elf2image", data("sort.elf"), one, "--map", one_map)
    companion("elf2image", data("sort.ecoff"), two, "--map", two_map)
    first, second = image.read_image(one), image.read_image(two)
    want((second.words, second.code_base, second.entry), (first.words, first.code_base, first.entry), "code")
    want([(it.base, it.data.rstrip(b"\0"), len(it.data) + it.zeroed) for it in second.segments],
         [(it.base, it.data.rstrip(b"\0"), len(it.data) + it.zeroed) for it in first.segments], "data")
    globals_in = {(line.split()[0], line.split()[3]) for line in read(two_map).splitlines()}
    want(globals_in <= {(line.split()[0], line.split()[3]) for line in read(one_map).splitlines()}, True, "symbols")
    want({("0000000000012000", "main"), ("000000000001252" + "0", "__reml")} <= globals_in, True, "main and __reml")
    if shutil.which("alpha-linux-gnu-objcopy") is None:
        raise Lacking("there is no alpha-linux-gnu-objcopy on the path, to write such a file anew")
    again = os.path.join(folder, "again.ecoff")
    subprocess.run(["alpha-linux-gnu-objcopy", "-O", "ecoff-littlealpha", data("sort.elf"), again], check=True)
    companion("elf2image", again, two)
    want(image.read_image(two).words, first.words, "objcopy's file")


# Two procedures, the second a static one, of one compiled file: `addq/v $1,$2,$1; ret`, and `ret`.
CODE = struct.pack("<III", 0x40220C01, 0x6BFA8001, 0x6BFA8001)


def written_ecoff(flags=0x1007, code=CODE):
    """An ECOFF file with the symbols of a compiled file, laid out by the declarations of binutils."""
    text_at, symbols_at = 176, 256
    head = struct.pack("<HHIQIHH", 0x183, 1, 0, symbols_at, 144, 80, flags)
    optional = struct.pack("<HHHHQQQQQQQIIQ", 0x107, 0, 0, 0, len(code), 0, 0, AWAY, AWAY, 0, 0, 0, 0, 0)
    section = struct.pack("<8sQQQQQQHHI", b".text", AWAY, AWAY, len(code), text_at, 0, 0, 0, 0, 0x20)
    texts, externals = b"\0first\0hidden\0", b"first\0"
    kinds = [(AWAY, 1, 6, 1), (AWAY + 8, 7, 14, 1), (0, 0, 11, 1)]
    rows_of = b"".join(struct.pack("<QII", value, name, kind | where << 6) for value, name, kind, where in kinds)
    files_at = symbols_at + 144 + len(rows_of)
    file = struct.pack("<QQQQ16I", AWAY, 0, 0, len(texts), 0, 0, 0, len(kinds), *[0] * 12)
    texts_at = files_at + 96
    externals_at = texts_at + len(texts) + len(externals)
    external = struct.pack("<QII", AWAY, 0, 6 | 1 << 6) + struct.pack("<II", 0, 0)
    counts = [0, 0, 0, len(kinds), 0, 0, len(texts), len(externals), 1, 0, 1]
    offsets = [0, 0, 0, 0, symbols_at + 144, 0, 0, texts_at, texts_at + len(texts), files_at, 0, externals_at]
    header = struct.pack("<HH11I12Q", 0x1992, 0, *counts, *offsets)
    front = head + optional + section
    front += bytes(text_at - len(front)) + code
    return front + bytes(symbols_at - len(front)) + header + rows_of + file + texts + externals + external


@needs_program
def test_static_procedures_of_ecoff_files_are_seen(folder):
    path, out = os.path.join(folder, "a.ecoff"), os.path.join(folder, "a.img")
    write(path, written_ecoff())
    told, _ = verdicts_of(path)
    want(told, {f"{AWAY:016x} 00000008 first": f"broken trigger {AWAY:016x} at {AWAY:016x} condition C2",
                f"{AWAY + 8:016x} 00000004 hidden": "accepted; no /V word"}, "functions")
    if shutil.which("alpha-linux-gnu-nm"):
        shown = subprocess.run(["alpha-linux-gnu-nm", path], capture_output=True, text=True, check=True).stdout
        want(f"{AWAY:016x} T first\n" in shown, True, shown)
    for content, said in [(written_ecoff(0x3007), "-non_shared"), (written_ecoff(0x1005), "object file"),
                          (b"\x88\x01" + bytes(200), "compressed")]:
        write(path, content)
        want(said in companion("elf2image", path, out, status=1)[1], True, said)
    write(path, written_ecoff(0x3007))
    want(verdicts_of(path)[0], told, "a file for a loader")
    want(os.path.exists(out), False, "OUT")


@needs_program
def test_damaged_files_give_functions_or_a_line(folder):
    """Cut short anywhere, or with other bytes, a file gives a table or a line on standard error."""
    chosen, path, out = random.Random(8), os.path.join(folder, "a"), os.path.join(folder, "b")
    wholes = [read(data("sort.ecoff"), "rb"), written_ecoff(), read(data("sum.elf"), "rb")]
    for content in wholes:
        heads = [0, max(0, len(content) - 1400)]
        damaged = [content[:chosen.randrange(len(content))] for _ in range(3)]
        for _ in range(3):
            other = bytearray(content)
            for _ in range(4):
                start = chosen.choice(heads)
                other[chosen.randrange(start, min(len(content), start + 700))] = chosen.choice((0, 1, 0x7F, 0xFF))
            damaged.append(bytes(other))
        for one in damaged:
            write(path, one)
            ends_well("elf2image", "--functions", path)
            ends_well("elf2image", path, out)
    made = os.path.join(folder, "c.img")
    companion("elf2image", data("sum.elf"), made)
    content = read(made, "rb")
    for one in [content[:chosen.randrange(len(content))] for _ in range(4)] + [
            content[:8] + bytes(chosen.choice((0, 0xFF)) for _ in range(40)) + content[48:] for _ in range(4)]:
        write(path, one)
        ends_well("image2elf", path, out)
    source, symbols = os.path.join(folder, "a.s"), os.path.join(folder, "a.map")
    write(source, b"\taddq/v $1,$2,$1\n")
    for one in (b"no map\n", b"\xff\xfe\0", b"0000000000010000 00000004 func f"):
        write(symbols, one)
        ends_well("shadowfix", "--map", symbols, source)
    want({"a", "c.img", "a.s", "a.map"} - set(os.listdir(folder)), set(), "files")
    want([name for name in os.listdir(folder) if name.startswith(".keep")], [], "files that are left")


def ends_well(name, *words):
    done = subprocess.run([sys.executable, os.path.join(HERE, name), *words], capture_output=True, check=False,
                          env=os.environ | {"ALPHA": ASKED})
    notes = done.stderr.decode("utf-8", "replace")
    if (done.returncode not in (0, 1, 3) or "Traceback" in notes
        or (done.returncode == 1) != bool(notes.strip()) and name != "shadowfix"):
        raise Failed(f"{name} {' '.join(words)}: status {done.returncode}: {notes}")


TOOLS = ("qemu-alpha", "alpha-linux-gnu-as", "alpha-linux-gnu-ld", "alpha-linux-gnu-objcopy")


@needs_program
def test_old_code_goes_the_way_of_the_page(folder):
    missing = [tool for tool in TOOLS if shutil.which(tool) is None]
    if missing:
        raise Lacking(f"there is no {', '.join(missing)} on the path")
    runs_as_shown(folder, "docs/old-code.md", blocks("docs/old-code.md"))


@needs_program
def test_a_listing_is_a_text_for_gnu_as(folder):
    """Every word that GNU as once made comes out of its listing again, but for the hints of jumps."""
    if shutil.which("alpha-linux-gnu-as") is None or shutil.which("alpha-linux-gnu-objcopy") is None:
        raise Lacking("there is no alpha-linux-gnu-as, or no alpha-linux-gnu-objcopy, on the path")
    made, text, again, code = (os.path.join(folder, name) for name in ("a.img", "a.s", "a.o", "a.code"))
    words = [int(word, 16) for _, word in rows("encodings.tsv")]
    write(made, image.Image(words, 0x10000, 0x10000, [], 65_536, 2).spelled())
    listing = subprocess.run([ASKED, "dis", made], capture_output=True, check=True).stdout
    labelled = subprocess.run(["awk", "-f", os.path.join(TOP, "examples", "labels.awk")], input=listing,
                              capture_output=True, check=True)
    turned = subprocess.run(["sed", "-E", "-f", os.path.join(TOP, "examples", "to-gnu.sed")], input=labelled.stdout,
                            capture_output=True,
                            check=True)
    write(text, turned.stdout)
    subprocess.run(["alpha-linux-gnu-as", text, "-o", again], check=True)
    subprocess.run(["alpha-linux-gnu-objcopy", "-O", "binary", "-j", ".text", again, code], check=True)
    found = [table.GNU_BARRIERS.get(word, word) for word, in struct.iter_unpack("<I", read(code, "rb"))]
    want([without_hint(word) for word in found], [without_hint(word) for word in words], "words")


def without_hint(word):
    """A word; of a jump that isn't a return, with a hint of 0."""
    return word & ~0x3FFF if word >> 26 == 0x1A and word >> 14 & 3 != 2 else word
