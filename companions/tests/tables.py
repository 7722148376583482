"""The table of instructions and the model of the conditions, against files of crates/alpha_vectors and the program."""
import os
import random
import re

from parts import program, shadows, table
from .helpers import ASKED, Failed, companion, needs_program, rows, want, words_of, write_image


def test_the_table_has_the_words_of_gnu_as(_):
    aliases = {"nop", "unop", "mov", "clr", "not", "negl", "negq", "negl/v", "negq/v", "sextl", "call_pal"}
    for line, word in rows("encodings.tsv"):
        found = table.insn_of(int(word, 16))
        if found is None or found.name != line.split()[0] and line.split()[0] not in aliases:
            raise Failed(f"{word} is {found}, and {line} is wanted")


@needs_program
def test_the_table_has_the_words_of_the_program(folder):
    chosen = random.Random(41)
    words = [chosen.getrandbits(32) for _ in range(3_000)]
    words += [opcode << 26 | 31 << 21 | chosen.getrandbits(21) & 0x1FE0FFF for opcode in (0x11, 0x18, 0x1C)
              for _ in range(300)]
    words += [0x60000000 | function for function in (0, 0x400, 0x4000, 0x4400)] + list(table.PAL) + [0x85, 0xFFFF]
    asked, path = program.Program(ASKED), os.path.join(folder, "a.img")
    good = [word for word in words if table.insn_of(word)]
    bad = [word for word in words if not table.insn_of(word)]
    write_image(path, good, 2)
    asked.verdict(path)
    # An image has the first word outside the table as its fault: each of these must be it, in an image of its own.
    for word in chosen.sample(bad, 120):
        write_image(path, [0x47FF041F, word], 2)
        want(asked.call("check", path)[2], f"image kind 5 first 1 second {word}\n", f"{word:08x}")


def test_the_model_judges_as_the_vectors(_):
    for words, verdict in rows("shadows.tsv"):
        code = shadows.Code(words_of(words))
        least = shadows.least([shadows.Shadow(code, trigger) for trigger in code.triggers()])
        want("accepted" if least is None else "{} {} C{}".format(*least), verdict, words[:200])


@needs_program
def test_the_program_and_the_model_find_the_same_broken_triggers(folder):
    chosen, path = random.Random(5), os.path.join(folder, "a.img")
    alphabet = [word for words, _ in rows("shadows.tsv")[:60] for word in words_of(words)]
    for _ in range(8):
        words = [chosen.choice(alphabet) for _ in range(60)]
        write_image(path, words, 2)
        code = shadows.Code(words)
        wanted = [(shadow.trigger, *shadow.broken[0]) for trigger in code.triggers()
                  if (shadow := shadows.Shadow(code, trigger)).broken]
        out, _ = companion("allbroken", path, status=3)
        found = re.findall(r"^broken trigger (\S+) at (\S+) condition C(\d)", out, re.M)
        want([((int(a, 16) - 0x10000) // 4, (int(b, 16) - 0x10000) // 4, int(c)) for a, b, c in found], wanted,
             "broken")
        companion("shadowmap", path)
