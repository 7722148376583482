#!/usr/bin/env python3
"""Measures `module` on large sources: how many host instructions it takes a line beside `asm` of the same lines, how
much memory a byte of the source, and how the time grows with the number of lines, of symbols and of relocations.

    bench/module.py [PROGRAM]
"""
import os
import random
import tempfile

from asm import BY_HAND, COMPILED, FEW, byte_lists, canonical, comments, label_lists, labels, paddings, repeated
from measure import WORDS, best, counts_instructions, file_of, instructions, most_memory, print_times, the_program


def longer(count):
    """Names of one letter more each time, up to 499 more, and so on behind the next number."""
    return [f"n{n // 500:02}{'a' * (n % 500)}" for n in range(count)]


def names(count):
    """Labels of one letter more each time."""
    return "".join(f"{name}:\n" for name in longer(count))


def names_unordered(count):
    """Such labels in no order."""
    return "".join(f"{name}:\n" for name in random.Random(5).sample(longer(count), count))


def many_names(count):
    """Names that nothing defines, each in a quadword."""
    return ".data\n" + "".join(f".quad name_{n}\n" for n in range(count))


def in_no_order(count):
    """Numbers below a million, in no order."""
    return random.Random(5).sample(range(1_000_000), count)


def many_names_unordered(count):
    """Such names in no order."""
    return ".data\n" + "".join(f".quad name_{number}\n" for number in in_no_order(count))


def labelled(names):
    """A label on each line, which the line before names."""
    return "".join(f"{name}: br $31,{names[(n + 1) % len(names)]}\n" for n, name in enumerate(names))


def unordered(count):
    """Labels in no order."""
    return labelled([f"label_{number}" for number in in_no_order(count)])


def alike(count):
    """Labels in no order that begin in two ways, each time with the same eight bytes behind."""
    return labelled([f"{'ab'[number % 2]}_long_front_{number}" for number in in_no_order(count)])


def one_name(count):
    """Relocations of one symbol."""
    return "x: ret\n" + "br x\n" * (count - 1)


def measure(program, name, make, count, out, fewer=FEW):
    contents, few = make(count).encode(), make(fewer).encode()
    with file_of(contents) as file, file_of(few) as small:
        command, least = [program, "module", file.name, out], [program, "module", small.name, out]
        print_times(name, [("cat", best(["cat", file.name])), ("module", best(command))])
        more_bytes, more_lines = len(contents) - len(few), contents.count(b"\n") - few.count(b"\n")
        memory = most_memory(command) - most_memory(least)
        print(f"{name}: {memory / more_bytes:.2f} bytes of memory a byte of the source")
        if counts_instructions():
            print(f"{name}: {(instructions(command) - instructions(least)) / more_lines:.1f} instructions a line")


def compare(program, name, make, count, out):
    """What a line takes by `module`, and by `asm` with an entry more."""
    if not counts_instructions():
        return
    each = []
    for command, behind in (("module", ""), ("asm", ".entry 0x10000\n")):
        contents, few = (make(count) + behind).encode(), (make(FEW) + behind).encode()
        with file_of(contents) as file, file_of(few) as small:
            more = instructions([program, command, file.name, out]) - instructions([program, command, small.name, out])
            each.append(more / (contents.count(b"\n") - few.count(b"\n")))
    print(f"{name}: {each[0]:.1f} instructions a line by module, {each[1]:.1f} by asm, {each[0] / each[1]:.2f} times")


def main():
    program = the_program()
    with tempfile.TemporaryDirectory() as folder:
        out = os.path.join(folder, "out")
        for make, kind in ((repeated(BY_HAND), "mixed lines by hand"), (repeated(COMPILED), "lines of a compiler")):
            compare(program, kind, make, 5 * FEW, out)
        for count in (WORDS // 16, WORDS):
            compare(program, f"{count} labels in no order", unordered, count, out)
        compare(program, f"{WORDS // 4} labels in no order that begin alike", alike, WORDS // 4, out)
        for make, order in ((names, "each time"), (names_unordered, "in no order")):
            compare(program, f"50,000 symbols of one letter more {order}", make, 50_000, out)
        for make, kind in ((canonical, "canonical lines"), (labels, "labels")):
            compare(program, f"{WORDS} {kind}", make, WORDS, out)
            for count in (WORDS // 16, WORDS // 4, WORDS):
                measure(program, f"{count} {kind}", make, count, out)
        measure(program, "50,000 symbols of one letter more", names, 50_000, out)
        measure(program, f"{WORDS} relocations of one symbol", one_name, WORDS, out)
        measure(program, f"{WORDS} relocations of as many symbols", many_names, WORDS, out)
        measure(program, f"{WORDS} relocations of as many symbols in no order", many_names_unordered, WORDS, out)
        measure(program, "16 MiB of comments", comments, 524_288, out)
        measure(program, "1 MiB of lists of bytes", byte_lists, 1_040, out, 10)
        measure(program, "1 MiB of lists of labels", label_lists, 1_040, out, 10)
        lines = ".byte 0\n.align 13\n"
        measure(program, "1 MiB of paddings", paddings(lines), (1 << 20) // len(lines), out, 10)


if __name__ == "__main__":
    main()
