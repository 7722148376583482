#!/usr/bin/env python3
"""Measures `check` on large images: how long it takes, beside `cat` of the same file and, where it is installed,
GNU objdump for alpha over the same code; and how many host instructions the command takes a word, its reading of
the file included. Only what it takes for an image of one word is subtracted.

    bench/check.py [PROGRAM]
"""
import shutil

from measure import (NOP, TRAPB, WORDS, addqv, best, counts_instructions, file_of, image, instructions,
                     level_image, load, no_triggers, print_times, repeated, store, the_program)


def short_shadows():
    return repeated([addqv(3), NOP, NOP, TRAPB])


def long_shadows():
    """Shadows of 1,024 words with a trigger each 32 words: more cannot have destinations of their own."""
    shadow = []
    for rc in range(3, 31):
        shadow += [addqv(rc)] + [NOP] * 31
    return repeated(shadow + [NOP] * (1024 - len(shadow)) + [TRAPB])


def shadows_of_stores():
    """Shadows of 1,024 words with 26 triggers, one load, and then stores."""
    shadow = [addqv(rc) for rc in range(3, 29)] + [load(0)]
    shadow += [store(8 + 8 * (k % 4000)) for k in range(1024 - len(shadow))]
    return repeated(shadow + [TRAPB])


def shadows_of_loads_and_stores():
    """Shadows of 1,024 words with 24 triggers, 500 loads, and then 500 stores at the same base."""
    shadow = [addqv(rc) for rc in range(3, 27)] + [load(-8 * k) for k in range(500)]
    shadow += [store(8 + 8 * k) for k in range(500)]
    return repeated(shadow + [TRAPB])


def shadows_of_stores_among_loads():
    """The same, but that one load lies above the stores, so that each store is held against each load."""
    shadow = [addqv(rc) for rc in range(3, 27)] + [load(-8 * k) for k in range(499)] + [load(8000)]
    shadow += [store(8 + 8 * k) for k in range(500)]
    return repeated(shadow + [TRAPB])


def milliseconds(program, name, contents):
    objdump = shutil.which("alpha-linux-gnu-objdump")
    with file_of(contents) as file:
        rows = [("cat", best(["cat", file.name])), ("check", best([program, "check", file.name]))]
        if objdump:
            rows.append(("objdump", best([objdump, "-D", "-b", "binary", "-m", "alpha", file.name], 1)))
    print_times(name, rows)


def count(program, contents):
    with file_of(contents) as file:
        return instructions([program, "check", file.name])


def main():
    program = the_program()
    cases = {
        "no triggers": no_triggers(),
        "short shadows": short_shadows(),
        "long shadows": long_shadows(),
        "long shadows of stores": shadows_of_stores(),
        "long shadows of loads and stores": shadows_of_loads_and_stores(),
        "long shadows of stores among loads": shadows_of_stores_among_loads(),
    }
    for name, code in cases.items():
        milliseconds(program, name, image(code))
    short, data = cases["short shadows"], bytes(16_777_216)
    milliseconds(program, "short shadows, 16 MiB of data", image(short, data))
    milliseconds(program, "short shadows, 8 segments of 2 MiB", level_image(short, 8, data))
    if counts_instructions():
        start = count(program, image([NOP]))
        for name, code in cases.items():
            print(f"{name}: {(count(program, image(code)) - start) / WORDS:.1f} instructions a word")


if __name__ == "__main__":
    main()
