"""Texts that are damaged: each companion answers, or refuses with a line, and keeps no part of a file."""
import os
import random
import subprocess
import sys

from .helpers import DATA, HERE, data, read, want, write

PIECES = [b"\0", b"\xff", b'"', b"\\", b"/*", b"$", b"!", b"(", b",", b"\n", b";", b":", b"%lo(", b".section ",
          b".comm ", b"$f1", b"-", b"99999999999"]


def damaged(content, count, seed):
    """Copies that are cut, or have other bytes at some places."""
    chosen = random.Random(seed)
    yield content[:chosen.randrange(len(content))]
    for _ in range(count):
        other = bytearray(content)
        for _ in range(6):
            at = chosen.randrange(len(other))
            other[at:at + chosen.randrange(3)] = chosen.choice(PIECES)
        yield bytes(other)


def answers(folder, name, *words, given=b""):
    """Whether a companion's call is done. It may refuse, with a line, and then no file is new."""
    before = set(os.listdir(folder))
    done = subprocess.run([sys.executable, os.path.join(HERE, name), *words], input=given, capture_output=True,
                          check=False)
    notes = done.stderr.decode("utf-8", "replace")
    want((done.returncode in (0, 1), "Traceback" in notes), (True, False), f"{name}: status {done.returncode}: {notes}")
    if done.returncode:
        want((notes != "", set(os.listdir(folder)) - before), (True, set()), f"{name}: {notes}")
    return done.returncode == 0


def test_damaged_texts_of_a_compiler_are_taken_or_refused(folder):
    path, out = os.path.join(folder, "a.s"), os.path.join(folder, "a.as")
    for kind in (["--module"], ["--entry", "main"]):
        for content in damaged(read(os.path.join(DATA, "three", "main.s"), "rb"), 8, 11):
            write(path, content)
            if answers(folder, "gas2source", *kind, path, "-o", out):
                os.unlink(out)


def test_damaged_sources_and_maps_are_laid_out_or_refused(folder):
    path = os.path.join(folder, "a.as")
    for content in damaged(read(data("shadows.s"), "rb"), 8, 12):
        write(path, content)
        answers(folder, "where", "--source", path, "--source", path, "10000")
        answers(folder, "where", "--map", path, "10000")


def test_damaged_lines_are_explained_or_refused(folder):
    line = (b"source kind 1 line 3 column 5 detail 2\nbroken trigger 0000000000010000 at 0000000000010004 condition "
            b"C4\nlost 0000000000010000 mask 4\n")
    for content in damaged(line, 12, 13):
        answers(folder, "explain", given=content)
