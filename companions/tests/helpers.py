"""What the tests of the companions have in common."""
import os
import re
import subprocess
import sys

from parts import image, program

TESTS = os.path.dirname(os.path.abspath(__file__))
HERE = os.path.dirname(TESTS)
TOP = os.path.dirname(HERE)
DATA = os.path.join(HERE, "data")
PROGRAMS = ("sum", "wc", "sort", "primes")
# The program that is asked. The runner sets the variable where it was given a path.
ASKED = os.environ.get("ALPHA", os.path.join(TOP, program.BUILT))


class Failed(Exception):
    """Something is otherwise than it should be."""


class Lacking(Exception):
    """What a test needs isn't there."""


def needs_program(test):
    """Marks a test that is skipped where there is no program."""
    test.needs_program = True
    return test


def want(given, wanted, what=""):
    if given != wanted:
        raise Failed(f"{what}: {given!r}, and {wanted!r} is wanted")


def companion(name, *words, given=b"", status=0):
    """The output and the notes of a companion's call, which must end with the status and never by a fault of Python."""
    done = subprocess.run([sys.executable, os.path.join(HERE, name), *map(str, words)], input=given,
                          capture_output=True,
                          check=False, env=os.environ | {"ALPHA": ASKED})
    notes = done.stderr.decode("utf-8", "replace")
    if done.returncode != status or "Traceback" in notes:
        raise Failed(f"{name} {' '.join(map(str, words))}: status {done.returncode}, {status} is wanted: {notes}")
    return done.stdout.decode("utf-8", "replace"), notes


def data(name):
    return os.path.join(DATA, name)


def kept(path):
    """The path of a file that the repository keeps. Where the companions are installed most aren't there; where the
    sources are, a file that is missing has another name now, and what a test reads there must not be passed over."""
    if not os.path.isdir(os.path.join(TOP, "crates", "alpha_cmd")):
        raise Lacking("the sources of the program aren't beside the companions")
    path = os.path.join(TOP, path)
    if not os.path.exists(path):
        raise Failed(f"{path} isn't there")
    return path


def source(path):
    """The path of a file of crates/."""
    return kept(os.path.join("crates", path))


def rows(name):
    with open(source(os.path.join("alpha_vectors/data", name)), encoding="ascii") as file:
        return [line.rstrip("\n").split("\t") for line in file if not line.startswith("#")]


def words_of(text):
    return [int(word, 16) for part in text.split() for word, _, count in [part.partition("*")]
            for _ in range(int(count or 1))]


def write_image(path, words, level=0):
    segments = [] if level else [image.Segment(0x10000000)]
    with open(path, "wb") as file:
        file.write(image.Image(words, 0x10000, 0x10000, segments, 65_536, level).spelled())


def read(path, how="r"):
    with open(path, how) as file:
        return file.read()


def write(path, content):
    with open(path, "wb") as file:
        file.write(content)


def assembled(asked, folder, name, text):
    source, made = os.path.join(folder, f"{name}.as"), os.path.join(folder, f"{name}.img")
    companion("gas2source", os.path.join(HERE, "start.s"), os.path.join(HERE, "divide.s"), text, "-o", source)
    want(asked.call("asm", source, made), (0, b"", ""), name)
    return made


def runs_alike(asked, name, made):
    """The image gives the stored output and exit value, on both machines."""
    given, wanted, value = (read(data(f"{name}.{kind}"), "rb") for kind in ("in", "out", "exit"))
    first = asked.call("run", made, given=given)
    want((first[0], first[1], first[2].split("\n")[-2]), (0, wanted, f"exit {int(value)}"), name)
    for seed in range(3):
        want(asked.call("run", "--imprecise", "--seed", str(seed), made, given=given), first,
             f"{name} with seed {seed}")


def blocks(page):
    return re.findall(r"^```(?:console|shell-session)\n(.*?)^```$", read(os.path.join(TOP, page)), re.S | re.M)


def runs_as_shown(folder, page, shown_blocks, **variables):
    """Runs the commands of a page one after another, and holds what they write against the page."""
    for name, path in (("companions", HERE), ("alpha", os.path.abspath(ASKED)),
                       ("examples", os.path.join(TOP, "examples"))):
        if not os.path.exists(os.path.join(folder, name)):
            os.symlink(path, os.path.join(folder, name))
    want(bool(shown_blocks), True, page)
    for block in shown_blocks:
        for command, shown in re.findall(r"^\$ (.*)\n((?:(?!\$ ).*\n)*)", block, re.M):
            done = subprocess.run(["bash", "-c", command], cwd=folder, stdout=subprocess.PIPE, stderr=subprocess.STDOUT,
                                  env=os.environ | {"ALPHA": os.path.abspath(ASKED)} | variables, check=False)
            want(done.stdout.decode("utf-8", "replace"), shown, f"{page}: {command}")
