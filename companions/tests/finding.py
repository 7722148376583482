"""Which program a companion asks: the one beside it, installed, unpacked or in a checkout. None is ever built."""
import os
import shutil
import subprocess
import sys

from parts import program
from .helpers import ASKED, HERE, TOP, needs_program, want, write

REFUSED = "1 of 1 /V words are broken\n  C2 1  a source is lost\n"
SCRIPT = ("#!/bin/sh\ntouch {mark}\n[ \"$1\" != --version ] || echo 'the sources are others now: the next call makes "
          "it anew'\n")


def copied(folder):
    """A folder for the companions, without what the tests need."""
    shutil.copytree(HERE, os.path.join(folder, "companions"),
                    ignore=shutil.ignore_patterns("data", "tests", "__pycache__"))
    return os.path.join(folder, "companions", "allbroken")


def put_program(path):
    os.makedirs(os.path.dirname(path), exist_ok=True)
    os.symlink(os.path.abspath(ASKED), path)


def put_script(path, mark):
    write(path, SCRIPT.format(mark=mark).encode())
    os.chmod(path, 0o755)


def called(folder, path, *words, **variables):
    """Status, output and notes of a companion that is called in a folder, where only `variables` say a program."""
    env = {name: value for name, value in os.environ.items() if name != "ALPHA"} | variables
    done = subprocess.run([sys.executable, path, "--counts", *words, os.path.join(TOP, "examples", "refused.img")],
                          cwd=folder, env=env,
                          capture_output=True, text=True, check=False)
    return done.returncode, done.stdout, done.stderr


@needs_program
def test_the_program_of_an_archive_and_of_an_installation_is_found(folder):
    """A program in the folder where somebody works isn't taken, since it may be anybody's."""
    put_script(os.path.join(folder, "alpha"), os.path.join(folder, "mark"))
    for front, place in (("unpacked", "."), ("usr", "lib/bantamtinsel")):
        prefix = os.path.join(folder, front)
        path = copied(os.path.join(prefix, place))
        put_program(os.path.join(prefix, "bin", "alpha"))
        link = os.path.join(prefix, "bin", "alpha-allbroken")
        os.symlink(os.path.relpath(path, os.path.dirname(link)), link)
        for one in (path, link):
            want(called(folder, one), (3, REFUSED, ""), one)
    # The variable and the option win, the option first.
    other = os.path.join(folder, "nothing")
    want(called(folder, path, ALPHA=other)[0], 1, "ALPHA")
    want(called(folder, path, "--alpha", ASKED, ALPHA=other), (3, REFUSED, ""), "--alpha")
    # So does the script of an archive, by the program that it stands for.
    top = os.path.join(folder, "unpacked")
    os.mkdir(os.path.join(top, "tools"))
    write(os.path.join(top, "tools", "start.sh"), b"")
    put_script(os.path.join(top, "alpha"), os.path.join(folder, "mark"))
    want(called(folder, path, ALPHA=os.path.join(top, "alpha")), (3, REFUSED, ""), "the script")
    want(os.path.exists(os.path.join(folder, "mark")), False, "what was called beside the program")


@needs_program
def test_in_a_checkout_the_proved_program_is_taken_and_another_is_said(folder):
    path, mark = copied(folder), os.path.join(folder, "mark")
    os.mkdir(os.path.join(folder, "tools"))
    write(os.path.join(folder, "tools", "start.sh"), b"")
    for name in ("alpha", "look"):
        put_script(os.path.join(folder, name), mark)
    status, out, notes = called(folder, path)
    want((status, out, notes.count("\n")), (1, "", 1), notes)
    want(("no program is there" in notes, "./look trial 1" in notes, os.path.exists(mark)), (True, True, False), notes)
    put_program(os.path.join(folder, program.LOOK))
    stale = "was made of other sources than are here now\n"
    want(called(folder, path),
         (3, REFUSED, f"allbroken: asks .look/alpha_tool, which is compiled and not proved and {stale}"), "./look")
    want(called(folder, path, "--alpha", "./alpha")[0], 1, "./alpha without its program")
    put_program(os.path.join(folder, program.BUILT))
    want(called(folder, path), (3, REFUSED, f"allbroken: asks {program.BUILT}, which {stale}"), "./alpha")
    want(called(folder, path, ALPHA="./look")[2].count("compiled"), 1, "./look by its name")


def test_a_program_of_another_machine_is_refused_with_a_line(folder):
    path = os.path.join(folder, "alpha")
    write(path, b"\x7fELF\x02\x01\x01" + bytes(100))
    os.chmod(path, 0o755)
    status, _, notes = called(folder, os.path.join(HERE, "allbroken"), "--alpha", path)
    want((status, notes), (1, f"allbroken: {path}: it doesn't run here: Exec format error\n"), notes)
