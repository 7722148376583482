"""The blocks of commands of the pages, and the usage of each companion."""
import json
import os
import re
import shutil
import subprocess
import textwrap

from .helpers import ASKED, DATA, HERE, TOP, Lacking, blocks, companion, data, needs_program, read, runs_as_shown, want


def companions():
    """The names of all companions: the files here that can be run, but for the runner of the tests."""
    return [name for name in sorted(os.listdir(HERE)) if "." not in name and os.path.isfile(os.path.join(HERE, name))]


def test_each_companion_has_help_and_refuses_bad_words(_):
    want({"elf2image", "gas2source", "allbroken", "shadowmap", "where", "shadowfix"} - set(companions()), set(),
         "companions")
    for name in companions():
        out, _ = companion(name, "--help")
        want("usage: " + name in out, True, name)
        companion(name, "--no-such-option", status=2)


def test_a_file_that_is_not_there_is_refused(_):
    absent = os.path.join(DATA, "no-such-file")
    for words in (["elf2image", absent, "x"], ["gas2source", absent], ["allbroken", absent], ["shadowmap", absent],
                  ["where", "--source", absent, "10000"], ["where", "--map", absent, "10000"], ["shadowfix", absent]):
        companion(*words, status=1)


@needs_program
def test_the_pages_show_what_the_companions_do(folder):
    """Runs the blocks of commands in which companions stand."""
    for page in ("README.md", "docs/trap-shadows.md"):
        runs_as_shown(folder, page, [block for block in blocks(page) if "$ companions/" in block])


@needs_program
def test_a_c_program_goes_the_way_of_the_page(folder):
    if shutil.which("alpha-linux-gnu-gcc") is None:
        raise Lacking("there is no alpha-linux-gnu-gcc on the path")
    runs_as_shown(folder, "docs/from-a-compiler.md", blocks("docs/from-a-compiler.md"))


def test_qemu_ends_at_the_first_overflow(folder):
    """By the signal SIGFPE, whose number is 8; a shell tells 128 more."""
    if shutil.which("qemu-alpha") is None:
        raise Lacking("there is no qemu-alpha on the path")
    path = os.path.join(folder, "sum.elf")
    shutil.copy(data("sum.elf"), path)
    os.chmod(path, 0o755)
    done = subprocess.run(["qemu-alpha", path], input=b"hello, world\n", capture_output=True, check=False)
    want((done.returncode, done.stdout), (-8, b""), "status and output")


# What the compiler once made, by how its calls on the page end.
STAND_IN = """#!/bin/sh
for last; do :; done
case "$*" in
*"-S sum.c") cp {data}/sum.s . ;;
*"-S main.c" | *"-S numbers.c" | *"-S print.c") cp {data}/three/${{last%.c}}.s . ;;
*"start.s sum.fixed.s -o sum.elf") cp {data}/sum.fixed.elf sum.elf ;;
*"start.s sum.c -o sum.elf") cp {data}/sum.elf . ;;
*) exit 1 ;;
esac
"""


def with_stand_in(folder):
    """The path of programs with one more in front, which stands for the compiler."""
    compiler = os.path.join(folder, "bin", "alpha-linux-gnu-gcc")
    os.mkdir(os.path.dirname(compiler))
    with open(compiler, "w", encoding="utf-8") as file:
        file.write(STAND_IN.format(data=DATA))
    os.chmod(compiler, 0o755)
    return os.path.dirname(compiler) + os.pathsep + os.environ["PATH"]


@needs_program
def test_the_run_in_a_build_fails_where_a_place_is_broken(folder):
    """The commands of the page's file for GitHub's runs, one after another until one fails, as there."""
    page = read(os.path.join(TOP, "docs", "from-a-compiler.md"))
    script = textwrap.dedent(re.search(r"^  - run: \|\n(.*?)^  - if: always", page, re.S | re.M)[1])
    env = os.environ | {"PATH": with_stand_in(folder), "ALPHA": os.path.abspath(ASKED)}
    os.symlink(HERE, os.path.join(folder, "companions"))
    done = subprocess.run(["bash", "-e", "-c", script], cwd=folder, env=env, capture_output=True, check=False)
    log = json.loads(read(os.path.join(folder, "sum.sarif")))
    uris = {one["locations"][0]["physicalLocation"]["artifactLocation"]["uri"] for one in log["runs"][0]["results"]}
    want((done.returncode, done.stderr, uris), (3, b"", {"sum.s"}), "the run")


@needs_program
def test_what_the_compiler_made_goes_the_way_of_the_page(folder):
    """The same without a compiler, but for the blocks that need its other tools, and the last, in which programs are
    refused."""
    path = with_stand_in(folder)
    runnable = [block for block in blocks("docs/from-a-compiler.md") if not re.search(r"addr2line|half\.c", block)]
    runs_as_shown(folder, "docs/from-a-compiler.md", runnable, PATH=path)
