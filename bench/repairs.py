#!/usr/bin/env python3
"""Repairs random C programs in both ways, and runs what comes of it beside what gcc made.

    bench/repairs.py [PROGRAM] [--count N] [--first N] [--levels 0,1,2,3,s] [--jobs N] [--keep FOLDER]
                     [--seconds N]

Each program of bench/programs.py goes, at each level of gcc with -ftrapv, through `shadowfix` as text and as a linked
file with --aside, to an image that `check` must accept, and back to ELF. qemu-alpha runs gcc's own file and the
repaired one: the same output and status are wanted. The table counts by level and way what was accepted with the same,
with another, and what was refused, by its cause; the status is 1 where anything was accepted with another. With --keep
the files of the programs that weren't accepted with the same output are kept. With --seconds none is begun any more
after so many, and the table has those that were.
"""
import argparse
import collections
import multiprocessing
import os
import re
import resource
import runpy
import shutil
import signal
import subprocess
import sys
import tempfile
import time

import programs
from measure import TOP, Folder

sys.dont_write_bytecode = True
COMPANIONS = os.path.join(TOP, "companions")
COMPILE = ["alpha-linux-gnu-gcc", "-ftrapv", "-ffreestanding", "-mno-fp-regs", "-w"]
LINK = ["-static", "-nostdlib", "-Wl,-z,separate-code,-z,max-page-size=8192,-Ttext-segment=0x10000,--build-id=none"]
BESIDE = [os.path.join(COMPANIONS, "start.s"), os.path.join(COMPANIONS, "divide.s")]
# How long a run and a step of a repair may take, of the processor's time: others may have the machine.
SECONDS, MORE_SECONDS = 20, 600
PARTS = ("back", "codes", "elf", "files", "held", "image", "loaded", "program", "regions", "repair")
SAME, OTHER, SLOW = "the same", "OTHER OUTPUT", "too slow by itself"


class Refused(Exception):
    """A step that didn't go well, and its first line."""


class Slow(Exception):
    """A run that took too much of the processor's time."""


def limit_seconds(seconds):
    """Ends this process by SIGXCPU when it has had so much of the processor's time."""
    resource.setrlimit(resource.RLIMIT_CPU, (seconds, seconds + 1))


def call(*words, given=None):
    done = subprocess.run(words, input=given, capture_output=True, check=False,
                          preexec_fn=lambda: limit_seconds(MORE_SECONDS))
    if done.returncode == -signal.SIGXCPU:
        raise Refused(f"{os.path.basename(words[0])}: took more than {MORE_SECONDS} seconds")
    if done.returncode:
        raise Refused(f"{os.path.basename(words[0])}: {cause(done.stderr.decode(errors='replace'))}")
    return done.stdout


def cause(notes):
    """What a refusal says, without names of files, numbers, and all but the first reason."""
    lines = [line for line in notes.splitlines() if line.strip()] or ["no line"]
    found = next((line for line in lines if "as it was: " in line), lines[0])
    found = found.split("as it was: ")[-1]
    return re.sub(r"\b(0x)?[0-9a-f]*[0-9][0-9a-f]*\b", "N", re.sub(r"\S*[./]\S*:(\d+:)?", "", found)).strip()[:100]


def outcome(path):
    """The output and the status of a run under qemu-alpha."""
    done = subprocess.run(["qemu-alpha", path], input=b"", capture_output=True, check=False,
                          preexec_fn=lambda: limit_seconds(SECONDS))
    if done.returncode in (-signal.SIGXCPU, -signal.SIGKILL):
        raise Slow
    return done.stdout, done.returncode


def load_parts():
    """Loads what the companions have in common, once for all that are run."""
    sys.path.insert(0, COMPANIONS)
    for name in PARTS:
        __import__(f"parts.{name}")


def be_companion(name, words, notes):
    """Becomes a companion, which writes its notes to a file, and ends by its status."""
    status = 1
    try:
        for number, path in ((0, os.devnull), (1, os.devnull), (2, notes)):
            os.dup2(os.open(path, os.O_RDWR | os.O_CREAT | os.O_TRUNC, 0o600), number)
        limit_seconds(MORE_SECONDS)
        sys.argv = [os.path.join(COMPANIONS, name), *words]
        sys.stderr = open(2, "w", encoding="utf-8", closefd=False)
        runpy.run_path(sys.argv[0], run_name="__main__")
    except SystemExit as ended:
        status = ended.code or 0
    finally:
        sys.stderr.flush()
        os._exit(status)


class Trial(Folder):
    """A program at a level, in a folder of its own."""

    def __init__(self, program, folder, number, level):
        super().__init__(folder)
        self.program = program
        shutil.copy(os.path.join(COMPANIONS, "data/io.h"), folder)
        with open(self.path("p.c"), "w", encoding="ascii") as file:
            file.write(programs.program(number))
        call(*COMPILE, f"-O{level}", "-S", self.path("p.c"), "-o", self.path("p.s"))
        self.link("p.s", "p.elf")
        self.wanted = outcome(self.path("p.elf"))

    def companion(self, name, *words):
        """Runs a companion in a process of its own, in which its parts are loaded already."""
        notes = self.path("notes")
        child = os.fork()
        if child == 0:
            be_companion(name, words, notes)
        status = os.waitstatus_to_exitcode(os.waitpid(child, 0)[1])
        if status == -signal.SIGXCPU:
            raise Refused(f"{name}: took more than {MORE_SECONDS} seconds")
        if status:
            with open(notes, encoding="utf-8", errors="replace") as file:
                raise Refused(f"{name}: {cause(file.read())}")

    def link(self, text, out):
        call(COMPILE[0], *LINK, *BESIDE, self.path(text), "-o", self.path(out))

    def by_text(self):
        self.companion("shadowfix", self.path("p.s"), "-o", self.path("text.s"))
        self.link("text.s", "text.elf")
        self.companion("elf2image", self.path("text.elf"), self.path("text.img"))
        return self.judge("text.img")

    def aside(self):
        self.companion("elf2image", self.path("p.elf"), self.path("p.img"), "--map", self.path("p.map"))
        listing = call(self.program, "dis", self.path("p.img"))
        labelled = call("awk", "-f", os.path.join(TOP, "examples/labels.awk"), given=listing)
        self.companion("shadowfix", "--aside", "--map", self.path("p.map"), self.keep("list.s", labelled), "-o",
                       self.path("aside.s"))
        call(self.program, "asm", self.path("aside.s"), self.path("aside.img"))
        self.companion("same", self.path("p.img"), self.path("aside.img"), "--symbols", self.path("p.map"))
        return self.judge("aside.img")

    def judge(self, image):
        call(self.program, "check", self.path(image))
        out = self.path(image.replace(".img", ".again.elf"))
        self.companion("image2elf", "--alpha", self.program, self.path(image), out)
        return SAME if outcome(out) == self.wanted else OTHER


def repair(trial):
    """What becomes of a program at a level, by way."""
    program, number, level, keep = trial
    with tempfile.TemporaryDirectory() as folder:
        try:
            trial = Trial(program, folder, number, level)
        except Slow:
            return {"text": SLOW, "aside": SLOW}
        except Refused as refused:
            return {"text": str(refused), "aside": str(refused)}
        found = {}
        for way, run in (("text", trial.by_text), ("aside", trial.aside)):
            try:
                found[way] = run()
            except Refused as refused:
                found[way] = str(refused)
            except Slow:
                found[way] = OTHER
        if keep is not None and set(found.values()) - {SAME}:
            shutil.copytree(folder, os.path.join(keep, f"{number}-{level}"), dirs_exist_ok=True)
        return found


def parse_arguments():
    parser = argparse.ArgumentParser(description=__doc__, formatter_class=argparse.RawDescriptionHelpFormatter)
    parser.add_argument("program", nargs="?", default=os.path.join(TOP, "crates/alpha_tool/out/alpha_tool"))
    parser.add_argument("--count", type=int, default=20)
    parser.add_argument("--first", type=int, default=0)
    parser.add_argument("--levels", default="0,1,2,3,s")
    parser.add_argument("--jobs", type=int, default=2)
    parser.add_argument("--keep")
    parser.add_argument("--seconds", type=float, default=float("inf"))
    return parser.parse_args()


def count_repairs(options):
    """How many programs at a level were tried, and how many by level and way came to what."""
    counts, done, started = collections.Counter(), 0, time.monotonic()
    trials = [(os.path.abspath(options.program), number, level, options.keep)
              for number in range(options.first, options.first + options.count) for level in options.levels.split(",")]
    with multiprocessing.Pool(options.jobs, load_parts) as pool:
        for (_, number, level, _), found in zip(trials, pool.imap(repair, trials)):
            done += 1
            for way, what in found.items():
                counts[level, way, what] += 1
                if what != SAME:
                    print(f"program {number} at -O{level}, {way}: {what}", flush=True)
            if time.monotonic() - started > options.seconds:
                break
    return done, counts


def main():
    options = parse_arguments()
    missing = [name for name in (COMPILE[0], "qemu-alpha") if shutil.which(name) is None]
    if missing:
        sys.exit(f"there is no {missing[0]} on the path")
    done, counts = count_repairs(options)
    print(f"\n{done} programs at a level, from {options.first} on\n")
    print("| Level | Way | What became of the programs | Count |\n|---|---|---|---|")
    for (level, way, what), count in sorted(counts.items()):
        print(f"| -O{level} | {way} | {what} | {count} |")
    sys.exit(1 if any(what == OTHER for _, _, what in counts) else 0)


if __name__ == "__main__":
    main()
