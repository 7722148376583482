#!/usr/bin/env python3
"""Holds the lines of code in docs/, and the sessions of the debugger, to the built program.

A block of a page whose head is "alpha refused Cn" must be refused under that condition, one whose head is
"alpha accepted" accepted. Each is assembled by itself, with a barrier behind it but where it must be refused under C8.
In a block whose head is "debug FILE" the lines with "> " are the script on the program of that source, and the others
its answers.

    bench/snippets.py [PROGRAM]
"""
import glob
import os
import re
import subprocess
import sys
import tempfile

from measure import TOP, the_program

BLOCK = re.compile(r"^```alpha (accepted|refused (C\d))\n(.*?)^```$", re.M | re.S)
SESSION = re.compile(r"^```debug (\S+)\n(.*?)^```$", re.M | re.S)


def run(program, *words, script=""):
    done = subprocess.run([program, *words], input=script, capture_output=True, text=True)
    return done.stdout + done.stderr


def answer(program, folder, code):
    """What `check` says of it, or why `asm` refuses it."""
    source, image = os.path.join(folder, "source.s"), os.path.join(folder, "source.img")
    with open(source, "w") as file:
        file.write(code)
    return run(program, "asm", source, image) or run(program, "check", image)


def transcript(program, folder, source, session):
    """The session with the answers that its script gets."""
    image = os.path.join(folder, "source.img")
    run(program, "asm", os.path.join(TOP, source), image)
    script, text = "", ""
    for line in session.splitlines():
        if line.startswith("> "):
            before = run(program, "debug", image, script=script)
            script += line[2:] + "\n"
            text += line + "\n" + run(program, "debug", image, script=script)[len(before):]
    return text


def faults(program, folder):
    for page in sorted(glob.glob(os.path.join(TOP, "docs/*.md"))):
        with open(page) as file:
            text = file.read()
        for wanted, condition, code in BLOCK.findall(text):
            end = "" if condition == "C8" else "trapb\n"
            said = answer(program, folder, code + end + ".entry 0x10000\n")
            if said.split()[-1:] != [condition or "accepted"]:
                yield f"{os.path.relpath(page, TOP)}: wanted {wanted}, got {said.strip()}:\n{code}"
        for source, session in SESSION.findall(text):
            got = transcript(program, folder, source, session)
            if got != session:
                yield f"{os.path.relpath(page, TOP)}: the session is\n{got}"


def main():
    with tempfile.TemporaryDirectory() as folder:
        found = list(faults(the_program(), folder))
    print("\n".join(found) if found else "each block is as the program has it")
    sys.exit(1 if found else 0)


if __name__ == "__main__":
    main()
