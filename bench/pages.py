#!/usr/bin/env python3
"""Holds the pages (those at the top, of companions/, conformance/, docs/ and examples/) against the program and the
repository:

- Each `console` block is run, and what its commands write and how they end must be what the block shows. A line that
  begins with `$ ` is a command, one with `> ` goes on with it, all others are what it writes, standard error among it;
  `..` alone on a line stands for any lines. A command ends with status 0, or with that of its last line, as `broken ..`
  has 1, unless `$ echo $?` follows, which shows it. The commands of a page share a folder that has the repository's
  files, so that a page may write files and go on with them.
- Each link leads to a file, and to a heading of it. Each path, file name and law in a code span exists.

Blocks that can't be run, as builds, have another language (`sh`, or none).

    bench/pages.py [PROGRAM] [PAGE ..]    crates/alpha_tool/out/alpha_tool, and all pages, where they are left out
"""
import glob
import os
import re
import shutil
import signal
import subprocess
import sys
import tempfile

from measure import TOP, the_program

SECONDS = 60
PAGES = ("*.md", "companions/**/*.md", "conformance/**/*.md", "docs/**/*.md", "examples/**/*.md")
# How the last line that a command writes tells its status; other lines tell 0.
TOLD = [
    (1, r"broken trigger "),
    (2, r"words$"),
    (3, r"source kind "),
    (4, r"image kind "),
    (5, r"(signal \d at|fetch|access|align|stop at) "),
    (6, r"steps$"),
    (7, r"lost "),
    (8, r"shelf$"),
    (9, r"input$"),
    (11, r"too large "),
    (12, r"no memory$"),
    (13, r"unfixable trigger "),
    (14, r"fixed line "),
    (15, r"far kind "),
    (16, r"module \d+ kind "),
    (17, r"link kind "),
    (18, r"journal kind "),
    (19, r"norun kind "),
    (20, r"journal full$"),
]
# The companions that judge, with status 3 where a place is broken, and how they count such places.
JUDGES = re.compile(r"companions/(allbroken|elf2image --functions)\b[^|;]*")
COUNTED = re.compile(r"[1-9]\d* of \d+ /V words are broken|, [1-9]\d* broken,")
ENDS = re.compile(r"\x1e(\d+)\n")
LAW = re.compile(r"(?:laws|limits)_of_\w+")
PARTS = ("src", "specs", "proofs", "must-fail", "data")
FILE = re.compile(r"[\w*-]+\.(rt|antt|py|md|edit)")


class Page:
    """The lines of a page outside its blocks, each with its number, and its blocks: number, words of the head,
    lines."""

    def __init__(self, path):
        self.path, self.lines, self.blocks, block = path, [], [], None
        with open(f"{TOP}/{path}", encoding="utf-8") as file:
            for number, line in enumerate(file.read().splitlines(), 1):
                if line.startswith("```") and block is None:
                    block = number, line[3:].split(), []
                elif line.startswith("```"):
                    self.blocks.append(block)
                    block = None
                elif block is None:
                    self.lines.append((number, line))
                else:
                    block[2].append(line)

    def headings(self):
        """The names by which links lead to the page's headings."""
        titles = [re.sub(r"^#+ ", "", line) for _, line in self.lines if re.match(r"#+ ", line)]
        return {re.sub(r"[^\w -]", "", title.lower()).replace(" ", "-") for title in titles}


class Counts:
    commands = links = paths = wrong = 0

    def tell(self, page, number, text):
        self.wrong += 1
        print(f"{page.path}:{number}: {text}")


def commands_in(block):
    """Each command of a block, with the number of its line and the lines that it should write."""
    number, _, lines = block
    found = []
    for at, line in enumerate(lines, number + 1):
        if line.startswith("$ "):
            found.append((at, [line[2:]], []))
        elif found and not found[-1][2] and line.startswith("> "):
            found[-1][1].append(line[2:])
        elif found:
            found[-1][2].append(line)
    return [(at, "\n".join(command), shown) for at, command, shown in found]


def run_block(commands, folder):
    """What each command of a block wrote and its status, from one shell."""
    script = "".join(f"{command}\nstatus=$?; printf '\\036%d\\n' $status; (exit $status)\n"
                     for _, command, _ in commands)
    with subprocess.Popen(["sh", "-c", script], cwd=folder, stdin=subprocess.DEVNULL, stdout=subprocess.PIPE,
                          stderr=subprocess.STDOUT,
                          text=True, errors="replace", start_new_session=True) as shell:
        try:
            ran = shell.communicate(timeout=SECONDS)[0]
        except subprocess.TimeoutExpired:
            os.killpg(shell.pid, signal.SIGKILL)
            ran = shell.communicate()[0]
    parts = ENDS.split(ran)
    return list(zip(parts[::2], map(int, parts[1::2])))


def is_shown(wrote, shown):
    whole = "".join(".*" if line == ".." else re.escape(line) + "\n" for line in shown)
    return re.fullmatch(whole, wrote if not wrote or wrote.endswith("\n") else wrote + "\n", re.S)


def status_told(command, shown):
    if JUDGES.fullmatch(command) and any(map(COUNTED.search, shown)):
        return 3
    call = re.search(r".*\./(?:alpha|look)\b(.*)", command, re.S)
    if not call or "|" in call[1] or not shown:
        return 0
    return next((status for status, line in TOLD if re.match(line, shown[-1])), 0)


def hold_block(page, block, folder, counts):
    commands = commands_in(block)
    if not commands:
        counts.tell(page, block[0], "a console block without a command")
    ended = run_block(commands, folder)
    for at, (number, command, shown) in enumerate(commands):
        counts.commands += 1
        if at >= len(ended):
            counts.tell(page, number, f"no end within {SECONDS} seconds: {command}")
            return
        wrote, status = ended[at]
        if not is_shown(wrote, shown):
            counts.tell(page, number, f"{command}\n  shown: {shown}\n  wrote: {wrote.splitlines()}")
        is_asked = at + 1 < len(commands) and commands[at + 1][1] == "echo $?"
        if not is_asked and status != status_told(command, shown):
            counts.tell(page, number, f"{command}\n  ends with status {status}, and not {status_told(command, shown)}")


def hold_blocks(page, program, counts):
    """Runs the page's blocks in a folder of its own, in which the examples and the companions are copies."""
    with tempfile.TemporaryDirectory() as folder:
        for name in os.listdir(TOP):
            if name in ("companions", "examples"):
                shutil.copytree(f"{TOP}/{name}", f"{folder}/{name}")
            elif name not in ("alpha", "look"):
                os.symlink(f"{TOP}/{name}", f"{folder}/{name}")
        for name in ("alpha", "look"):
            os.symlink(program, f"{folder}/{name}")
        for block in page.blocks:
            if block[1][:1] == ["console"]:
                hold_block(page, block, folder, counts)


def hold_links(page, pages, counts):
    for number, line in page.lines:
        for target in re.findall(r"\]\(([^)\s]+)\)", line):
            if re.match(r"\w+:", target):
                continue
            counts.links += 1
            path, _, heading = target.partition("#")
            path = os.path.normpath(os.path.join(os.path.dirname(page.path), path)) if path else page.path
            if not os.path.exists(f"{TOP}/{path}"):
                counts.tell(page, number, f"the link {target} leads to no file")
            elif heading and path in pages and heading not in pages[path].headings():
                counts.tell(page, number, f"the link {target} leads to no heading")


def is_there(span, crates):
    """Whether what a code span names is in the repository, or None where it names nothing of it."""
    first = span.split("/")[0]
    if re.search(r"[^\w./*-]", span) or re.search(r"(^|/)[A-Z]+(/|$)", span) or "out" in span.split("/"):
        return None
    if LAW.fullmatch(span):
        return span in crates["laws"]
    if "/" in span and (first in crates["top"] or first in crates["names"]):
        return bool(glob.glob(f"{TOP}/{'crates/' if first in crates['names'] else ''}{span}"))
    if first in PARTS and "/" in span:
        return bool(glob.glob(f"{TOP}/crates/*/{span}"))
    if FILE.fullmatch(span):
        return bool(glob.glob(f"{TOP}/**/{span}", recursive=True))
    return None


def hold_paths(page, crates, counts):
    for number, line in page.lines:
        for span in re.findall(r"`([^`]+)`", line):
            found = is_there(span, crates)
            counts.paths += found is not None
            if found is False:
                counts.tell(page, number, f"there is no {span}")


def crates_in():
    """What code spans may name: the folders at the top, the crates and their laws."""
    text = "".join(open(file, encoding="utf-8").read()
                   for file in glob.glob(f"{TOP}/crates/*/src/**/*.rt", recursive=True))
    top = [it for it in os.listdir(TOP) if os.path.isdir(f"{TOP}/{it}") and it != ".git"]
    return {"top": top, "names": os.listdir(f"{TOP}/crates"), "laws": set(re.findall(rf"\bfn ({LAW.pattern})", text))}


def main():
    words = sys.argv[1:]
    program = os.path.abspath(the_program([words.pop(0)] if words and not words[0].endswith(".md") else []))
    # A program that builds itself, as ./alpha, does so here, before a command is timed.
    subprocess.run([program, "trial", "1"], stdin=subprocess.DEVNULL, stdout=subprocess.DEVNULL, check=False)
    paths = sorted(os.path.relpath(it, TOP) for part in PAGES for it in glob.glob(f"{TOP}/{part}", recursive=True))
    pages, crates, counts = {path: Page(path) for path in paths}, crates_in(), Counts()
    for path, page in pages.items():
        if words and path not in words:
            continue
        hold_links(page, pages, counts)
        hold_paths(page, crates, counts)
        hold_blocks(page, program, counts)
    print(f"{len(words) or len(pages)} pages, {counts.commands} commands, {counts.links} links, {counts.paths} paths: "
          f"{counts.wrong} wrong")
    sys.exit(bool(counts.wrong))


if __name__ == "__main__":
    main()
