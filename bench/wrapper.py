#!/usr/bin/env python3
"""Tries ./alpha and ./look, in three parts:

    alpha   on a small repository with three crates of its own, so that a build takes a minute: the usage, a machine
            without the kit, an interruption and what the next build says, a link in a folder on the path, changed
            sources, a build that fails over a program that worked, and copies
    look    on another such repository: an interruption, a look while a build goes on, changed sources, and copies
    first   on a copy of this repository: a first look, the calls behind it, files, a terminal, and the blocks of
            README.md

    bench/wrapper.py [PART ..]     all three, where none is named
"""
import os
import pty
import re
import shutil
import signal
import subprocess
import sys
import tempfile
import time

import pages
from measure import TOP, read

FAILED = 70
COMMANDS = "check dis asm fix module link run record replay debug trial".split()
CALLED = "sh dirname readlink find sort xargs sha256sum cmp cat sed python3".split()
NUMBER = """//! One function.
#![tactic(auto)]

ghost use Rattle.std.specs.Prelude.{◌≡◌};

/// The number itself.
pub fn number(of: u32) -> u32
    ensures { result ≡ of }
{
    of
}
"""
MAIN = """//! Writes two numbers.
#![tactic(auto)]

use std::io;

fn main(rt: HostRuntime) -> io::Result<()> {
    println!(rt; "{} {}", alpha_one::number(1), alpha_two::number(2))?;
    Ok(())
}
"""
CRATES = "alpha_one:\nalpha_two: alpha_one\nalpha_tool: alpha_one alpha_two\nalpha_other: alpha_one\n"
# Holds all crates, as a build does, until it is told to end.
HOLD = """
import sys
sys.path.insert(0, "tools")
import kit
rt = kit.load()
tool = kit.tool(rt)
held = rt.rtlib.lock([*tool.below(), tool])
print("held", flush=True)
sys.stdin.read()
"""
ANSWER = (0, "1 2\n", "")
LOST = "broken trigger 000000000001000c at 000000000001000c condition C2\n"
wrong = []


def show(what, *facts):
    is_well = all(facts)
    print(f"{'ok' if is_well else 'WRONG'}: {what}{'' if is_well else f' {facts}'}", flush=True)
    wrong.extend([what] * (not is_well))


def small_repository(folder):
    for name in ("alpha", "look"):
        shutil.copy(f"{TOP}/{name}", folder)
    shutil.copytree(f"{TOP}/tools", f"{folder}/tools")
    os.mkdir(f"{folder}/docs")
    shutil.copy(f"{TOP}/docs/commands.md", f"{folder}/docs")
    for name in ("alpha_one", "alpha_two", "alpha_other"):
        os.makedirs(f"{folder}/crates/{name}/src")
        write(f"{folder}/crates/{name}/src/lib.rt", NUMBER)
    os.makedirs(f"{folder}/crates/alpha_tool/src")
    write(f"{folder}/crates/alpha_tool/src/main.rt", MAIN)
    write(f"{folder}/crates.txt", CRATES)
    write(f"{folder}/VERSION", "1.2.3\n")


def write(path, text):
    with open(path, "w", encoding="utf-8") as file:
        file.write(text)


def call(command, stdin=subprocess.DEVNULL, **how):
    ran = subprocess.run(command, capture_output=True, text=True, stdin=stdin, **how)
    return ran.returncode, ran.stdout, ran.stderr


def without_kit(room, called=CALLED):
    """An environment whose path has what the two scripts call, or other commands, and no kit."""
    folder = f"{room}/bin"
    os.mkdir(folder)
    for name in called:
        os.symlink(os.path.realpath(shutil.which(name)), f"{folder}/{name}")
    return {**os.environ, "PATH": folder}


def interrupt(command, line):
    """Interrupts a command once it has said such a line, as a terminal does; gives how it ended and what it said."""
    with subprocess.Popen(command, stderr=subprocess.PIPE, stdout=subprocess.PIPE, text=True,
                          start_new_session=True) as build:
        said = ""
        for it in build.stderr:
            said += it
            if re.match(line, it):
                os.killpg(build.pid, signal.SIGINT)
        return build.wait(), said


def try_usage(top, bare):
    status, usage, said = call([f"{top}/alpha"], env=bare)
    show("without words the usage comes, without the kit and without a program",
         status == 0, said == "", all(f"\n  {it} " in usage for it in COMMANDS),
         all(f"\n  {it:<4} " in usage for it in [*range(21), FAILED]), "--complete wrap, saturate or stop\n" in usage,
         "docs/" in usage)
    show("and so it does by each word for it",
         all(call([f"{top}/alpha", it], env=bare) == (0, usage, "") for it in ("help", "--help", "-h")),
         "./alpha help [COMMAND]" in usage, "./look help [COMMAND]" in call([f"{top}/look"], env=bare)[1])
    helps = [call([f"{top}/look", "help", it], env=bare) for it in COMMANDS]
    show("each command has its help", all(status == 0 and text.startswith(f"  {it} ") and not said
                                          for it, (status, text, said) in zip(COMMANDS, helps)))
    status, text, said = call([f"{top}/alpha", "help", "judge"], env=bare)
    show("another hasn't", status == 2, text == "",
         said == "alpha: there is no command judge: ./alpha help names all\n")
    show("without a program there is none but that of the sources", call([f"{top}/alpha", "--version"], env=bare) ==
         (0, "version 1.2.3\nno program yet: the first call makes it\n", ""))


def try_alpha(room, top, bare):
    try_usage(top, bare)
    try_builds(room, top, bare)
    try_edits(top, bare)
    try_copies(room, top, bare, "alpha", "crates/alpha_tool/out/alpha_tool")


def try_builds(room, top, bare):
    alpha, program, log = f"{top}/alpha", f"{top}/crates/alpha_tool/out/alpha_tool", f"{top}/.alpha-build.log"

    status, output, said = call([alpha, "go"], env=bare)
    show("without the kit the status is 70, and a line says what is missing",
         status == FAILED, output == "", "kit is missing" in said, not os.path.exists(program))

    status, said = interrupt([alpha, "go"], r"alpha: 1 of 3: ")
    show("a build says beforehand how long it takes and how much disk, and counts its crates",
         re.search(r"3 crates; about \d+ min on \d+ idle processors and \d+ MB of disk", said),
         "1 of 3: alpha_one" in said)
    show("an interruption ends it", status == -signal.SIGINT, not os.path.exists(program))

    os.makedirs(f"{room}/path")
    os.symlink("../top/alpha", f"{room}/path/first")
    os.symlink("first", f"{room}/path/alpha")
    there = {**os.environ, "PATH": f"{room}/path:{os.environ['PATH']}"}
    status, output, said = call(["alpha", "go"], env=there, cwd=room)
    show("the next build goes on from there, by a link on the path",
         status == 0, output == "1 2\n", "3 crates, 1 of them proved already" in said, "3 of 3: alpha_tool" in said,
         "1 of 3" not in said, "alpha_other" not in said)
    text = read(log).decode()
    show("the log has both parts", "1 of 3: alpha_one" in text, "3 of 3: alpha_tool" in text, "alpha: built in" in text)

    show("a program that is built runs at once, without the kit too", call([alpha, "go"], env=bare) == ANSWER)
    show("words behind -- are the program's", call([alpha, "--", "--help"], env=bare) == ANSWER)
    kit = subprocess.run(["rt", "version"], capture_output=True, text=True, check=True).stdout
    show("the version is the commit and the kit", call([alpha, "--version"], env=bare) ==
         (0, f"version 1.2.3\ncommit unknown\nkit {kit}program proved\n", ""))


def try_edits(top, bare):
    alpha, program = f"{top}/alpha", f"{top}/crates/alpha_tool/out/alpha_tool"
    was, source = read(program), f"{top}/crates/alpha_two/src/lib.rt"
    os.utime(source)
    show("a source that is newer and has the same text is not proved again", call([alpha, "go"], env=bare) == ANSWER)
    write(f"{top}/crates/alpha_other/src/lib.rt", NUMBER.replace("The number", "Gives the number"))
    show("nor are the crates below the program where another one is changed", call([alpha, "go"]) == ANSWER,
         read(program) == was)
    write(source, NUMBER.replace("    of\n", "    1\n"))
    os.utime(source, (0, 0))
    status, output, said = call([alpha, "go"])
    show("where the build fails the status is 70, and the old program stays, whatever the date of the source",
         status == FAILED, output == "", "the build failed at alpha_two" in said, read(program) == was)
    show("the version says that the sources are others", "the sources are others now" in call([alpha, "--version"])[1])
    write(source, NUMBER)
    show("once its source is as it was the old program runs again", call([alpha, "go"], env=bare) == ANSWER)
    write(source, NUMBER.replace("The number", "Gives the number"))
    status, output, said = call([alpha, "go"])
    show("a changed source is proved, and what stands on it", (status, output) == ANSWER[:2],
         "3 crates, 1 of them proved already" in said, "2 of 3: alpha_two" in said, "alpha: built in" in said)


def try_copies(room, top, bare, name, program):
    copies = f"{room}/copy", f"{room}/other"
    subprocess.run(["cp", "-r", top, copies[0]], check=True)
    show(f"a copy for which ./{name} has made its program runs at once",
         call([f"{copies[0]}/{name}", "go"], env=bare) == ANSWER)
    write(f"{copies[0]}/crates/alpha_two/src/lib.rt", NUMBER.replace("    of\n", "    of + 0\n"))
    subprocess.run(["cp", "-r", *copies], check=True)
    os.utime(f"{copies[1]}/{program}")
    status, output, said = call([f"{copies[1]}/{name}", "go"], env=bare)
    show("one with other sources than those of its program doesn't run that, however new it is",
         status == FAILED, output == "", "kit is missing" in said)


def try_small_look(room, top, bare):
    look, program = f"{top}/look", f"{top}/.look/alpha_tool"
    status, output, said = call([look, "go"], env=bare)
    show("without the kit no look can be compiled", status == FAILED, output == "", "kit is missing" in said)
    status, said = interrupt([look, "go"], "look: compiling")
    show("an interruption ends a compilation", status == -signal.SIGINT, not os.path.exists(program))
    with subprocess.Popen([sys.executable, "-c", HOLD], cwd=top, stdin=subprocess.PIPE,
                          stdout=subprocess.PIPE) as build:
        build.stdout.readline()
        status, output, said = call([look, "go"])
        show("a look is compiled while a build holds all crates", (status, output) == ANSWER[:2], build.poll() is None,
             said.startswith("look: compiling the program"), said.count("\n") == 1)
        build.stdin.close()
    show("from then on it runs at once, without the kit too, and says nothing", call([look, "go"], env=bare) == ANSWER)
    show("./alpha doesn't run it", call([f"{top}/alpha", "go"], env=bare)[0] == FAILED)
    write(f"{top}/crates/alpha_tool/src/main.rt", MAIN.replace("{} {}", "{}, {}"))
    status, output, said = call([look, "go"])
    show("it is made anew where a source is changed", (status, output) == (0, "1, 2\n"),
         said.startswith("look: compiling the program"))
    write(f"{top}/crates/alpha_tool/src/main.rt", MAIN + "}")
    status, output, said = call([look, "go"])
    show("where it can't be compiled the status is 70, with what the kit said", status == FAILED, output == "",
         "error" in said,
         said.endswith("look: the program can't be compiled\n"))
    write(f"{top}/crates/alpha_tool/src/main.rt", MAIN)
    show("and the program of the sources as they were is made again", call([look, "go"])[:2] == ANSWER[:2])
    try_copies(room, top, bare, "look", ".look/alpha_tool")


def at_terminal(command, lines, cwd):
    """What a command answers to the first of the lines that are typed at a terminal before the next one, and its
    status."""
    typed, terminal = pty.openpty()
    with subprocess.Popen(command, stdin=terminal, stdout=subprocess.PIPE, text=True, cwd=cwd) as run:
        os.close(terminal)
        answers = []
        for line in lines:
            os.write(typed, f"{line}\n".encode())
            answers.append(run.stdout.readline())
        os.write(typed, b"quit\n")
        status = run.wait()
    os.close(typed)
    return answers, status


def try_first(room, real):
    """On a copy of this repository, which has no program."""
    listed = subprocess.run(["git", "ls-files", "-z", "--cached", "--others", "--exclude-standard"], cwd=TOP,
                            capture_output=True, check=True)
    files = [it for it in listed.stdout.decode().split("\0") if it and os.path.exists(f"{TOP}/{it}")]
    for folder in {os.path.dirname(it) for it in files}:
        os.makedirs(f"{real}/{folder}", exist_ok=True)
    for it in files:
        shutil.copy(f"{TOP}/{it}", f"{real}/{it}", follow_symlinks=False)
    os.symlink(f"{real}/look", f"{room}/look")
    start = time.time()
    status, output, said = call([f"{room}/look", "check", "lost.img"], cwd=f"{real}/examples")
    show(f"a first look has the program's answer and status, and says that it is not proved; it took "
         f"{time.time() - start:.0f} seconds",
         status == 1, output == "", "not proved" in said, said.count("\n") == 2, said.endswith(LOST))
    start = time.time()
    second = call([f"{room}/look", "check", "lost.img"], cwd=f"{real}/examples")
    show(f"the second says nothing else; it took {time.time() - start:.2f} seconds", second == (1, "", LOST))
    call([f"{room}/look", "asm", f"{real}/examples/lost.s", "kept.img"], cwd=room)
    show("a file that it keeps is there", read(f"{room}/kept.img") == read(f"{real}/examples/lost.img"))
    answers, status = at_terminal([f"{room}/look", "debug", "factorial.img"], ["dis 0x10000 1", "step"],
                                  f"{real}/examples")
    show("it answers what is typed at a terminal line by line", status == 0, all(answers), f" {answers}")
    show("a word behind -- is the program's", call([f"{room}/look", "--", "--help"]) == (2, "", "words\n"))
    closed = [subprocess.run(f"{room}/look {words}", shell=True, cwd=f"{real}/examples", stderr=subprocess.DEVNULL,
                             check=False).returncode
              for words in ("debug lost.img <&-", "check repaired.img >&-", "dis lost.img >/dev/full")]
    show("closed and full streams have their statuses", closed == [9, 10, 10])
    blocks = [pages.commands_in(it) for it in pages.Page("README.md").blocks if it[1][:1] == ["console"]]
    blocks = [[(at, command.replace("./alpha", "./look"), shown) for at, command, shown in it] for it in blocks]
    blocks = [it for it in blocks if any("./look" in command for _, command, _ in it)]
    show("it answers as README.md shows of ./alpha", len(blocks) > 2,
         *(pages.is_shown(wrote, shown) for it in blocks
           for (_, _, shown), (wrote, _) in zip(it, pages.run_block(it, real))))
    shadows = call([f"{real}/companions/shadowmap", "examples/refused.img"], cwd=real,
                   env={**os.environ, "ALPHA": "./look"})
    show("a companion calls it", shadows[0] == 0, shadows[2] == "", "C2: a source is lost" in shadows[1])


def main(parts):
    if set(parts) - {"alpha", "look", "first"}:
        sys.exit(__doc__)
    # Where this was started in the background interruptions are ignored, and all that it starts would ignore them too.
    signal.signal(signal.SIGINT, signal.default_int_handler)
    for part in parts or ("alpha", "look", "first"):
        with tempfile.TemporaryDirectory() as room:
            room = os.path.realpath(room)
            top, bare = f"{room}/top", without_kit(room)
            os.mkdir(top)
            if part == "first":
                try_first(room, top)
                continue
            small_repository(top)
            {"alpha": try_alpha, "look": try_small_look}[part](room, top, bare)
    sys.exit(bool(wrong))


if __name__ == "__main__":
    main(sys.argv[1:])
