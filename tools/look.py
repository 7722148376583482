#!/usr/bin/env python3
"""Compiles the program without a proof and keeps it as .look/alpha_tool. ./look calls this where the program is missing
or was made of other sources.

    tools/look.py

The kit's `rt try` compiles a program with checks, runs it and removes it. Here it gets a folder of its own for its
temporary files. The executable is opened while it stands there, and kept once the run is over and the kept one has
answered the same words alike. `rt try` waits for no other command of the kit, and no other command waits for it.

Where the program can't be made the status is 70, and the one that was there before stays.
"""
import fcntl
import os
import re
import signal
import subprocess
import sys
import tempfile
import time

sys.dont_write_bytecode = True
import kit

FOLDER = os.path.join(kit.TOP, ".look")
PROGRAM = os.path.join(FOLDER, "alpha_tool")
# A call that runs for long enough to be seen, and shows that both machines work.
WORDS = ["trial", "300"]
ENDED = re.compile(r"^run=ended status=(\d+) .*\n\Z", re.M)
SECONDS_BETWEEN_LOOKS = 0.02


def say(text):
    print(f"look: {text}", file=sys.stderr, flush=True)


def give_up(text):
    sys.exit(f"look: {text}")


def executables(room):
    for folder, _, names in os.walk(room):
        for path in (os.path.join(folder, name) for name in names):
            if os.access(path, os.X_OK):
                yield path


def watch(trying, room):
    """The last executable that was seen in the folder before the command ended, open for reading."""
    seen = {}
    while trying.poll() is None:
        for path in executables(room):
            try:
                file = open(path, "rb")
            except FileNotFoundError:
                continue
            seen.setdefault(os.fstat(file.fileno()).st_ino, file)
        time.sleep(SECONDS_BETWEEN_LOOKS)
    return [*seen.values()][-1:]


def compile_program(room):
    """The bytes of the program, and what it wrote and its status when the kit ran it."""
    with tempfile.TemporaryFile("w+") as wrote, tempfile.TemporaryFile("w+", errors="replace") as said:
        trying = subprocess.Popen(["rt", "try", "--steps", "1", "--", *WORDS], cwd=f"{kit.TOP}/crates/alpha_tool",
                                  env={**os.environ, "TMPDIR": room}, stdin=subprocess.DEVNULL, stdout=wrote,
                                  stderr=said)
        try:
            found = watch(trying, room)
        finally:
            trying.terminate()
            trying.wait()
        wrote.seek(0)
        said.seek(0)
        told = said.read()
        ended = ENDED.search(told)
        if not ended or not found:
            sys.stderr.write(told)
            give_up("the program can't be compiled" if not ended else "the kit left no program to keep")
        return found[0].read(), (int(ended[1]), wrote.read())


def keep(program, answer):
    """Puts the program in its place, where it answers outside the kit's folders as it did there."""
    with open(f"{PROGRAM}.new", "wb") as file:
        file.write(program)
    os.chmod(f"{PROGRAM}.new", 0o755)
    ran = subprocess.run([f"{PROGRAM}.new", *WORDS], stdin=subprocess.DEVNULL, capture_output=True, text=True,
                         errors="replace")
    if (ran.returncode, ran.stdout) != answer:
        give_up(f"the program that was compiled doesn't run here: status {ran.returncode}\n{ran.stderr}")
    os.replace(f"{PROGRAM}.new", PROGRAM)


def main():
    signal.signal(signal.SIGTERM, lambda number, _: sys.exit(128 + number))
    rt = kit.load()
    if rt is None:
        give_up(kit.MISSING)
    os.makedirs(FOLDER, exist_ok=True)
    tool = kit.tool(rt)
    with open(f"{FOLDER}/lock", "w", encoding="utf-8") as lock, tempfile.TemporaryDirectory(prefix="look-") as room:
        fcntl.flock(lock, fcntl.LOCK_EX)
        stamp = kit.look_at(rt, tool)[0]
        if kit.has_stamp(rt, PROGRAM, stamp):
            return
        say("compiling the program, for about a minute, once: it is of the same sources as that of ./alpha, and not "
            "proved")
        keep(*compile_program(room))
        if kit.look_at(rt, tool)[0] == stamp:
            kit.put_stamp(rt, PROGRAM, stamp)


if __name__ == "__main__":
    try:
        main()
    except KeyboardInterrupt:
        # The caller sees that an interruption ended it.
        signal.signal(signal.SIGINT, signal.SIG_DFL)
        os.kill(os.getpid(), signal.SIGINT)
    except SystemExit as error:
        if isinstance(error.code, str):
            print(error.code, file=sys.stderr)
        sys.exit(kit.NO_PROGRAM if error.code else 0)
    except OSError as error:
        say(f"the program can't be made: {error}")
        sys.exit(kit.NO_PROGRAM)
