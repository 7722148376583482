#!/usr/bin/env python3
"""Tries the built program on devices that fail: OUT must be the old file or the whole new one after each, and the
status must say which. Calls of the C library fail or are interrupted by a library that is loaded before the program,
which takes a C compiler; some cases take root. What can't be tried here is told by a line and left out.

    bench/devices.py [PROGRAM] [RUNS]    RUNS: how often the program is killed, 300 if left out
"""
import contextlib
import errno
import os
import random
import resource
import shutil
import signal
import stat
import subprocess
import sys
import tempfile
import time

import neighbours
from keeping import OLD, SOURCE, Trial, build
from measure import NOP, TOP, TRAPB, image, repeated, the_program

MOST_TURNS = 40
BLOCK = 16_384


def failing_calls(trial):
    """Each turn of each call fails once, over an old OUT and over none."""
    counted = trial.path("counted")
    for call in ("open", "statx", "write", "fsync", "fchmod", "getentropy", "futimens", "rename", "close"):
        for number in (errno.EIO, errno.ENOSPC, errno.EDQUOT):
            for old in (OLD, None):
                refused = 0
                for count in range(1, MOST_TURNS):
                    trial.old_out() if old else trial.clear()
                    done = trial.asm(env=trial.failing(call, count, number, counted))
                    refused += done.returncode != 0
                    # The second sync is that of the folder, behind the rename: OUT is new whatever it answers.
                    left = trial.new if (call, count) == ("fsync", 2) else old
                    trial.check_out(f"{call} {count} fails with {errno.errorcode[number]}", done.returncode, left)
                    if int(trial.read(counted) or 0) < count:
                        break
                if call in ("open", "write", "fsync", "getentropy", "rename"):
                    trial.check(f"no failure of {call} was told", refused)
    print("failing calls: OUT was old or new as the status said")


def interrupted_calls(trial):
    """Every second read and write is interrupted: each answer is the same."""
    hello = os.path.join(TOP, "examples/factorial.img")
    script = b"step 3\nregs\ndis 0x10000 3\n"
    calls = [(["dis", hello], b""), (["run", hello], b""), (["debug", hello], script),
             (["check", "/dev/stdin"], trial.read(hello)),
             (["run", "/dev/stdin"], trial.read(hello))]
    for words, given in calls:
        plain = trial.run(*words, input=given)
        for call in ("read", "write"):
            done = trial.run(*words, input=given, env=trial.failing(call, 0, errno.EINTR))
            same = (done.returncode, done.stdout, done.stderr) == (plain.returncode, plain.stdout, plain.stderr)
            trial.check(f"{words[0]}: interrupted at each {call}: status {done.returncode}", same)
    for call in ("read", "write", "fsync", "open"):
        trial.old_out()
        done = trial.asm(env=trial.failing(call, 0, errno.EINTR))
        trial.check(f"asm, interrupted at each {call}: status {done.returncode}", done.returncode == 0)
        trial.check_out(f"asm, interrupted at each {call}", done.returncode, OLD)
    print("interrupted calls: each answer was the same")


def kills(trial, runs):
    """The program is killed at a random moment while it keeps a large image."""
    large, out = trial.path("large.s"), trial.path("large.out")
    with open(large, "wb") as file:
        file.write(SOURCE + b" .data\n" + b" .byte 1\n .align 13\n" * 2_000 + b" .byte 2\n")
    start = time.perf_counter()
    if trial.run("asm", large, out).returncode:
        trial.check("the large source isn't assembled", False)
        return
    longest, new = time.perf_counter() - start, trial.read(out)
    ends = {"old": 0, "new": 0}
    left = 0
    for _ in range(runs):
        with open(out, "wb") as file:
            file.write(OLD)
        child = subprocess.Popen([trial.program, "asm", large, out], stderr=subprocess.DEVNULL)
        time.sleep(random.random() * longest * 1.1)
        child.kill()
        child.wait()
        found, files = trial.read(out), trial.left()
        trial.check(f"killed: OUT has {len(found or b'')} bytes, and is neither old nor new", found in (OLD, new))
        trial.check(f"killed: {files} left", len(files) <= 1)
        ends["new" if found == new else "old"] += 1
        left += len(files)
        for file in files:
            os.remove(file)
    print(f"{runs} kills: OUT was old {ends['old']} times and new {ends['new']} times; a new file was left {left} "
          f"times")


def limited_sizes(trial):
    def limit(ignored):
        resource.setrlimit(resource.RLIMIT_FSIZE, (16, 16))
        signal.signal(signal.SIGXFSZ, signal.SIG_IGN if ignored else signal.SIG_DFL)

    trial.old_out()
    done = trial.asm(preexec_fn=lambda: limit(True), restore_signals=False)
    trial.check(f"a limit on file sizes: status {done.returncode}", done.returncode == 8)
    trial.check_out("a limit on file sizes", done.returncode, OLD)
    done = trial.asm(preexec_fn=lambda: limit(False), restore_signals=False)
    trial.check(f"a limit on file sizes, not ignored: status {done.returncode}", done.returncode == -signal.SIGXFSZ)
    trial.check("a limit on file sizes, not ignored: OUT differs", trial.read(trial.out) == OLD)
    trial.check(f"a limit on file sizes, not ignored: {trial.left()} left", len(trial.left()) == 1)
    trial.clear()
    print("limits on file sizes: OUT was old")


def full_disk(trial):
    disk = trial.path("disk")
    os.mkdir(disk)
    if subprocess.run(["mount", "-t", "tmpfs", "-o", "size=64k", "none", disk], capture_output=True).returncode:
        return print("left out: a full disk: none can be mounted here")
    try:
        out = os.path.join(disk, "out")
        with open(out, "wb") as file:
            file.write(OLD)
        with open(os.path.join(disk, "filler"), "wb") as file, contextlib.suppress(OSError):
            file.write(bytes(1 << 20))
        done = trial.asm(out)
        trial.check(f"a full disk: status {done.returncode}", done.returncode == 8)
        trial.check("a full disk: OUT differs", trial.read(out) == OLD)
        trial.check("a full disk: a new file is left", sorted(os.listdir(disk)) == ["filler", "out"])
    finally:
        subprocess.run(["umount", disk], check=True)
    print("a full disk: OUT was old")


def permissions(trial):
    """As another user where this is root, whom no mode stops."""
    folder = trial.path("locked")
    os.mkdir(folder)
    out = os.path.join(folder, "out")
    nobody = 65_534
    user = (lambda: (os.setgid(nobody), os.setuid(nobody))) if os.geteuid() == 0 else None

    def kept(folder_mode, out_mode):
        os.chmod(folder, 0o755)
        with open(out, "wb") as file:
            file.write(OLD)
        os.chmod(out, out_mode)
        if user:
            os.chown(out, nobody, nobody)
            os.chown(folder, nobody, nobody)
        os.chmod(folder, folder_mode)
        before = os.stat(out).st_ino
        done = trial.asm(out, preexec_fn=user)
        return done.returncode, trial.read(out), os.stat(out).st_ino == before, stat.S_IMODE(os.stat(out).st_mode)

    for path in (trial.folder, os.path.dirname(trial.program)):
        if user and subprocess.run(["test", "-x", path], preexec_fn=user).returncode:
            os.chmod(path, 0o755) if path == trial.folder else None
    if (user and subprocess.run([trial.program, "check", trial.source], preexec_fn=user, capture_output=True).returncode
        != 4):
        return print("left out: permissions: another user can't run the program here")
    trial.check("a folder that takes no file: OUT isn't written in place",
                kept(0o555, 0o644) == (0, trial.new, True, 0o644))
    trial.check("a file that may not be written", kept(0o755, 0o444) == (8, OLD, True, 0o444))
    trial.check("modes", [kept(0o755, mode) for mode in (0o600, 0o666, 0o755)]
                == [(0, trial.new, False, mode) for mode in (0o600, 0o666, 0o755)])
    os.chmod(folder, 0o755)
    print("permissions: as the page says")


def links(trial):
    trial.old_out()
    os.mkdir(trial.path("sub"))
    chain = [trial.path("sub/link"), trial.path("second")]
    os.symlink("../out", chain[0])
    os.symlink("sub/link", chain[1])
    for old in (OLD, None):
        trial.old_out() if old else trial.clear()
        done = trial.asm(chain[1])
        trial.check_out("a symbolic link", done.returncode, old)
        trial.check("a symbolic link is none any more", all(os.path.islink(link) for link in chain))
    trial.check(f"a new file is left beside a link: {os.listdir(trial.path('sub'))}",
                os.listdir(trial.path("sub")) == ["link"])
    trial.old_out()
    os.link(trial.out, trial.path("other"))
    trial.asm()
    trial.check("a hard link isn't cut", (trial.read(trial.out), trial.read(trial.path("other"))) == (trial.new, OLD))
    print("links: as the page says")


def no_files(trial):
    done = trial.asm("/dev/stdout")
    trial.check("/dev/stdout, a pipe", (done.returncode, done.stdout) == (0, trial.new))
    trial.old_out()
    with open(trial.out, "r+b") as file:
        done = subprocess.run([trial.program, "asm", trial.source, "/dev/stdout"], stdout=file)
        trial.check("/dev/stdout, a file",
                    (done.returncode, os.fstat(file.fileno()).st_ino) == (0, os.stat(trial.out).st_ino))
    trial.check("/dev/stdout, a file: its bytes", trial.read(trial.out) == trial.new)
    trial.check("/dev/null", trial.asm("/dev/null").returncode == 0 and stat.S_ISCHR(os.stat("/dev/null").st_mode))
    trial.check("/dev/full", trial.asm("/dev/full").returncode == 8)
    trial.check("a folder as OUT", trial.asm(trial.folder).returncode == 8)
    fifo = trial.path("fifo")
    os.mkfifo(fifo)
    reader = subprocess.Popen(["cat", fifo], stdout=subprocess.PIPE)
    status = trial.asm(fifo).returncode
    trial.check("a fifo", (status, reader.communicate()[0]) == (0, trial.new) and stat.S_ISFIFO(os.stat(fifo).st_mode))
    print("what is no regular file: written in place")


def same_names(trial):
    own = trial.path("own")
    shutil.copy(trial.source, own)
    done = trial.run("asm", own, own)
    trial.check("OUT is FILE", (done.returncode, trial.read(own)) == (0, trial.new))
    modules = [trial.path(name) for name in ("total", "sum", "put")]
    for module in modules:
        trial.run("module", os.path.join(TOP, f"examples/modules/{os.path.basename(module)}.s"), module)
    linked = trial.path("linked")
    first = trial.run("link", linked, *modules)
    second = trial.run("link", modules[0], *modules)
    trial.check("OUT is a module",
                (first.returncode, second.returncode) == (0, 0) and trial.read(modules[0]) == trial.read(linked))
    journal = trial.path("journal")
    with open(journal, "wb") as notes:
        status = subprocess.run([trial.program, "record", os.path.join(TOP, "examples/factorial.img"), journal],
                                stdout=subprocess.DEVNULL, stderr=notes, stdin=subprocess.DEVNULL).returncode
    good = trial.run("replay", os.path.join(TOP, "examples/factorial.img"), journal).returncode == 0
    trial.check(f"record IMAGE OUT 2>OUT: status {status}", status == 0 and good)
    print("one file named twice: as the page says")


def dear_script(trial):
    """A script as long as one may be, and how often the program writes."""
    code, script, counted = trial.path("code"), trial.path("script"), trial.path("counted")
    with open(code, "wb") as file:
        file.write(image(repeated([NOP, NOP, TRAPB])))
    line = b"dis 0x10000 256\n"
    with open(script, "wb") as file:
        file.write(line * (1_048_576 // len(line)))
    start = time.perf_counter()
    with open(script) as lines, open(trial.path("answers"), "wb") as answers:
        subprocess.run([trial.program, "debug", code], stdin=lines, stdout=answers)
    took, size = time.perf_counter() - start, os.path.getsize(trial.path("answers"))
    print(f"the dearest script: {took:.1f} s, {size:,} bytes of answers")
    if trial.library:
        with open(script) as lines:
            subprocess.run([trial.program, "debug", code], stdin=lines, stdout=subprocess.DEVNULL,
                           env=trial.failing("write", 1 << 40, 0, counted))
        writes = int(trial.read(counted))
        most = size // (BLOCK - 128) + 1_048_576 // BLOCK + 2
        trial.check(f"the dearest script makes {writes} writes, and {most} would do", writes <= most)
        print(f"the dearest script: {writes:,} writes")


def main():
    words = sys.argv[1:]
    if len(words) > 2 or (len(words) == 2 and not words[1].isdigit()):
        sys.exit(__doc__.strip())
    program = os.path.abspath(the_program(words[:1]))
    with tempfile.TemporaryDirectory() as folder:
        trial = Trial(program, folder)
        if build(trial):
            failing_calls(trial)
            interrupted_calls(trial)
        limited_sizes(trial)
        full_disk(trial)
        permissions(trial)
        links(trial)
        no_files(trial)
        same_names(trial)
        neighbours.all_cases(trial)
        kills(trial, int(words[1]) if len(words) == 2 else 300)
        dear_script(trial)
    sys.exit(f"{trial.wrong} cases went wrong" if trial.wrong else 0)


if __name__ == "__main__":
    main()
