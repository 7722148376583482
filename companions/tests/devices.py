"""The program over files and streams: calls one after another, and programs whose runs were measured elsewhere."""
import os
import subprocess
import threading

from .helpers import ASKED, needs_program, read, rows, source, want, write

ACCEPTED = b"""start:  lda $1,2($31)
        lda $2,3($31)
        addq/v $1,$2,$3
        trapb
        callsys
        .entry start
"""
LISTED = b""".codebase 0x10000
.database 0x10000000
.stack 65536
.entry 0x10000
.code
lda $1,2($31)
lda $2,3($31)
addq/v $1,$2,$3
trapb
callsys
.data
.zero 0
"""
# The addition overwrites its own source.
REFUSED = b"start:  addq/v $1,$2,$1\n        trapb\n        callsys\n        .entry start\n"
BROKEN = "broken trigger 0000000000010000 at 0000000000010000 condition C2\n"
# Writes back up to 64 bytes of the input, and then goes where no code is.
ECHO = b"""        .data
buf:    .zero 64

        .code
start:  ldah $9,%hi(buf)($31)
        lda $9,%lo(buf)($9)
        clr $16                 # read(0, buf, 64)
        mov $9,$17
        lda $18,64($31)
        lda $0,3($31)
        callsys
        mov $0,$18              # write(1, buf, as many as were read)
        lda $16,1($31)
        mov $9,$17
        lda $0,4($31)
        callsys
        ret $31,($31)
        .entry start
"""
GIVEN, GONE = b"one call reads this\n", "fetch 0000000000000000\n"
# The words of each call, and its status, its output and its notes.
CALLS = (("asm accepted.s accepted.img", 0, b"", ""),
         ("check accepted.img", 0, b"accepted\n", ""),
         ("dis accepted.img", 0, LISTED, ""),
         ("asm refused.s refused.img", 0, b"", ""),
         ("check refused.img", 1, b"", BROKEN),
         ("check -- missing.img", 8, b"", "shelf\n"),
         ("asm other other.img", 3, b"", "source kind 1 line 1 column 1 detail 2\n"),
         ("asm echo.s echo.img", 0, b"", ""),
         ("run --steps=100 echo.img", 5, GIVEN, GONE),
         ("run --imprecise --seed 7 refused.img", 1, b"", BROKEN),
         ("record --steps=100 echo.img journal", 5, GIVEN, GONE),
         ("replay echo.img journal", 0, b"run units 14 reports 0\n", ""))


@needs_program
def test_calls_read_and_keep_files_and_use_the_streams(folder):
    for name, text in (("accepted.s", ACCEPTED), ("refused.s", REFUSED), ("echo.s", ECHO), ("other", b"alpha asm\n")):
        write(os.path.join(folder, name), text)
    for words, *wanted in CALLS:
        done = subprocess.run([os.path.abspath(ASKED), *words.split()], cwd=folder, input=GIVEN, capture_output=True,
                              check=False)
        want([done.returncode, done.stdout, done.stderr.decode()], wanted, words)
    want(sorted(os.listdir(folder)), ["accepted.img", "accepted.s", "echo.img", "echo.s", "journal", "other",
                                      "refused.img", "refused.s"], "files")


def put_bytes(pipe, given):
    """Writes each byte as a packet of its own, of which one read takes one, as long as somebody reads."""
    with open(pipe, "wb", buffering=0) as file:
        try:
            for byte in given:
                file.write(bytes([byte]))
        except BrokenPipeError:
            pass


def by_bytes(image, given, *words):
    """The status, the output and the notes of a run whose input comes byte by byte."""
    taken, put = os.pipe2(os.O_DIRECT | os.O_CLOEXEC)
    writer = threading.Thread(target=put_bytes, args=(put, given))
    writer.start()
    with open(taken, "rb") as file:
        done = subprocess.run([ASKED, "run", *words, image], stdin=file, capture_output=True, check=False)
    writer.join()
    return done.returncode, done.stdout, done.stderr.decode()


@needs_program
def test_programs_from_outside_run_as_was_measured(_):
    """Output, end, and where they are known notes and steps: it ends within so many steps, and not within one less."""
    for *names, end, steps in rows("programs.tsv"):
        image, given, output, notes = (name if name == "-" else source(f"alpha_vectors/data/{name}") for name in names)
        given, limit = read(given, "rb"), () if steps == "-" else ("--steps", steps)
        status, out, said = by_bytes(image, given, *limit)
        want((status, out, said.splitlines()[-1]), (0, read(output, "rb"), end), image)
        want(said, said if notes == "-" else read(notes), image)
        if limit:
            want(by_bytes(image, given, "--steps", str(int(steps) - 1))[0], 6, f"{image} in a step less")
