"""The words of a command line: which the program refuses, and what it takes the others for."""
import os
import subprocess

from .helpers import ASKED, needs_program, read, want, write

# Words that are refused, one call a line; `''` is an empty word, and `_` in a word a space.
REFUSED = """
check | check -- | check -a | check --file=a | check a b | check -- a b | check --help | check -h a | check --version
Check a | chec a | dis | dis a b | dis -a | dism a | debug | debug a b
fix a | fix a b c | asm | asm a | asm a b c | asm -o b a | module a | module a b c
replay | replay a | replay a b c | replay a -j | replays a b
run | run a b | run --watch --watch a | run --steps 1 --steps 1 a | run --complete=wrap --complete=wrap a
run a --steps | run --steps --watch a | run --steps -- a | run --watch= a
run --steps -3 a | run --steps +3 a | run --steps= a | run --steps 0x3 a | run --steps 3_ a
run --steps 18446744073709551616 a | run --steps 000000000000000000012 a
run --complete Wrap a | run --complete '' a | run --step 3 a | run -w a
run --force a | run --seed 5 a | run --choices c a
run --imprecise --seed 5 --choices c a | run --imprecise --seed 18446744073709551616 a
run --imprecise --choices --seed a | run --imprecise --imprecise a
record a | record a j k | record --watch a j | record --imprecise a j | record --seed 1 --choices c a j
record --complete none a j
trial 0 | trial 20001 | trial 4294967297 | trial ''
link | link o | link --entry m o | link o a --entry | link --entry m --entry m o a | link -o o a | links o a
"""
# What ends after eight steps, and under `saturate` exits with 1, under `wrap` with 0.
SUM = b"""start:  lda $1,-1($31)
        srl $1,1,$1
        bis $31,1,$2
        addq/v $1,$2,$3
        trapb
        cmpeq $3,$1,$16
        lda $0,1($31)
        callsys
        .entry start
"""
# Five traps, whose moments the choices say.
TRAPS = b"start:  lda $1,-1($31)\n srl $1,1,$1\n" + b"".join(b" addq/v $1,$1,$%d\n" % n for n in range(2, 7)) + \
    b" trapb\n clr $16\n lda $0,1($31)\n callsys\n .entry start\n"
LOST = b"start:  addq/v $1,$2,$1\n trapb\n clr $16\n lda $0,1($31)\n callsys\n .entry start\n"
OVERFLOW, END = "overflow 000000000001000c\n", "exit {}\n"


class Here:
    """The program in a folder, which has the image `a` of a source; `c` has choices."""

    def __init__(self, folder, text=SUM):
        self.folder, self.text = folder, text
        write(self.path("c"), bytes(800))
        self.make("a", text)

    def path(self, name):
        return os.path.join(self.folder, name)

    def call(self, *words, given=b""):
        """Status, output and notes."""
        done = subprocess.run([os.path.abspath(ASKED), *words], cwd=self.folder, input=given, capture_output=True,
                              check=False)
        return done.returncode, done.stdout.decode(), done.stderr.decode()

    def make(self, name, text, command="asm"):
        write(self.path("source"), text)
        want(self.call(command, "--", "source", name), (0, "", ""), name)

    def wants(self, words, *answer):
        want(self.call(*words.split()), answer, words)


@needs_program
def test_words_outside_the_rules_are_refused(folder):
    here = Here(folder)
    for line in REFUSED.replace("\n", " | ").strip(" |").split(" | "):
        words = ["" if word == "''" else word.replace("_", " ") for word in line.split()]
        want(here.call(*words), (2, "", "words\n"), line)
    want(here.call(), (2, "", "words\n"), "no word")
    want(sorted(os.listdir(folder)), ["a", "c", "source"], "files")


@needs_program
def test_a_command_has_its_file(folder):
    """Behind `--` a word is no option; a lone `-`, an empty word and a command's name are files."""
    here = Here(folder)
    want(here.call("check", ""), (8, "", "shelf\n"), "an empty name")
    for words, name in ((["a b"], "a b"), (["--", "-a"], "-a"), (["--", "--"], "--"), (["-"], "-"),
                        (["check"], "check"), (["--", "b"], "b"), (["b", "--"], "b")):
        want(here.call("check", *words), (8, "", "shelf\n"), f"{words}, which isn't there")
        here.make(name, SUM)
        want(here.call("check", *words), (0, "accepted\n", ""), words)
        want(here.call("dis", *words)[1], here.call("dis", "a")[1], words)
        want(here.call("debug", *words), (0, "", ""), words)
        os.remove(here.path(name))


@needs_program
def test_what_is_made_is_kept_under_the_last_name(folder):
    here = Here(folder)
    for command, made in (("asm", read(here.path("a"), "rb")), ("fix", SUM)):
        here.wants(f"{command} source b", 0, "", "")
        want(read(here.path("b"), "rb"), made, command)
    here.wants("asm source -- -b", 0, "", "")
    here.wants("asm source source", 0, "", "")
    want(read(here.path("source"), "rb"), read(here.path("-b"), "rb"), "its own source")
    here.make("m", b"m: callsys\n", "module")
    want(read(here.path("m"), "rb")[:8], b"ALPHAOB1", "a module")
    here.wants("record a -- -j", 0, "", OVERFLOW + END.format(0))
    here.wants("replay a -- -j", 0, "run units 8 reports 1\n", "")


@needs_program
def test_a_link_has_its_entry_and_up_to_64_files(folder):
    here = Here(folder)
    for name, label in (("a", "start"), ("b", "m"), ("--entry", "m")):
        here.make(name, f"{label}: lda $0,1\n callsys\n".encode(), "module")
    for words, entry in (("link o a", 0), ("link o a b", 0), ("link --entry m o a b", 8), ("link o a --entry m b", 8),
                         ("link o a b --entry=m", 8), ("link o -- a --entry", 0)):
        here.wants(words, 0, "", "")
        want(f".entry {0x10000 + entry:#x}" in here.call("dis", "o")[1], True, words)
    want(here.call("link", "--entry=", "o", "a")[0], 17, "an empty entry")
    names = [f"m{n}" for n in range(64)]
    for name in names:
        here.make(name, f"{name.replace('m0', 'start')}: nop\n".encode(), "module")
    want(here.call("link", "o", *names), (0, "", ""), "64 files")
    want(here.call("link", "o", *names, "b"), (2, "", "words\n"), "65 files")


@needs_program
def test_a_run_has_its_options_in_any_order(folder):
    here, most, long = Here(folder), str(2 ** 64 - 1), "00000000000000000008"
    wrapped, cut = (0, "", OVERFLOW + END.format(0)), (6, "", OVERFLOW + "steps\n")
    saturated, stopped = (0, "", OVERFLOW + END.format(1)), (5, "", "stop at 000000000001000c\n")
    for words, wanted in (("a", wrapped), ("--steps 8 a", wrapped), ("--steps=008 a", wrapped),
                          (f"--steps={long} a", wrapped), ("--steps 007 a", cut),
                          ("--steps=00000000000000000007 a", cut), ("--steps 0 a", (6, "", "steps\n")),
                          (f"a --steps {most}", wrapped), ("--complete wrap a", wrapped),
                          ("--complete=saturate -- a", saturated), ("a --complete saturate --steps 7", cut),
                          ("--steps 9 --complete=stop a", stopped),
                          ("--watch --complete stop a --steps 9", stopped),
                          ("--steps 9 --watch --complete=stop a", stopped)):
        want(here.call("run", *words.split()), wanted, words)
    for words in ("--watch a", "a --watch", "--watch --complete saturate a --steps 9",
                  "--steps 9 --watch --complete=wrap a"):
        status, _, notes = here.call("run", *words.split())
        want((status, notes.startswith(OVERFLOW + "barrier 0000000000010014\n")), (0, True), words)


@needs_program
def test_the_choices_have_a_seed_or_a_file(folder):
    here = Here(folder, TRAPS)
    for words, seed in (("record a j", 0), ("record a j --seed=5", 5), ("record a --seed=5 --steps 99 j", 5)):
        want(here.call(*words.split())[0], 0, words)
        made = read(here.path("j"), "rb")
        for other in (0, 5):
            want(here.call("record", "a", "k", "--seed", str(other))[0], 0, f"seed {other}")
            want(read(here.path("k"), "rb") == made, other == seed, f"{words}, and seed {other}")
    want(here.call("record", "--steps", "3", "a", "j")[0], 6, "three steps")
    for words in ("run --imprecise a", "run a --seed=5 --imprecise", "run --imprecise --choices c a",
                  "record --choices c a j", "record --complete wrap -- a j"):
        want(here.call(*words.split())[0], 0, words)
    for words in ("run --imprecise --choices none a", "run --imprecise --force --choices= a",
                  "record --choices none a --force j"):
        here.wants(words, 8, "", "shelf\n")
    here.make("a", LOST)
    broken = (1, "", "broken trigger 0000000000010000 at 0000000000010000 condition C2\n")
    for words in ("run --imprecise a", "record a j"):
        here.wants(words, *broken)
    for words in ("run --force --imprecise a", "record a --force j"):
        want(here.call(*words.split())[0], 0, words)


@needs_program
def test_a_trial_has_its_number(folder):
    here = Here(folder)
    first, seventh = here.call("trial", "1"), here.call("trial", "7")
    want((first[0], first[1].startswith("sequential words ")), (0, True), "trial 1")
    want((seventh == first, seventh == here.call("trial", "007")), (False, True), "trial 007")
    want(here.call("trial", "20000")[0], 0, "trial 20000")
