"""What the driver of the suite for emulators says of recorded runs, and of runs that an emulator refuses."""
import os
import shutil
import subprocess
import sys

from .emulator import FOLLOW, RECORD, SUITE, WRONG, against, changed, emulator
from .helpers import TOP, want, write

# What a recorded run has wrong, the right text of `emulate` and the wrong one, the files, and what is told. Each of the
# journals is one of a run.
OTHER_RUNS = [
    ("it ends early", "(steps or m.waited is not None)", "(steps > 99_990 or m.waited is not None)",
     "/late-orders.wrap",
     "late-orders by wrap with seed 1: the journal has no end, and 10 of 100000 units"),
    ("it is by another completion", "machine.Machine(whole, options.complete,", 'machine.Machine(whole, "wrap",',
     "/late-orders.stop",
     "late-orders by stop with seed 1: the journal is of a run by wrap"),
    ("it is over another input", "sys.stdin.buffer.read())", "sys.stdin.buffer.read()[8:])", "/late-loop.stop",
     "late-loop by stop with seed 1: the journal has 0 bytes of another output than the run without late traps"),
    ("it has another end", "m.end or (", "(\"fetch\", m.end[1], 0) if m.end[0] == \"signal\" else m.end or (",
     "/end-bpt",
     "end-bpt by wrap with seed 1: the journal is refused: norun kind 3 at 0"),
    ("its status is always 0", "    return status\n\n\ndef late", "    return DONE\n\n\ndef late", "/end-bpt",
     "end-bpt by wrap with seed 1: its status is 0 behind `signal 0 at 0000000000010008`, and 5 is wanted"),
]


def test_a_recorded_run_goes_to_its_end(folder):
    for number, (what, right, wrong, only, wanted) in enumerate(OTHER_RUNS):
        made = emulator(changed(os.path.join(folder, str(number)), what, "emulate", right, wrong))
        status, said = against("--record", made + RECORD, "--judge", emulator() + FOLLOW, "--seeds", "1", "--only",
                               only)
        want((status, said.splitlines()[0]), (1, wanted), what)


def test_a_judge_may_not_accept_what_is_no_journal(_):
    status, said = against("--record",
                           f"{sys.executable} -c 'import sys; open(sys.argv[1], \"w\").write(\"hello\")' {{journal}}",
                           "--judge", "true", "--seeds", "1", "--only", "/end-bpt")
    want((status, said.splitlines()[0]),
         (1, "end-bpt by wrap with seed 1: the judge accepts it, and it is no journal (docs/journals.md)"))


def test_runs_without_late_traps_are_told(folder):
    made = emulator(changed(folder, "at once", "emulate", "chosen.randrange(4) == 0", "True"))
    words = ("--judge", emulator() + FOLLOW, "--seeds", "1", "--only", "/late-masks.wrap")
    line = "no recorded run executes a word while a trap is pending: each is reported at once\n"
    want(against("--record", made + RECORD, *words), (0, line + "1 tried, 0 otherwise\n"), "at once")
    want(against("--record", emulator() + RECORD, *words), (0, "1 tried, 0 otherwise\n"), "late")


def without_judge(folder, *parts):
    """What a copy of the driver says where no judge is named and no file is meant. `bin` has a program."""
    os.makedirs(os.path.join(folder, "bin"), exist_ok=True)
    write(os.path.join(folder, "bin", "alpha"), b"")
    copy = os.path.join(folder, *parts, "conformance")
    os.makedirs(copy, exist_ok=True)
    for name in os.listdir(SUITE):
        if os.path.isfile(os.path.join(SUITE, name)):
            shutil.copy(os.path.join(SUITE, name), copy)
    done = subprocess.run([sys.executable, os.path.join(copy, "run"), "--record", "false", "--only", "no such file"],
                          capture_output=True,
                          text=True, check=False, cwd=TOP)
    want(done.returncode, 2, done.stderr)
    return done.stderr


def test_no_call_of_alpha_begins_to_prove_it(folder):
    """A copy of the suite where no program was built or installed. One in a folder above it may be anybody's."""
    want("isn't built yet: say another --judge" in without_judge(folder, "src", "checkout"), True, "a checkout")


def test_the_judge_is_the_program_of_an_archive_or_an_installation(folder):
    for what, parts in (("an archive", ()), ("an installation", ("lib", "bantamtinsel"))):
        want("no file is meant" in without_judge(folder, *parts), True, what)


def test_a_run_that_is_refused_says_what_its_image_is_for(folder):
    what, file, right, wrong, _, only = next(row for row in WRONG if row[0] == "a report leaves the lock flag")
    made = emulator(changed(folder, what, file, right, wrong))
    _, said = against("--follow", made + FOLLOW, "--only", only + ".wrap.late", "--first")
    want("a run is refused: norun kind 3 at 0. late-orders: A trap waits at orders" in said, True, said)
