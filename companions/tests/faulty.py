"""The wrong emulators of the suite, and emulators that don't behave."""
import os
import shlex
import shutil
import subprocess
import sys

from .emulator import CHOOSE, FOLLOW, RECORD, RUN, SUITE, against
from .helpers import TOP, Failed, Lacking, blocks, needs_program, runs_as_shown, want, write

SAMPLE = 24
EXAMPLE = os.path.join(TOP, "examples", "emulator", "emulator.c")


def compiler():
    """The C compiler that is asked for, or `cc`."""
    if shutil.which(os.environ.get("CC", "cc")) is None:
        raise Lacking("there is no C compiler")
    return os.environ.get("CC", "cc")


def faulty(*words):
    """The status and the output of conformance/faulty."""
    compiler()
    done = subprocess.run([sys.executable, os.path.join(SUITE, "faulty"), *words], capture_output=True, text=True,
                          check=False)
    if "Traceback" in done.stderr or done.returncode not in (0, 1):
        raise Failed(f"{words}: status {done.returncode}: {done.stderr}")
    return done.returncode, done.stdout


def test_the_example_passes_the_suite(folder):
    """As its author compiles it, with no warning; and `faulty` makes its faults of the same text."""
    made, right = (os.path.join(folder, name) for name in ("emulator", "right"))
    done = subprocess.run([compiler(), "-Wall", "-Wextra", "-Werror", "-o", made, EXAMPLE], capture_output=True,
                          text=True, check=False)
    want((done.returncode, done.stderr), (0, ""), "the example")
    want(faulty("--make", "none", right), (0, ""), "the right emulator")
    commands = {"--run": RUN, "--follow": FOLLOW, "--record": RECORD, "--choose": f"run {CHOOSE}", "--judge": FOLLOW}
    words = [word for name, text in commands.items()
             for word in (name, text if text.startswith(made) else f"{shlex.quote(made)} {text}")]
    status, said = against(*words, "--seeds", "1")
    want(status, 0, said)


@needs_program
def test_the_page_shows_what_the_example_does(folder):
    compiler()
    runs_as_shown(folder, "docs/emulator.md", [block for block in blocks("docs/emulator.md") if "$ cc " in block])


def test_a_sample_of_wrong_emulators_is_caught(_):
    status, said = faulty("--sample", str(SAMPLE), "--jobs", "2")
    want((status, said.splitlines()[-1].split()[0]), (0, "all"), said)


def test_what_caught_a_fault_before_is_tried_first(folder):
    """And where it no longer does, or isn't there, the others are tried."""
    path = os.path.join(folder, "earlier")
    _, found = faulty("--only", "first-inswh")
    for before, wanted in ((found, found.splitlines()[0]),
                           ("first-inswh: caught: values-forms-extracts.none: told\n", found.splitlines()[0]),
                           ("first-inswh: caught: calls-wide.exit-value-0: told\n", found.splitlines()[0]),
                           ("first-inswh: caught: answers/values-forms-extracts.wrap.notes: told\n",
                            "first-inswh: caught: answers/values-forms-extracts.wrap.notes: ")):
        write(path, before.encode())
        status, said = faulty("--only", "first-inswh", "--before", path)
        want((status, said.splitlines()[0][:len(wanted)]), (0, wanted), before)


def test_the_text_of_each_fault_stands_once(_):
    sys.path.insert(0, SUITE)
    from emulator import faults  # it stands in the folder above
    known = faults.all_faults()
    want(len(known) > 1_000, True, f"{len(known)} faults")
    for fault in known.values():
        want(faults.text_with(fault) != fault.right, True, fault.name)


# Of some faults, how they are run over which files, and what is told of the place.
PLACES = [
    ("first-inswh", "--run", RUN, "answers/values-extracts", [
        "values-extracts.s:87: inswh $1,$2,$3 is otherwise in 62 of 292 rows\n    otherwise: $1 = 0x8877665544332211, "
        "$2 = 0x7 gives 0x0, and 0x22 is wanted\n",
        "\n    right: $1 = 0x8877665544332211, $2 = 0x0 gives 0x0\n",
        "otherwise too: inswh $1,188,$3 in 47\n  right in all rows: 26 of 28 lines\n"]),
    ("addq/v-saturate", "--run", RUN, "answers/completions.saturate", [
        "$3 is set by completions.s:23: addq/v $2,1,$3, with $2 = 0x7fffffffffffffff\n"]),
    ("addl/v-overflows-at-its-least", "--run", RUN, "answers/values-triggers.wrap", [
        "told: values-triggers.s:18: addl/v $1,$2,$3, which doesn't overflow there, with $1 = 0x0, $2 = 0x80000000: "
        "exactly -2147483648\n",
        "values-triggers.s:18: addl/v $1,$2,$3: told 19 times in all, and wanted 17 times\n"]),
    ("report-here", "--follow", FOLLOW, "journals/late-loop.wrap.1.", [
        "before it item 4, the report at late-loop.s:24: subl/v $2,$12,$6 with mask 16, completes late-loop.s:21: "
        "mulq/v $11,$2,$4, "
        "whose $4 gets c000000000000000, and goes on behind that\n  item 5 is `units 25` at late-loop.s:22: ldl "
        "$5,8($9)\n"]),
    ("jsr_coroutine-clears-no-low-bit", "--run", RUN, "answers/jumps.wrap", [
        "the notes end before `barrier 000000000001005c`; the end is `fetch 000000000001005a`, and `exit 65688` is "
        "wanted\n"]),
]


def test_a_difference_is_told_with_its_place(folder):
    made = os.path.join(folder, "emulator")
    for name, way, words, only, told in PLACES:
        want(faulty("--make", name, made), (0, ""), name)
        _, said = against(way, f"{shlex.quote(made)} {words}", "--only", only)
        want([part for part in told if part not in said], [], f"{name}: {said}")


# What an emulator does, its command, and what is told of it.
MISBEHAVED = [
    ("it hangs", "sleep 30", "no end within 0.5 seconds"),
    ("something that it started hangs", "sh -c 'sleep 30 & exit 0'", "no end within 0.5 seconds"),
    ("it writes without end", "yes", "it wrote more than 16,777,216 bytes, and was stopped"),
    ("it writes notes without end", "sh -c 'yes >&2'", "it wrote more than 16,777,216 bytes, and was stopped"),
    ("it writes nothing", "true", "the end is `no line`, and `exit 0` is wanted"),
    ("it isn't there", "./no-such-emulator", "./no-such-emulator: No such file or directory"),
    ("it is killed behind its notes", "sh -c 'echo exit 0 >&2; kill -SEGV $$'",
     "it was ended by SIGSEGV behind `exit 0`, and 0 is wanted"),
    ("its status is another", "sh -c 'echo exit 0 >&2; exit 3'", "its status is 3 behind `exit 0`, and 0 is wanted"),
    ("it is killed before its end", "sh -c 'kill -SEGV $$'",
     "the end is `no line`, and `exit 0` is wanted; it was ended by SIGSEGV"),
]


def test_emulators_that_do_not_behave_are_failed_cases(_):
    for what, command, told in MISBEHAVED:
        status, said = against("--run", command, "--only", "calls-wide.exit-value-0", "--seconds", "0.5"
                               if "hang" in what else "10")
        want((status, said.splitlines()[0]), (1, f"calls-wide.exit-value-0: {told}"), what)


def test_a_journal_without_end_is_a_failed_case(_):
    status, said = against("--record", "sh -c 'yes > {journal}'", "--judge", "true", "--only", "answers/end-bpt",
                           "--seeds", "1", "--seconds", "20")
    want((status, "end-bpt by wrap with seed 1: " in said), (1, True), said)


def test_bad_images_must_be_refused_and_good_ones_run(folder):
    """An emulator that refuses every image, and one that tells another fault."""
    path = os.path.join(folder, "emulator")
    for line, only, told in (("image kind 3 first 1 second 0", "images.code-base-0", None),
                             ("image kind 3 first 2 second 0", "images.code-base-0",
                              "and `image kind 3 first 1 second 0` is wanted"),
                             ("bad image", "images.code-base-0", None),
                             ("image kind 3 first 1 second 0", "images.code-at-0", "It is a good image")):
        write(path, f"#!/bin/sh\necho {line} >&2\nexit 4\n".encode())
        os.chmod(path, 0o755)
        status, said = against("--run", shlex.quote(path), "--only", only)
        want((status, told is None or told in said), (0 if told is None else 1, True), f"{line}: {said}")


def test_small_cases_can_be_kept(folder):
    kept = os.path.join(folder, "kept")
    against("--follow", "true", "--only", "ends.exit-first-0", "--keep", kept)
    want(sorted(os.listdir(kept)), ["ends.exit-first-0.journal", "ends.img"], "the files of a case")
    want(os.path.exists(os.path.join(TOP, "conformance", "images", "ends.img")), True, "its image")
