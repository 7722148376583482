"""The suite for emulators (conformance/), run against one that is right and against wrong ones."""
import os
import re
import shlex
import shutil
import struct
import subprocess
import sys

from parts import goodness, image, journal, machine, playing, table
from .helpers import ASKED, HERE, TOP, Failed, Lacking, needs_program, read, rows, want, write

SUITE = os.path.join(TOP, "conformance")
sys.path.insert(0, SUITE)
import packed  # noqa: E402  (behind the path)
import suite  # noqa: E402

RUN, FOLLOW = "run --watch --complete {complete} --steps {steps} {image}", "replay {image} {journal}"
RECORD = "record --seed {seed} --complete {complete} --steps {steps} {image} {journal}"
CHOOSE = "--choices {choices} --complete {complete} --steps {steps} {image}"
# What an emulator in Python is run over: all of it takes minutes.
SOME = ("answers/end-", "answers/c", "answers/l", "answers/memory", "answers/shadow-drawn", "journals/late-",
        "journals/shadow-drawn", "refused/", "images.both-", "reads-long.", "steps.few-1")


def manifest():
    """The lines of the manifest, as the driver reads them."""
    lines = [line.split("\t") for line in read(os.path.join(SUITE, "manifest.tsv")).splitlines()
             if not line.startswith("#")]
    return [dict(zip("file kind image completion steps answer origin about".split(), line)) for line in lines]


def of_kind(*kinds):
    return [line for line in manifest() if line["kind"] in kinds]


def in_suite(path):
    return os.path.join(SUITE, path)


def image_of(line):
    return in_suite(f"images/{line['image']}.img")


def against(*words):
    """The status and the output of the driver."""
    done = subprocess.run([sys.executable, in_suite("run"), *words], capture_output=True, check=False)
    if b"Traceback" in done.stderr or done.returncode not in (0, 1):
        raise Failed(f"{words}: status {done.returncode}: {done.stderr.decode('utf-8', 'replace')}")
    return done.returncode, done.stdout.decode("utf-8", "replace")


def emulator(folder=HERE):
    """The command of the emulator of a folder of companions."""
    return f"{shlex.quote(sys.executable)} {shlex.quote(os.path.join(folder, 'emulate'))} "


# ---- the suite


@needs_program
def test_the_suite_is_what_the_program_makes(_):
    done = subprocess.run([sys.executable, in_suite("make"), "--check", "--alpha", ASKED], capture_output=True,
                          check=False)
    want((done.returncode, done.stderr), (0, b""), done.stdout.decode("utf-8", "replace"))


def test_the_suite_has_what_its_page_says(_):
    """All instructions at both levels, each ending, each error, each completion, each condition, and each reason to
    refuse."""
    names, levels = set(), set()
    for line in of_kind("image"):
        whole = image.read_image(image_of(line))
        names |= {table.insn_of(word).name for word in whole.words}
        levels.add((whole.level == 0, whole.level or 1))
    every = {name for known in table.OPERATE.values() for name in known.values()} | set(table.MEMORY.values())
    every |= set(table.BRANCH.values()) | set(table.JUMP) | set(table.PAL.values())
    every |= {name for known in (table.BARRIERS, table.ORDERS, table.FETCHES) for name in known.values()}
    want((len(every), every - names, levels), (117, set(), {(True, 1), (False, 1), (False, 2)}),
         "instructions and levels")
    ends = {read(in_suite(line["file"])).splitlines()[-1].split(" ")[0] for line in of_kind("notes")}
    want(ends, {"exit", "signal", "fetch", "access", "align", "stop", "steps"}, "the ends of runs")
    endings = {journal.read_journal(in_suite(line["file"])).ending[0] for line in of_kind("journal")}
    want({name for name, _ in journal.ENDINGS} - endings, set(), "the endings of journals")
    want({line["completion"] for line in of_kind("notes")}, {"wrap", "saturate", "stop"}, "completions")
    conditions = {line["answer"][-2:] for line in of_kind("image") if line["answer"] != "accepted"}
    want(conditions, {f"C{number}" for number in range(1, 10)}, "conditions")
    kinds = {" ".join(line["answer"].split()[:3]) for line in of_kind("refused")}
    want(kinds, {f"norun kind {n}" for n in range(1, 5)} | {f"journal kind {n}" for n in range(1, 7)}, "refusals")


@needs_program
def test_the_program_passes_the_suite(_):
    asked = shlex.quote(ASKED)
    status, said = against("--run", f"{asked} {RUN}", "--follow", f"{asked} {FOLLOW}", "--choose",
                           f"{asked} run --imprecise --force {CHOOSE}")
    want(status, 0, said)


def test_an_emulator_that_is_right_passes_the_suite(_):
    status, said = against("--run", emulator() + RUN, "--follow", emulator() + FOLLOW, "--record", emulator() + RECORD,
                           "--judge", emulator() + FOLLOW, "--seeds", "1",
                           *(word for part in SOME for word in ("--only", part)))
    want(status, 0, said)


def test_the_model_gives_what_each_small_case_wants(_):
    for case in packed.cases():
        if case.kind == "image":
            fault = goodness.first_fault(case.given[0])
            told = "image kind {} first {} second {}".format(*fault) if fault else ""
            want(told, case.answer if case.answer.startswith("image ") else "", case.file)
            continue
        whole = image.read_image(image_of({"image": case.image}))
        if case.kind == "run":
            want(run_of(machine.Machine(whole, case.completion, b"".join(case.given)), int(case.steps)),
                 (case.answer, case.output), case.file)
            continue
        try:
            fault = playing.Replay(whole, journal.journal_of(case.journal)).play()
            want(fault and fault.line(), None if case.kind == "late" else case.answer, case.file)
        except journal.BadJournal as bad:
            want(bad.line, case.answer, case.file)


def run_of(made, steps):
    """The notes of a run of the model without barriers, as the table has them, and its output."""
    notes = []
    while made.end is None and steps:
        steps -= 1
        if made.step() == "overflow":
            notes.append(f"overflow {made.overflowed_at:016x}")
    name, *numbers = made.end or ("none", 0, 0)
    return ("; ".join([*notes, suite.ENDINGS[[known for known, _ in journal.ENDINGS].index(name)].format(*numbers)]),
            bytes(made.put))


@needs_program
def test_the_program_accepts_the_journals_of_that_emulator(_):
    status, said = against("--record", emulator() + RECORD, "--judge", f"{shlex.quote(ASKED)} {FOLLOW}", "--seeds", "1",
                           "--only", "answers/late-",
                           "--only", "answers/shadow-", "--only", "answers/locks", "--only", "answers/completions")
    want(status, 0, said)


# What is wrong, the file of parts/ or bench/ with it, the right text and the wrong one, how it is run, and what shows
# it.
WRONG = [
    ("a longword isn't extended by its sign", "machine.py",
     "value - (value >> 31 << 32) if size == 4 else value", "value", "run", "/memory"),
    ("an overflow leaves the lock flag", "machine.py",
     "self.overflowed_at, self.lock = self.image.address(place), None",
     "self.overflowed_at = self.image.address(place)", "run", "/locks.wrap"),
    ("a system call leaves the lock flag", "machine.py", "self.call()\n            self.lock = None", "self.call()",
     "run", "/locks.stop"),
    ("a conditional store leaves the lock flag", "machine.py", "int(is_stored))\n            self.lock = None",
     "int(is_stored))", "run", "/locks.wrap"),
    ("a jump reads its register behind the link", "machine.py", "            target = self.regs[word.rb] & ~3",
     "            self.set(word.ra, left)\n            target = self.regs[word.rb] & ~3", "run", "/jumps"),
    ("a load into R31 makes its access", "table.py", "if ra == 31 and not store and not locked:", "if False:", "run",
     "/memory"),
    ("a misaligned access to nowhere is told as one to nowhere", "machine.py", "if address % size:",
     "if address % size and self.region(address, size, False):", "run", "/end-odd-nowhere"),
    ("a range is looked at before the descriptor", "machine.py", "elif descriptor != (0 if number == 3 else 1):",
     "elif descriptor != (0 if number == 3 else 1) and self.region(address, count, False):", "run", "/calls"),
    ("an empty range needs a place", "machine.py", "elif count and self.region", "elif self.region", "run", "/calls"),
    ("a saturated overflow wraps", "machine.py", '[1 if self.completion == "saturate" else 0]', "[0]", "run",
     "/completions.saturate"),
    ("bytes behind the data aren't there", "machine.py", "bytearray(one.data) + bytearray(one.zeroed)",
     "bytearray(one.data)", "run", "/memory"),
    ("implver is that of level 1", "worked.py", '"implver": (lambda a, b, c, level: level',
     '"implver": (lambda a, b, c, level: 1', "run", "/values-counts"),
    ("mskqh clears a byte too many", "worked.py", "range(b % 8, b % 8 + size)",
     "range(b % 8, b % 8 + size + (size == 8))", "run", "/values-masks"),
    ("the handler takes the nearest /V word", "machine.py", "if not self.mask & ~found:", "if True:", "follow",
     "journals/late-masks"),
    ("the handler looks behind a branch", "machine.py", "(table.BARRIER, table.TURN):\n                return None",
     "(table.BARRIER,):\n                return None", "follow", "journals/shadow-c7"),
    ("a trap waits at a barrier", "machine.py", "if word.kind == table.BARRIER:\n            return \"",
     "if False:\n            return \"", "follow", "refused/item-wait"),
    ("a trap waits as long as it likes", "machine.py", "if self.waited >= MOST_WAITED",
     "if self.waited > 2 * MOST_WAITED", "follow", "refused/item-wait-long"),
    ("a load gives what is there while a trap is pending", "machine.py", "        if word.insn.sets:\n",
     "        if word.kind == table.LOAD:\n"
     "            self.access(word)\n        elif word.insn.sets:\n", "follow", "/shadow-drawn"),
    ("a further /V word keeps its result", "machine.py", "bit_length() - 1, value)",
     "bit_length() - 1, self.result(word)[0] if word.kind == table.TRIGGER else value)", "follow", "/shadow-drawn"),
    ("a conditional store tells whether it has stored", "machine.py", "bit_length() - 1, value)",
     'bit_length() - 1, 0 if word.name.endswith("_c") else value)', "follow", "/shadow-drawn"),
    ("a jump leaves the next address while a trap is pending", "machine.py", "self.turn(word, value)",
     "self.turn(word, self.pc + 4)", "follow", "/shadow-drawn"),
    ("no /V word joins the mask", "machine.py", "self.mask |= word.insn.sets if adds else 0", "pass", "follow",
     "/shadow-c3-mask"),
    ("a report leaves the lock flag", "machine.py", '        self.complete(place)\n        return "overflow"',
     '        kept = self.lock\n        self.complete(place)\n        self.lock = kept\n        return "overflow"',
     "follow", "/late-orders"),
    ("a conditional store leaves the lock flag while a trap is pending", "machine.py",
     "self.lock = None if word.name.endswith", "self.lock = self.lock if word.name.endswith", "follow",
     "/shadow-c6-flag"),
    ("a trap is reported at mb", "machine.py", "if word.kind == table.BARRIER:\n            return \"",
     "if word.kind == table.BARRIER or word.name == \"mb\":\n            return \"", "follow", "/late-orders"),
    ("the handler looks behind a barrier", "machine.py", "(table.BARRIER, table.TURN):\n                return None",
     "(table.TURN,):\n                return None", "follow", "/shadow-c7-barrier"),
    ("the handler doesn't look behind an order", "machine.py", "if insn.kind in (table.BARRIER, table.TURN):",
     'if insn.kind in (table.BARRIER, table.TURN) or insn.name == "wmb":', "follow", "/late-orders"),
    ("a load into R31 makes its access while a trap is pending", "machine.py",
     "        if self.fault(word) is not None:",
     '        if self.fault(word) is not None or word.name == "ldq" and word.ra == 31:', "follow", "/late-orders"),
    ("a journal's output isn't compared", "playing.py", "if put != wanted:", "if False:", "follow", "refused/output"),
    ("its status is always 0", "emulate", "    return status\n\n\ndef record", "    return DONE\n\n\ndef record", "run",
     "/end-bpt"),
    ("a word without /V joins the mask", "emulate",
     'int(word.kind == "trigger" and word.rc != 31 and chosen.randrange(2))', "chosen.randrange(2)", "record",
     "/late-loop"),
]


def test_each_of_these_wrong_emulators_is_caught(folder):
    for number, (what, file, right, wrong, how, only) in enumerate(WRONG):
        made = emulator(changed(os.path.join(folder, str(number)), what, file, right, wrong))
        words = {"run": ["--run", made + RUN], "follow": ["--follow", made + FOLLOW],
                 "record": ["--record", made + RECORD, "--judge", emulator() + FOLLOW]}[how]
        status, said = against(*words, "--only", only, "--first")
        want((status, "ended at the first difference" in said), (1, True), f"{what}: {said}")
        # It is told by what the suite wants, and not by a fault of Python.
        want(re.search("Error|Exception", said), None, f"{what}: {said}")


def changed(folder, what, file, right, wrong):
    """A copy of the emulator, with another text in a file of it."""
    copies = {name: os.path.join("companions/parts", name) for name in os.listdir(os.path.join(HERE, "parts"))
              if name.endswith(".py")}
    copies |= {"emulate": "companions/emulate", "worked.py": "bench/worked.py"}
    for path in copies.values():
        os.makedirs(os.path.join(folder, os.path.dirname(path)), exist_ok=True)
        shutil.copy(os.path.join(TOP, path), os.path.join(folder, path))
    text = read(os.path.join(folder, copies[file]))
    want(text.count(right), 1, f"{what}: the right text stands in {file}")
    write(os.path.join(folder, copies[file]), text.replace(right, wrong).encode())
    return os.path.join(folder, "companions")


# ---- qemu-alpha


def linux_file(whole):
    """A static ELF file of an image for Linux on Alpha: its regions, and a few words that set $27 and $30 as at the
    start. Each /V word is the one without /V, which wraps."""
    low = (whole.entry & 0xFFFF ^ 0x8000) - 0x8000
    stub = [0x27DF4000, 0x277F0000 | whole.entry - low >> 16, 0x237B0000 | low & 0xFFFF, 0x6BFB0000]
    words = [table.without_overflow(word) if table.insn_of(word).kind == table.TRIGGER else word
             for word in whole.words]
    parts = [(0x30000000, struct.pack("<4I", *stub), 0, 5),
             (whole.code_base, struct.pack(f"<{len(words)}I", *words), 0, 5)]
    parts += ([(one.base, one.data, one.zeroed, 6) for one in whole.segments]
              + [(2**30 - whole.stack, b"", whole.stack, 6)])
    head = struct.pack("<16sHHIQQQIHHHHHH", b"\x7fELF\2\1\1", 2, 0x9026, 1, 0x30000000, 64, 0, 0, 64, 56, len(parts), 0,
                       0, 0)
    content, table_of_parts = b"", b""
    for base, data, zeroed, flags in parts:
        at = image.PAGE + len(content)
        table_of_parts += struct.pack("<IIQQQQQQ", 1, flags, at, base, base, len(data), len(data) + zeroed, image.PAGE)
        content += data + bytes(-len(data) % image.PAGE)
    return (head + table_of_parts).ljust(image.PAGE, b"\0") + content


def test_qemu_alpha_gives_the_same_output_and_exit(folder):
    if shutil.which("qemu-alpha") is None:
        raise Lacking("there is no qemu-alpha on the path")
    path = os.path.join(folder, "program")
    held = [line for line in of_kind("notes") if "qemu-alpha" in line["origin"]]
    want(len(held) > 10, True, "images that are held against qemu-alpha")
    for line in held:
        whole = image.read_image(image_of(line))
        write(path, linux_file(whole))
        os.chmod(path, 0o755)
        given, wanted = (in_suite(name) for name in (f"inputs/{line['image']}.in", f"answers/{line['image']}.wrap.out"))
        cpu = "ev67" if whole.level == 2 else "ev56"
        with open(given if os.path.exists(given) else os.devnull, "rb") as file:
            done = subprocess.run(["qemu-alpha", "-cpu", cpu, path], stdin=file, capture_output=True, check=False)
        value = int(read(in_suite(line["file"])).splitlines()[-1].split()[1])
        want((done.returncode, done.stdout == (read(wanted, "rb") if os.path.exists(wanted) else b"")),
             (value % 256, True), line["image"])


# ---- the vectors for others


def test_the_vectors_have_the_layout_that_the_page_says(_):
    want({len(row) for row in rows("encodings.tsv")} | {len(row[1]) for row in rows("encodings.tsv")}, {2, 8},
         "encodings.tsv")
    for name, *numbers, overflowed in rows("values.tsv"):
        want((len(numbers), overflowed in (("yes", "no") if name.endswith("/v") else ("-",))), (4, True), name)
        [int(text, 16) for text in numbers]
    for words, verdict in rows("shadows.tsv"):
        want(all(re.fullmatch(r"[0-9A-F]{8}(\*\d+)?", word) for word in words.split(" ")), True, words[:80])
        want(re.fullmatch(r"accepted|\d+ \d+ C[1-9]", verdict) is not None, True, verdict)
