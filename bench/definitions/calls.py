"""Calls: what the clauses of `check`, `run` and `run --imprecise` say of calls of the program, and what words ask for.

A clause must hold of a call as it was, and of one with another status, output, line or input left it mustn't.
"""
from . import drawn
from .moments import moments_of, steps_of
from .reference import COMPLETIONS, NONE, Late, broken_in, parts_of, some
from .runs import options_of
from .translate import record

DONE, LAST_COUNT = ("Done", 0), (1 << 64) - 1
NAMES = (b"FILE", b"-x", b"file", b"a", b"")
CHECKS = ("alpha_cmd.Checked.Checked", "alpha_cmd.Restarts.Restarts")


class Device:
    """A device at a moment: what it tells, what it takes, its count of faults, and what its calls answered so far."""

    def __init__(self, told, faults=0, takes=None, replies=()):
        self.told, self.faults, self.takes, self.replies = told, faults, takes, replies


# What can be told of a device, by the ghosts of its trait: each tells what it holds by a name of its own.
FAULTS = {"faults": lambda device: device.faults}
SHELF = record(files=lambda device: device.told, takes=lambda device: device.takes,
               replies=lambda device: device.replies, **FAULTS)
SOURCE = record(left=lambda device: device.told, replies=lambda device: device.replies, **FAULTS)
SINK = record(written=lambda device: device.told, **FAULTS)


def told(files):
    """Files as a shelf tells them."""
    return some(lambda name: some(tuple(files[bytes(name)])) if bytes(name) in files else NONE)


def shelf_that_gave(d, told, *replies):
    """What a call did to a shelf that tells this, and replied so behind what it had replied before."""
    before = (("Kept", tuple(b"FILE"), (1,), True),)
    return d("alpha_io.ShelfChange.shelf_change")(SHELF, Device(told, replies=before),
                                                  Device(told, replies=before + replies))


def pieces_of(name, pieces):
    """The replies to a reading of a file by these pieces, each behind the one before."""
    starts = [sum(map(len, pieces[:n])) for n in range(len(pieces))]
    return tuple(("Piece", tuple(name), at, some(tuple(piece))) for at, piece in zip(starts, pieces))


def words_of(*texts):
    return tuple(tuple(text) for text in texts)


def call_of(d, files, given, left, out, notes, **changed):
    """What a call did to its devices, by the devices before and after it."""
    takes = object()
    old = {"shelf": Device(told(files), takes=takes), "input": Device(some(tuple(given))), "out": Device(some((9,))),
           "notes": Device(some((8,)))}
    new = {"shelf": Device(told(files), takes=takes), "input": Device(some(tuple(left))),
           "out": Device(some((9, *out))),
           "notes": Device(some((8, *notes)))}
    for name, device in changed.items():
        moment, _, part = name.partition("_")
        (old if moment == "old" else new)[part] = device
    return d("alpha_cmd.Call.called")(SHELF, SOURCE, SINK, SINK, record(**old), record(**new))


def status_by(number, end):
    """A run's status in the definitions' words, by how it ended."""
    return DONE if number == 0 else ("StepsSpent",) if number == 6 else ("Stopped", end[1])


class Ran:
    name, about = ("clauses of run",
                   "`ran_told` and `alike` of calls of the program as they were, and with something else")
    counts = {"sample": 50, "whole": 1_500}
    is_quick = False
    ASKED = ("run FILE", "run FILE", "run --imprecise FILE", "run --imprecise FILE", "run --imprecise --seed 7 FILE",
             "run --force --imprecise FILE", "run --imprecise --choices CHOICES FILE")
    WAYS = ("as it was", "no memory", "drawn", "status", "output", "notes", "left", "files", "file", "device", "full",
            "refused", "unknown")

    def cases(self, chooser, count, asked):
        for n in range(count):
            whole = drawn.program(chooser, True)
            given = bytes(chooser.randrange(256) for _ in range(chooser.choice((0, 9))))
            if not Late(whole, "wrap", given).ends_within(1_000):
                continue
            words = chooser.choice(self.ASKED).split()
            status, out, notes = asked.call(*words, given=given, FILE=whole.spelled(), CHOICES=bytes(range(64)))
            if status in (0, 5, 6):
                for way in (self.WAYS[n % len(self.WAYS)], chooser.choice(self.WAYS)):
                    yield whole, tuple(words), given, status, out, notes, way

    def difference(self, d, case):
        whole, words, given, number, out, notes, way = case
        d.forget()
        parts, content = parts_of(whole), whole.spelled()
        program = record(image=parts, completion=("Wrap",))
        run = d("alpha_seq.Run.sequential")(program, tuple(given), 2_000, False)
        files, left = {b"FILE": content, b"other": b"x", b"CHOICES": bytes(range(64))}, run.left
        self.hand_in(d, parts)
        status, call, wanted = self.altered(d, way, whole, files, given, left, number, out, notes, run.end)
        is_plain, words = (len(words) == 2 or words[1:-1] == ("--imprecise",),
                           words_of(*(text.encode() for text in words)))
        found = d("alpha_cmd.ToldRun.RanTold")(words, status, call), d("alpha_cmd.Alike.Alike")(words, status, call)
        expected = wanted or not is_plain, wanted
        return "" if found == expected else f"{way} of {content.hex()}: {found}, and {expected} is wanted"

    def altered(self, d, way, whole, files, given, left, number, out, notes, end):
        """The status and the call, with something else in it, and whether the clauses hold of that. They say nothing of
        another file, nor where a device failed or its count can't rise, nor of code that is refused, nor where the
        input isn't told."""
        status, more = status_by(number, end), call_of(d, files, given, left, out + b"x", notes)
        part = ("shelf", "input", "out", "notes")[len(out) % 4]
        if way == "no memory":
            return ("NoMemory",), call_of(d, files, given, left, b"", b""), True
        if way == "status":
            return ("StepsSpent",) if number != 6 else DONE, call_of(d, files, given, left, out, notes), False
        if way == "output":
            return status, more, False
        if way == "notes":
            return status, call_of(d, files, given, left, out, notes[:-1]), False
        if way == "left":
            return status, call_of(d, files, given, left + (1,), out, notes), False
        if way == "files":
            return (status,
                    call_of(d, files, given, left, out, notes, new_shelf=Device(told({b"FILE": files[b"FILE"]}))),
                    False)
        if way == "file":
            return status, call_of(d, {b"FILE": files[b"FILE"] + b"x"}, given, left, out + b"x", notes), True
        if way == "device":
            return status, more._replace(**{part: getattr(more, part)._replace(now=1)}), True
        if way == "full":
            return (status, more._replace(**{part: getattr(more, part)._replace(before=LAST_COUNT, now=LAST_COUNT)}),
                    True)
        if way == "refused":
            refused = drawn.refused(whole)
            self.hand_in(d, parts_of(refused))
            return status, call_of(d, {**files, b"FILE": refused.spelled()}, given, left, out + b"x", notes), True
        if way == "unknown":
            return (status,
                    call_of(d, files, given, left, out + b"x", notes, old_input=Device(NONE), new_input=Device(NONE)),
                    True)
        drew = ("Done", 77) if way == "drawn" and status[0] == "Done" else status
        return drew, call_of(d, files, given, left, out, notes), True

    def hand_in(self, d, parts):
        d.given(images=[parts], names=words_of(*NAMES, b"other"), options=[DEFAULT, options_of("stop", 5, True)],
                file_bytes=[(), tuple(range(64))])


class Checked:
    name, about = "clauses of check", "`checked` and `restarts`, and `IsRestartable`, of accepted and of refused images"
    counts = {"sample": 30, "whole": 700}
    is_quick = False

    def cases(self, chooser, count, asked):
        for n in range(count):
            whole = drawn.program(chooser, n % 2 == 0)
            rows = [steps_of(chooser, chooser.choice((0, 9, 40))) for _ in range(2)]
            # By a completion that isn't theirs they may be no run.
            steps = [tuple(moment[0] for moment in moments_of(whole, how, row)) for row in rows for how in COMPLETIONS]
            status = asked.call("check", "FILE", FILE=whole.spelled())[0]
            yield whole, steps, status, not broken_in(whole.words)

    def difference(self, d, case):
        whole, steps, status, is_accepted = case
        d.forget()
        parts, content = parts_of(whole), tuple(whole.spelled())
        halves = (content[:-1], content[-1:])
        d.given(images=[parts], steps=steps, names=words_of(*NAMES), pieces=[(content,), halves])
        if (status == 0) != is_accepted:
            return f"{whole.spelled().hex()}: status {status}"
        if is_accepted and not d("alpha_imprecise.Restart.IsRestartable")(parts):
            return f"{whole.spelled().hex()} can't be restarted"
        words = words_of(b"check", b"FILE")
        whole_file = pieces_of(b"FILE", (content, ()))
        accepted = is_accepted or None
        for files, replies, number, wanted in (
                (told({b"FILE": content}), whole_file, 0, accepted),
                (told({b"FILE": content + (0,)}), whole_file, 0, False),
                (told({}), whole_file, 0, False), (told({}), (), 1, True), (NONE, whole_file, 0, accepted),
                (NONE, pieces_of(b"FILE", (*halves, ())), 0, accepted),
                (NONE, pieces_of(b"FILE", (content + (0,), ())), 0, False),
                (NONE, pieces_of(b"other", (content, ())), 0, False), (NONE, whole_file[:1], 0, False),
                (NONE, (), 0, False),
                (NONE, whole_file * 2, 0, False), (NONE, pieces_of(b"FILE", halves[:1]) + whole_file[1:], 0, False)):
            answer = DONE if number == 0 else ("BadWords",)
            given = {d(name)(words, answer, shelf_that_gave(d, files, *replies)) for name in CHECKS}
            if wanted is not None and given != {wanted}:
                return f"{whole.spelled().hex()}: {given}, and {wanted} is wanted"
        other = {d(name)(words_of(b"dis", b"FILE"), DONE, shelf_that_gave(d, told({}))) for name in CHECKS}
        return "" if other == {True} else "other words"


class Listed:
    name, about = "clauses of dis", "`listed` of calls of the program as they were, and with something else"
    counts = {"sample": 15, "whole": 300}
    is_quick = False
    # What the call replied of FILE, by its content, and with which status, output and notes, and whether the clause
    # holds.
    WAYS = (("as it was", True), ("told", True), ("pieces", True), ("memory", True), ("sink", True), ("words", True),
            ("another", False), ("twice", False), ("cut", False), ("more", False), ("none", False), ("refused", False),
            ("output", False), ("front", False), ("notes", False), ("fault", False))
    STATUSES = {"memory": ("NoMemory",), "sink": ("SinkFault",), "refused": ("ShelfFault",)}

    def cases(self, chooser, count, asked):
        for n in range(count):
            whole = drawn.program(chooser, n % 2 == 0, 1 + n % 3 // 2, n % 2)
            yield whole, asked.call("dis", "FILE", FILE=whole.spelled())

    def difference(self, d, case):
        whole, (number, out, notes) = case
        d.forget()
        content = tuple(whole.spelled())
        halves = (content[:-1], content[-1:])
        d.given(images=[parts_of(whole)], names=words_of(*NAMES), pieces=[(content,), halves, (content + (0,),)])
        if number != 0:
            return f"{whole.spelled().hex()}: status {number}"
        for way, wanted in self.WAYS:
            words = words_of(b"check" if way == "words" else b"dis", b"FILE")
            found = d("alpha_cmd.Listed.Listed")(words, *self.call(d, way, content, halves, out, notes))
            if found != wanted:
                return f"{way} of {whole.spelled().hex()}: {found}, and {wanted} is wanted"
        return ""

    def call(self, d, way, content, halves, out, notes):
        whole = pieces_of(b"FILE", (content, ()))
        replies = {"pieces": pieces_of(b"FILE", (*halves, ())), "another": pieces_of(b"other", (content, ())),
                   "twice": whole * 2,
                   "cut": whole[:1], "more": pieces_of(b"FILE", (content + (0,), ())), "none": (),
                   "words": ()}.get(way, whole)
        files = told({b"FILE": bytes(content)}) if way == "told" else NONE
        out = {"output": out + b"x", "front": out[:-1], "memory": b"", "sink": out[:9]}.get(way, out)
        before = (("Kept", tuple(b"FILE"), (1,), True),)
        changed = {"old_shelf": Device(files, replies=before), "new_shelf": Device(files, replies=before + replies),
                   "new_out": Device(some((9, *out)), int(way == "fault"))}
        return self.STATUSES.get(way, DONE), call_of(d, {}, b"", b"", out, notes + b"x" * (way == "notes"), **changed)


class Spoken:
    name, about = "words of commands", "what words ask for: worked ones, and random ones as the program takes them"
    counts = {"sample": 160, "whole": 4_000}
    is_quick = False
    PIECES = ("run", "check", "FILE", "--imprecise", "--force", "--watch", "--steps", "5", "--steps=7", "--steps=",
              "--complete", "stop", "--complete=wrap", "--complete=no", "--seed", "--seed=3",
              "--seed=00000000000000000018446744073709551615", "18446744073709551616", "--choices", "--choices=CHOICES",
              "--", "-x", "--wat", "-", "", "--steps=18446744073709551615", "--watch=1", "--force", "saturate",
              "--entry", "--entry=e")
    # None of these does anything but to say that there is no such file, or whether the words are right.
    OTHERS = ("dis", "debug", "asm", "fix", "module", "link", "replay", "record", "runs", "")

    def cases(self, chooser, count, asked):
        for _ in range(count):
            first = chooser.choice(("run", "run", "run", "check", *self.OTHERS))
            rest = [chooser.choice(self.PIECES) for _ in range(chooser.choice((0, 1, 1, 2, 2, 3, 4, 5)))]
            if chooser.random() < 0.7:
                rest.insert(chooser.randrange(len(rest) + 1), "FILE")
            status = asked.call(first, *rest)[0]
            yield (first, *rest), None, status != 2
        for words, wanted in WORKED:
            yield tuple(words.split()), wanted, wanted is not None

    def difference(self, d, case):
        texts, wanted, is_command = case
        words = words_of(*(text.encode() for text in texts))
        command = d("alpha_request.Asked.asked")(words)
        if (command != NONE) != is_command:
            return f"{texts}: a command is {command != NONE}"
        if wanted is not None and command != some(wanted):
            return f"{texts}: {command}, and {wanted} is wanted"
        return self.asked(d, words, command) if command != NONE else ""

    def asked(self, d, words, command):
        """The facts about the words, by the command that they make."""
        kind, *parts = command[1]
        if kind == "run":
            options, file = parts
            given = (d("alpha_request.Commands.Run.AsksToRun")(words, options, file),
                     not d("alpha_request.Commands.Run.AsksToRun")(words, options, file + (1,)))
        elif kind == "imprecise":
            options, origin, force, file = parts
            asks = d("alpha_request.Commands.Run.AsksImprecise")
            given = asks(words, options, origin, force, file), not asks(words, options, origin, not force, file)
        elif kind == "of_image":
            asks = d("alpha_request.Commands.OfImage.AsksOfImage")
            other = ("Dis",) if parts[0] == ("Check",) else ("Check",)
            given = asks(parts[0], words, parts[1]), not asks(other, words, parts[1])
        else:
            given = ()
        return "" if all(given) else f"{words}: {given}"


FILE = tuple(b"FILE")
DEFAULT = options_of("wrap", 100_000_000, False)
# Words, and what they ask for by docs/commands.md; None where they are no command.
WORKED = [
    ("", None), ("run FILE", ("run", DEFAULT, FILE)), ("check FILE", ("of_image", ("Check",), FILE)), ("check", None),
    ("run", None),
    ("check -- --x", ("of_image", ("Check",), tuple(b"--x"))), ("check - -", None),
    ("check -", ("of_image", ("Check",), tuple(b"-"))),
    ("run --steps 5 FILE", ("run", options_of("wrap", 5, False), FILE)),
    ("run FILE --steps=005", ("run", options_of("wrap", 5, False), FILE)),
    ("run --complete stop --watch FILE", ("run", options_of("stop", 100_000_000, True), FILE)),
    ("run --complete=up FILE", None),
    ("run --complete saturate FILE", ("run", options_of("saturate", 100_000_000, False), FILE)),
    ("run --seed 1 FILE", None),
    ("run --steps 18446744073709551615 FILE", ("run", options_of("wrap", LAST_COUNT, False), FILE)),
    ("run --steps 18446744073709551616 FILE", None), ("run --steps 000000000000000000001 FILE", None),
    ("run --steps -3 FILE", None),
    ("run --force FILE", None), ("run --choices X FILE", None), ("run --watch= FILE", None),
    ("run --steps 5 --steps 5 FILE", None),
    ("run --imprecise FILE", ("imprecise", DEFAULT, ("seed", 0), False, FILE)),
    ("run --imprecise --seed 3 --force FILE", ("imprecise", DEFAULT, ("seed", 3), True, FILE)),
    ("run FILE --imprecise --choices=-x", ("imprecise", DEFAULT, ("file", tuple(b"-x")), False, FILE)),
    ("run --imprecise --choices= FILE", ("imprecise", DEFAULT, ("file", ()), False, FILE)),
    ("record FILE J", ("record_run", DEFAULT, ("seed", 0), False, FILE, (74,))),
    ("record FILE --seed=5 --steps 9 J", ("record_run", options_of("wrap", 9, False), ("seed", 5), False, FILE, (74,))),
    ("record --choices X FILE --force J", ("record_run", DEFAULT, ("file", (88,)), True, FILE, (74,))),
    ("record --complete wrap -- FILE J", ("record_run", DEFAULT, ("seed", 0), False, FILE, (74,))),
    ("run --imprecise --seed 3 --choices X FILE", None), ("run --imprecise --seed x FILE", None),
    ("run --imprecise --imprecise FILE", None),
    *((f"{name.lower()} FILE", ("of_image", (name,), FILE)) for name in ("Dis", "Debug")),
    *((f"{name.lower()} FILE J", ("make", (name,), FILE, (74,))) for name in ("Asm", "Fix", "Module")),
    ("asm FILE", None), ("fix FILE J K", None), ("module --force FILE J", None), ("Dis FILE", None), ("di FILE", None),
    ("replay FILE J", ("replay", FILE, (74,))), ("replay FILE", None), ("replay --steps 5 FILE J", None),
    ("record --watch FILE J", None), ("record FILE", None),
    ("link J FILE", ("link", tuple(b"start"), (74,), (FILE,))), ("link J", None), ("link --entry= J", None),
    ("link --entry go J FILE J", ("link", tuple(b"go"), (74,), (FILE, (74,)))),
    ("link J FILE --entry=", ("link", (), (74,), (FILE,))),
    ("link J " + "FILE " * 64, ("link", tuple(b"start"), (74,), (FILE,) * 64)), ("link J " + "FILE " * 65, None),
    ("trial 1", ("trial", 1)), ("trial 20000", ("trial", 20_000)), ("trial 0020000", ("trial", 20_000)),
    ("trial 0", None), ("trial 20001", None), ("trial", None), ("trial x", None), ("trial 1 2", None),
]
