"""Worked facts: small definitions at values that no run of a program brings about, and the scan at any place."""
from . import drawn
from .calls import SHELF, SINK, SOURCE, Device, told
from .reference import COMPLETIONS, CONDITIONS, MASK, NONE, Late, image, option, parts_of, program_of, some
from .translate import record

FILE, OTHER, WORD = tuple(b"FILE"), tuple(b"other"), drawn.operate("addq", 1, 2, 3)
ONE, TWO, NO_FILES = told({b"FILE": b"x"}), told({b"FILE": b"x", b"other": b""}), told({})
REGS = tuple(range(32))
REGISTERS = "".join(" ".join(f"{n:016x}" for n in REGS[first:first + 4]) + "\n" for first in range(0, 32, 4))


def shelved(old, new):
    return record(old=old, new=new, took=None, takes=None, before=0, now=0)


def state(**changed):
    """A state of no program, with a count of overflows that is about to pass its last value."""
    fields = {"regs": REGS, "pc": drawn.CODE, "mem": (), "unique": 9, "lock": some(3), "count": MASK, "logged": 5}
    return record(**{**fields, **changed})


def front(segments):
    """The numbers of an image with so many data segments, all else of which is good."""
    rows = tuple(record(base=drawn.DATA + 8192 * n, filled=0, zeroed=1) for n in range(segments))
    return record(level=1, code_base=drawn.CODE, entry=drawn.CODE, words=1, stack=16, segments=rows)


def put(before, now):
    """A sink behind a call that wrote a byte, with its count of faults before it and behind it."""
    return record(old=some((1,)), new=some((1, 2)), before=before, now=now)


def accessing(displacement, size, clears=False):
    """An access by register 5."""
    return record(base=5, disp=displacement, bytes=size, clears=clears)


def ended_late(drawn_words):
    """A run of the imprecise machine by so many words, which the program ended."""
    return record(run=record(at=record(last_event=("Precisely", ("Ends", ("Exit", 0)))), drawn=drawn_words))


def chosen_run(at, steps, waited, words, count):
    """A run of the imprecise machine by coming words, which has used no unit."""
    return record(run=record(at=at, steps=steps, left=(), units=0), waited=waited, words=words, count=count)


def waiting(waited, count):
    """Such a run before the second word, while the trap of the first is pending."""
    return chosen_run(record(state=state(pc=drawn.CODE + 4), pending=some(record(place=0, mask=1 << 7)),
                             last_event=("Precisely", ("Went",))), (), waited, (1, 9, 5), count)


# Code whose first word traps, and whose second sets R3.
TWO_WORDS = record(completion=("Wrap",), image=parts_of(
    image.Image([drawn.operate("addq/v", 1, 2, 7), WORD], drawn.CODE, drawn.CODE, [], 64, 1)))
WAITED = ("Waited", False, 9, 9)
# The word is executed, by two words of choices.
EXECUTED = chosen_run(record(state=state(pc=drawn.CODE + 8, regs=(*REGS[:3], 9, *REGS[4:])),
                             pending=some(record(place=0, mask=1 << 7)), last_event=WAITED), (WAITED,), 1, (5,), 2_002)
# As many words were executed as may be: the trap is reported, by no word.
REPORTED = chosen_run(record(state=state(pc=drawn.CODE + 4, regs=(*REGS[:7], 3, *REGS[8:]), lock=NONE, count=0,
                                         logged=drawn.CODE), pending=NONE, last_event=("Reported", drawn.CODE)),
                      (("Reported", drawn.CODE),), 0, (1, 9, 5), 7)
SMALL = record(image=parts_of(image.Image([drawn.operate("addq/v", 1, 2, 3)], drawn.CODE, drawn.CODE, [], 64, 1)),
               completion=("Wrap",))
BEHIND = parts_of(image.Image([WORD] * 4, drawn.CODE, drawn.CODE + 8, [], 64, 1))
# A load and a store behind a trigger, by one base and with no byte in common.
APART = (drawn.operate("addq/v", 1, 2, 7), drawn.memory("ldq", 8, 5, 8), drawn.memory("stq", 3, 5, 16), drawn.TRAPB)
LOGGED = {"pc": drawn.CODE + 4, "lock": NONE, "logged": drawn.CODE, "regs": REGS}

BROKEN, PENDING = record(trigger=2, at=5, condition=("Turn",)), record(place=0, mask=2)
STILL = {part: record(before=0, now=0) for part in ("shelf", "input", "out", "notes")}
LOCKED, TURN, OPEN, LONG = (("Locked",), ("Turn",), ("Open",), ("Long",))

# A definition, its arguments, and what it is there.
WORKED = [
    ("alpha_io.Files.KeepsFiles", (NONE, NONE), True), ("alpha_io.Files.KeepsFiles", (NONE, ONE), False),
    ("alpha_io.Files.KeepsFiles", (ONE, NONE), False), ("alpha_io.Files.KeepsFiles", (ONE, ONE), True),
    ("alpha_io.Files.KeepsFiles", (ONE, TWO), False), ("alpha_io.Files.KeepsFiles", (TWO, ONE), False),
    ("alpha_io.Files.KeepsOtherFiles", (NONE, NONE, FILE), True),
    ("alpha_io.Files.KeepsOtherFiles", (NONE, ONE, FILE), False),
    ("alpha_io.Files.KeepsOtherFiles", (ONE, NONE, FILE), False),
    ("alpha_io.Files.KeepsOtherFiles", (ONE, TWO, OTHER), True),
    ("alpha_io.Files.KeepsOtherFiles", (ONE, TWO, FILE), False),
    ("alpha_io.Files.KeepsOtherFiles", (NO_FILES, ONE, FILE), True),
    ("alpha_cmd.Kept.HasKept", (("file", FILE, tuple(b"x")), shelved(NO_FILES, ONE)), True),
    ("alpha_cmd.Kept.HasKept", (("file", FILE, tuple(b"y")), shelved(NO_FILES, ONE)), False),
    ("alpha_cmd.Kept.HasKept", (("file", FILE, tuple(b"x")), shelved(NO_FILES, TWO)), False),
    ("alpha_cmd.Kept.HasKept", (("spoilt", OTHER), shelved(ONE, TWO)), True),
    ("alpha_cmd.Kept.HasKept", (("spoilt", FILE), shelved(ONE, TWO)), False),
    ("alpha_cmd.Kept.HasKept", (("nothing",), shelved(ONE, TWO)), False),
    ("alpha_cmd.Kept.HasKept", (("nothing",), shelved(ONE, ONE)), True),
    ("alpha_io.Files.HasFile", (NONE, FILE, ()), True), ("alpha_io.Files.HasFile", (ONE, OTHER, ()), False),
    ("alpha_io.Files.HasFile", (ONE, FILE, tuple(b"x")), True), ("alpha_io.Files.HasFile", (ONE, FILE, ()), False),
    ("alpha_request.Plain.IsPlain", ((),), True), ("alpha_request.Plain.IsPlain", ((45, 1),), False),
    ("alpha_request.Plain.IsPlain", ((46, 45),), True),
    ("alpha_image.Layout.first_segment", ((),), record(base=0, filled=0, zeroed=0)),
    ("alpha_image.Parts.IsByte", (255,), True), ("alpha_image.Parts.IsByte", (256,), False),
    ("alpha_image.Parts.IsCodeWord", (("One",), WORD), True),
    ("alpha_image.Parts.IsCodeWord", (("One",), WORD + (1 << 32)), False),
    ("alpha_image.Parts.IsCodeWord", (("One",), drawn.operate("ctpop", 31, 2, 2)), False),
    ("alpha_image.Parts.IsCodeWord", (("Two",), drawn.operate("ctpop", 31, 2, 2)), True),
    ("alpha_image.Rules.FieldsFit", (front(8),), True), ("alpha_image.Rules.FieldsFit", (front(9),), False),
    ("alpha_image.Parts.place_of", (BEHIND, drawn.CODE - 4), NONE),
    ("alpha_image.Parts.place_of", (BEHIND, drawn.CODE), some(0)),
    ("alpha_image.Parts.place_of", (BEHIND, drawn.CODE + 2), NONE),
    ("alpha_image.Parts.place_of", (BEHIND, drawn.CODE + 12), some(3)),
    ("alpha_image.Parts.place_of", (BEHIND, drawn.CODE + 16), NONE),
    ("alpha_trap.Scan.place_or_end", (BEHIND, drawn.CODE + 16), some(4)),
    # Register 30 is the last that a mask may name.
    ("alpha_trap.Scan.fits", (APART, 1 << 7 | 1 << 31, 0, 3), True),
    ("alpha_trap.Scan.fits", (APART, 1 << 7 | 1 << 30, 0, 3), False),
    ("alpha_io.SinkChange.Puts", (put(0, 0), (2,)), True), ("alpha_io.SinkChange.Puts", (put(0, 1), (2,)), False),
    ("alpha_io.SinkChange.Puts", (put(0, 0), (3,)), False),
    ("alpha_seq.Notes.register_lines", (REGS,), tuple(REGISTERS.encode())),
    ("alpha_shadow.Broken.IsAccepted", (APART,), True),
    ("alpha_trap.Completed.completed_regs", (("Wrap",), NONE, REGS), REGS),
    ("alpha_trap.Completed.completed_regs", (("Wrap",), some(("idle",)), REGS), REGS),
    ("alpha_values.Bits.pairwise", (lambda x: lambda y: x + y, (1, 2, 3), (4, 5)), (5, 7)),
    ("alpha_values.Bits.pairwise", (lambda x: lambda y: x + y, (1,), (4, 5)), (5,)),
    ("alpha_request.Commands.OfImage.word_of", (("Debug",),), tuple(b"debug")),
    ("alpha_request.Commands.OfImage.word_of", (("Dis",),), tuple(b"dis")),
    ("alpha_cmd.Drawn.but_drawn", (("Done", 9),), ("Done", 0)),
    ("alpha_cmd.Drawn.but_drawn", (("NoMemory",),), ("NoMemory",)),
    ("alpha_io.Faults.NoFault", (0, 0), True), ("alpha_io.Faults.NoFault", (0, 1), False),
    ("alpha_io.Faults.NoFault", (MASK - 1, MASK - 1), True),
    ("alpha_io.Faults.NoFault", (MASK, MASK), False),
    ("alpha_cmd.Call.NoDeviceFault", (record(**STILL),), True),
    *(("alpha_cmd.Call.NoDeviceFault", (record(**{**STILL, part: record(before=0, now=1)}),), False) for part in STILL),
    ("alpha_seq.Notes.overflow_line", (0x1F2E3D4C5B6A7988,), tuple(b"overflow 1f2e3d4c5b6a7988\n")),
    ("alpha_seq.Notes.end_line", (("Exit", MASK),), tuple(b"exit 18446744073709551615\n")),
    ("alpha_seq.Notes.end_line", (("Signal", 2, 0x10004),), tuple(b"signal 2 at 0000000000010004\n")),
    ("alpha_seq.Notes.end_line", (("Fetch", 0xABCDEF01),), tuple(b"fetch 00000000abcdef01\n")),
    ("alpha_seq.Notes.end_line", (("Access", 16, 32),), tuple(b"access 0000000000000010 address 0000000000000020\n")),
    ("alpha_seq.Notes.end_line", (("Align", 16, 32),), tuple(b"align 0000000000000010 address 0000000000000020\n")),
    ("alpha_seq.Notes.end_line", (("Overflow", 16),), tuple(b"stop at 0000000000000010\n")),
    ("alpha_cmd.ChoicesLimit.choices_limit", (), 1_048_576),
    # No run draws as many words as a status can't have.
    ("alpha_cmd.ImpreciseRan.status_on", (ended_late(MASK),), ("Done", MASK)),
    ("alpha_cmd.ImpreciseRan.status_on", (ended_late(MASK + 6),), ("Done", 5)),
    ("alpha_debug.Script.script_limit", (), 1_048_576), ("alpha_cmd.OfImage.Debug.script_most", (), 1_048_577),
    # Counts go from their last value to 0, and on from half of it; register 3 has the sum already.
    ("alpha_seq.Step.logging", (state(), 3, 3), state(count=0, **LOGGED)),
    ("alpha_seq.Step.logging", (state(count=MASK >> 1), 3, 3), state(count=1 << 63, **LOGGED)),
    ("alpha_imprecise.Step.completed", (SMALL, state(), 0), state(count=0, **LOGGED)),
    ("alpha_imprecise.Step.completed", (SMALL, state(count=MASK >> 1), 0), state(count=1 << 63, **LOGGED)),
    ("alpha_io.ShelfChange.shelf_change", (SHELF, Device(1, 2, 3, 7), Device(4, 5, 6, 8)),
     record(old=1, new=4, took=3, takes=6, before=2, now=5, past=7, history=8)),
    ("alpha_seq.Devices.drawn", (SOURCE, Device(1, 2, replies=3), Device(4, 5, replies=6)),
     record(old=record(left=1, replies=3), new=record(left=4, replies=6), before=2, now=5)),
    ("alpha_io.SinkChange.sink_change", (SINK, Device(1, 2), Device(4, 5)), record(old=1, new=4, before=2, now=5)),
    # The third bit of a word of choices decides whether the mask grows.
    *(("alpha_imprecise.Chosen.executing", (word, 9),
       record(choice=record(report=False, value=9, bytes=9, adds=adds), count=2))
      for word, adds in ((0, False), (3, False), (4, True), (7, True), (8, False), (12, True))),
    # No run that is over has these for its last step.
    *(("alpha_imprecise.ChosenRun.end_of_imprecise_event", (event,), NONE)
      for event in (("Triggered", 5), ("Waited", True, 5, 5), ("Reported", 8), ("Lost", 8, 2))),
    ("alpha_imprecise.ChosenRun.lost_trap", (("Waited", True, 5, 5),), NONE),
    # No barrier waits.
    ("alpha_imprecise.Step.unpredictable_state", (NONE, REGS, None), REGS),
    ("alpha_imprecise.Step.unpredictable_state", (some(("barrier", NONE)), REGS, None), REGS),
    ("alpha_imprecise.ChosenRun.lost_trap", (("Triggered", 5),), NONE),
    ("alpha_imprecise.ChosenRun.lost_trap", (("Reported", 8),), NONE),
    ("alpha_imprecise.Step.can_wait", (NONE, state()), False),
    ("alpha_table.Uses.uses", (NONE, 1), False),
    *(("alpha_token.Tokens.mark", (ord(byte),), some((name,))) for byte, name in zip(
        ",():+-", ("Comma", "Open", "Close", "Colon", "Plus", "Minus"))),
    *(("alpha_token.Tokens.mark", (ord(byte),), NONE) for byte in "*'./9;"),
    # By their displacements, their bytes, and whether low bits are cleared.
    *(("alpha_table.Uses.AccessesMeet", (accessing(*one), accessing(*other)), wanted) for one, other, wanted in (
        ((8, 8), (12, 4), True), ((12, 4), (8, 8), True), ((8, 8), (16, 4), False), ((16, 4), (8, 8), False),
        ((8, 4), (4, 8), True), ((15, 8, True), (8, 1), True), ((16, 8, True), (8, 1), False),
        ((8, 1), (15, 8, True), True), ((8, 1), (16, 8, True), False))),
    ("alpha_seq.Step.next_pc", (state(pc=MASK - 3),), 0),
    ("alpha_seq.Step.next_pc", (state(pc=(1 << 63) - 4),), 1 << 63),
    ("alpha_values.Op.features", (("One",),), 1), ("alpha_values.Op.features", (("Two",),), 5),
    *(("alpha_token.Bytes.goes_on_label", (byte,), wanted)
      for texts, wanted in ((b"azAZ09_.", True), (b"-/:@[^`{", False)) for byte in texts),
    ("alpha_imprecise.ChosenRun.advance_chosen_run", (TWO_WORDS, waiting(0, 2_000)), EXECUTED),
    ("alpha_imprecise.ChosenRun.advance_chosen_run", (TWO_WORDS, waiting(1_024, 7)), REPORTED),
    *(("alpha_replay.Replay.ending_by", (end,), end)
      for end in (("Exit", 5), ("Signal", 2, 8), ("Fetch", 8), ("Access", 8, 9), ("Align", 8, 9), ("Overflow", 8))),
    *(("alpha_values.Bits.zeros_before_one", (bits,), count)
      for bits, count in (((), 0), ((0, 0, 1, 0), 2), ((0, 0), 2), ((1, 0), 0))),
    ("alpha_cmd.Commands.Imprecise.MayLose", (False, NONE), True),
    ("alpha_cmd.Commands.Imprecise.MayLose", (False, some(1)), False),
    *(("alpha_replay.Events.move_of", (event,), move) for event, move in (
        (("Precisely", ("Ends", ("Overflow", 16))), ("Reports",)), (("Precisely", ("Ends", ("Exit", 16))), ("One",)),
        (("Precisely", ("Went",)), ("One",)), (("Triggered", 5), ("Trips", 5)),
        (("Waited", True, 5, 6), ("Waits", True, 5)), (("Reported", 8), ("Reports",)), (("Lost", 8, 2), ("Reports",)))),
    *(("alpha_replay.Compared.first_difference", arguments, wanted) for arguments, wanted in (
        ((7, (9, 2), (9, 3)), some(8)), ((7, (9, 2), (9, 2)), NONE), ((7, (9,), (9, 3)), some(8)),
        ((7, (9, 2), (9,)), some(8)), ((7, (4,), (9,)), some(7)))),
    ("alpha_replay.Moves.may_add", (NONE, ("Waits", True, 5)), False),
    *(("alpha_replay.Moves.may_add", (NONE, move), True)
      for move in (("One",), ("Trips", 5), ("Waits", False, 5), ("Reports",))),
    # With nothing pending no word waits, and no report follows; while a trap is pending nothing else does.
    *(("alpha_replay.Moves.fits", (NONE, state(), pending, 1, move), False)
      for pending, move in ((NONE, ("Waits", True, 5)), (NONE, ("Reports",)), (some(PENDING), ("One",)),
                            (some(PENDING), ("Trips", 5)))),
    *(("alpha_shadow.Least.condition_number", ((condition,),), n) for n, condition in enumerate(CONDITIONS, 1)),
    # Of broken places the least goes by place, then trigger, then condition.
    *(("alpha_shadow.Least.NoLater", (BROKEN, *place), wanted)
      for place, wanted in (((2, 4, TURN), False), ((2, 5, OPEN), True), ((2, 5, TURN), True), ((2, 5, LOCKED), False),
                            ((3, 5, LOCKED), True), ((1, 5, LONG), False), ((1, 6, LOCKED), True),
                            ((9, 4, LONG), False))),
    *(("alpha_cmd.OfImage.Debug.session_status", ((name,),), (name,))
      for name in ("InputFault", "SinkFault", "NoMemory")),
    ("alpha_cmd.OfImage.Debug.session_status", (("Done",),), ("Done", 0)),
    ("alpha_cmd.OfImage.Debug.session_status", (("TooLarge",),), ("TooLarge", 1_048_576)),
    ("alpha_debug.Command.number_in", ((),), NONE), ("alpha_token.Numeral.number_value", ((),), 0),
    ("alpha_table.Decoded.source_is", (("Reg", 1), 1), False), ("alpha_table.Decoded.source_is", (("Lit", 1), 1), True),
    ("alpha_table.Decoded.source_is", (("Lit", 2), 1), False),
    ("alpha_table.Decoded.is_register", (("Reg", 1),), True), ("alpha_table.Decoded.is_register", (("Lit", 1),), False),
    # A script of more bytes than count: lines that end before the first one too many.
    *(("alpha_debug.Script.lines_within", (most, tuple(begun), tuple(b"ab\r\nc\nd")), tuple(map(tuple, lines)))
      for most, begun, lines in (
          (7, b"", (b"ab", b"c", b"d")), (6, b"", (b"ab", b"c")), (5, b"x", (b"xab",)), (4, b"", (b"ab",)),
          (3, b"x", ()), (0, b"", ()))),
    *(("alpha_debug.Script.closed", (most, (1, 2, 3), record(text=(5,), over=over)), record(text=(5,), end=(end,)))
      for most, over, end in ((3, False, "Done"), (2, False, "TooLarge"), (2, True, "Done"))),
    ("alpha_debug.Script.ended_parts", ((),), ()),
    *(("alpha_debug.Session.is_barrier", (event,), False)
      for event in (("Went",), ("Overflowed", 8), ("Ends", ("Exit", 0)))),
    ("alpha_imprecise.ChosenRun.settled_within", (0, None, 5), 5),
    # What stands before the closing quote: letters and digits behind a backslash count with it.
    *(("alpha_token.Quoted.quoted_len", (0, tuple(text.encode())), option(wanted)) for text, wanted in (
        ('"', 0), ('a b"c"', 3), (r'\n\t\\\"\0"', 10), (r'\x4F\xa0"', 8), (" ~\"", 2), (r'\x4"', None), (r'\x"', None),
        (r"\x", None), (r"\x4", None),
        (r'\xG0"', None), (r'\x0G"', None), (r'\q"', None), (r'\N"', None), ("\\", None), ("a", None), ("", None),
        ('\t"', None), ('\x1f"', None), ('\x7f"', None), ('a\n"', None))),
    *(("alpha_token.Quoted.byte_at", (tuple(text.encode()),), option(wanted)) for text, wanted in (
        ("a", (97, 0)), (r"\n", (10, 1)), (r"\t", (9, 1)), (r"\\", (92, 1)), (r'\"', (34, 1)), (r"\0", (0, 1)),
        (r"\x4Fx", (79, 3)), ('"', None), ("", None))),
    ("alpha_request.Options.is_there", (NONE,), False), ("alpha_request.Options.is_there", (some(()),), True),
    ("alpha_request.Options.is_given", (NONE,), False),
    ("alpha_request.Options.is_given", (some(tuple(b"true")),), True),
]


class Facts:
    name, about = "facts", "worked facts of files, faults, lines and lists"
    counts = {"sample": 1, "whole": 1}
    is_quick = True

    def cases(self, chooser, count, asked):
        yield from range(len(WORKED))

    def difference(self, d, case):
        name, arguments, wanted = WORKED[case]
        d.given(names=[FILE, OTHER, ()])
        function = d(name)
        given = called(function, d.count(name), arguments)
        return "" if given == wanted else f"{name} of {arguments} is {given}, and {wanted} is wanted"


def called(function, count, arguments):
    """A function on its arguments, those behind the first ones one after another."""
    given = function(*arguments[:count])
    for argument in arguments[count:]:
        given = given(argument)
    return given


class Follows:
    """A precise run as a late one: they agree, and where one thing is another one only if nothing says that it is the
    same."""

    name, about = "follows", "what `Agrees` says of events, unique value, PC and registers, each changed alone"
    counts = {"sample": 120, "whole": 3_000}
    is_quick = True
    WAYS = ("as it was", "more", "another", "lost", "unique", "pc", "regs", "count")

    def cases(self, chooser, count, asked):
        for n in range(count):
            how, steps = chooser.choice(list(COMPLETIONS)), chooser.choice((1, 9, 20, 60))
            yield drawn.program(chooser, True), how, steps, self.WAYS[n % len(self.WAYS)]

    def difference(self, d, case):
        whole, how, steps, way = case
        d.forget()
        program = program_of(whole, how)
        start = d("alpha_seq.Start.start")(program)
        run = d("alpha_seq.Run.after")(program, start, (), steps)
        events, state, happened = run.events, run.at.state, ("Precisely", run.at.event)
        if way == "more":
            events += (("Overflowed", 3),)
        elif way == "another":
            events = events[:-1] + (("Overflowed", 3),)
        elif way == "lost":
            happened = ("Lost", 3, 4)
        elif way == "regs":
            state = state._replace(regs=state.regs[:1] + (state.regs[1] ^ 1,) + state.regs[2:])
        elif way != "as it was":
            state = state._replace(**{way: getattr(state, way) + 1})
        late = record(state=state, pending=NONE, last_event=happened)
        given, wanted = (d("alpha_imprecise.Restart.Agrees")(program, start, events, late),
                         self.wanted(way, run.at.event))
        return ("" if given == wanted
                else f"{whole.spelled().hex()} by {how}: {way} at {run.at.event}: agrees is {given}")

    def wanted(self, way, event):
        """Whether they still agree."""
        is_stop = event[0] == "Ends" and event[1][0] == "Overflow"
        goes_on = event[0] not in ("Barriered", "Ends")
        return way == "as it was" or way == "pc" and goes_on or way in ("regs", "count") and (goes_on or is_stop)


class Scans:
    name, about = "scans", "the place that the scan finds, by any address and mask, in random code"
    counts = {"sample": 400, "whole": 20_000}
    is_quick = False

    def cases(self, chooser, count, asked):
        for _ in range(count):
            whole = drawn.program(chooser, chooser.random() < 0.5)
            late = Late(whole, "wrap", b"")
            late.pc = chooser.choice((whole.address(chooser.randrange(len(whole.words) + 2)), chooser.getrandbits(64),
                                      whole.code_base + 2, 0))
            late.mask = sum(1 << n for n in set(chooser.choices((6, 7, 8, 1), k=chooser.choice((0, 1, 1, 1, 2, 2)))))
            yield whole, late.pc, late.mask, late.scan()

    def difference(self, d, case):
        whole, pc, mask, wanted = case
        given = d("alpha_trap.Scan.scan")(parts_of(whole), pc, mask)
        return ("" if given == option(wanted)
                else f"{whole.spelled().hex()}: {given} from {pc:x} by {mask:x}, and {wanted} is wanted")
