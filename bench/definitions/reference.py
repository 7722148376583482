"""What runs are held against: the models of companions/parts and bench/worked.py, which were written by the pages.

They say nothing in the definitions' words, so their things are put into these words here: a word's class, an image's
parts, an answer's status.
"""
import sys

from .sources import TOP
from .translate import record

sys.path.insert(0, str(TOP / "companions"))
from parts import image, journal, machine, playing, shadows, table  # noqa: E402  (behind the path)
from parts.files import Refused as files_refused  # noqa: E402
from parts.machine import OPERATES  # noqa: E402

MASK = (1 << 64) - 1
LOADS = {"ldbu": ("Zero", 1), "ldwu": ("Zero", 2), "ldl": ("Sign", 4), "ldq": ("Zero", 8), "ldq_u": ("Zero", 8),
         "ldl_l": ("Sign", 4), "ldq_l": ("Zero", 8)}
STORES = {"stb": 1, "stw": 2, "stl": 4, "stq": 8, "stq_u": 8, "stl_c": 4, "stq_c": 8}
CALLS = {"bpt": "Bpt", "bugchk": "Bugchk", "callsys": "Callsys", "imb": "Imb", "rdunique": "Rdunique",
         "wrunique": "Wrunique",
         "gentrap": "Gentrap"}
KINDS = {table.TRIGGER: "Trigger", table.LOAD: "Load", table.STORE: "Store", table.LOCKED: "Locked", table.TURN: "Turn",
         table.BARRIER: "Barrier", table.PLAIN: "Plain"}
CONDITIONS = ("ZeroDestination", "SourceLost", "SameDestination", "WildBase", "LoadThenStore", "Locked", "Turn", "Open",
              "Long")
COMPLETIONS = {"wrap": ("Wrap",), "saturate": ("Saturate",), "stop": ("Stop",)}
NONE = ("None",)


def some(value):
    return ("Some", value)


def option(value):
    return NONE if value is None else some(value)


def op_of(name):
    """An operate instruction's name among the cases of the code: `Addl`, `AddlV`."""
    return (name[:-2].capitalize() + "V" if name.endswith("/v") else name.capitalize(),)


def access(name, base, displacement):
    size = LOADS[name][1] if name in LOADS else STORES[name]
    return record(base=base, disp=displacement, bytes=size, clears=name.endswith("_u"))


def class_by(name, ra, rb, rc, literal, displacement):
    """The class of an instruction by its name and fields. `literal` is None where a register is the second source."""
    if name in OPERATES:
        source = ("Reg", rb) if literal is None else ("Lit", literal)
        return ("trigger" if name.endswith("/v") else "operate", op_of(name), ra, source, rc)
    if name in ("lda", "ldah"):
        return ("address", (name.capitalize(),), ra, rb, displacement)
    if name in LOADS:
        if ra == 31 and not name.endswith("_l"):
            return ("idle",)
        return ("load_locked" if name.endswith("_l") else "load", (LOADS[name][0],), access(name, rb, displacement), ra)
    if name in STORES:
        return ("store_conditional" if name.endswith("_c") else "store", access(name, rb, displacement), ra)
    if name in table.BRANCH.values():
        condition = NONE if name in ("br", "bsr") else some((name[1:].capitalize(),))
        return ("branch", condition, ra, displacement)
    if name in table.JUMP:
        return ("jump", ra, rb)
    if name in table.BARRIERS.values():
        return ("barrier", NONE)
    return ("barrier", some((CALLS[name],))) if name in CALLS else ("idle",)


def class_of(number):
    """The class of a word, as an option."""
    if table.insn_of(number) is None:
        return NONE
    word = machine.word_of(number)
    return some(class_by(word.name, word.ra, word.rb, word.rc, word.literal, word.displacement))


def columns_of(number):
    """What the word is to a shadow: its kind, its registers as sets of bits, and the bytes that it may touch."""
    insn = table.insn_of(number)
    return insn and ((KINDS[insn.kind],), insn.uses, insn.sets, insn.span)


def parts_of(whole):
    """An image's parts."""
    segments = tuple(record(base=one.base, filled=len(one.data), zeroed=one.zeroed) for one in whole.segments)
    return record(version=("Two" if whole.level else "One",), level=("Two" if whole.level == 2 else "One",),
                  code_base=whole.code_base, entry=whole.entry, stack=whole.stack, segments=segments,
                  words=tuple(whole.words), bytes=tuple(b"".join(one.data for one in whole.segments)))


def broken_in(words):
    """All broken places: (trigger, place, number of the condition)."""
    code = shadows.Code(words)
    return {(trigger, at, condition) for trigger in code.triggers()
            for at, condition in shadows.Shadow(code, trigger).broken}


def program_of(whole, how):
    return record(image=parts_of(whole), completion=COMPLETIONS[how])


def status_of(status):
    """The number by which the program ends."""
    return {"Done": 0, "Stopped": 5, "StepsSpent": 6, "Lost": 7}[status[0]]


WENT, SILENT = ("Went",), ("Silent",)
ENDS = {"exit": 1, "signal": 2, "fetch": 1, "access": 2, "align": 2, "overflow": 1}


class Late(machine.Machine):
    """The model of the imprecise machine by a choice a step: (report, value, bytes, adds). It tells in the definitions'
    words how its last step went."""

    def __init__(self, whole, how, given=b""):
        super().__init__(whole, how, given)
        self.event, self.traffic, self.last_event = WENT, SILENT, ("Precisely", WENT)
        self.bytes, self.place, self.count = 0, None, 0

    def hand(self, given):
        """Gives it other bytes to read."""
        self.given, self.taken = bytes(given), 0

    def choose(self, choice):
        """One step; a run that is over stays."""
        if self.is_over():
            return
        report, value, self.bytes, adds = choice
        word = self.word()
        if self.waited is None:
            self.begin(value)
        elif report or word is None or word.kind == table.BARRIER or self.fault(word) is not None:
            self.tell()
        else:
            adds = adds and word.kind == table.TRIGGER and word.rc != 31
            self.wait(adds, value)
            self.last_event = ("Waited", adds, value, self.bytes)

    def begin(self, value):
        if self.overflows():
            self.place = self.image.place(self.pc)
            self.trigger(value)
            self.last_event = ("Triggered", value)
        else:
            self.advance()
            self.last_event = ("Precisely", self.event)

    def tell(self):
        """Reports the pending trap."""
        if self.report() == "overflow":
            self.last_event = ("Reported", self.overflowed_at)
        elif self.end[0] == "lost":
            self.last_event = ("Lost", *self.end[1:])
        else:
            self.last_event = ("Precisely", ("Ends", ("Overflow", self.pc)))

    def spoil(self, word, value):
        super().spoil(word, self.bytes)

    def complete(self, place):
        super().complete(place)
        self.count += 1

    def call(self):
        number, count, taken, put = self.regs[0], self.regs[18], self.taken, len(self.put)
        super().call()
        given, wrote = tuple(self.given[taken:self.taken]), tuple(self.put[put:])
        if self.regs[19] == 0:
            self.traffic = ("Read", count, given) if number == 3 else ("Wrote", wrote)

    def advance(self):
        """A step of the sequential machine."""
        if self.is_over():
            return
        self.traffic = SILENT
        way = self.step()
        if way == "barrier":
            self.event = ("Barriered", self.traffic, self.pc, tuple(self.regs))
        elif way == "ended":
            name, *numbers = self.end
            self.event = ("Ends", (name.capitalize(), *numbers[:ENDS[name]]))
        else:
            self.event = ("Overflowed", self.overflowed_at) if way == "overflow" else WENT

    def ends_within(self, steps):
        """Whether the precise run ends within so many steps."""
        for _ in range(steps):
            self.advance()
        return self.is_over()

    def is_over(self):
        return self.end is not None

    def state(self):
        """All that a state has."""
        regions = tuple((region.base, bytes(region.content), region.is_writable) for region in self.regions)
        return tuple(self.regs), self.pc, regions, self.unique, option(self.lock), self.count, self.overflowed_at or 0

    def pending(self):
        """The place and the mask of the pending trap, or None."""
        return None if self.waited is None else (self.place, self.mask)


def state_shown(state):
    """The same of a state of the definitions."""
    blocks = tuple((block.first, bytes(block.bytes), block.writable) for block in state.mem)
    return state.regs, state.pc, blocks, state.unique, state.lock, state.count, state.logged


def seen_of(happened):
    """What a precise machine shows of a step."""
    if happened[0] == "Reported":
        return (("Overflowed", happened[1]),)
    return happened[1:] if happened[0] == "Precisely" else ()


def given_in(event):
    """The bytes that a step with this event was given to read."""
    return event[1][2] if event[0] == "Barriered" and event[1][0] == "Read" else ()


class Follower(Late):
    """The precise machine, each of whose reads is given what the same read of a late run was. `follows` says whether
    all of its events so far are those of the late run."""

    follows = True

    def follow(self, happened):
        for event in seen_of(happened):
            self.follows = self.follows and not self.is_over()
            if self.follows:
                self.hand(given_in(event))
                self.advance()
                self.follows = self.event == event


def agrees(late, precise):
    """Whether a late run agrees with the precise one that goes by its events."""
    if late.last_event[0] == "Lost":
        return False
    if late.waited is not None:
        return late.scan() == late.place
    if not precise.follows or precise.unique != late.unique:
        return False
    event = late.last_event[1] if late.last_event[0] == "Precisely" else WENT
    if event[0] == "Ends" and event[1][0] == "Overflow":
        return precise.pc == late.pc
    return event[0] not in ("Barriered", "Ends") or precise.state() == late.state()
