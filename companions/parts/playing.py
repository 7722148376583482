"""The replay of a journal on the model of the machine, with the first thing that is wrong, and why."""
from . import journal as journals
from . import machine, table

ITEM, OUTPUT, END, INPUT = 1, 2, 3, 4


class Fault:
    """What is wrong first: a kind and a number as the program has them, and why. `step` is the step within a Units,
    from 1."""

    def __init__(self, kind, at, why, step=None):
        self.kind, self.at, self.why, self.step = kind, at, why, step

    def line(self):
        return f"norun kind {self.kind} at {self.at}"


class Replay:
    """A journal that is played on an image. Behind `play` the machine stands before the first step that is impossible,
    or at the end, and `item` and `units` say how far the run has come."""

    def __init__(self, image, journal):
        self.journal, self.image = journal, image
        self.machine = machine.Machine(image, journal.completion, journal.given)
        self.item = self.units = self.reports = 0
        # The item whose step put the first byte that differs, and the address of its word.
        self.differs = None

    def play(self):
        """The first fault, or None."""
        for self.item, item in enumerate(self.journal.items):
            for step in range(1, 1 + (item[1] if item[0] == journals.UNITS else 1)):
                why = self.impossible(item)
                if why is not None:
                    return Fault(ITEM, self.item, why, step if item[0] == journals.UNITS else None)
                self.make(item)
        return self.fault_behind()

    def impossible(self, item):
        """Why the item's next step can't be made, or None."""
        m, (kind, *numbers) = self.machine, item
        if m.end is not None:
            return f"the run is over: {end_text(m.end)}"
        if kind in (journals.UNITS, journals.TRIGGER):
            if m.waited is not None:
                return "a trap is pending, so the word is executed as a Wait, or the trap is reported"
            if m.overflows() != (kind == journals.TRIGGER):
                return ("the word doesn't overflow" if kind == journals.TRIGGER
                        else "the word overflows, which is a Trigger")
            return None
        if m.waited is None:
            return "no trap is pending"
        if kind == journals.REPORT:
            return None
        why = m.must_report()
        if why is not None:
            return f"the trap can't wait: {why}"
        if numbers[0] and m.word().kind != table.TRIGGER:
            return "flag 1 at a word without /V"
        return "flag 1 at a word whose destination is R31" if numbers[0] and not m.word().insn.sets else None

    def make(self, item):
        m, (kind, *numbers) = self.machine, item
        before, pc = len(m.put), m.pc
        if kind == journals.UNITS:
            m.step()
        elif kind == journals.TRIGGER:
            m.trigger(*numbers)
        elif kind == journals.WAIT:
            m.wait(*numbers)
        else:
            m.report()
            self.reports += 1
        self.units += kind in (journals.UNITS, journals.TRIGGER)
        if self.differs is None and m.put[before:] != self.journal.put[before:len(m.put)]:
            self.differs = self.item, pc

    def fault_behind(self):
        """The first fault behind all items."""
        m, put, wanted = self.machine, bytes(self.machine.put), self.journal.put
        if put != wanted:
            at = next((n for n, (one, other) in enumerate(zip(put, wanted)) if one != other),
                      min(len(put), len(wanted)))
            return Fault(OUTPUT, at, output_text(put, wanted, at))
        end = m.end or ("none", 0, 0)
        if end != self.journal.ending:
            return Fault(END, 0,
                         f"the run ends by `{end_text(end)}`, and the journal by `{end_text(self.journal.ending)}`")
        if m.end is None and m.waited is not None:
            return Fault(END, 0, "the run doesn't end, and a trap is pending")
        left = len(m.given) - m.taken
        return Fault(INPUT, left, f"the run took {m.taken} of {len(m.given)} bytes of the input") if left else None

    def answer(self):
        return f"run units {self.units} reports {self.reports}"

    def until(self, steps=None):
        """The journal of the run up to here, which doesn't end: of the item at hand the steps that were made, if it is
        a Units."""
        items = self.journal.items[:self.item]
        if steps:
            items = [*items, (journals.UNITS, steps)]
        m = self.machine
        return journals.Journal(self.journal.completion, ("none", 0, 0), m.given[:m.taken], bytes(m.put), items)


def end_text(end):
    return journals.ending_text(end)


def output_text(put, wanted, at):
    if at == len(put):
        return f"the run puts {len(put)} bytes, and the journal has {len(wanted)}"
    if at == len(wanted):
        return f"the run puts more than the {len(wanted)} bytes of the journal"
    return f"the run puts {put[at]:02x} there, and the journal has {wanted[at]:02x}"


def register_lines(regs):
    """The registers, four a line, as the program writes them."""
    return [" ".join(f"{value:016x}" for value in regs[n:n + 4]) for n in range(0, 32, 4)]
