"""Which registers hold a value that may still be read, behind each instruction of a text or an image.

What each instruction reads and writes is that of the one table; where the flow goes is that of `flow`. A return goes
back behind the calls that it is shown to come from, so what a caller keeps over a call counts, by whatever agreement
the two have. Only of code that isn't there the calling standard says what it reads and keeps. Of all that can't be
followed every register counts as read.
"""
from . import returns, steps

ARGUMENTS = steps.bits(*range(16, 22))
RESULT = 0
# A call reads $25 as well, which some languages pass the number of arguments in.
CALL_READS = ARGUMENTS | steps.bits(25, steps.PV, steps.GP, steps.SP)
DIVISION_READS = steps.bits(24, 25, steps.PV, steps.GP, steps.SP)
# What a caller that isn't there may read behind a return.
BACK = {steps.RA: returns.KEPT | steps.bits(RESULT, steps.RA, steps.GP),
        steps.BY_DIVISION: steps.ALL & ~steps.bits(steps.AT)}


class Liveness:
    """`before` and `behind` have a set of bits for each place: the registers that may be read from there on."""

    def __init__(self, code):
        self.code, self.returns = code, code.returns()
        self.places = sorted(code.reached, reverse=True)
        self.calls = self.calls_by_target()
        self.back = {place: self.back_of(pairs) for place, pairs in self.returns.links.items()}
        # First what is read before a function returns, then what is read behind its returns too.
        self.callees = None
        self.callees = self.settled(lambda place, before: self.back[place][1] & -(self.back[place][1] == steps.ALL))
        self.before = self.settled(self.read_behind_return)
        self.behind = [self.out(place, self.before, self.read_behind_return) if place in code.reached else steps.ALL
                       for place in range(len(code.steps))]

    def calls_by_target(self):
        """The places of calls, by where they lead, or by the register that they leave their address in where that isn't
        seen."""
        found = {}
        for place in self.places:
            step = self.code.steps[place]
            if steps.is_call(step):
                found.setdefault(self.key(place, step), []).append(place)
        return found

    def key(self, place, step):
        """Where a call leads: to a place, elsewhere by a name, or where nothing says."""
        if self.code.targets[place] is not None:
            return self.code.targets[place]
        return ("unseen" if step.label is None else "elsewhere", steps.link_of(step))

    def back_of(self, pairs):
        """Where a return goes: the places behind calls, and the registers that are read elsewhere."""
        behind, elsewhere = set(), 0
        for entry, link in pairs:
            callers = {entry}
            if entry in self.code.taken or entry in self.code.outside:
                # A jump that isn't followed may lead there, from a function whose callers it returns to then.
                callers |= self.returns.tails
                if self.returns.is_wild and entry in self.code.taken:
                    return set(), steps.ALL
            called = [place for caller in callers for place in self.calls.get(caller, [])]
            if link is None or any(steps.link_of(self.code.steps[place]) != link
                                   for place in self.calls.get(entry, [])):
                return set(), steps.ALL
            behind.update(self.code.after[place] for place in called + self.calls.get(("unseen", link), []))
            if callers & self.code.outside:
                elsewhere |= BACK.get(link, steps.ALL)
        return (set(), steps.ALL) if None in behind else (behind, elsewhere)

    def read_behind_return(self, place, before):
        behind, found = self.back[place]
        for other in behind:
            found |= before[other]
        return found

    def settled(self, at_return):
        """What is read from each place on, by passes from the last to the first until nothing changes."""
        before = [0 if place in self.code.reached else steps.ALL for place in range(len(self.code.steps))]
        changed = True
        while changed:
            changed = False
            unseen = {key: self.read_by(key, self.callees or before) for key in self.calls}
            for place in self.places:
                found = self.read(place, before, at_return, unseen)
                if found != before[place]:
                    before[place], changed = found, True
        return before

    def read_by(self, key, before):
        """What a called function reads before it returns."""
        if not isinstance(key, tuple):
            # A function with a global name may be another one's when it is linked.
            return before[key] | (CALL_READS if key in self.code.outside else 0)
        found = {steps.RA: CALL_READS, steps.BY_DIVISION: DIVISION_READS}.get(key[1], steps.ALL)
        for entry in self.returns.callable_by(key[1]) if key[0] == "unseen" else ():
            found |= before[entry]
        return found

    def out(self, place, before, at_return):
        """What is read behind an instruction, where it goes on within its function."""
        step, onward = self.code.steps[place], self.code.goes[place]
        if step.insn.name == "ret":
            return at_return(place, before) if place in self.back else steps.ALL
        if not onward:
            return 0 if step.insn.name == "callsys" else steps.ALL
        found = 0
        for other in onward:
            found |= steps.ALL if other is None else before[other]
        return found

    def read(self, place, before, at_return, unseen):
        step = self.code.steps[place]
        found = self.out(place, before, at_return)
        if steps.is_call(step):
            found |= unseen[self.key(place, step)]
        return reads(step) | found & ~step.insn.sets

    def leaving(self, place):
        """What may be read where control leaves a function at a place: by a call, behind it too, by a return, or
        elsewhere."""
        found, step = self.behind[place], self.code.steps[place]
        if steps.is_call(step):
            found |= self.read_by(self.key(place, step), self.callees)
        return found


def reads(step):
    """The registers that an instruction reads, those of a system call too."""
    return step.insn.uses | steps.PAL_READS.get(step.insn.name, 0)
