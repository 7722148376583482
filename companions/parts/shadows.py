"""Trap shadows and their broken places, by the nine conditions of docs/trap-shadows.md.

This is a model beside the product, to draw by. Whoever draws holds its least broken place against the program's
verdict.
"""
from . import table

LONGEST = 1_024
NAMES = {1: "its destination is R31", 2: "a source is lost", 3: "another trigger with the same destination",
         4: "an access by a register that the shadow set", 5: "a store after a load that may meet it",
         6: "a locked access", 7: "a branch or a jump", 8: "the code ends", 9: "more than 1,024 words follow"}


class Code:
    """The instructions of an image, by place."""

    def __init__(self, words):
        known = {word: table.insn_of(word) for word in set(words)}
        self.insns = [known[word] for word in words]

    def triggers(self):
        return [place for place, insn in enumerate(self.insns) if insn is not None and insn.kind == table.TRIGGER]


class Shadow:
    """The shadow of a trigger: its first place, the place that ends it, why it ends, and its broken places.

    `end` is the place of the barrier, of the branch or jump, one past the code, or that of the word 1,025 behind the
    trigger; what comes behind that isn't looked at. `broken` has pairs of place and condition, the least first; where
    it has `most` of them the walk ends there too. `sources` are the places of the words that use a register before the
    shadow sets it, which may not be lost.
    """

    def __init__(self, code, trigger, most=1_000_000):
        self.trigger, self.broken, self.sources = trigger, [], []
        self.used = self.set = 0
        self.loads = []
        self.destination = code.insns[trigger].sets
        self.end, self.why = self.walk(code.insns, most)

    def walk(self, insns, most):
        for place in range(self.trigger, self.trigger + LONGEST + 2):
            if place == len(insns):
                self.broken.append((place, 8))
                return place, "open"
            insn = insns[place]
            if insn.kind == table.BARRIER:
                return place, "barrier"
            self.broken += [(place, condition) for condition in self.conditions(place, insn)]
            if insn.kind == table.TURN:
                return place, "turn"
            if len(self.broken) >= most:
                return place, "cut"
        return place, "long"

    def conditions(self, place, insn):
        """The conditions that break the place, and what the shadow is behind its word."""
        found = [1] if place == self.trigger and insn.sets == 0 else []
        fresh = insn.uses & ~self.set
        if fresh:
            self.used |= fresh
            self.sources.append(place)
        if insn.sets & self.used:
            found.append(2)
        if place > self.trigger:
            found += self.behind(insn)
            if place == self.trigger + LONGEST + 1:
                found.append(9)
        self.set |= insn.sets
        return found

    def behind(self, insn):
        """The conditions 3 to 7 of a word behind the trigger."""
        found = [3] if insn.kind == table.TRIGGER and insn.sets == self.destination else []
        if insn.span is not None:
            base, first, last = insn.span
            if table.bit(base) & self.set:
                found.append(4)
            if insn.kind == table.STORE and any(other != base or first < until and start < last
                                                for other, start, until in self.loads):
                found.append(5)
            if insn.kind == table.LOAD:
                self.loads.append(insn.span)
        if insn.kind == table.LOCKED:
            found.append(6)
        if insn.kind == table.TURN:
            found.append(7)
        return found


def least(shadows):
    """The least broken place of some shadows, as (trigger, place, condition), or None."""
    found = [(place, shadow.trigger, condition) for shadow in shadows for place, condition in shadow.broken]
    if not found:
        return None
    place, trigger, condition = min(found)
    return trigger, place, condition
