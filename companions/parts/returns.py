"""Where calls come back, and which returns are shown to.

A return is shown to go back behind a call where the register that it goes by has, on every way from the function's
entry, what a register had there: it was never set, or was kept in the stack and loaded from there. A store of which the
flow doesn't show that it goes there counts as one elsewhere.
"""
import functools

from . import steps, table
from .below import Below
from .known import (LOWER, STACK, STALE, is_stack_pointer, kept_in, meet, note_stack_pointer, note_store, registers_in,
                    saved_in, value_of)

# What a function of the calling standard keeps.
KEPT = steps.bits(*range(9, 16), steps.SP)


class Left:
    """What a function leaves at its returns: a set of registers that are as they were, where the stack pointer stands,
    the registers by which it returns, None among them where nothing shows that, and what it keeps in a part of the
    stack that it has taken, as a part of a function does that saves registers for the rest."""

    def __init__(self, kept, stack, links, saved=None):
        self.kept, self.stack, self.links, self.saved = kept, stack, links, saved or {}

    def __eq__(self, other):
        return other is not None and vars(self) == vars(other)

    def joined(self, other):
        """What both say; None says nothing, of a function that hasn't returned yet."""
        if other is None:
            return self
        stack = None if None in (self.stack, other.stack) else meet({0: self.stack}, {0: other.stack})[0]
        return Left(self.kept & other.kept, stack, self.links | other.links, meet(self.saved, other.saved))


# What a call leaves by the calling standard, where the function isn't here: one that returns by $26, or a division.
STANDARD = {steps.RA: Left(KEPT, ("stack", 0), {steps.RA}),
            steps.BY_DIVISION: Left(steps.ALL & ~steps.bits(steps.BY_DIVISION, 24, 25, steps.PV, steps.AT),
                                    ("stack", 0), {steps.BY_DIVISION})}


class Returns:
    """What the flow shows of each function, found anew for its callers until nothing changes. Of what was found of code
    that differs only by its tables that stays which isn't otherwise.

    `links` has for each place of a return the pairs of entry and register, None where nothing shows that it is a
    return. `left` has what each entry's function leaves, None where it never returns. `states` has for each place what
    its registers are known to have, over all functions that it is in. `is_stack` says that the stack pointer is one,
    wherever a call leads, and `below` has places that use memory below it.
    """

    def __init__(self, code, before=None):
        self.code = code
        self.left = dict.fromkeys(code.entries)
        # The place of each address that is made below another such address, with that one's place.
        self.parents = {}
        self.followed, waiting = {}, set(code.entries)
        if before is not None:
            waiting = self.begin_with(before)
        while waiting:
            for entry in sorted(waiting):
                self.followed[entry] = self.follow(entry)
            changed = {entry for entry in waiting if self.is_other(entry)}
            waiting = {entry for entry in code.entries if self.depends(entry, changed)}
        self.links, self.states, self.is_stack, self.tails, self.is_wild = {}, {}, True, set(), False
        for entry in sorted(code.entries):
            self.look_at(entry)

    def begin_with(self, before):
        """Takes over what was found of functions in which nothing is otherwise, nor in what they call; the others."""
        code = self.code
        changed = {entry for entry in code.entries | before.code.entries if self.is_changed(entry, before)}
        more = changed
        while more:
            more = {entry for entry in code.entries - changed if before.depends(entry, changed)}
            changed |= more
        for entry in code.entries - changed:
            self.followed[entry], self.left[entry] = before.followed[entry], before.left[entry]
        self.parents.update(before.parents)
        return changed & code.entries

    def is_changed(self, entry, before):
        """Whether the words of a function go on otherwise than before, or it is come to otherwise."""
        code, old = self.code, before.code
        if not (entry in code.entries and entry in old.entries) or (entry in code.strange) != (entry in old.strange):
            return True
        return any(code.ways[place] != old.ways[place] or (place in code.tables) != (place in old.tables)
                   for place in before.followed[entry])

    @functools.cached_property
    def lower(self):
        """What each function does with memory below $30."""
        return [Below(self.code, states, self.family) for states in self.followed.values()]

    @functools.cached_property
    def below(self):
        return {place for one in self.lower for place in one.refused}

    @functools.cached_property
    def used(self):
        return {place for one in self.lower for place in one.used}

    def is_other(self, entry):
        """Whether a function leaves something else than was known."""
        found = None
        for place, state in self.followed[entry].items():
            one = self.left_at(place, state)
            found = one.joined(found) if one is not None else found
        is_other = found is not None and found != self.left[entry]
        self.left[entry] = found
        return is_other

    def depends(self, entry, changed):
        """Whether a function calls one of those that changed, or any that isn't seen."""
        return bool(changed) and any(steps.is_call(self.code.steps[place]) and (
            self.code.targets[place] is None or self.code.targets[place] in changed) for place in self.followed[entry])

    def follow(self, entry):
        """What is known before each place of a function."""
        start = {register: ("entry", register) for register in range(31)} | {steps.SP: ("stack", 0)}
        states, left = {entry: {} if entry in self.code.strange else start}, [entry]
        while left:
            place = left.pop()
            after = self.behind(place, states[place])
            if after is None:
                continue
            for other in self.code.ways[place]:
                known = states.get(other)
                joined = after if known is None or known == after else meet(known, after)
                if joined != known:
                    states[other] = joined
                    left.append(other)
        return states

    def left_at(self, place, state):
        """What a function leaves where it ends at a place, None where it goes on."""
        step, name = self.code.steps[place], self.code.steps[place].insn.name
        if None in self.code.next[place] or name == "jsr_coroutine":
            return Left(0, None, {None})
        stack = state.get(steps.SP)
        stack = stack if stack is not None and stack[0] == "stack" else None
        if name == "ret":
            link = self.link_at(step, state)
            return Left(0, stack, {None}) if link is None else Left(kept_in(state), stack, {link}, saved_in(state))
        if name == "jmp" and place not in self.code.tables:
            # With the return address and the stack as they were it goes on in another function, which returns from this
            # one.
            is_tail = state.get(steps.RA) == ("entry", steps.RA) and stack == ("stack", 0)
            return Left(kept_in(state) & KEPT, stack, {steps.RA}) if is_tail else Left(0, None, {None})
        return None

    @staticmethod
    def link_at(step, state):
        by = ("", None) if step.word is None else state.get(steps.base_of(step), ("", None))
        return by[1] if by[0] == "entry" else None

    def look_at(self, entry):
        """Notes what the places of a function show."""
        for place, state in self.followed[entry].items():
            step = self.code.steps[place]
            self.states[place] = state if place not in self.states else meet(self.states[place], state)
            if self.goes_unseen(place, step) and not is_stack_pointer(state.get(steps.SP)):
                self.is_stack = False
            if step.insn.name == "ret":
                self.links.setdefault(place, []).append((entry, self.link_at(step, state)))
            elif step.insn.name in ("jmp", "jsr_coroutine") and place not in self.code.tables:
                self.note_jump(entry, place, state)

    def goes_unseen(self, place, step):
        """Whether a word calls, or jumps to where it isn't seen."""
        if steps.is_call(step) or step.insn.name in ("jmp", "jsr_coroutine") and place not in self.code.tables:
            return True
        return None in self.code.next[place]

    def goes_by_address(self):
        """Whether anything may lead to where the flow doesn't see: a call or a jump by a register, or a return that
        isn't shown to be one."""
        code, calls = self.code, {}
        for place in code.reached:
            step = code.steps[place]
            if steps.is_call(step):
                calls.setdefault(code.targets[place], set()).add(steps.link_of(step))
            elif step.insn.name in ("jmp", "jsr_coroutine") and place not in code.tables:
                return True
        return None in calls or any(link is None or calls.get(entry, set()) - {link}
                                    for pairs in self.links.values() for entry, link in pairs)

    def note_jump(self, entry, place, state):
        """A jump that isn't followed: it ends a function, which the other one returns from, or may go anywhere."""
        left = self.left_at(place, state)
        if left is None or left.links != {steps.RA}:
            self.is_wild = True
        else:
            self.tails.add(entry)

    def family(self, place):
        """A place where an address is made below $30, and those of the addresses that it lies below."""
        found = []
        while place is not None and place not in found:
            found.append(place)
            place = self.parents.get(place)
        return found

    def behind(self, place, state):
        """What is known behind an instruction."""
        step = self.code.steps[place]
        if steps.is_call(step):
            return self.behind_call(place, step, state)
        after = dict(state)
        value = value_of(step, state, place)
        for register in registers_in(step.spoils):
            after.pop(register, None)
        if step.insn.name == "br" and step.insn.sets:
            value = ("code", self.code.after[place])
        if value is not None:
            after[step.insn.sets.bit_length() - 1] = value
        if value == ("below", place):
            self.note_parent(place, step, state)
        if step.spoils & steps.bits(steps.SP):
            note_stack_pointer(after, state, value, self.family)
        if step.word is not None and step.insn.kind in (table.STORE, table.LOCKED):
            note_store(after, step, state)
        if step.insn.kind == "unknown" and step.spoils == steps.ALL:
            return {}
        return after

    def note_parent(self, place, step, state):
        """Notes below which address one is made; none where that isn't always the same."""
        values = [state.get(register, ("", None)) for register in registers_in(step.insn.uses)]
        parent = next((value[1] for value in values if value[0] == "below"), None)
        self.parents[place] = parent if self.parents.get(place, parent) == parent else None

    def behind_call(self, place, step, state):
        """What is known where a call comes back, None where it isn't known to."""
        left = self.left_by(place, step)
        if left is None:
            return None
        after = {register: state[register] for register in range(31) if left.kept >> register & 1 and register in state}
        after.pop(steps.SP, None)
        after[steps.link_of(step)] = ("code", self.code.after[place])
        if left.stack != ("stack", 0):
            after = {register: STALE if value[0] in LOWER else value for register, value in after.items()}
        before = state.get(steps.SP, ("", None))
        if left.stack is None or before[0] != "stack":
            return after
        after[steps.SP] = STACK if None in (before[1], left.stack[1]) else ("stack", before[1] + left.stack[1])
        # What stands below the stack pointer isn't the caller's. Where its depth isn't known, it lies below what is.
        after.update((slot, value) for slot, value in state.items()
                     if isinstance(slot, tuple) and (before[1] is None or slot[1] >= before[1]))
        if before[1] is not None:
            after.update((("slot", before[1] + slot[1]), state[value[1]]) for slot, value in left.saved.items()
                         if value[1] in state)
        return after

    def left_by(self, place, step):
        """What a call leaves."""
        target, link = self.code.targets[place], steps.link_of(step)
        if target is not None:
            # A function with a global name may be another one's when it is linked.
            standard = STANDARD[steps.RA] if target in self.code.outside and link == steps.RA else None
            return self.left[target] and self.left[target].joined(standard)
        found = STANDARD.get(link, Left(0, None, {None}))
        for entry in self.callable_by(link) if step.label is None else ():
            found = found.joined(self.left[entry])
        return found

    def callable_by(self, link):
        """The functions that a call may lead to of which the flow doesn't show where: those that return by its
        register."""
        return [entry for entry, left in self.left.items() if left is None or link in left.links or None in left.links]
