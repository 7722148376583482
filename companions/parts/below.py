"""Memory below $30: where a function uses it, and where a repair may therefore keep nothing there.

An address that is made below $30, and then taken as $30, is that of memory which is above it from there on: so
compilers make room whose size isn't known. Between the two stores by it put something where a repair would, and only
there no repair may. They also store zeros to touch each page before that: such a store is in use until any address
below is taken, and what is taken behind that isn't believed to rely on the zeros. Every other use of memory below $30,
and one that lasts over a call, a return or a jump that isn't followed, forbids it everywhere.
"""
from . import steps, table
from .known import LOWER, is_under, span_in_stack

ARGUMENTS = range(16, 22)
RESULT = 0
# What a store of zero uses, wherever below it is.
TOUCHED = ("below", None)


class Below:
    """What one function does below $30, by what is known before each of its places. `used` has the places where
    something may be in use there, `refused` those that forbid all."""

    def __init__(self, code, states, family):
        self.code, self.states, self.family = code, states, family
        self.used, self.refused = set(), set()
        self.entry = next(iter(states))
        self.follow()
        self.look_for_unwritten()

    @staticmethod
    def depth(state):
        """How deep $30 stands, None where that isn't known."""
        top = state.get(steps.SP, ("", None))
        return top[1] if top[0] == "stack" else None

    def follow(self):
        """Goes on from the entry with what may be in use, until nothing changes."""
        before, left = {self.entry: frozenset()}, [self.entry]
        while left:
            place = left.pop()
            facts = before[place]
            after = self.behind(place, facts)
            if self.of_use(facts) or self.of_use(after):
                self.used.add(place)
            for other in self.code.next[place]:
                if other is None or other not in self.states:
                    continue
                joined = after | before.get(other, frozenset())
                if other not in before or joined != before[other]:
                    before[other] = joined
                    left.append(other)

    @staticmethod
    def of_use(facts):
        """Those of some facts that say that memory is in use."""
        return {fact for fact in facts if fact[0] in ("below", "depth")}

    def behind(self, place, facts):
        """What may be in use behind a word."""
        step, state = self.code.steps[place], self.states[place]
        if self.leaves(place, step) and (self.of_use(facts) or self.gives_away(step, state)):
            self.refused.add(place)
        if step.word is None:
            return facts
        if step.insn.span is not None:
            facts = self.accessed(place, step, state, facts)
        if ("below", place) in facts and step.insn.sets & ~steps.bits(steps.SP):
            # Another address is made there, while memory by the last one may be in use.
            self.refused.add(place)
        if step.insn.sets & steps.bits(steps.SP):
            facts = self.taken(place, step, state, facts)
        return facts

    def leaves(self, place, step):
        """Whether others go on from a word: by a call, a return, or a way that isn't followed."""
        onward = self.code.next[place]
        return steps.is_call(step) or None in onward or not onward and step.insn.name != "callsys"

    @staticmethod
    def gives_away(step, state):
        """Whether others get an address below $30."""
        registers = [RESULT] if step.insn.name == "ret" else ARGUMENTS
        return any(is_under(state.get(register), state) for register in registers)

    def accessed(self, place, step, state, facts):
        """An access of memory."""
        base, first = state.get(steps.base_of(step)), steps.displacement_of(step)
        is_store = step.insn.name.startswith("st")
        if is_store and is_under(state.get(step.word >> 21 & 31), state) and not (
                base is not None and base[0] == "stack" and base[1] is not None and step.insn.name == "stq"):
            self.refused.add(place)
        is_touched = is_store and step.word >> 21 & 31 == 31 and base is not None and base[0] in LOWER and first >= 0
        if is_touched:
            return facts | {TOUCHED}
        if steps.base_of(step) == steps.SP and first < 0 or base is not None and base[0] == "stale":
            self.refused.add(place)
        elif base is not None and base[0] in ("below", "inside"):
            return self.by_lower(place, ("below", base[1]), first >= 0, is_store, facts)
        elif base is not None and base[0] == "stack" and base[1] is not None and step.symbol is None:
            return self.by_depth(place, step, state, facts)
        return facts

    def by_lower(self, place, fact, is_inside, is_store, facts):
        """An access by an address that was made below $30."""
        if not is_inside or not is_store and not self.of_use(facts):
            self.refused.add(place)
        return facts | {fact} if is_store else facts

    def by_depth(self, place, step, state, facts):
        """An access to a known place of the stack."""
        base, top, is_store = state[steps.base_of(step)][1], self.depth(state), step.insn.name.startswith("st")
        first, last = span_in_stack(base, step)
        slots = {("popped", slot) for slot in range(first & ~7, last, 8)}
        if not is_store:
            if facts & slots:
                self.refused.add(place)
        else:
            facts = facts - slots | {("kept", slot) for _, slot in slots}
        if top is None or first >= top:
            return facts
        if not is_store and not self.of_use(facts):
            self.refused.add(place)
        return facts | {("depth", first & ~7)} if is_store else facts

    def taken(self, place, step, state, facts):
        """Where $30 is set: what lies above it is in use no more, and what was kept and lies below it is lost."""
        source = state.get(steps.base_of(step)) if step.insn.name in ("lda", "bis") else None
        if source is not None and source[0] == "below":
            chain = self.family(source[1])
            facts = frozenset(fact for fact in facts if fact[0] != "below" or fact[1] not in (*chain, None))
        others = [self.depth(self.states[other]) for other in self.code.next[place] if other in self.states]
        depth = others[0] if len(others) == 1 else None
        if self.is_set_to(step, state) is not None:
            depth = self.is_set_to(step, state)
        if depth is None:
            return facts
        kept = {("popped", fact[1]) if fact[0] == "kept" and fact[1] < depth else fact for fact in facts}
        return frozenset(fact for fact in kept if fact[0] != "depth" or fact[1] < depth)

    @staticmethod
    def is_set_to(step, state):
        """The depth that a word gives $30, None where it isn't known from the word."""
        if step.insn.name != "lda" or step.symbol is not None:
            return None
        base = state.get(steps.base_of(step), ("", None))
        return base[1] + steps.displacement_of(step) if base[0] == "stack" and base[1] is not None else None

    def look_for_unwritten(self):
        """Refuses loads from the function's own part of the stack where nothing is ever written: they read what others
        left below $30."""
        loads, written = {}, set()
        for place, state in self.states.items():
            step = self.code.steps[place]
            if self.lets_write(step, state) or self.is_lowered(place, step, state):
                return
            base = state.get(steps.base_of(step), ("", None)) if step.word is not None and step.insn.span else None
            if base is None or base[0] != "stack":
                continue
            first, last = span_in_stack(base[1], step)
            slots = {slot for slot in range(first & ~7, last, 8)}
            if step.insn.name.startswith("st"):
                written |= slots
            elif last <= 0:
                loads[place] = slots
        self.refused.update(place for place, slots in loads.items() if not slots & written)

    def is_lowered(self, place, step, state):
        """Whether a call comes back with another $30, as from words that save registers for their caller."""
        behind = self.states.get(self.code.after[place], {})
        return steps.is_call(step) and behind.get(steps.SP) != state.get(steps.SP)

    @staticmethod
    def lets_write(step, state):
        """Whether others may write into the function's part of the stack from a word on: where an address of it is
        given away or reckoned from, or where $30 isn't known."""
        top = state.get(steps.SP, ("", None))
        if step.word is None or top[0] != "stack" or top[1] is None:
            return True
        held = {register for register in range(31) if state.get(register, ("", 0))[0] == "stack"} - {steps.SP}
        if any(state[register][1] is None for register in held) or steps.is_call(step) and held & set(ARGUMENTS):
            return True
        source = step.word >> 21 & 31
        if step.insn.name.startswith("st"):
            return source in held or source == steps.SP
        reads = step.insn.uses & steps.bits(steps.SP, *held)
        return bool(reads) and step.insn.span is None and step.insn.name not in ("lda", "bis", "jsr", "bsr")
