"""What some words do, as terms over what registers and memory held before them.

Terms are tuples: ("number", N), ("register", N) as it was, ("plus", term, N), and (name, ..) for all else, of which
only what is written alike counts as equal. What others can see of a run is a row of events, in order: overflows,
accesses, orders, system calls, and barriers.
"""
from . import steps, table

MASK = (1 << 64) - 1
ZERO = ("number", 0)
SLOT = 8
# How much of the stack a repair may take: what lies further below may be none of it.
MOST_KEPT = 64


class Unclear(Exception):
    """What can't be shown, and why."""


def plus(term, distance):
    """A term with a number added."""
    distance &= MASK
    if term[0] == "number":
        return ("number", term[1] + distance & MASK)
    if term[0] == "plus":
        term, distance = term[1], term[2] + distance & MASK
    return ("plus", term, distance) if distance else term


def offset_of(term, base):
    """How far a term lies from another, as a signed number, or None."""
    if term == base:
        return 0
    if term[0] == "plus" and term[1] == base:
        return term[2] - (1 << 64) if term[2] >> 63 else term[2]
    return None


class State:
    """Registers, memory and events. With `stack`, the stack pointer as it was, what is stored below it, and above the
    stack pointer of the moment, is a slot of the repair's own and no event. `own` counts accesses to such slots;
    `disturbed` counts those, and branches that are taken, while `is_locked`, which is so between a locked load and its
    conditional store."""

    def __init__(self, registers, stack=None, is_locked=False):
        self.registers, self.stack, self.is_locked = list(registers), stack, is_locked
        self.events, self.memory, self.slots = [], (), {}
        self.own = self.disturbed = 0

    def copy(self):
        other = State(self.registers, self.stack)
        other.events, other.memory, other.slots = list(self.events), self.memory, dict(self.slots)
        other.own, other.disturbed, other.is_locked = self.own, self.disturbed, self.is_locked
        return other

    def turn(self):
        """A branch is taken."""
        self.disturbed += self.is_locked

    def get(self, register):
        return ZERO if register == 31 else self.registers[register]

    def set(self, register, term):
        if register == 31:
            return
        self.registers[register] = term
        if register == steps.SP and self.stack is not None:
            self.look_at_stack()

    def look_at_stack(self):
        """What lies below the stack pointer may be overwritten at any time, as by a handler of signals."""
        depth = offset_of(self.registers[steps.SP], self.stack)
        if depth is None or depth > 0:
            raise Unclear("the stack pointer goes above what is in use, or elsewhere")
        if depth < -MOST_KEPT:
            raise Unclear(f"the stack pointer goes more than {MOST_KEPT} bytes below what is in use")
        self.slots = {slot: value for slot, value in self.slots.items() if slot >= depth}

    def slot(self, step, address):
        """The own slot of an access, None where it isn't one."""
        at = None if self.stack is None else offset_of(address, self.stack)
        if at is None or at >= 0:
            return None
        if at < offset_of(self.registers[steps.SP], self.stack):
            raise Unclear("an access below the stack pointer")
        if step.insn.name not in ("ldq", "stq") or at % SLOT or at + SLOT > 0:
            raise Unclear("an access to a part of a slot in the stack")
        self.own += 1
        self.disturbed += self.is_locked
        return at

    def execute(self, step):
        """A word that goes on behind itself."""
        insn, word = step.insn, step.word
        if word is None:
            raise Unclear(f"`{insn.name}` isn't a word of the table")
        name, ra, rb = insn.name, word >> 21 & 31, steps.base_of(step)
        if insn.kind in (table.LOAD, table.STORE, table.LOCKED):
            self.access(step, ra, rb)
        elif name in ("lda", "ldah"):
            distance = steps.displacement_of(step) << (16 if name == "ldah" else 0)
            self.set(ra, plus(self.get(rb), distance) if step.symbol is None else (name, step.symbol, self.get(rb)))
        elif word >> 26 in table.OPERATE:
            second = ("number", word >> 13 & 0xFF) if word & steps.LITERAL else self.get(rb)
            self.operate(name, self.get(ra), second, word & 31)
        elif name in table.BARRIERS.values():
            self.events.append(("barrier", name))
        elif insn.kind == table.BARRIER or name in table.ORDERS.values():
            self.system(step)

    def operate(self, name, first, second, target):
        if name.endswith("/v"):
            self.events.append(("overflow", name, first, second))
        if name == "bis" and ZERO in (first, second) or name == "bis" and first == second:
            value = second if first == ZERO else first
        elif name in ("addq", "subq") and second[0] == "number":
            value = plus(first, second[1] if name == "addq" else -second[1])
        elif name == "addq" and first[0] == "number":
            value = plus(second, first[1])
        elif name.startswith("cmov"):
            value = (name, first, second, self.get(target))
        else:
            value = (name, first, second)
        self.set(target, value)

    def access(self, step, ra, rb):
        name = step.insn.name
        address = plus(self.get(rb), steps.displacement_of(step))
        if step.symbol is not None:
            address = ("at", step.symbol, address)
        slot = self.slot(step, address)
        is_store = name.startswith("st")
        if slot is not None:
            if not is_store and slot not in self.slots:
                raise Unclear("a load from a slot in the stack where nothing is kept")
            if is_store:
                self.slots[slot] = self.get(ra)
            else:
                self.set(ra, self.slots[slot])
            return
        event = (name, address, self.get(ra), self.memory) if is_store else (name, address, self.memory)
        self.events.append(event)
        if step.insn.kind == table.LOCKED:
            self.is_locked = not is_store
        if is_store or step.insn.kind == table.LOCKED:
            self.memory = event
        if not is_store or name.endswith("_c"):
            self.set(ra, ("answer", event))

    def system(self, step):
        """A PALcode call or an order of accesses: it may read what it takes and all memory, and change memory."""
        reads = steps.PAL_READS.get(step.insn.name, 0)
        number = sum(event[0] != "barrier" for event in self.events)
        event = (step.insn.name, number,
                 tuple(self.registers[register] for register in range(31) if reads >> register & 1), self.memory)
        self.events.append(event)
        self.memory = event
        for register in range(31):
            if step.spoils >> register & 1:
                self.set(register, ("answer", event, register))


def without_more_barriers(old, new):
    """The events of a repair without the barriers that it has more than the old words."""
    kept, at = [], 0
    for event in new:
        wanted = old[at] if at < len(old) else None
        if event[0] == "barrier" and event != wanted:
            continue
        kept.append(event)
        at += 1
    return kept
