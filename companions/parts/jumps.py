"""Jumps by a table: where they lead, as the words before them show.

A compiler's `switch` tests that its index is at most a number, loads a distance from the global pointer by it from a
table, and jumps there. All of this may stand far from the jump, before the loop that it is in, or in the stack. So each
value gets a number, the same for the same value on every way to a place, and what was tested holds where it was tested
on every way. Where that shows test, table and index, the jump leads to the first entries of the table, so many as the
test lets through. All else is no table.
"""
from . import known, steps, table
from .below import Below

POINTER = ("pointer", 0)
MOST_ENTRIES, MOST_ROUNDS = 1 << 16, 64
# The instructions whose results are numbers of 4 bytes with their sign, and those of shifts by so many bits at least.
NARROW = {f"{name}{mode}" for name in ("addl", "subl", "s4addl", "s4subl", "s8addl", "s8subl", "mull")
          for mode in ("", "/v")} | {"cmpeq", "cmplt", "cmple", "extbl", "extwl", "ldbu", "ldwu", "sextb", "sextw"}
NARROW_BY = {"sra": 32, "srl": 33}
# The branches that show that what they test isn't 0, where they are taken, and where they aren't.
TAKEN, PASSED = ("bne", "blbs"), ("beq", "blbc")
FACTS = "facts"


def is_jump(step):
    """Whether a word may be a jump by a table."""
    return step.insn.name == "jmp" and step.word is not None


def tables(code, read):
    """Where each reached jump by a table leads. `read` says of a table and a number of entries that, None where one of
    them has no place."""
    places = [place for place in sorted(code.reached) if is_jump(code.steps[place])]
    if not places:
        return {}
    values, found = Values(code, places), {}
    for place in places:
        where = values.table_of(place)
        leads = where and read(place, *where)
        if leads:
            found[place] = leads
    return found


class Values:
    """The numbers of values before some places. `terms` has for each number what it is made of: an operation with
    numbers of values, ("pointer", N) from the global pointer, ("number", N), ("symbol", NAME) and ("half", NAME) of a
    text, or only where it comes from."""

    def __init__(self, code, wanted):
        self.code, self.returns = code, code.returns()
        self.terms, self.ids = [], {}
        self.before = self.ways_to(wanted)
        self.is_open = self.open_places()
        # What has several values at places, and what among that has others than narrow ones.
        self.joined, self.wide = set(), set()
        self.behind, self.at = {}, {place: None for place in wanted}
        self.follow()

    def ways_to(self, wanted):
        """The places before each place that leads to one that is wanted; None among them where others come in."""
        before, code = {}, self.code
        for place in code.reached:
            for other in code.ways[place]:
                before.setdefault(other, []).append(place)
        found, left = {}, list(wanted)
        while left:
            place = left.pop()
            if place not in found:
                found[place] = before.get(place, [])
                left += found[place]
        for place in (code.roots | code.functions | code.entries | code.outside) & set(found):
            found[place] = [None, *found[place]]
        return found

    def open_places(self):
        """The places of functions into whose part of the stack others may write: all, where any function stores into
        its caller's."""
        found = set()
        for states in self.returns.followed.values():
            words = [(self.code.steps[place], state) for place, state in states.items()]
            if any(Below.lets_write(*one) for one in words):
                found.update(states)
            spans = [self.span(*one) for one in words if one[0].insn.kind in (table.STORE, table.LOCKED)]
            if any(span is not None and span[1] > 0 for span in spans):
                return set(self.code.reached)
        return found

    def value(self, *term):
        if term not in self.ids:
            self.ids[term] = len(self.terms)
            self.terms.append(term)
        return self.ids[term]

    def follow(self):
        """Goes through all places, row by row, until no more values are found to be joined."""
        firsts, seen = sorted(place for place in self.before if self.is_first(place)), {}
        rows = set(firsts)
        for _ in range(MOST_ROUNDS):
            is_same = True
            for first in firsts:
                state = self.state_at(first)
                if state is None or seen.get(first) == state:
                    continue
                seen[first] = state
                for edge, after in self.along(first, state, rows):
                    if self.behind.get(edge) != after:
                        self.behind[edge], is_same = after, False
            if is_same:
                return
        self.at = {}

    def is_first(self, place):
        """Whether a row of places begins at one, which others than the one before it come to or go on from."""
        others = self.before[place]
        return len(others) != 1 or others[0] is None or sum(
            other in self.before for other in self.code.ways[others[0]]) > 1

    def along(self, place, state, rows):
        """What is known behind a row of places, by the edges to others."""
        while True:
            if place in self.at:
                self.at[place] = state
            ways = list(self.after(place, state))
            if len(ways) != 1 or ways[0][0] in rows:
                return [((place, other), after) for other, after in ways]
            place, state = ways[0]

    def state_at(self, place):
        """What is known before a place: what is the same behind all places before it, None where none is reached."""
        if self.before[place] == [] or None in self.before[place]:
            return {register: self.value("at", place, register) for register in range(31)} | {
                steps.GP: self.value(*POINTER), FACTS: frozenset()}
        states = [state for other in self.before[place] if (state := self.behind.get((other, place))) is not None]
        if len(states) < 2 and len(self.before[place]) < 2:
            return states[0] if states else None
        if not states:
            return None
        found = {}
        for key, value in states[0].items():
            if key == FACTS:
                found[key] = frozenset.intersection(*(state[FACTS] for state in states))
            elif (place, key) not in self.joined and all(state.get(key) == value for state in states[1:]):
                found[key] = value
            elif all(key in state for state in states):
                found[key] = self.join(place, key, [state[key] for state in states])
        return found

    def join(self, place, key, values):
        """The number of a value at a place that has several behind the places before it."""
        self.joined.add((place, key))
        if (place, key) not in self.wide and all(self.is_narrow(value) for value in values):
            return self.value("narrow", place, key)
        self.wide.add((place, key))
        return self.value("at", place, key)

    def after(self, place, state):
        """What is known behind a place, on each way on that is looked at."""
        step, onward = self.code.steps[place], self.code.ways[place]
        found = dict(state)
        self.execute(place, step, state, found)
        for other in onward:
            if other not in self.before:
                continue
            is_taken = self.code.targets[place] == other
            if (steps.is_conditional(step) and is_taken != (self.code.after[place] == other)
                    and step.insn.name in (TAKEN if is_taken else PASSED)):
                yield other, found | {FACTS: state[FACTS] | {state.get(step.word >> 21 & 31)}}
            else:
                yield other, found

    def execute(self, place, step, state, found):
        """Puts what a word makes into what is known."""
        if steps.is_call(step):
            left = self.returns.left_by(place, step)
            kept = 0 if left is None else left.kept & ~steps.bits(steps.link_of(step))
            spoilt = steps.ALL & ~kept
            if place in self.is_open or left is None or left.stack != ("stack", 0):
                self.forget(found)
        else:
            spoilt = step.spoils
            if step.insn.kind in (table.STORE, table.LOCKED) or step.insn.name == "callsys" or step.word is None:
                self.store(place, step, state, found)
        value = None if step.word is None or steps.is_call(step) else self.made(place, step, state, found)
        for register in known.registers_in(spoilt):
            found[register] = self.value("from", place, register)
        if value is not None:
            found[step.insn.sets.bit_length() - 1] = value
        if spoilt & steps.bits(steps.GP):
            found[steps.GP] = self.value(*POINTER)

    @staticmethod
    def forget(found):
        for key in [key for key in found if isinstance(key, tuple)]:
            del found[key]

    def slot(self, place, step):
        """Where in the stack an access lies, None where that isn't known."""
        return self.span(step, self.returns.states.get(place, {}))

    @staticmethod
    def span(step, state):
        if step.word is None or step.insn.span is None or step.symbol is not None:
            return None
        base = state.get(steps.base_of(step), ("", None))
        return known.span_in_stack(base[1], step) if base[0] == "stack" and base[1] is not None else None

    def store(self, place, step, state, found):
        """What a store, or what may do the same, leaves of the stack."""
        span = self.slot(place, step)
        if span is None:
            if place in self.is_open or step.word is None or step.insn.name == "callsys":
                self.forget(found)
            return
        for key in [key for key in found if isinstance(key, tuple) and key[0] < span[1] and span[0] < key[1]]:
            del found[key]
        source = step.word >> 21 & 31
        if step.insn.name in ("stq", "stl") and source != 31:
            value = state[source]
            found[span] = value if step.insn.name == "stq" else self.value("addl", self.value("number", 0), value)

    def made(self, place, step, state, found):
        """The number of the value that a word makes, where more is known than its place."""
        if not step.insn.sets:
            return None
        name, ra, rb = step.insn.name, step.word >> 21 & 31, steps.base_of(step)
        first, second = self.operand(state, ra), self.operand(state, rb)
        if name in ("lda", "ldah"):
            return self.moved(step, second)
        if name in ("ldq", "ldl"):
            span = self.slot(place, step)
            if span is not None:
                if span not in found:
                    found[span] = self.value("from", place, ra) if name == "ldq" else self.value("narrow", place)
                return found[span]
            return self.value("ldl", place, second, steps.displacement_of(step)) if name == "ldl" else None
        if step.word >> 26 not in table.OPERATE:
            return self.value("narrow", place) if name in NARROW else None
        if step.word & steps.LITERAL:
            second = self.value("number", step.word >> 13 & 0xFF)
        zero = self.value("number", 0)
        if name == "bis" and (zero in (first, second) or first == second):
            return second if first == zero else first
        if name in ("cmpule", "cmpult", "s4addq", "addq", "zapnot", "and") or name == "addl" and first == zero:
            return self.value(name, first, second)
        if name.startswith("cmov") and self.is_narrow(second) and self.is_narrow(state[step.word & 31]):
            return self.value("narrow", place)
        is_narrow = name in NARROW or step.word & steps.LITERAL and step.word >> 13 & 63 >= NARROW_BY.get(name, 64)
        return self.value("narrow", place) if is_narrow else None

    def operand(self, state, register):
        return self.value("number", 0) if register == 31 else state[register]

    def moved(self, step, base):
        """The number of a value with a distance added, or of an address that a text names."""
        kind, *rest = self.terms[base]
        if step.symbol is not None:
            name = known.named(step, self.terms[base], steps.base_of(step))
            return None if name is None else self.value(*name)
        distance = steps.displacement_of(step) << (16 if step.insn.name == "ldah" else 0)
        if kind in ("pointer", "number"):
            return self.value(kind, rest[0] + distance)
        return base if distance == 0 else None

    def table_of(self, place):
        """The table by which a jump goes, and how many entries it may take, or None."""
        state = self.at.get(place)
        if state is None:
            return None
        loaded = self.other_part(state[steps.base_of(self.code.steps[place])], lambda term: term == POINTER)
        loaded = self.terms[self.core(loaded)] if loaded is not None else ("",)
        if loaded[0] != "ldl":
            return None
        _, _, address, distance = loaded
        term = self.terms[address]
        if term[0] == "s4addq":
            index, where = term[1], self.terms[term[2]]
        else:
            scaled = self.other_part(address, lambda term: term[0] in ("pointer", "symbol"))
            if scaled is None or self.terms[scaled][0] != "s4addq" or (
                    self.terms[self.terms[scaled][2]] != ("number", 0)):
                return None
            index, where = self.terms[scaled][1], self.terms[term[1] if term[2] == scaled else term[2]]
        most = self.most_of(index, state[FACTS])
        if most is None or most >= MOST_ENTRIES or where[0] not in ("pointer", "symbol"):
            return None
        if where[0] == "symbol":
            return (where, most + 1) if distance == 0 else None
        return ("pointer", where[1] + distance), most + 1

    def other_part(self, number, is_one):
        """What is added by a word to a value that is meant, or None."""
        term = self.terms[number]
        if term[0] != "addq" or is_one(self.terms[term[1]]) == is_one(self.terms[term[2]]):
            return None
        return term[2] if is_one(self.terms[term[1]]) else term[1]

    def most_of(self, index, facts):
        """The greatest value that an index may have, by what was tested of it or by its mask, or None."""
        found = [most for fact in facts for most in [self.most_by(index, self.terms[fact])] if most is not None]
        term = self.terms[index]
        if term[0] == "and":
            found += [self.terms[one][1] for one in term[1:] if self.is_number(one)]
        return min(found, default=None)

    def is_narrow(self, number):
        """Whether a value is a number of 4 bytes with its sign."""
        name, *rest = self.terms[number]
        if name == "and":
            return any(self.is_number(one) and self.terms[one][1] < 1 << 31 for one in rest)
        return name in ("narrow", "ldl", "addl", "cmpule", "cmpult") or name == "number" and abs(rest[0]) < 1 << 31

    def is_number(self, one):
        return self.terms[one][0] == "number" and self.terms[one][1] >= 0

    def most_by(self, index, fact):
        """The greatest value of an index by a test that isn't 0: of itself, or of what has the same lower 4 bytes."""
        if fact[0] not in ("cmpule", "cmpult") or not self.is_number(fact[2]):
            return None
        most = self.terms[fact[2]][1] - (fact[0] == "cmpult")
        if not 0 <= most < 1 << 31:
            return None
        tested = fact[1]
        is_whole = index == tested or index != self.core(index) or self.is_narrow(index)
        return most if self.core(index) == self.core(tested) and is_whole else None

    def core(self, number):
        """A value without the words that make it 4 bytes wide, which leave its lower 4 bytes."""
        while True:
            term = self.terms[number]
            if term[0] == "zapnot" and self.terms[term[2]] == ("number", 15):
                number = term[1]
            elif term[0] == "addl":
                number = term[2]
            else:
                return number
