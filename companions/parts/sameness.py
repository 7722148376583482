"""Whether repaired code does what the old code did, shown word by word.

A map says for places of the old code the places of the new code that stand for them. From each such pair on both codes
are run as terms up to the next such places, from registers that are the same where the old code may read them and
different elsewhere. Then the places must be images of each other, the events the same, and so must the registers be
that may be read from there on. Where this holds for every pair, and at the places where others come in, it holds for
whole runs, by induction over their windows.
"""
from . import flow, known, liveness, steps, symbolic

# The words of a window, over all its branches.
MOST_WORDS = 256
END, GUARD = "the end", "a guard"
CODE, ADDED = "code", "added"


class Outcome:
    """Where a window ends: `kind` is at, if, jump, leaves or ends; `where` says it, `parts` are the outcomes behind an
    `if`."""

    def __init__(self, kind, where, state, place, parts=()):
        self.kind, self.where, self.state, self.place, self.parts = kind, where, state, place, parts


class Walk:
    """Runs a code as terms from a place on up to the next stop. `name_of` gives a place the name that both codes have,
    and `images` the place of this code for one of the old code. Words of a repair's own may be called, and go back by
    an address that a word of the window has left."""

    def __init__(self, code, stops, name_of, images):
        self.code, self.stops, self.name_of, self.images, self.fuel = code, stops, name_of, images, MOST_WORDS
        self.visited = set()

    def is_added(self, place):
        return place is not None and self.name_of(place)[0] == ADDED

    def place_of(self, name):
        """The place of a name, None where it is none or another term."""
        return self.images.get(name[1]) if name[0] == CODE else name[1] if name[0] == ADDED else None

    def start(self, place, state):
        self.fuel, self.visited = MOST_WORDS, set()
        return self.step(place, state)

    def go(self, place, after, state, label):
        """Goes on at a place, or ends there."""
        if after is None:
            return Outcome("leaves", label, state, place)
        if after in self.stops:
            return Outcome("at", self.name_of(after), state, place)
        return self.step(after, state)

    def step(self, place, state):
        while True:
            self.fuel -= 1
            if self.fuel < 0:
                raise symbolic.Unclear(f"more than {MOST_WORDS} words without a place of the map")
            self.visited.add(place)
            step = self.code.steps[place]
            name, after, target = step.insn.name, self.code.after[place], self.code.targets[place]
            if step.word is None:
                raise symbolic.Unclear(f"`{name}` isn't a word of the table")
            if steps.is_conditional(step):
                tested = (name, state.get(step.word >> 21 & 31))
                other = state.copy()
                other.turn()
                parts = self.go(place, target, other, step.label), self.go(place, after, state, END)
                return Outcome("if", tested, state, place, parts)
            if name in ("br", "bsr") or steps.is_jump(step):
                return self.turn(place, step, state, after, target)
            state.execute(step)
            # A repair guards the words behind the code by a `bugchk`, which ends a program that runs off its end.
            is_guard = name == "bugchk" and self.is_added(place) and self.code.is_whole
            if is_guard or not self.code.next[place]:
                return Outcome("ends", GUARD if is_guard else name, state, place)
            if after is None or after in self.stops:
                return self.go(place, after, state, END)
            place = after

    def turn(self, place, step, state, after, target):
        by = state.get(steps.base_of(step)) if steps.is_jump(step) else None
        state.turn()
        state.set(steps.link_of(step), self.name_of(after))
        if step.insn.name == "br" or step.insn.name == "bsr" and self.is_added(target):
            return self.go(place, target, state, step.label)
        back = self.place_of(by) if by is not None and self.is_added(place) else None
        if back is not None:
            return self.go(place, back, state, END)
        if by is None:
            by = step.label if target is None else self.name_of(target)
        return Outcome("jump", (step.insn.name, by), state, place)


class Same:
    """Shows of two codes, by a map of places, that they do the same. `told` names a place of the old code for a
    refusal."""

    def __init__(self, old, new, pairs, told, live=None):
        self.old, self.new, self.pairs, self.told = old, new, pairs, told
        self.images = {image: place for place, image in pairs.items()}
        self.returns, self.live = old.returns(), live or liveness.Liveness(old)
        self.locked = flow.locked(old)
        self.walks = (Walk(old, pairs, lambda place: (CODE, place), {}),
                      Walk(new, self.images, self.name_in_new, pairs))
        self.faults, self.equal, self.executed, self.unreached, self.spilled = [], 0, 0, 0, set()

    def show(self):
        """Looks at every pair; the faults, as pairs of place and reason."""
        if len(self.images) < len(self.pairs):
            twice = next(place for place, image in self.pairs.items() if self.images[image] != place)
            self.faults.append((twice, "the map has its image twice"))
        for place in sorted(self.must_have() - set(self.pairs)):
            self.faults.append((place, "may be come to from elsewhere, and the map has no image of it"))
        for place, image in sorted(self.pairs.items()):
            try:
                self.look_at(place, image)
            except symbolic.Unclear as unclear:
                self.faults.append((place, str(unclear)))
        return self.faults

    def name_in_new(self, place):
        """The name of a place of the new code: that of the old code's place, where it is the image of one."""
        return (CODE, self.images[place]) if place in self.images else (ADDED, place)

    def told_whole(self):
        """The line of what was shown."""
        left = len(self.old.steps) - len(self.old.reached)
        told = f"{len(self.pairs)} words are shown to do what they did, {self.executed} of them by execution"
        return told + (f", {len(self.spilled)} with a register in the stack" if self.spilled else "") + (
            f"; {left} are equal that nothing leads to" if left else "")

    def must_have(self):
        """The places of which the map must say an image: where others come in, and words that nothing reaches."""
        old = self.old
        return (old.roots | old.functions | old.outside | old.entries | old.in_tables()
                | set(range(len(old.steps))) - old.reached)

    def look_at(self, place, image):
        if self.is_equal(place, image):
            self.equal += 1
            return
        if place not in self.old.reached:
            raise symbolic.Unclear("the word is another one, and nothing shows that it is code")
        shared = self.live.before[place] | steps.bits(steps.SP)
        is_locked = place in self.locked
        one = symbolic.State((("register" if shared >> register & 1 else "old", register) for register in range(31)),
                             is_locked=is_locked)
        old = self.walks[0].start(place, one)
        other = symbolic.State((("register" if shared >> register & 1 else "new", register) for register in range(31)),
                               ("register", steps.SP), is_locked)
        new = self.walks[1].start(image, other)
        self.compare(place, old, new)
        self.executed += 1

    def is_equal(self, place, image):
        """Whether both have the same word, which goes on to images of the same places."""
        one, other = self.old.steps[place], self.new.steps[image]
        if ((one.insn.name, one.symbol, one.insn.uses, one.insn.sets)
            != (other.insn.name, other.symbol, other.insn.uses, other.insn.sets)):
            return False
        target, branched = self.old.targets[place], self.new.targets[image]
        if (target is None) != (branched is None) or target is not None and self.pairs.get(target) != branched:
            return False
        if target is None and (one.word, one.label) != (other.word, other.label):
            return False
        after, behind = self.old.after[place], self.new.after[image]
        if place in self.old.reached and not steps.is_call(one) and not self.old.next[place]:
            return True
        if place not in self.old.reached and (after is None or after in self.old.reached):
            return True
        return behind is None if after is None else self.pairs.get(after) == behind

    def compare(self, start, old, new):
        if (old.kind, old.where) == ("leaves", END) and (new.kind, new.where) == ("ends", GUARD):
            new.state.events.pop()
            self.compare_events(old.state, new.state)
            return
        if old.kind != new.kind or old.where != new.where:
            raise symbolic.Unclear(f"goes {spelled(old)}, and the repair {spelled(new)}")
        if old.kind == "if":
            for one, other in zip(old.parts, new.parts):
                self.compare(start, one, other)
            return
        self.compare_events(old.state, new.state)
        wanted = {"at": lambda: self.live.before[old.where[1]],
                  "ends": lambda: 0}.get(old.kind, lambda: self.live.leaving(old.place))()
        wanted = steps.ALL if old.kind == "leaves" else wanted
        for register in range(31):
            is_wanted = (wanted | steps.bits(steps.SP)) >> register & 1
            if is_wanted and old.state.get(register) != new.state.get(register):
                raise symbolic.Unclear(f"${register} may be read behind it, and has another value behind the repair")
        if new.state.own:
            for place in sorted(self.walks[0].visited):
                self.look_at_stack(place, old.state)
            self.spilled.add(start)
        if new.state.disturbed > old.state.disturbed:
            raise symbolic.Unclear("lies between a locked load and its conditional store, where the repair branches or "
                                   "makes accesses")

    @staticmethod
    def compare_events(old, new):
        one, other = old.events, symbolic.without_more_barriers(old.events, new.events)
        for event, repaired in zip(one, other):
            if event != repaired:
                raise symbolic.Unclear(f"does {event[0]}, and the repair another {repaired[0]}"
                                       if event[0] == repaired[0] else
                                       f"does {event[0]}, and the repair {repaired[0]}")
        if len(one) != len(other):
            raise symbolic.Unclear(f"does {one[len(other)][0]}, which the repair leaves out" if len(one) > len(other)
                                   else
                                   f"doesn't do {other[len(one)][0]}, which the repair does")

    def look_at_stack(self, place, state):
        """A repair that keeps something in the stack needs a stack pointer that is one, and nothing of the program
        below it."""
        if state.registers[steps.SP] != ("register", steps.SP):
            raise symbolic.Unclear("sets $30, and the repair keeps something in the stack")
        why = why_no_stack(self.returns, place)
        if why is not None:
            raise symbolic.Unclear(f"the repair keeps something in the stack, and {why}"
                                   % tuple(self.told(other) for other in
                                   sorted(self.returns.below)[:why.count("%s")]))


def why_no_stack(returns, place):
    """Why nothing may be kept in the stack at a place, or None. `%s` stands for a place that accesses memory below
    it."""
    if returns.below:
        return "%s has an access below $30"
    if not returns.is_stack or not known.is_stack_pointer(returns.states.get(place, {}).get(steps.SP)):
        return "nothing shows that $30 is a stack pointer there"
    if place in returns.used:
        return "memory below $30 may be in use there"
    return None


def spelled(outcome):
    if outcome.kind == "if":
        return f"on by {outcome.where[0]}"
    if outcome.kind == "jump":
        return f"on by {outcome.where[0][0] if isinstance(outcome.where[0], tuple) else outcome.where[0]}"
    return {"at": "on elsewhere", "leaves": "out of the code", "ends": "to an end"}[outcome.kind]
