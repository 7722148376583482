"""Moments: the states of both machines step by step, and whether late runs agree with precise ones.

Against the models of the companions, by choices that are free: the bytes of a store and the value of a register each,
and what each step is given to read.
"""
from collections import Counter

from . import calls, drawn
from .reference import NONE, Follower, Late, agrees, broken_in, image, parts_of, program_of, some, state_shown
from .translate import record

MOST = 60


def choice_of(chooser):
    """Whether a trap is reported, a value, which may be an address, the bytes of a store, and whether the mask
    grows."""
    number = chooser.choice((drawn.number(chooser), drawn.number(chooser), drawn.DATA + 8 * chooser.randrange(5)))
    return chooser.random() < 0.3, number, chooser.choice((number, drawn.number(chooser))), chooser.random() < 0.6


def steps_of(chooser, count=MOST):
    """Choices, each with what there is to be read at its step."""
    lengths = [chooser.choice((0, 2, 9, 40)) for _ in range(count)]
    return tuple((choice_of(chooser), bytes(chooser.randrange(256) for _ in range(length))) for length in lengths)


def moments_of(whole, how, steps):
    """What the models say of each moment until the run is over: how the last step went, the state, the pending trap,
    and whether it agrees."""
    late, precise = Late(whole, how), Follower(whole, how)
    for choice, given in steps:
        if late.is_over():
            return
        late.hand(given)
        late.choose(choice)
        precise.follow(late.last_event)
        yield late.last_event, late.state(), late.pending(), agrees(late, precise)


def case_of(whole, how, steps):
    return whole, how, steps, tuple(moments_of(whole, how, steps))


class Moments:
    name, about = "moments", "states, steps and `Agrees` at each moment of late runs of accepted and refused code"
    counts = {"sample": 220, "whole": 9_000}
    is_quick = False

    def cases(self, chooser, count, asked):
        for n in range(count):
            whole = drawn.program(chooser, n % 2 == 0, front=n % 3)
            yield case_of(whole, chooser.choice(("wrap", "wrap", "saturate", "stop")), steps_of(chooser))

    def difference(self, d, case):
        whole, how, steps, wanted = case
        d.forget()
        program = program_of(whole, how)
        start = d("alpha_seq.Start.start")(program)
        begun = at = d("alpha_imprecise.Run.imprecise_start")(start)
        agrees = d("alpha_imprecise.Restart.Agrees")
        went, seen = (), ()
        for (choice, given), moment in zip(steps, wanted):
            choice = record(**dict(zip(("report", "value", "bytes", "adds"), choice)))
            before, at = (at,
                          d("alpha_imprecise.Step.imprecise_step")(program, at.state, at.pending, choice, tuple(given)))
            went, seen = went + (at.last_event,), seen + d("alpha_imprecise.Run.seen_of")(at.last_event)
            found = at.last_event, state_shown(at.state), self.trap(at), agrees(program, start, seen, at)
            if found != moment:
                return f"{whole.spelled().hex()} by {how}: {found}, and {moment} is wanted"
            if d("alpha_imprecise.Run.next_step_result")(program, before, at.last_event) != at:
                return f"{whole.spelled().hex()} by {how}: {at.last_event} says another step"
        return self.run(d, whole, program, begun, went, at)

    def trap(self, at):
        return None if at.pending == ("None",) else (at.pending[1].place, at.pending[1].mask)

    def run(self, d, whole, program, begun, went, at):
        """The steps are a run to the last moment and to no other, and none follows its end."""
        is_run = d("alpha_imprecise.Run.RunsImprecisely")
        is_over = went[-1][0] == "Lost" or went[-1][0] == "Precisely" and went[-1][1][0] == "Ends"
        another, elsewhere = went[:-1] + (("Lost", 1, 1),), at._replace(pending=some(record(place=0, mask=0)))
        found = (is_run(program, begun, went, at), is_run(program, begun, went, elsewhere),
                 is_run(program, begun, another, at),
                 is_over and is_run(program, begun, went + went[-1:], at))
        return "" if found == (True, False, False, False) else f"{whole.spelled().hex()}: runs are {found}"


class Waits:
    """An access of each kind behind an overflow: in the data, in the code, nowhere, and at an odd address."""

    name, about = "waits", ("each access while a trap is pending, where it goes well and where it would fault, and "
                            "words of other classes")
    counts = {"sample": 1, "whole": 1}
    is_quick = True
    PLACES = ((5, 8), (27, 8), (31, 8), (5, 9))

    # R5 has an address of data and R27 that of the code; no register that is tested is 0 but R31.
    OTHERS = ([drawn.branch(name, register, far) for name in drawn.BRANCHES for register in (8, 31) for far in (0, 1)]
              + [drawn.jump(kind, 8, 27) for kind in range(4)]
              + [drawn.memory("lda", 8, 5, 8), drawn.memory("ldah", 8, 5, 8), drawn.operate("addq", 1, 1, 8),
                 drawn.operate("subl/v", 1, 5, 8), drawn.operate("cmoveq", 31, 1, 8), drawn.TRAPB | 0x400, 0x63FF4000,
                 0x63E88000, 0x86, 0x9E, 0x9F, 0xAA, drawn.CALLSYS])

    def cases(self, chooser, count, asked):
        accesses = [drawn.memory(name, 8, base, displacement) for name in drawn.ACCESSES
                    for base, displacement in self.PLACES]
        for word in accesses + self.OTHERS:
            choice = False, 3, 4, word in self.OTHERS
            words = [drawn.memory("ldah", 5, 31, 0x1000), drawn.memory("ldq", 1, 5, 0),
                     drawn.operate("addq/v", 1, 1, 7), word, drawn.TRAPB, drawn.TRAPB]
            segment = image.Segment(drawn.DATA, ((1 << 63) - 1).to_bytes(8, "little") * 3)
            whole = image.Image(words, drawn.CODE, drawn.CODE, [segment], drawn.STACK, 0)
            yield case_of(whole, "wrap", ((choice, b""),) * 8)

    difference, trap, run = Moments.difference, Moments.trap, Moments.run


class Each:
    """For each condition code that breaks it alone, and moments of it that don't agree."""

    name, about = "each", "for each of C1 to C7, code that breaks it alone and a late run of it that doesn't agree"
    counts = {"sample": 2, "whole": 25}
    is_quick = False

    def cases(self, chooser, count, asked):
        found, tries = Counter(), 0
        while tries < 20_000 and any(found[n] < count for n in range(1, 8)):
            tries += 1
            whole = drawn.program(chooser, True)
            self.spoil(chooser, whole, chooser.choice([n for n in range(1, 8) if found[n] < count]))
            conditions = {condition for _, _, condition in broken_in(whole.words)}
            if len(conditions) != 1 or found[min(conditions)] >= count or min(conditions) > 7:
                continue
            case = case_of(whole, "wrap", steps_of(chooser))
            if not all(moment[-1] for moment in case[-1]):
                found[min(conditions)] += 1
                yield case
        lacking = [f"C{n}" for n in range(1, 8) if not found[n]]
        if lacking:
            raise SystemExit(f"no code was found that breaks {', '.join(lacking)} alone and fails")

    def spoil(self, chooser, whole, condition):
        """Puts an overflow in front of the end, with a shadow that the condition breaks."""
        source, other = chooser.choice((1, 2)), chooser.choice((3, 4))
        trigger = drawn.operate("addq/v", source, source, 7)
        store = drawn.memory("stq", other, 5, 8)
        before, behind = [], {
            1: [], 2: [drawn.operate("addq", other, other, source)], 3: [drawn.operate("subq/v", other, other, 7)],
            4: [drawn.memory("lda", 6, 5, 0), drawn.memory("stq", other, 6, 16)],
            5: [drawn.memory("ldq", 6, 5, 8), store],
            6: [drawn.memory("stq_c", 31, 5, 8)], 7: [drawn.branch("br", 31, 1), 0x47FF041F]}[condition]
        if condition == 1:
            trigger = drawn.operate("addq/v", source, source, 31)
        if condition == 6:
            before = [drawn.memory("ldq_l", 6, 5, 8)]
        at = chooser.choice([5] + [n + 1 for n, word in enumerate(whole.words) if word == drawn.TRAPB])
        whole.words[at:at] = [*before, trigger, *behind, drawn.TRAPB]

    trap, run = Moments.trap, Moments.run

    def difference(self, d, case):
        return Moments.difference(self, d, case) or self.clause(d, case)

    def clause(self, d, case):
        """The clause of `check` is false of such code where steps are tried that end where it doesn't agree, and not
        where they are no run."""
        whole, _, _, wanted = case
        end = next(n for n, moment in enumerate(wanted, 1) if not moment[-1])
        steps = tuple(moment[0] for moment in wanted[:end])
        content = tuple(whole.spelled())
        words, shelf = ((tuple(b"check"), tuple(b"FILE")),
                        calls.shelf_that_gave(d, NONE, *calls.pieces_of(b"FILE", (content, ()))))
        for row, holds in ((steps, False), (steps[:-1] + (("Lost", 1, 1),), True)):
            d.given(images=[parts_of(whole)], steps=[row], names=[], pieces=[(content,)])
            given = [d(name)(words, calls.DONE, shelf) for name in calls.CHECKS]
            if given != [holds, holds]:
                return f"{whole.spelled().hex()}: the clause of check is {given}"
        return ""
