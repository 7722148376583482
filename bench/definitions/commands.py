"""Commands: what the clause `runs` says of calls of the program by words with options, whatever the devices tell.

The clause must hold of a call as it was, and of one with another status, output, line, reply or option it mustn't.
"""
import itertools
import random
from collections import namedtuple

from . import drawn
from .calls import DONE, Device, call_of, pieces_of, told, words_of
from .data import Ahead
from .places import least_in
from .reference import CONDITIONS, NONE, Late, broken_in, parts_of, program_of, some
from .replies import PAST, readings
from .translate import record

MOST, MOST_WORDS, CHOICES, OTHER = 150, 400, bytes(range(1, 65)), bytes(range(2, 66))
SPENT, SHELF, MEMORY, REFUSED = ("StepsSpent",), ("ShelfFault",), ("NoMemory",), "NotRestartable"
# Of an opcode that no instruction has.
NO_WORD = 1 << 26
Case = namedtuple("Case", "kind whole how steps watch seed given words answered")
# A call as the devices have it: its words, its status, what shelf and source replied, and what was put.
Made = namedtuple("Made", "words status replies calls out notes faults is_told")


def listed(content):
    """The words that bytes write."""
    words = (int.from_bytes(content[at:at + 8], "little") for at in itertools.count(step=8))
    return Ahead(words.__next__)


def seeded(d, seed):
    """The words of a seed, as the definitions have them."""
    state = d("alpha_imprecise.Pcg.seeded")(seed)

    def next_word():
        nonlocal state
        word, state = d("rand_pcg.Pcg.pcg64")(state)
        return word
    return Ahead(next_word)


def refusal(trigger, at, condition):
    """The status of a check that refuses code by this place."""
    return REFUSED, record(trigger=trigger, at=at, condition=(CONDITIONS[condition - 1],))


def verdict(words):
    """The status of a check of this code."""
    least = least_in(broken_in(words))
    return refusal(*least) if least else DONE


def steps_to_end(whole, how, given):
    """How many steps the precise run makes to its end, or None where these are many."""
    late = Late(whole, how, given)
    for steps in range(1, MOST):
        late.advance()
        if late.is_over():
            return steps
    return None


class Runs:
    name, about = "asked runs", "`runs` of calls of the program by words with options, and with something else"
    counts = {"sample": 45, "whole": 720}
    is_quick = False
    KINDS = ("run", "seed", "forced", "choices", "forced choices", "dis", "check", "trial", "asm")
    # What is otherwise: methods of `Held`. Each gives the call and whether the clause holds of it, or None where that
    # isn't known or there is nothing of the kind.
    WAYS = ("as_it_was", "told", "ended_otherwise", "drawn_otherwise", "denied", "refused", "accepted",
            "broken_elsewhere", "short_of_memory", "failed_input", "failed_sink", "too_large", "more_output",
            "fewer_notes", "output_fault", "notes_fault", "another_file", "bad_image", "told_otherwise", "read_twice",
            "unaccepted", "more_taken", "fewer_taken", "cut", "fewer_steps", "just_the_steps", "watched",
            "another_seed", "other_choices", "no_choices", "choices_first")

    def cases(self, chooser, count, asked):
        for n in range(count):
            kind = self.KINDS[n % len(self.KINDS)]
            is_accepted = kind in ("seed", "choices") or chooser.random() < 0.4
            whole, how = drawn.program(chooser, is_accepted), chooser.choice(("wrap", "wrap", "saturate", "stop"))
            given = bytes(chooser.randrange(256) for _ in range(chooser.choice((0, 5, 30))))
            own = steps_to_end(whole, how, given)
            steps = chooser.choice((0, 3, 20, 100, *((own, own, own + 1) if own else ())))
            case = Case(kind, whole, how, steps, chooser.random() < 0.5, chooser.randrange(9), given, None, None)
            words = self.words(case)
            answered = asked.call(*words, given=given, FILE=whole.spelled(), CHOICES=CHOICES)
            yield case._replace(words=words, answered=answered)

    def words(self, case, **changed):
        """The words that ask for it."""
        case = case._replace(**changed)
        if case.kind in ("dis", "check"):
            return case.kind, "FILE"
        if case.kind in ("trial", "asm"):
            return ("trial", "1") if case.kind == "trial" else ("asm", "FILE", "OUT")
        words = ["run", "--complete", case.how, f"--steps={case.steps}"] + ["--watch"] * case.watch
        if case.kind != "run":
            words.append("--imprecise")
            words += ["--choices", "CHOICES"] if "choices" in case.kind else ["--seed", str(case.seed)]
        return *words, *["--force"] * ("forced" in case.kind), "FILE"

    def difference(self, d, case):
        d.forget()
        at = Held(d, case, self.words)
        if case.answered[0] not in at.numbers:
            return f"{case.words} of {case.whole.spelled().hex()}: status {case.answered[0]}"
        for way in self.WAYS:
            found = getattr(at, way)()
            if found is None:
                continue
            made, wanted = found
            holds = d("alpha_cmd.RunsAsked.RunsAsked")(words_of(*(text.encode() for text in made.words)), made.status,
                                                       at.called(made))
            if holds != wanted:
                return (f"{way} of {case.words} over {case.given}, {case.whole.spelled().hex()}: {holds}, and {wanted} "
                        "is wanted")
        return ""


class Held:
    """A call as it was, with what the definitions say of its run, and with one thing otherwise."""

    def __init__(self, d, case, words):
        self.d, self.case, self.words = d, case, words
        self.parts, self.content = parts_of(case.whole), tuple(case.whole.spelled())
        self.other, self.bad = drawn.refused(case.whole), drawn.longer(case.whole, NO_WORD)
        self.is_run, self.is_forced = case.words[0] == "run", "--force" in case.words
        self.has_choices = "--choices" in case.words
        self.run, self.changed = (self.precise(bytes(byte ^ way for byte in case.given)) for way in (0, 1))
        self.ahead = ([listed(CHOICES), listed(OTHER)] if self.has_choices
                      else [seeded(d, case.seed), seeded(d, case.seed + 1)])
        self.late, self.late_changed = self.imprecise(case.given), self.imprecise(bytes(it ^ 1 for it in case.given))
        self.hand_in()
        self.own, self.numbers = self.status()
        self.events = d("alpha_imprecise.Run.seen")(self.late.run.steps) if self.is_forced else self.run.events
        replies = pieces_of(b"FILE", (self.content, ()))
        replies += pieces_of(b"CHOICES", (tuple(CHOICES), ())) * self.has_choices
        _, out, notes = case.answered
        calls = readings(random.Random(case.seed), self.events) if self.is_run else ()
        self.made = Made(case.words, self.own, replies, calls, out, notes, (), False)

    # ---- what the definitions say

    def precise(self, given):
        program = program_of(self.case.whole, self.case.how)
        return self.d("alpha_seq.Run.after")(program, self.d("alpha_seq.Start.start")(program), tuple(given),
                                             self.case.steps)

    def imprecise(self, given):
        d, program = self.d, program_of(self.case.whole, self.case.how)
        if not self.is_forced:
            return None
        words = self.ahead[0].first(MOST_WORDS)
        begun = d("alpha_imprecise.ChosenRun.begun")(d("alpha_seq.Start.start")(program), tuple(given), NONE, 0, words)
        return d("alpha_imprecise.ChosenRun.chosen_run")(program, begun, self.case.steps)

    def hand_in(self):
        late = [one for one in (self.late, self.late_changed) if one]
        images = [self.parts, parts_of(self.other), parts_of(self.bad)]
        self.d.given(images=images, plans=[record(image=one, ahead=ahead) for one in images for ahead in self.ahead],
                     events=[self.run.events, self.changed.events, self.run.events[:-1]],
                     late=[one.run.steps for one in late], drawn=[0, *(one.count + n for one in late for n in (0, 1))],
                     file_bytes=[tuple(CHOICES), tuple(OTHER)],
                     pieces=[(tuple(one),) for one in (self.content, (*self.content, 0), self.other.spelled(),
                                                       self.bad.spelled(), CHOICES, OTHER)])

    def status(self):
        """The status in the definitions' words, and the numbers that the program may end by."""
        if not self.is_run:
            own = verdict(self.case.whole.words) if self.case.kind == "check" else DONE
            return own, (3 if self.case.kind == "asm" else int(own != DONE),)
        if self.is_forced:
            last = self.late.run.at.last_event
            own = self.d("alpha_cmd.Commands.Imprecise.imprecise_status")(
                self.d("alpha_imprecise.ChosenRun.end_of_imprecise_event")(last),
                self.d("alpha_imprecise.ChosenRun.lost_trap")(last), self.late.count)
        else:
            own = self.d("alpha_cmd.RunAnswer.run_status")(self.d("alpha_seq.Run.end_of")(self.run.at.event))
        return own, ({"Done": 0, "Stopped": 5, "StepsSpent": 6, "Lost": 7}[own[0]],)

    def called(self, made):
        """The call, by what the devices replied, and put. They tell nothing beforehand but where they are told."""
        file = bytes(self.content) + b"x" * (made.is_told == "otherwise")
        files = told({b"FILE": file, b"CHOICES": CHOICES}) if made.is_told else NONE
        left = some(()) if made.is_told else NONE
        devices = {"old_shelf": Device(files, replies=PAST[:1]), "old_input": Device(left, replies=PAST[:3]),
                   "new_shelf": Device(files, replies=PAST[:1] + made.replies),
                   "new_input": Device(left, replies=PAST[:3] + made.calls),
                   "new_out": Device(some((9, *made.out)), int("out" in made.faults)),
                   "new_notes": Device(some((8, *made.notes)), int("notes" in made.faults))}
        return call_of(self.d, {}, b"", b"", b"", b"", **devices)

    # ---- what is otherwise, and whether the clause holds of it

    def with_(self, wanted, **changed):
        return self.made._replace(**changed), wanted

    def shows(self, **changed):
        """Something that a run and a listing show, and no other command here."""
        return self.with_(not self.is_run and self.case.kind != "dis", **changed)

    def reads(self, **changed):
        """Something that the bytes of the file show. Of a check that refuses them nothing is said then."""
        return self.with_(self.case.kind in ("trial", "asm") or self.own[0] == REFUSED, **changed)

    def ends(self, **changed):
        """Something by which no command here ends but `asm`, of which nothing is said."""
        return self.with_(self.case.kind == "asm", **changed)

    def as_it_was(self):
        return self.made, True

    def told(self):
        return self.with_(True, is_told=True)

    def ended_otherwise(self):
        return self.ends(status=DONE if self.own == SPENT else SPENT)

    def drawn_otherwise(self):
        """Of a run that isn't forced the number of words is free, and nothing else has one."""
        if self.own[0] != "Done":
            return None
        return self.with_(self.is_run and not self.is_forced or self.case.kind == "asm", status=("Done", 7777))

    def denied(self):
        """A status that no end has."""
        return self.ends(status=SHELF)

    def refused(self):
        """By a place where no trigger stands."""
        return self.ends(status=refusal(0, 0, 1))

    def accepted(self):
        """Code of which a place is broken."""
        return self.with_(False, status=DONE) if self.own[0] == REFUSED else None

    def broken_elsewhere(self):
        """Refused by a place that is broken, and not the least."""
        if self.own[0] != REFUSED:
            return None
        other = min((one for one in broken_in(self.case.whole.words) if refusal(*one) != self.own), default=None)
        return other and self.with_(False, status=refusal(*other))

    def short_of_memory(self):
        return self.with_(True, status=MEMORY, out=self.made.out + b"x")

    def failed_input(self):
        return self.with_(self.is_run or self.case.kind == "asm", status=("InputFault",))

    def failed_sink(self):
        return self.with_(True, status=("SinkFault",))

    def too_large(self):
        return self.ends(status=("TooLarge", 1_048_576))

    def more_output(self):
        return self.shows(out=self.made.out + b"x")

    def fewer_notes(self):
        return self.with_(False, notes=self.made.notes[:-1]) if self.is_run else self.shows(notes=b"x")

    def output_fault(self):
        return self.shows(faults=("out",))

    def notes_fault(self):
        return self.shows(faults=("notes",))

    # The shelf.

    def another_file(self):
        file = pieces_of(b"FILE", (self.content + (0,), ()))
        return self.reads(replies=file + self.made.replies[2:])

    def bad_image(self):
        """Bytes of parts that are no image, as a word behind the code is none."""
        return self.reads(replies=pieces_of(b"FILE", (tuple(self.bad.spelled()), ())) + self.made.replies[2:])

    def told_otherwise(self):
        """Files are told, and the one that was read has other bytes there."""
        return self.reads(is_told="otherwise")

    def read_twice(self):
        return self.reads(replies=self.made.replies * 2)

    def unaccepted(self):
        """Bytes of an image that isn't accepted; what another machine makes of it isn't known here."""
        if self.is_forced or self.case.kind == "run":
            return None
        is_same = self.case.kind == "check" and self.own == verdict(self.other.words)
        replies = pieces_of(b"FILE", (tuple(self.other.spelled()), ())) + self.made.replies[2:]
        return self.with_(is_same or self.case.kind in ("trial", "asm"), replies=replies)

    def no_choices(self):
        return self.with_(False, replies=self.made.replies[:2]) if self.has_choices else None

    def choices_first(self):
        return self.with_(False, replies=self.made.replies[2:] + self.made.replies[:2]) if self.has_choices else None

    def other_choices(self):
        if not self.has_choices:
            return None
        return self.with_(self.is_free(), replies=self.made.replies[:2] + pieces_of(b"CHOICES", (tuple(OTHER), ())))

    def is_free(self):
        """Whether the run is the same by any words."""
        return not self.is_forced or self.late.count == 0

    # The source.

    def more_taken(self):
        return self.with_(not self.is_run, calls=self.made.calls + (("Took", 4, some(())),))

    def fewer_taken(self):
        return self.with_(False, calls=self.made.calls[:-1]) if self.made.calls else None

    def cut(self):
        """A run of fewer steps than were asked for, which goes on."""
        if not self.is_run or self.is_forced or not self.events or self.own == SPENT:
            return None
        events, (output, notes) = self.events[:-1], (self.d(f"alpha_seq.Run.{name}") for name in ("output", "notes"))
        return self.with_(False, status=SPENT, calls=readings(random.Random(self.case.seed), events),
                          out=bytes(output(events)),
                          notes=bytes(notes(self.case.watch, events) + self.d("alpha_cmd.SpentLine.spent_line")()))

    # Words.

    def steps_made(self):
        return self.late.run.units if self.is_forced else len(self.events)

    def fewer_steps(self):
        """A run that is over, of one step more than were asked for."""
        if not self.is_run or self.own == SPENT or not self.steps_made():
            return None
        return self.with_(False, words=self.words(self.case, steps=self.steps_made() - 1))

    def just_the_steps(self):
        return self.with_(True, words=self.words(self.case, steps=self.steps_made())) if self.is_run else None

    def watched(self):
        if not self.is_run:
            return None
        is_same = not any(event[0] == "Barriered" for event in self.events)
        return self.with_(is_same, words=self.words(self.case, watch=not self.case.watch))

    def another_seed(self):
        if "--seed" not in self.case.words:
            return None
        return self.with_(self.is_free(), words=self.words(self.case, seed=self.case.seed + 1))
