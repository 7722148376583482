"""Journals: what the clause `runs` says of calls of `record` and of `replay`, whatever the devices tell.

A journal is read, and replayed, by the models of the companions. The clause must hold of a call as it was, and of one
with another journal, status, output, line, reply or option it mustn't.
"""
import random
from collections import namedtuple

from . import drawn
from .calls import DONE, Device, call_of, pieces_of, told, words_of
from .commands import CHOICES, MEMORY, SHELF, SPENT, listed, seeded, steps_to_end
from .reference import COMPLETIONS, ENDS, NONE, Late, journal, parts_of, playing, program_of, some
from .replies import PAST, readings
from .runs import options_of
from .spellings import is_journal, listed_of
from .translate import record

# How many words a run draws at most here, and by the definitions with so many units; told ones have as many as these.
MOST_WORDS, WORDS_A_UNIT, MOST_TOLD = 400, 2_049, 16
Case = namedtuple("Case", "whole how steps choices seed given words answered kept")


def otherwise(chooser, one):
    """A journal that differs in one thing, and is mostly a good one."""
    way = chooser.choice(("item", "item", "item", "cut", "more", "completion", "ending", "put", "given", "split"))
    completion, ending, given, put, items = one.completion, one.ending, one.given, one.put, list(one.items)
    at = chooser.randrange(len(items)) if items else 0
    if way == "completion":
        completion = chooser.choice([name for name in COMPLETIONS if name != completion])
    elif way == "ending":
        ending = chooser.choice((("none", 0, 0), ("exit", ending[1] + 1 & (1 << 64) - 1, 0), ("fetch", ending[1], 0),
                                 ("overflow", ending[1], 0), ("lost", *ending[1:])))
    elif way == "put":
        put = put[:-1] if put and chooser.random() < 0.5 else put + b"x"
    elif way == "given" or not items:
        given = given[:-1] if given and chooser.random() < 0.5 else given + b"x"
    elif way == "cut":
        items = items[:at]
    elif way == "more":
        items.insert(at, chooser.choice(((journal.UNITS, 1), (journal.TRIGGER, 5), (journal.WAIT, 0, 7),
                                         (journal.REPORT,))))
    elif way == "split" and items[0][0] == journal.UNITS and items[0][1] > 1:
        items[:1] = [(journal.UNITS, 1), (journal.UNITS, items[0][1] - 1)]
    else:
        items[at] = changed(items[at])
    return journal.Journal(completion, ending, given, put, items)


def changed(item):
    kind, *numbers = item
    if kind == journal.UNITS:
        return kind, numbers[0] + 1
    if kind == journal.TRIGGER:
        return kind, numbers[0] ^ 1
    return (kind, 1 - numbers[0], numbers[1]) if kind == journal.WAIT else (journal.WAIT, 0, 3)


def turned(given):
    """Other bytes, as many."""
    return bytes(byte ^ 1 for byte in given)


class Recorded:
    """Calls of `record`, whose runs are short."""

    KINDS = ("seed", "choices", "forced", "forced choices")

    def cases(self, chooser, count, asked):
        for n in range(count):
            kind = self.KINDS[n % len(self.KINDS)]
            whole, how, given = self.program(chooser, "forced" not in kind, n % 3 == 0)
            if n == 0:
                whole, how, given = drawn.branching(), "wrap", b"\1\1"
            own = steps_to_end(whole, how, given)
            steps = chooser.choice((0, 1, 9, 30, 60, *((own, own, own - 1, own + 1) if own and own < 90 else ())))
            steps = MOST_TOLD if n % 3 == 0 else steps
            case = Case(whole, how, steps, "choices" in kind, chooser.randrange(9), given, None, None, None)
            words = self.words(case) + ("--force",) * ("forced" in kind) + ("FILE", "OUT")
            answered = asked.call(*words, given=given, FILE=whole.spelled(), CHOICES=CHOICES)
            yield case._replace(words=words, answered=answered, kept=asked.kept("OUT"))

    def program(self, chooser, is_accepted, must_read):
        """A program, its completion and its input, of which it takes some soon where it must."""
        while True:
            whole, how = drawn.program(chooser, is_accepted), chooser.choice(("wrap", "wrap", "saturate", "stop"))
            given = bytes(chooser.randrange(256) for _ in range(chooser.choice((0, 5, 30))))
            late = Late(whole, how, given)
            late.ends_within(MOST_TOLD)
            if late.taken or not must_read:
                return whole, how, given

    def words(self, case):
        chosen = ("--choices", "CHOICES") if case.choices else ("--seed", str(case.seed))
        return "record", "--complete", case.how, f"--steps={case.steps}", *chosen

    def run(self, d, case, ahead, most=MOST_WORDS):
        """The run by the first words of those that lie ahead."""
        program = program_of(case.whole, case.how)
        begun = d("alpha_imprecise.ChosenRun.begun")(d("alpha_seq.Start.start")(program), tuple(case.given), NONE, 0,
                                                     ahead.first(most))
        return d("alpha_imprecise.ChosenRun.chosen_run")(program, begun, case.steps)


class Records(Recorded):
    name, about = "records", "`runs` of calls of `record`, as they were, and with something else"
    counts = {"sample": 24, "whole": 600}
    is_quick = False
    # What is otherwise, and whether the clause holds then; None where that depends on the run.
    WAYS = {"as it was": True, "told": True, "told file": True, "told otherwise": False, "input told": True,
            "other input told": None, "memory": True, "input": False, "unkept by input": True, "sink": True,
            "full": False, "unkept as full": True, "shelf": False, "not kept by shelf": True,
            "bad kept by shelf": False,
            "unkept by shelf": False, "refused": None, "words": False, "spent": None, "drawn": None, "lost": False,
            "more": False, "fewer notes": False, "out": False,
            "lines": False, "journal": False, "unkept": False, "not kept": False, "elsewhere": False,
            "kept twice": False, "kept first": False, "another": False, "twice": False, "no choices": None,
            "more taken": False, "fewer taken": None, "unforced": None, "completion": False, "fewer steps": None,
            "another seed": None}
    STATUSES = {"memory": MEMORY, "input": ("InputFault",), "unkept by input": ("InputFault",), "sink": ("SinkFault",),
                "full": ("JournalFull",), "unkept as full": ("JournalFull",), "shelf": SHELF,
                "not kept by shelf": SHELF,
                "bad kept by shelf": SHELF, "unkept by shelf": SHELF, "refused": ("NotRestartable", 0),
                "words": ("BadWords",), "lost": ("Lost", record(trap_pc=1, mask=2))}

    def difference(self, d, case):
        d.forget()
        number, out, notes = case.answered
        if case.kept is None:
            return f"{case.words} over {case.given}: status {number}, and no journal"
        ahead = listed(CHOICES) if case.choices else seeded(d, case.seed)
        late = self.run(d, case, ahead)
        self.hand_in(d, case, ahead, late)
        at = late.run.at.last_event
        own = d("alpha_cmd.Commands.Imprecise.imprecise_status")(
            d("alpha_imprecise.ChosenRun.end_of_imprecise_event")(at), d("alpha_imprecise.ChosenRun.lost_trap")(at),
            late.count)
        if number != {"Done": 0, "Stopped": 5, "StepsSpent": 6, "Lost": 7}[own[0]]:
            return f"{case.words} over {case.given}, {case.whole.spelled().hex()}: status {number}, and not {own}"
        if not self.has_its_journal(d, case, ahead):
            return f"{case.words} over {case.given}, {case.whole.spelled().hex()}: its journal where no input is told"
        for way in self.WAYS:
            wanted = self.wanted(way, d, case, late, own)
            if wanted is None:
                continue
            words = words_of(*(text.encode() for text in self.asked(way, case, late)))
            found = d("alpha_cmd.RunsAsked.RunsAsked")(words, self.status(way, own), self.call(d, way, case, late))
            if found != wanted:
                return (f"{way} of {case.words} over {case.given}, {case.whole.spelled().hex()}: {found}, and {wanted} "
                        "is wanted")
        return ""

    def hand_in(self, d, case, ahead, late):
        content, one = tuple(case.whole.spelled()), journal.journal_of(case.kept)
        others = [ahead] if case.choices else [ahead, seeded(d, case.seed + 1)]
        refused = drawn.refused(case.whole)
        told_runs = (case, case._replace(given=turned(case.given))) if case.steps <= MOST_TOLD else ()
        places = [self.run(d, one, ahead, WORDS_A_UNIT * case.steps) for one in told_runs]
        plans = [record(image=parts_of(it), ahead=one) for it in (case.whole, refused) for one in others]
        d.given(images=[parts_of(case.whole)], plans=plans,
                journals=[listed_of(one), listed_of(self.other(one))], late=[late.run.steps], places=places,
                drawn=[0, late.count, late.count + 1], file_bytes=[tuple(CHOICES)], events=[],
                pieces=[(content,), (content + (0,),), (tuple(refused.spelled()),), (tuple(CHOICES),)])

    def has_its_journal(self, d, case, ahead):
        """Whether the journal is one of a run of the plan over whatever input, and another one is none."""
        options, plan = options_of(case.how, case.steps, False), record(image=parts_of(case.whole), ahead=ahead)
        one = journal.journal_of(case.kept)
        found = [d("alpha_cmd.Commands.Record.HasJournal")(options, NONE, plan, listed_of(it))
                 for it in (one, self.other(one))]
        return found == [True, False]

    def other(self, one):
        """A good journal of another run: it puts a byte more."""
        return journal.Journal(one.completion, one.ending, one.given, one.put + b"x", one.items)

    def status(self, way, own):
        if way == "spent":
            return DONE if own == SPENT else SPENT
        return ("Done", own[1] + 1) if way == "drawn" else self.STATUSES.get(way, own)

    def wanted(self, way, d, case, late, own):
        """Whether the clause holds, or None where there is nothing of the kind."""
        fixed, taken = self.WAYS[way], d("alpha_seq.Run.taken")(d("alpha_imprecise.Run.seen")(late.run.steps))
        if "input told" in way and case.steps > MOST_TOLD:
            return None
        if fixed is not None:
            return fixed
        if way == "other input told":
            # Only bytes that are taken are the journal's.
            return not taken
        if way == "refused":
            # Nothing is said of an image that isn't accepted, but where it may be run all the same.
            return "--force" not in case.words
        if way == "drawn":
            return False if own[0] == "Done" else None
        if way == "no choices":
            return False if case.choices else None
        if way == "fewer taken":
            return False if taken else None
        if way == "unforced":
            return False if "--force" in case.words and not d("alpha_shadow.Broken.IsAccepted")(
                tuple(case.whole.words)) else None
        if way == "fewer steps":
            return False if late.run.units and own != SPENT else None
        if way == "another seed":
            return None if case.choices else late.count == 0
        return False

    def asked(self, way, case, late):
        """The words of the call."""
        changed = {"completion": {"how": "stop" if case.how == "wrap" else "wrap"},
                   "fewer steps": {"steps": late.run.units - 1}, "another seed": {"seed": case.seed + 1}}.get(way, {})
        force = ("--force",) * ("--force" in case.words and way != "unforced")
        return (*self.words(case._replace(**changed)), *force, "FILE", "OUT")

    def call(self, d, way, case, late):
        """The call by what the devices replied, and put."""
        content, (_, out, notes) = tuple(case.whole.spelled()), case.answered
        content = tuple(drawn.refused(case.whole).spelled()) if way == "refused" else content
        events = d("alpha_imprecise.Run.seen")(late.run.steps)
        file = pieces_of(b"FILE", (content + (0,) if way == "another" else content, ()))
        kept = self.other(journal.journal_of(case.kept)).spelled() if way == "journal" else case.kept
        kept += b"x" * (way == "bad kept by shelf")
        is_kept = way not in ("not kept", "not kept by shelf", "bad kept by shelf")
        kept = (("Kept", tuple(b"ELSE" if way == "elsewhere" else b"OUT"), tuple(kept), is_kept),)
        kept = () if way.startswith("unkept") or way == "refused" else kept * (1 + (way == "kept twice"))
        choices = pieces_of(b"CHOICES", (tuple(CHOICES), ())) * (case.choices and way != "no choices")
        replies = file * (1 + (way == "twice")) + choices + kept if way != "kept first" else kept + file + choices
        calls = readings(random.Random(case.seed), events)
        calls = calls[:-1] if way == "fewer taken" else calls + (("Took", 4, some(())),) * (way == "more taken")
        files = {b"FILE": bytes(content), b"CHOICES": CHOICES}
        files = {"told": told(files), "told file": told(files),
                 "told otherwise": told({**files, b"FILE": bytes(content) + b"x"})}.get(way, NONE)
        left = {"input told": some(tuple(case.given)),
                "other input told": some(tuple(turned(case.given)))}.get(way, NONE)
        out, notes = out + b"x" * (way == "more"), notes[:-1] if way == "fewer notes" else notes
        changed = {"old_shelf": Device(files, replies=PAST[:1]), "new_shelf": Device(files, replies=PAST[:1] + replies),
                   "old_input": Device(left, replies=PAST[:3]), "new_input": Device(left, replies=PAST[:3] + calls),
                   "new_out": Device(some((9, *out)), int(way == "out")),
                   "new_notes": Device(some((8, *notes)), int(way == "lines"))}
        return call_of(d, {}, b"", b"", b"", b"", **changed)


class Replays(Recorded):
    name, about = "replays", "`runs` of calls of `replay` with journals of runs and others; `IsRun` and `IsSequential`"
    counts = {"sample": 60, "whole": 1_500}
    is_quick = False
    # Of a journal that is one of a run: what is otherwise, and whether the clause holds then.
    WAYS = {"as it was": True, "told": True, "pieces": True, "memory": True, "sink": True, "spent": False,
            "input": False, "shelf": False, "no run": False, "words": False, "more": False, "units": False,
            "reports": False, "notes": False, "out": False, "lines": False,
            "another": False, "turned": False, "twice": False, "cut": False, "no journal": False,
            "longer": False, "bad": False}
    # And of one that is none.
    OTHER_WAYS = {"as it was": False, "memory": True, "sink": True, "input": False, "shelf": False, "fault": True,
                  "no run": False, "another fault": False}
    STATUSES = {"memory": MEMORY, "sink": ("SinkFault",), "spent": SPENT, "input": ("InputFault",), "shelf": SHELF,
                "words": ("BadWords",), "no run": ("NotARun", ("Item", 99_999))}
    FAULTS = {playing.ITEM: "Item", playing.OUTPUT: "Output", playing.END: "End", playing.INPUT: "Input"}

    def cases(self, chooser, count, asked):
        cases = Recorded.cases(self, chooser, count, asked)
        for n, case in enumerate(case for case in cases if case.kept is not None):
            one = journal.journal_of(case.kept)
            one = one if n % 3 == 0 else otherwise(chooser, one)
            answered = asked.call("replay", "FILE", "OUT", FILE=case.whole.spelled(), OUT=one.spelled())
            asked.kept("OUT")
            yield case.whole, one, answered

    def difference(self, d, case):
        whole, one, (number, out, notes) = case
        d.forget()
        play = playing.Replay(whole, one)
        fault = play.play() if is_journal(one) else None
        is_run = is_journal(one) and fault is None
        if (number == 0) != is_run or is_run and out != f"{play.answer()}\n".encode():
            return f"{one.spelled().hex()} on {whole.spelled().hex()}: status {number}, {out} and {notes}"
        self.hand_in(d, whole, one)
        out = out if is_run else f"run units {one.units()} reports {one.reports()}\n".encode()
        for way, wanted in (self.WAYS if is_run else self.OTHER_WAYS).items():
            # Of bytes that spell no journal nothing is said but that it isn't done.
            wanted = wanted or not is_run and not fault and way != "as it was"
            status, call = self.status(way, fault), self.call(d, way, whole, one, out)
            found = d("alpha_cmd.RunsAsked.RunsAsked")(words_of(b"replay", b"FILE", b"OUT"), status, call)
            if found != wanted:
                return (f"{way} of {one.spelled().hex()} on {whole.spelled().hex()}: {found}, and {wanted} is wanted")
        return (self.facts(d, whole, one, play) if is_run else "") or self.settled(d, whole, one)

    def status(self, way, fault):
        if way not in ("fault", "another fault"):
            return self.STATUSES.get(way, DONE)
        if fault is None:
            return "BadJournal", ("Magic",)
        more = way == "another fault"
        if fault.kind == playing.END:
            return ("NotARun", ("Input", 0) if more else ("End",))
        return "NotARun", (self.FAULTS[fault.kind], fault.at + more)

    def played(self, d, whole, one):
        """The run that the journal lists, where its items are possible."""
        parts = listed_of(one)
        found = d("alpha_replay.Listed.listed")(program_of(whole, one.completion), parts.input, parts.items)
        return [found[1].run] if found[0] == "Ok" else []

    def hand_in(self, d, whole, one):
        content, bad, listed = tuple(whole.spelled()), drawn.longer(whole, 1 << 26), tuple(one.spelled())
        d.given(images=[parts_of(whole), parts_of(bad)], journals=[listed_of(one)], played=self.played(d, whole, one),
                events=[], plans=[],
                pieces=[(listed[:9], listed[9:])]
                + [(one,) for one in (content, content + (0,), tuple(bad.spelled()), listed, listed + (0,))])

    def call(self, d, way, whole, one, out):
        content, listed = tuple(whole.spelled()), tuple(one.spelled())
        content = {"another": content + (0,), "bad": tuple(drawn.longer(whole, 1 << 26).spelled())}.get(way, content)
        cut = (listed[:9], listed[9:], ()) if way == "pieces" else (listed + (0,) * (way == "longer"), ())
        file, kept = pieces_of(b"FILE", (content, ())), pieces_of(b"OUT", cut)
        replies = {"turned": kept + file, "twice": file + kept * 2, "cut": file + kept[:1], "no journal": file
                   }.get(way, file + kept)
        files = told({b"FILE": b"", b"OUT": b""}) if way == "told" else NONE
        out = {"more": out + b"x", "units": f"run units {one.units() + 1} reports {one.reports()}\n".encode(),
               "reports": f"run units {one.units()} reports {one.reports() + 1}\n".encode()}.get(way, out)
        changed = {"old_shelf": Device(files, replies=PAST[:1]), "new_shelf": Device(files, replies=PAST[:1] + replies),
                   "new_out": Device(some((9, *out)), int(way == "out")),
                   "new_notes": Device(some((8, *(b"x" * (way == "notes")))), int(way == "lines"))}
        return call_of(d, {}, b"", b"", b"", b"", **changed)

    def settled(self, d, whole, one):
        """The run of a journal's items is that of a journal which says of it what it is, unless a trap is pending."""
        for run in self.played(d, whole, one):
            events = d("alpha_imprecise.Run.seen")(run.steps)
            ending = d("alpha_replay.Replay.ending_of")(run.at.last_event)
            own = listed_of(one)._replace(ending=ending, input=d("alpha_seq.Run.taken")(events),
                                          output=d("alpha_seq.Run.output")(events))
            d.given(played=[run._replace(left=())])
            found = d("alpha_replay.Replay.IsRun")(parts_of(whole), own, run.units)
            if found != (d("alpha_imprecise.Run.finished")(run.at.last_event) or run.at.pending == NONE):
                return f"{one.spelled().hex()} on {whole.spelled().hex()}: IsRun of its own run is {found}"
        return ""

    def facts(self, d, whole, one, play):
        """What a replay that is done means, of the journal and of such as say something else."""
        parts, image, units = listed_of(one), parts_of(whole), play.units
        ending = ("Exit", 5) if parts.ending != ("Exit", 5) else ("Exit", 6)
        others = (parts._replace(ending=ending), parts._replace(output=parts.output + (1,)),
                  parts._replace(input=parts.input + (1,)))
        is_run, alike = d("alpha_replay.Replay.IsRun"), d("alpha_replay.Replay.IsSequential")
        run, = self.played(d, whole, one)
        # A byte of the input is left.
        d.given(played=[run, run._replace(left=(1,))])
        found = [is_run(image, parts, units), is_run(image, parts, units + 1),
                 *(is_run(image, it, units) for it in others)]
        if found != [True, False, False, False, False]:
            return f"{one.spelled().hex()} on {whole.spelled().hex()}: IsRun is {found}"
        if not d("alpha_shadow.Broken.IsAccepted")(tuple(whole.words)):
            return ""
        # A run that goes on may be longer, and one whose last read wanted more takes another byte too.
        found = [alike(image, parts, units), parts.ending[0] != "Spent" and alike(image, parts, units + 1),
                 *(alike(image, it, units) for it in others)]
        wanted = [True, False, False, False, self.takes_another(whole, one, units)]
        return ("" if found == wanted else
                f"{one.spelled().hex()} on {whole.spelled().hex()}: IsSequential is {found}, and {wanted} is wanted")

    def takes_another(self, whole, one, units):
        """Whether the precise run of so many steps by the model takes a byte more too, and shows the same."""
        run = Late(whole, one.completion, bytes(one.given) + b"\1")
        steps = 0
        while steps < units and not run.is_over():
            run.advance()
            steps += 1
        ending = ("Spent",) if run.end is None else (run.end[0].capitalize(), *run.end[1:][:ENDS[run.end[0]]])
        return (steps == units and run.taken == len(run.given) and bytes(run.put) == bytes(one.put)
                and ending == listed_of(one).ending)
