"""Replies: what the calls of a source gave, and runs by what they gave, whatever the devices tell.

A right reading must hold, and one with a thing otherwise mustn't.
"""
import random

from . import drawn
from .calls import DONE, Device, call_of, pieces_of, status_by, told, words_of
from .reference import NONE, SILENT, Late, parts_of, program_of, some
from .translate import record

PAST = (("Kept", tuple(b"FILE"), (1,), True), ("Put", (1,)), ("Took", 9, some((3,))), ("Took", 9, NONE),
        ("Piece", tuple(b"FILE"), 0, some((1,))))


def takes_of(chooser, given):
    """Calls that gave these bytes, some in each."""
    made, at = [], 0
    while at < len(given):
        piece = tuple(given[at:at + chooser.choice((1, 2, 5, 64))])
        made.append(("Took", len(piece) + chooser.choice((0, 0, 7)), some(piece)))
        at += len(piece)
    return tuple(made)


def reading(chooser, asked, given):
    """The calls of a read: behind those that gave fewer bytes than were asked for there is one that gave none."""
    return takes_of(chooser, given) + (("Took", asked - len(given), some(())),) * (len(given) < asked)


def readings(chooser, events):
    """The calls of the source in steps with these events."""
    found = [event[1] for event in events if event[0] == "Barriered" and event[1][0] == "Read"]
    return tuple(reply for _, asked, given in found for reply in reading(chooser, asked, given))


def some_bytes(chooser, least=0):
    return tuple(chooser.randrange(256) for _ in range(chooser.choice((least, 1, 3, 8))))


def otherwise(given):
    """The same bytes but for one, or one where there is none."""
    return given[:-1] + (given[-1] ^ 1,) if given else (1,)


class Readings:
    name = "readings"
    about = ("what calls of a source gave, right and otherwise: `IsRead`, `FailsToRead`, `HasGiven`, `AnswersEach`; "
             "and how many steps a run may have made: `HasMade`")
    counts = {"sample": 60, "whole": 4_000}
    is_quick = True

    def cases(self, chooser, count, asked):
        for _ in range(count):
            old = tuple(chooser.choice(PAST) for _ in range(chooser.choice((0, 1, 2))))
            yield from (("alpha_io.History.IsRead", *case) for case in self.reads(chooser, old))
            yield from (("alpha_io.History.FailsToRead", *case) for case in self.failures(chooser, old))
            yield from (("alpha_io.History.HasGiven", *case) for case in self.takings(chooser, old))
            yield from (("alpha_seq.Devices.AnswersEach", *case) for case in self.rows(chooser, old))
            yield from (("alpha_seq.Fronts.HasMade", *case) for case in self.made(chooser))

    def difference(self, d, case):
        name, arguments, wanted = case
        given = d(name)(*arguments)
        return "" if given == wanted else f"{name} of {arguments} is {given}, and {wanted} is wanted"

    def reads(self, chooser, old):
        """A read of as many bytes as were asked for or of fewer, and others that are none of it."""
        given = some_bytes(chooser)
        asked = len(given) + chooser.choice((0, 0, 1, 5))
        takes, is_full = reading(chooser, asked, given), asked == len(given)
        yield (old, old + takes, asked, given), True
        end = takes + (("Took", 4, some(())),) if is_full else takes[:-1]
        yield (old, old + end, asked, given), False
        yield (old, old + takes, asked + 1 if is_full else len(given), given), False
        yield (old, old + takes, asked, otherwise(given)), False
        yield (old, old + takes, asked + 1, given + (1,)), False
        yield (old, old + (("Took", 4, some(())),) + takes, asked, given), False
        yield (old, old + takes + (("Took", 4, NONE),), asked, given), False
        yield (old, old + takes[:-1] + (("Piece", (), 0, takes[-1][2] if takes else NONE),), asked, given), False
        yield (old + (("Put", ()),), old + takes, asked, given), False
        yield (old, takes if old else (("Put", ()),) + takes, asked, given), False

    def failures(self, chooser, old):
        """A read that failed behind some bytes, and others that didn't so."""
        given, failed = some_bytes(chooser), ("Took", chooser.choice((1, 9)), NONE)
        takes = takes_of(chooser, given)
        yield (old, old + takes + (failed,), given), True
        yield (old, old + takes, given), False
        yield (old, old + takes + (failed, failed), given), False
        yield (old, old + takes + (("Took", 4, some(())), failed), given), False
        yield (old, old + takes + (failed,), otherwise(given)), False
        yield (old, old + takes + (("Piece", (), 0, NONE),), given), False
        yield (old + (("Put", ()),), old + takes + (failed,), given), False

    def takings(self, chooser, old):
        """Calls of any kind that gave these bytes, and such as gave others or were none of the source."""
        given = some_bytes(chooser)
        takes = list(takes_of(chooser, given))
        for other in (("Took", 4, some(())), ("Took", 4, NONE)):
            takes.insert(chooser.randrange(len(takes) + 1), other)
        takes, at = tuple(takes), chooser.randrange(len(takes) + 1)
        yield (old, old + takes, given), True
        yield (old, old + takes, otherwise(given)), False
        yield (old, old + takes, given + (1,)), False
        other = chooser.choice((PAST[0], ("Put", ()), ("Piece", (), 0, NONE)))
        yield (old, old + takes[:at] + (other,) + takes[at:], given), False
        yield (old + (("Put", ()),), old + takes, given), False

    def rows(self, chooser, old):
        """The steps of a run, some of which read, and calls that aren't what they read."""
        events = tuple(self.event(chooser) for _ in range(chooser.choice((1, 3, 6))))
        events += (self.read(chooser, 3, some_bytes(chooser, 1)[:3]), *chooser.choice(((), (("Ends", ("Exit", 1)),))))
        calls = readings(chooser, events)
        yield (old, events, old + calls), True
        yield (old, events, old + calls[:-1]), False
        yield (old, events, old + calls + calls[-1:]), False
        yield (old, events, old + calls + (("Took", 4, some(())),)), False
        yield (old, events, old + (("Put", ()),) + calls), False
        yield (old + (("Put", ()),), events, old + calls), False
        yield (old, events + (self.read(chooser, 1, (1,)),), old + calls), False
        at = max(n for n, event in enumerate(events) if event[0] == "Barriered" and event[1][0] == "Read")
        other = self.read(chooser, 3, otherwise(events[at][1][2]))
        yield (old, events[:at] + (other,) + events[at + 1:], old + calls), False

    def made(self, chooser):
        """Runs of so many steps: one that goes on has made all, and one that is over as many or fewer."""
        events = tuple(self.event(chooser) for _ in range(chooser.choice((1, 2, 5))))
        count, goes_on, is_over = len(events), record(event=("Went",)), record(event=("Ends", ("Exit", 1)))
        yield (count, events, goes_on), True
        yield (count + 1, events, goes_on), False
        yield (count - 1, events, goes_on), False
        yield (count, events, is_over), True
        yield (count + chooser.choice((1, 9)), events, is_over), True
        yield (count - 1, events, is_over), False

    def event(self, chooser):
        given = some_bytes(chooser)
        return chooser.choice((("Went",), ("Overflowed", 64), ("Barriered", SILENT, 64, ()),
                               ("Barriered", ("Wrote", (1, 2)), 64, ()),
                               self.read(chooser, len(given) + chooser.choice((0, 2)), given)))

    def read(self, chooser, asked, given):
        return "Barriered", ("Read", asked, given), 4 * chooser.randrange(9), ()


class Replied:
    name, about = "replied runs", "`ran` of calls of the program by what a source gave, and with something else"
    counts = {"sample": 30, "whole": 700}
    is_quick = False
    ASKED = ("run FILE", "run --imprecise FILE")
    WRONG = ("status", "denied", "output", "notes", "fault", "lines", "more", "file", "again", "cut")
    FAILED = ("NoMemory", "InputFault", "SinkFault")
    WAYS = ("as it was", "told", "drawn", *FAILED, "unread", "refused", "plain", "words", "fewer", "other", "pieces",
            *WRONG)
    # Other statuses of a call. None of those that deny a run may stand where the file spells an accepted image.
    STATUSES = {"drawn": [("Done", 77)], "NoMemory": [("NoMemory",)], "InputFault": [("InputFault",)],
                "SinkFault": [("SinkFault",)], "status": [("StepsSpent",)], "cut": [("StepsSpent",)],
                "unread": [("ShelfFault",)], "refused": [("NotRestartable", 0)],
                "denied": [("ShelfFault",), ("NotRestartable", 0), ("Lost", 0), ("BadImage", 0)]}

    def cases(self, chooser, count, asked):
        while count:
            whole = drawn.program(chooser, True)
            given = bytes(chooser.randrange(256) for _ in range(chooser.choice((0, 5, 30))))
            late = Late(whole, "wrap", given)
            # Such as read are few, and say most.
            if not late.ends_within(1_000) or not late.taken and chooser.random() < 0.6:
                continue
            count -= 1
            words = chooser.choice(self.ASKED).split()
            answered = asked.call(*words, given=given, FILE=whole.spelled())
            yield whole, tuple(words), given, answered, chooser.getrandbits(32)

    def difference(self, d, case):
        whole, words, given, answered, seed = case
        d.forget()
        chooser, content, refused = random.Random(seed), tuple(whole.spelled()), drawn.refused(whole)
        run, changed = (self.run(d, whole, bytes(byte ^ way for byte in given)) for way in (0, 1))
        files = {"refused": tuple(refused.spelled()), "file": content + (0,), "unread": content + (0,)}
        d.given(images=[parts_of(whole), parts_of(refused)], events=[run.events, changed.events, run.events[:-1]],
                pieces=[(content,), (content[:-1], content[-1:]), *((file,) for file in files.values())])
        for way in self.WAYS:
            shelf = (content[:-1], content[-1:], ()) if way == "pieces" else (files.get(way, content), ())
            replies = pieces_of(b"FILE", shelf) * (2 if way == "again" else 1)
            calls, holds = self.calls(way, chooser, run, changed)
            # The sequential machine runs a refused image too.
            holds = holds and (way != "refused" or "--imprecise" in words)
            status, call = self.altered(d, way, chooser, content, answered, run, replies, calls)
            texts = {"words": ("check", "FILE"), "plain": ("run", "-x")}.get(way, words)
            found = d("alpha_cmd.Ran.Ran")(words_of(*(text.encode() for text in texts)), status, call)
            if found != holds:
                return f"{way} of {whole.spelled().hex()} over {given}: {found}, and {holds} is wanted"
        return ""

    def run(self, d, whole, given):
        program = program_of(whole, "wrap")
        return d("alpha_seq.Run.after")(program, d("alpha_seq.Start.start")(program), tuple(given), 2_000)

    def calls(self, way, chooser, run, changed):
        """The calls of the source, with something else in them, and whether the clause holds of them."""
        calls = readings(chooser, run.events)
        if way == "other":
            return readings(chooser, changed.events), seen(changed) == seen(run)
        if way == "fewer":
            return calls[:-1], not calls
        if way == "cut":
            return readings(chooser, run.events[:-1]), False
        return calls + (("Took", 4, some(())),) * (way == "more"), way not in self.WRONG

    def altered(self, d, way, chooser, content, answered, run, replies, calls):
        """The status and the call, with something else in one of them. The clause says nothing of what is put under a
        status that is no run's end, nor of other words."""
        number, out, notes = answered
        own = status_by(number, some(run.at.event[1]))
        status = chooser.choice(self.STATUSES[way]) if way in self.STATUSES and (way != "drawn" or own == DONE) else own
        out += b"x" * (way in ("output", *self.FAILED, "unread", "refused", "plain", "words"))
        notes = notes[:-1] if way == "notes" else notes
        if way == "cut":
            # A run of fewer steps than were asked for, which goes on.
            out, notes = (d(f"alpha_seq.Run.{name}") for name in ("output", "notes"))
            out, notes = out(run.events[:-1]), notes(False, run.events[:-1]) + d("alpha_cmd.SpentLine.spent_line")()
        faults = {"out": way == "fault", "notes": way == "lines"}
        return status, self.called(d, content if way == "told" else None, replies, calls, out, notes, faults)

    def called(self, d, content, replies, calls, out, notes, faults):
        """A call by what the devices replied, and put. They tell nothing beforehand where there is no content."""
        files, left = (NONE, NONE) if content is None else (told({b"FILE": bytes(content)}), some(()))
        changed = {"old_shelf": Device(files, replies=PAST[:1]), "new_shelf": Device(files, replies=PAST[:1] + replies),
                   "old_input": Device(left, replies=PAST[:3]), "new_input": Device(left, replies=PAST[:3] + calls),
                   "new_out": Device(some((9, *out)), int(faults["out"])),
                   "new_notes": Device(some((8, *notes)), int(faults["notes"]))}
        return call_of(d, {}, b"", b"", b"", b"", **changed)


def seen(run):
    """What a run puts, logs and ends by."""
    traffic = [event[1] for event in run.events if event[0] == "Barriered"]
    put = [byte for name, *rest in traffic if name == "Wrote" for byte in rest[0]]
    return put, [event for event in run.events if event[0] == "Overflowed"], run.at.event
