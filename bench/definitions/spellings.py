"""The bytes of journals, which of them are good ones, and what they count, by the model of the companions."""
from .reference import COMPLETIONS, journal
from .translate import record

LAST, PAST = (1 << 64) - 1, 1 << 64
# What a good journal may have for a part of it, and what not.
BOUNDS = [
    ("input", (255,), True), ("input", (256,), False), ("output", (255,), True), ("output", (256,), False),
    *((name, bytes(journal.MOST_BYTES + more), not more) for name in ("input", "output") for more in (0, 1)),
    ("ending", ("Exit", LAST), True), ("ending", ("Exit", PAST), False), ("ending", ("Access", LAST, LAST), True),
    ("ending", ("Access", PAST, 8), False), ("ending", ("Access", 8, PAST), False),
    *(("items", (item,), wanted) for item, wanted in (
        (("Units", 0), False), (("Units", 1), True), (("Units", 1 << 32), False), (("Trigger", LAST), True),
        (("Trigger", PAST), False), (("Wait", True, LAST), True), (("Wait", True, PAST), False))),
    ("items", (("Units", 1), ("Report",), ("Units", 1)), True), ("items", (("Units", 1), ("Units", 1)), False)]
ITEMS = {journal.UNITS: "Units", journal.TRIGGER: "Trigger", journal.WAIT: "Wait", journal.REPORT: "Report"}


def item_of(item):
    kind, *numbers = item
    return (ITEMS[kind], bool(numbers[0]), numbers[1]) if kind == journal.WAIT else (ITEMS[kind], *numbers)


def listed_of(one):
    """A journal's parts in the definitions' words."""
    name, *numbers = one.ending
    ending = (("Spent" if name == "none" else name.capitalize(),)
              + tuple(numbers[:len(dict(journal.ENDINGS)[name])]))
    return record(completion=COMPLETIONS[one.completion], ending=ending, input=tuple(one.given), output=tuple(one.put),
                  items=tuple(map(item_of, one.items)))


def is_journal(one):
    """Whether it is a good one: its bytes are read back."""
    try:
        journal.journal_of(one.spelled())
    except journal.BadJournal:
        return False
    return True


class Spellings:
    name, about = "journals", "the bytes of random journals, which of them are good ones, and what they count"
    counts = {"sample": 300, "whole": 20_000}
    is_quick = True

    def cases(self, chooser, count, asked):
        for _ in range(count):
            yield self.drawn(chooser)
        yield None
        yield from BOUNDS
        # The most units, and one more.
        for more in (0, 1):
            yield journal.Journal("wrap", ("none", 0, 0), b"", b"x", [(journal.UNITS, journal.MOST_UNITS + more)])
            yield journal.Journal("wrap", ("none", 0, 0), b"", b"x",
                                  [(journal.UNITS, journal.MOST_UNITS - 1), *[(journal.TRIGGER, 0)] * (1 + more)])

    def drawn(self, chooser):
        number = (0, 1, 8, 1 << 32, (1 << 63) - 1, (1 << 64) - 1)
        name, used = chooser.choice(journal.ENDINGS)
        numbers = [chooser.choice(number) for _ in used] + [0] * (2 - len(used))
        items = []
        for _ in range(chooser.choice((0, 1, 2, 5))):
            items.append(chooser.choice(((journal.UNITS, chooser.choice((0, 1, 7, 300, (1 << 32) - 1))),
                                         (journal.TRIGGER, chooser.choice(number)), (journal.REPORT,),
                                         (journal.WAIT, chooser.getrandbits(1), chooser.choice(number)))))
        given, put = (bytes(chooser.randrange(256) for _ in range(chooser.choice((0, 1, 300)))) for _ in range(2))
        return journal.Journal(chooser.choice(journal.COMPLETIONS), (name, *numbers), given, put, items)

    def difference(self, d, case):
        if case is None:
            return self.limits(d)
        if case in BOUNDS:
            return self.bound(d, *case)
        parts = listed_of(case)
        found = (bytes(d("alpha_replay.Journal.spelling")(parts)), d("alpha_replay.Journal.IsJournal")(parts),
                 d("alpha_replay.Items.units_of")(parts.items), d("alpha_replay.Replay.reports_of")(parts.items),
                 d("alpha_replay.Journaled.is_within")(parts))
        wanted = case.spelled(), is_journal(case), case.units(), case.reports(), case.units() <= journal.MOST_UNITS
        return "" if found == wanted else f"{case.spelled().hex()}: {found}, and {wanted} is wanted"

    def bound(self, d, name, value, wanted):
        """Whether parts with this one are good, whatever bytes spell them."""
        good = listed_of(journal.Journal("wrap", ("none", 0, 0), b"", b"", []))
        found = d("alpha_replay.Journal.IsJournal")(good._replace(**{name: value}))
        return "" if found == wanted else f"a journal with the {name} {value[:9]}: good is {found}"

    def limits(self, d):
        """The most bytes of a journal, and one more; and an item more than it may have."""
        within = d("alpha_replay.Journaled.is_within")
        parts = listed_of(journal.Journal("wrap", ("none", 0, 0), b"", b"", []))
        found = [within(parts._replace(**{name: bytes(journal.MOST_BYTES + more)}))
                 for name in ("input", "output") for more in (0, 1)]
        found.append(within(parts._replace(items=(("Report",),) * (journal.MOST_ITEMS + 1))))
        return "" if found == [True, False, True, False, False] else f"limits of journals: {found}"
