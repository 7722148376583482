"""Places: which conditions break which places of which shadows, and what is accepted.

Against worked verdicts, the model of the companions, and the verdicts of the built program.
"""
import re

from . import drawn
from .reference import CONDITIONS, broken_in, image, table
from .translate import record
from .words import rows

VERDICT = re.compile(rb"broken trigger ([0-9a-f]{16}) at ([0-9a-f]{16}) condition C(\d)\n$")
LONGEST = 70
# How many broken places are held against the least.
MOST_PLACES = 6


def words_of(text):
    """The words of a worked list, where *N after one repeats it."""
    return [int(word, 16) for part in text.split() for word, _, count in [part.partition("*")]
            for _ in range(int(count or 1))]


def least_of(verdict):
    """A worked verdict as (trigger, place, number of the condition), None where the code is accepted."""
    return None if verdict == "accepted" else tuple(int(text.lstrip("C")) for text in verdict.split())


def least_in(broken):
    """The first broken place, there the first trigger, and of that the first condition."""
    return min(broken, key=lambda one: (one[1], one[0], one[2]), default=None)


class Places:
    name, about = ("places",
                   "the nine conditions at each place of short code, its least broken place, and whether it is "
                   "accepted")
    counts = {"sample": 260, "whole": 8_000}
    is_quick = False

    def cases(self, chooser, count, asked):
        worked = [(words_of(text), least_of(verdict)) for text, verdict in rows("shadows.tsv")]
        short = [(words, least) for words, least in worked if len(words) <= LONGEST]
        for words, least in short if count > 1_000 else short[::4]:
            yield tuple(words), least, frozenset(broken_in(words))
        judged = chooser.randrange(1, 1 << 30)
        for n in range(count):
            words = self.draw(chooser)
            broken = frozenset(broken_in(words))
            least = least_in(broken)
            if (n + judged) % 3 == 0:
                least = self.asked_for(asked, words)
            yield tuple(words), least, broken

    def draw(self, chooser):
        """Some words over few registers, half of them with barriers where they are needed."""
        registers = chooser.choice(((1, 2, 31), (1, 2, 3, 4, 31), (1, 2, 3, 4, 5, 6, 7, 8, 30)))
        words = drawn.code(chooser, chooser.choice((1, 2, 3, 4, 6, 8, 12, 18)), registers,
                           chooser.choice(((2, 3), (2, 5, 31))))
        return drawn.repaired(words) if chooser.random() < 0.4 else words

    def asked_for(self, asked, words):
        """The program's verdict on the code."""
        level = table.level_of(words)
        whole = image.Image(words, drawn.CODE, drawn.CODE, [] if level == 2 else [image.Segment(drawn.DATA)], 64, level
                            if level == 2 else 0)
        status, _, notes = asked.call("check", "FILE", FILE=whole.spelled())
        if status == 0:
            return None
        found = VERDICT.search(notes)
        return tuple((int(text, 16) - drawn.CODE) // 4 for text in found.groups()[:2]) + (int(found[3]),)

    def difference(self, d, case):
        words, least, broken = case
        d.forget()
        is_broken = d("alpha_shadow.Broken.IsBroken")
        given = frozenset((trigger, at, n) for trigger in range(len(words) + 1) for at in range(len(words) + 2)
                          for n, condition in enumerate(CONDITIONS, 1) if is_broken(words, trigger, at, (condition,)))
        if given != broken:
            return f"{listed(words)}: {sorted(given ^ broken)[:3]} are broken in one alone"
        if least_in(given) != least:
            return f"{listed(words)}: the least is {least_in(given)}, and {least} is wanted"
        if d("alpha_shadow.Broken.IsAccepted")(words) != (least is None):
            return f"{listed(words)}: accepted is {least is not None}"
        is_least = d("alpha_shadow.Least.IsLeastBroken")
        for trigger, at, n in sorted(given, key=lambda one: (one[1], one[0], one[2]))[:MOST_PLACES]:
            one = record(trigger=trigger, at=at, condition=(CONDITIONS[n - 1],))
            if is_least(words, one) != ((trigger, at, n) == least):
                return f"{listed(words)}: {(trigger, at, n)} is the least, or isn't, and {least} is wanted"
        return ""


class Longest:
    name, about = "longest", "the ends of the longest shadows"
    counts = {"sample": 6, "whole": 60}
    is_quick = False
    BARRIERS, ENOUGH = (drawn.TRAPB, 0x63FF0400), 1_024

    def cases(self, chooser, count, asked):
        """A trigger with so many words behind it, and what stands there."""
        for n in range(count):
            between = self.ENOUGH + (-1, 0, 1)[n % 3]
            behind = ((drawn.TRAPB,), (), (0x47FF041F, drawn.TRAPB), (drawn.branch("br", 31, 0),))[n // 3 % 4]
            words = (drawn.operate("addq/v", 1, 2, 3),) + (0x47FF041F,) * between + behind
            yield words, frozenset(broken_in(words))

    def difference(self, d, case):
        words, broken = case
        d.forget()
        is_broken = d("alpha_shadow.Broken.IsBroken")
        # The model looks at nothing behind the word that is one too many.
        places = (0, 1, self.ENOUGH - 1, self.ENOUGH, self.ENOUGH + 1)
        given = {(0, at, n) for at in places for n, condition in enumerate(CONDITIONS, 1)
                 if is_broken(words, 0, at, (condition,))}
        return "" if given == broken else f"{len(words)} words: {given}, and {set(broken)} is wanted"


def listed(words):
    return " ".join(f"{word:08X}" for word in words)
