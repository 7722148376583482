"""What is otherwise between what an emulator wrote and what it should have written, in a line, and lines that say
where."""
import functools
import re
from collections import Counter

import rows
import telling

# The status of a run by the first word of its end; `docs/machines.md` has them.
STATUSES = {"exit": 0, "steps": 6, "lost": 7}
ENDED = 5
MOST_OFTEN = 4
# A barrier with its lines, of which `cut` makes one part.
BARRIER = re.compile(r"^barrier .*\n(?:.*\n){8}", re.M)
ENDS = ("exit", "signal", "fetch", "access", "align", "stop", "steps", "lost")


class Told:
    """A difference, and calls that answer lines that say more. They are called where it is told alone: they may run the
    program. `is_short` says that something is missing, of which the end of the run may say why."""

    def __init__(self, text, *calls, is_short=False):
        self.text, self.calls, self.is_short = text, calls, is_short

    def lines(self):
        return [line for call in self.calls for line in call() if line]


def last(notes):
    lines = notes.strip().splitlines()
    return lines[-1] if lines else "no line"


def wanted_status(end):
    """The status behind the line of an end."""
    return STATUSES.get(end.split(" ")[0], ENDED)


# ---- notes


def cut(notes):
    """The notes in parts: overflows and barriers, each with its lines, and the end."""
    found, lines, at = [], notes.splitlines(), 0
    while at < len(lines):
        count = 9 if lines[at].startswith("barrier ") else 1
        found.append(lines[at:at + count])
        at += count
    return found


def is_right(ran, wanted, output):
    """Whether a run did all that is wanted. Where no line that is wanted begins with `barrier`, nothing is said of
    barriers."""
    if ran.status != wanted_status(last(wanted)) or ran.out != output:
        return False
    return ran.notes == wanted or "barrier " not in wanted and BARRIER.sub("", ran.notes) == wanted


def of_parts(notes, parts, with_barriers):
    """The parts of the notes that are compared."""
    kinds = {"overflow": "overflows" in parts, "barrier": "barriers" in parts and with_barriers}
    return [one for one in cut(notes) if kinds.get(one[0].split(" ")[0], "end" in parts)]


def notes_difference(ran_notes, wanted, parts, lines):
    """The first difference of the notes, or None. `lines` answers the lines of the source before a barrier, or of an
    overflow."""
    has_barriers = any(one[0].startswith("barrier ") for one in cut(wanted))
    have, want = (of_parts(notes, parts, has_barriers) for notes in (ran_notes, wanted))
    for number, wanted_one in enumerate(want):
        if number == len(have):
            return Told(f"the notes end before `{wanted_one[0]}`", *lines_of(None, wanted_one, want[:number], lines),
                        is_short=True)
        if have[number] != wanted_one:
            found = note_difference(have[number], wanted_one, want[:number], lines)
            return Told(found.text, *found.calls, functools.partial(often, lines.image, have, want))
    return Told(f"`{have[len(want)][0]}` is a line too many") if len(have) > len(want) else None


def often(image, *notes):
    """Which words overflow more often or less than they should, where some do again and again."""
    told, wanted = (Counter(one[0] for one in some if one[0].startswith("overflow ")) for some in notes)
    wrong = [note for note in {**wanted, **told} if told[note] != wanted[note] and told[note] + wanted[note] > 2]
    return [f"{telling.noted(image, note)}: told {told[note]} times in all, and wanted {wanted[note]} times"
            for note in wrong[:MOST_OFTEN]]


def note_difference(have, want, before, lines):
    passed = sum(one[0].startswith("barrier ") for one in before)
    if have[0] != want[0] or len(want) == 1:
        behind = f", behind {passed} barrier{'s' * (passed != 1)}" if passed else ""
        return Told(f"`{have[0]}`, and `{want[0]}` is wanted{behind}", *lines_of(have, want, before, lines))
    have_regs, want_regs = (" ".join(one[1:]).split() for one in (have, want))
    wrong = [(register, one, other) for register, (one, other) in enumerate(zip(have_regs, want_regs)) if one != other]
    if not wrong or len(have_regs) != 32:
        return Told(f"the registers at `{want[0]}` aren't eight lines of four")
    others = f", and {len(wrong) - 1} more registers are otherwise" if len(wrong) > 1 else ""
    register, one, other = wrong[0]
    return Told(f"behind barrier {passed + 1}, at `{want[0]}`, ${register} is {one}, and {other} is wanted{others}",
                functools.partial(lines.barrier, passed + 1, {register: one for register, one, _ in wrong}))


def lines_of(have, want, before, lines):
    """What answers the lines of the source that say more of two notes that aren't the same."""
    kind = want[0].split(" ")[0]
    passed = sum(one[0].startswith(f"{kind} ") for one in before)
    if kind == "barrier":
        return [functools.partial(lines.barrier, passed + 1, {})]
    return [functools.partial(lines.overflow, passed, have and have[0], want[0])]


def is_end(line):
    return line.split(" ")[0] in ENDS


def end_difference(ran, wanted, image):
    """The difference of the line of the end, or None. It is the last line of the notes."""
    have, want = last(ran.notes), last(wanted)
    if have == want:
        return None
    notes = cut(ran.notes)
    if notes and notes[-1][0].startswith("barrier "):
        return Told(f"there is no end behind `{notes[-1][0]}`, and `{want}` is wanted",
                    lambda: telling.named(image, want))
    return Told(f"the end is `{have}`, and `{want}` is wanted", lambda: telling.named(image, have, want))


# ---- output


def output_difference(case, out, wanted, given):
    """The first difference of the output, or None. `case` has the name of the image."""
    if out == wanted:
        return None
    at = next((n for n, (one, other) in enumerate(zip(out, wanted)) if one != other), min(len(out), len(wanted)))
    if at == len(out):
        return Told(f"the output ends at byte {at}, and {len(wanted)} bytes are wanted")
    if at == len(wanted):
        return Told(f"the output has more than the {at} bytes that are wanted")
    if case.image.startswith("values-"):
        values = rows.Values(case.image, out, wanted, given)
        return Told(values.first(at), values.more)
    if len(wanted) == telling.SHOWN and len(out) == telling.SHOWN and not case.file.startswith("answers/"):
        return Told(telling.shown(at, out, wanted))
    return Told(f"byte {at} of the output is {out[at]:02x}, and {wanted[at]:02x} is wanted")
