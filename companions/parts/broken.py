"""Every broken trigger of some code: by the program's verdicts on copies of its parts, and those of many functions by
few calls."""
import bisect
from collections import namedtuple
from concurrent.futures import ThreadPoolExecutor

from . import files, image, program, table

# How many words a part has at least, but for the last one.
PART = 2_048
# The base of a segment without bytes, which stands nowhere.
NO_DATA = 0x10000000
# A broken trigger with its least broken place, by their addresses, and the condition there.
Broken = namedtuple("Broken", "trigger place condition")


def image_of(words, stack=image.STACK_BYTES, level=1):
    """An image that has these words alone, from the usual code base on."""
    level = max(level, table.level_of(words))
    segments = [image.Segment(NO_DATA)] if level == 1 else []
    return image.Image(words, image.CODE_BASE, image.CODE_BASE, segments, stack, 0 if level == 1 else level)


def every_broken(asked, whole, code, jobs):
    """All of an image, by rising address of the trigger. `code` has its instructions."""
    with program.Scratch() as scratch, ThreadPoolExecutor(max(1, jobs)) as pool:
        answers = pool.map(lambda part: broken_in(asked, whole, scratch, code, *part), parts(code))
        return sorted(one for answer in answers for one in answer)


def parts(code):
    """The first place of each part of the code that has triggers, and the place behind its last. No shadow goes past a
    part."""
    start, has_trigger = 0, False
    for place, insn in enumerate(code.insns):
        has_trigger |= insn.kind == table.TRIGGER
        is_last = place + 1 == len(code.insns)
        if is_last or place + 1 - start >= PART and insn.kind in (table.BARRIER, table.TURN):
            if has_trigger:
                yield start, place + 1
            start, has_trigger = place + 1, False


def broken_in(asked, whole, scratch, code, start, end):
    """Those of a part. A copy keeps the code base, so an address in it is 4 * start too low."""
    words = whole.words[start:end]
    segments = [] if whole.level else [image.Segment(0)]
    found = []
    while True:
        copy = image.Image(words, whole.code_base, whole.code_base, segments, 16, whole.level)
        verdict = asked.verdict(scratch.file(f"{start}.img", copy.spelled()))
        if verdict is None:
            return found
        trigger, place, condition = verdict
        found.append(Broken(trigger + 4 * start, place + 4 * start, condition))
        at = copy.place(trigger)
        if at is None or code.insns[start + at].kind != table.TRIGGER or words[at] != whole.words[start + at]:
            raise files.Refused(f"the program names {trigger:x} as a trigger for the second time, or no /V word is "
                                f"there")
        words[at] = table.without_overflow(words[at])


def first_of_each(asked, rows, jobs):
    """The verdict of each of some rows of words alone, as `Program.verdict` has it of an image of them from the usual
    code base."""
    with program.Scratch() as scratch, ThreadPoolExecutor(max(1, jobs)) as pool:
        told = pool.map(lambda one: judge_batch(asked, scratch, one[0], [rows[n] for n in one[1]]),
                        enumerate(batches(rows)))
        numbers = [number for batch in batches(rows) for number in batch]
        found = dict(zip(numbers, (verdict for batch in told for verdict in batch)))
    return [found[n] for n in range(len(rows))]


def batches(rows):
    """The numbers of rows that are judged together, in lists. One whose last shadow is open is alone: behind it the
    code must end."""
    batch, count = [], 0
    for number, words in enumerate(rows):
        if ends_open(words):
            yield [number]
            continue
        if batch and count + len(words) > PART:
            yield batch
            batch, count = [], 0
        batch.append(number)
        count += len(words)
    if batch:
        yield batch


def ends_open(words):
    """Whether a shadow may be open behind the last word."""
    for word in reversed(words):
        kind = table.insn_of(word).kind
        if kind in (table.BARRIER, table.TURN, table.TRIGGER):
            return kind == table.TRIGGER
    return False


def judge_batch(asked, scratch, name, rows):
    """The verdict of each row. That of all together is of the first row that is broken, and the next copy begins behind
    it."""
    verdicts, start = [None] * len(rows), 0
    while start < len(rows):
        words, begins = [], []
        for row in rows[start:]:
            begins.append(len(words))
            words.extend(row)
        verdict = asked.verdict(scratch.file(f"{name}.img", image_of(words).spelled()))
        if verdict is None:
            break
        trigger, place, condition = verdict
        at = bisect.bisect_right(begins, (trigger - image.CODE_BASE) // 4) - 1
        moved = 4 * begins[at]
        verdicts[start + at] = Broken(trigger - moved, place - moved, condition)
        start += at + 1
    return verdicts
