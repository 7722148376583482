"""Where something happened: the lines of the source that an address, a barrier or an item of a journal stands for."""
import functools
import itertools
import os
import re
import sys

HERE = os.path.dirname(os.path.abspath(__file__))
sys.path.insert(0, os.path.join(os.path.dirname(HERE), "companions"))
try:
    from parts import files, image as images, journal as journals, machine, places, playing, table
except ImportError:  # this folder was copied without the companions: it runs all the same, and tells no lines
    places = None

MOST_LINES, MOST_SETTERS, MOST_OF_BLOCK = 8, 4, 20
# Where the images of blocks keep what a run shows: 64 bytes of memory, and 32 registers.
SHOWN, SHOWN_MEMORY, FIRST_SHOWN = 320, 64, 0x10000040


@functools.lru_cache(maxsize=None)
def source_of(image):
    return places.Source(os.path.join(HERE, "sources", f"{image}.s"))


@functools.lru_cache(maxsize=None)
def image_of(image):
    return images.read_image(os.path.join(HERE, "images", f"{image}.img"))


def line_at(image, address):
    """The line of the source at an address of the image, or what is there else."""
    try:
        return source_of(image).tell(address, True) or f"no code at {address:#x}"
    except files.Refused:
        return f"address {address:#x}"


def short(lines):
    """Some lines, without those in the middle where they are many."""
    lines = list(dict.fromkeys(lines))
    half = MOST_LINES // 2
    return (lines if len(lines) <= MOST_LINES
            else [*lines[:half], f".. {len(lines) - MOST_LINES} lines ..", *lines[-half:]])


def operands_text(word, regs):
    """The registers that a word reads, with what is in them."""
    read = [register for register in range(31) if word and word.insn.uses >> register & 1]
    return ", with " + ", ".join(f"${register} = {regs[register]:#x}" for register in read) if read else ""


def exact_text(word, regs):
    """The operands of a /V word, and what it gives exactly."""
    bits = 32 if word.name[3] == "l" else 64
    one, other = ((value + (1 << bits - 1)) % (1 << bits) - (1 << bits - 1) for value in
                  (regs[word.ra], regs[word.rb] if word.literal is None else word.literal))
    exact = {"add": one + other, "sub": one - other, "mul": one * other}[word.name[:3]]
    return f"{operands_text(word, regs)}: exactly {exact}"


class Lines:
    """The lines of the source that say more of a note, by a right run of an image over an input. Of a run with late
    traps they say only where the notes are."""

    def __init__(self, image, completion, given, is_late=False):
        self.image, self.completion, self.given, self.is_late = image, completion, given, is_late

    def is_known(self):
        return places is not None and self.image != "-"

    def barrier(self, number, wrong):
        """What last sets each register that is otherwise at barrier `number`, counted from 1, the earliest first, and
        what a right run makes between the barrier before and this one. `wrong` has what the registers were told to be,
        first the one of which that is said already."""
        if not self.is_known():
            return []
        made, passed, found, setters = machine.Machine(image_of(self.image), self.completion, self.given), 0, [], {}
        while made.end is None and passed < number:
            pc, word, before = made.pc, made.word(), list(made.regs)
            is_barrier = made.step() == "barrier"
            for register in wrong:
                if word and word.insn.sets >> register & 1 or made.regs[register] != before[register]:
                    setters.pop(register, None)
                    setters[register] = f"${register} is set by {line_at(self.image, pc)}{operands_text(word, before)}"
            if passed == number - 1:
                found.append(line_at(self.image, pc))
            passed += is_barrier
        values = {register: f": {wrong[register]} is told, and {made.regs[register]:016x} is wanted"
                  for register in list(wrong)[1:]}
        told = [setter + values.get(register, "") for register, setter in setters.items()]
        return [*told[:MOST_SETTERS], f"since barrier {number - 1}:" if number > 1 else "from the start on:",
                *short(found)]

    def overflow(self, passed, have, want):
        """What two notes are of, behind so many overflows: the one that is told, and the one that is wanted."""
        if not self.is_known():
            return []
        if self.is_late:
            return [f"{what}: {line_at(self.image, int(note.split()[1], 16))}"
                    for what, note in (("told", have), ("wanted", want))
                    if note is not None and note.startswith("overflow ")] + named(self.image, have or "", want)
        right, plain = self.overflows(passed)
        told = int(have.split()[1], 16) if have is not None and have.startswith("overflow ") else None
        is_left_out = told is not None and [pc for pc, _ in right[passed + 1:]] == [told]
        lines = []
        if told is not None and not is_left_out:
            lines.append(f"told: {line_at(self.image, told)}"
                         + (f", which doesn't overflow there{plain[told]}" if told in plain else ""))
        if want.startswith("overflow "):
            address, values = right[passed]
            lines.append(f"{'left out' if is_left_out else 'wanted'}: {line_at(self.image, address)}{values}")
        return lines or named(self.image, have or "", want)

    def overflows(self, passed):
        """The words that overflow in a right run, with what they read, up to the second behind so many; and the /V
        words that are executed behind so many overflows without one."""
        made, right, plain = machine.Machine(image_of(self.image), self.completion, self.given), [], {}
        while made.end is None and len(right) < passed + 2:
            pc, word = made.pc, made.word()
            values = exact_text(word, made.regs) if word and word.kind == table.TRIGGER else ""
            if made.step() == "overflow":
                right.append((pc, values))
            elif len(right) == passed:
                plain[pc] = values
        return right, plain


def noted(image, note):
    """The line of the source of an overflow."""
    return line_at(image, int(note.split()[1], 16)) if places is not None and image != "-" else "its word"


def named(image, *notes):
    """The lines of the source that notes name by the address of a word."""
    if places is None or image == "-":
        return []
    found = [re.match(r"(?:fetch|access|align|stop at|signal \d+ at|lost) ([0-9a-f]{16})", note) for note in notes]
    return list(dict.fromkeys(f"{match[1]}: {line_at(image, int(match[1], 16))}" for match in found if match))


def block(image, given):
    """The lines of the block that an input of an image of blocks chooses, up to the next label."""
    if places is None:
        return None
    start = int.from_bytes(given[:8], "little")
    source = source_of(image)
    first = source.lines.get(start)
    if first is None:
        return None
    rest = [text.split("#")[0].strip() for text in source.text[first - 1:]]
    labels = [n for n, text in enumerate(rest) if n and text.endswith(":")]
    end = next((n for n in labels if n <= MOST_OF_BLOCK and rest[n - 1].startswith("br dump")), labels[0] if labels
               else MOST_OF_BLOCK)
    runs = [(text, len(list(same))) for text, same in itertools.groupby(filter(None, rest[:min(end, MOST_OF_BLOCK)]))]
    return f"{image}.s:{first}: " + "; ".join(text + f", {count} times" * (count > 1) for text, count in runs)


def item_lines(image, content, number):
    """Item `number` of a journal, where the machine stands before it, and the report that led there."""
    if places is None:
        return []
    played = playing.Replay(image_of(image), journals.journal_of(content))
    items, report = played.journal.items, []
    if number >= len(items):
        return [f"it has {len(items)} items"]
    for at, item in enumerate(items[:number]):
        pc, mask = played.machine.pc, played.machine.mask
        for _ in range(item[1] if item[0] == journals.UNITS else 1):
            played.make(item)
        if item[0] == journals.REPORT:
            report = [report_text(image, played.machine, at, pc, mask)]
    pending = "" if played.machine.waited is None else f", with a trap pending, mask {played.machine.mask}"
    return [*report,
            f"item {number} is `{journals.item_text(items[number])}` at {line_at(image, played.machine.pc)}{pending}"]


def report_text(image, made, number, pc, mask):
    """What the report of an item did, which was made at an address with a mask."""
    if made.end is not None:
        return f"before it item {number}, the report at {line_at(image, pc)} with mask {mask}, ends the run"
    word = made.words[made.image.place(made.overflowed_at)]
    value = f", whose ${word.rc} gets {made.regs[word.rc]:016x}" if word.rc != 31 else ""
    return (f"before it item {number}, the report at {line_at(image, pc)} with mask {mask}, completes "
            f"{line_at(image, made.overflowed_at)}{value}, and goes on behind that")


def logged(image, content):
    """The addresses of the overflows that a journal's run logs, or None without the companions."""
    if places is None:
        return None
    played, found = playing.Replay(image_of(image), journals.journal_of(content)), []
    report = played.machine.report

    def noted():
        if report() == "overflow":
            found.append(played.machine.overflowed_at)
    played.machine.report = noted
    played.play()
    return found


def shown(at, have, wanted):
    """What a byte of the output of an image of blocks is of, with both values."""
    if at < SHOWN_MEMORY:
        return f"byte {FIRST_SHOWN + at:#x} of the memory is {have[at]:02x}, and {wanted[at]:02x} is wanted"
    start = at // 8 * 8
    values = (int.from_bytes(content[start:start + 8], "little") for content in (have, wanted))
    return "${} is {:016x}, and {:016x} is wanted".format((at - SHOWN_MEMORY) // 8, *values)


def shown_name(at, wanted):
    """What a byte of such an output is of, and its value."""
    if at < SHOWN_MEMORY:
        return f"byte {FIRST_SHOWN + at:#x} of the memory, which is {wanted[at]:02x} in the run"
    start = at // 8 * 8
    return f"${(at - SHOWN_MEMORY) // 8}, which is {int.from_bytes(wanted[start:start + 8], 'little'):016x} in the run"
