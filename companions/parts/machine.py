"""A model of both machines, by docs/machines.md: the sequential one, and the one whose traps come late.

It repeats what crates/alpha_seq, alpha_trap and alpha_imprecise define. Whoever shows something by it holds it against
the program's verdicts, and the test holds its runs against the program's. What an operate instruction gives are the
functions of bench/worked.py, which are held against measured results.
"""
import os
import sys
from collections import namedtuple

from . import files, table
from .image import MOST_DATA

sys.path.insert(0, os.path.join(files.TOP, "bench"))
from worked import OPERATES  # noqa: E402  (behind the path)

MASK, TOP_OF_STACK, MOST_WAITED, MOST_STACK = (1 << 64) - 1, 1 << 30, 1_024, 1_048_576
SIGNALS = {"bpt": 0, "bugchk": 1, "gentrap": 2}
NO_CALL, BAD_DESCRIPTOR, BAD_RANGE = 78, 9, 14
TESTS = {"eq": lambda value: value == 0, "ne": lambda value: value != 0, "lt": lambda value: value >> 63 == 1,
         "le": lambda value: value >> 63 == 1 or value == 0, "gt": lambda value: value >> 63 == 0 and value != 0,
         "ge": lambda value: value >> 63 == 0, "lbs": lambda value: value & 1 == 1, "lbc": lambda value: value & 1 == 0}
# A word: its instruction as shadows see it, and its fields. `literal` is None where there is a register in its place.
Word = namedtuple("Word", "insn name kind ra rb rc literal displacement")
Region = namedtuple("Region", "base content is_writable")


def word_of(number):
    insn = table.insn_of(number)
    if insn is None:
        raise files.Refused(f"{number:08x} is no word of the instruction table")
    literal = number >> 13 & 0xFF if number >> 12 & 1 and number >> 26 in table.OPERATE else None
    bits = 21 if number >> 26 in table.BRANCH else 16
    displacement = (number & (1 << bits) - 1 ^ 1 << bits - 1) - (1 << bits - 1)
    return Word(insn, insn.name, insn.kind, number >> 21 & 31, number >> 16 & 31, number & 31, literal, displacement)


class Machine:
    """A program at the start. `end` is None, or how it has ended: a name of journal.ENDINGS and two numbers. `waited`
    is None where no trap is pending, else how many words were executed since its trigger; `mask` has the trap's
    registers."""

    def __init__(self, image, completion, given):
        if (sum(len(one.data) + one.zeroed for one in image.segments) > MOST_DATA or image.stack > MOST_STACK
            or image.level > 2):
            raise files.Refused("it is no image: its level is above 2, or its data or its stack has more bytes than "
                                "one may have")
        known = {number: word_of(number) for number in set(image.words)}
        self.words = [known[number] for number in image.words]
        self.image, self.completion, self.level = image, completion, image.level or 1
        self.regs, self.pc = [0] * 32, image.entry
        self.regs[27], self.regs[30] = image.entry, TOP_OF_STACK
        self.unique, self.lock = 0, None
        self.given, self.taken, self.put = given, 0, bytearray()
        code = b"".join(number.to_bytes(4, "little") for number in image.words)
        self.regions = [Region(image.code_base, bytearray(code), False)]
        self.regions += [Region(one.base, bytearray(one.data) + bytearray(one.zeroed), True) for one in image.segments]
        self.regions.append(Region(TOP_OF_STACK - image.stack, bytearray(image.stack), True))
        self.end = self.waited = None
        self.mask = 0
        self.overflowed_at = None

    # ---- what the next step would do

    def word(self):
        """The word at the PC, None where there is none."""
        place = self.image.place(self.pc)
        return None if place is None else self.words[place]

    def operands(self, word):
        return self.regs[word.ra], self.regs[word.rb] if word.literal is None else word.literal, self.regs[word.rc]

    def result(self, word):
        """What a /V word gives by `wrap` and by `saturate`, and whether it overflows."""
        return OPERATES[word.name][0](*self.operands(word), self.level)

    def overflows(self):
        word = self.word()
        return word is not None and word.kind == table.TRIGGER and self.result(word)[2]

    def address(self, word):
        address = self.regs[word.rb] + word.displacement & MASK
        return address & ~7 if word.name.endswith("_u") else address

    def region(self, address, count, is_store):
        """The region in which all of these bytes lie, or None."""
        for region in self.regions:
            if region.base <= address and address + count <= region.base + len(region.content):
                return region if region.is_writable or not is_store else None
        return None

    def fault(self, word):
        """How the word would end the program by its access, None where it makes none or where it goes well."""
        if word.insn.span is None:
            return None
        address, size = self.address(word), table.SIZES.get(word.name, 8)
        if address % size:
            return "align", self.pc, address
        if self.region(address, size, word.name.startswith("st")) is None:
            return "access", self.pc, address
        return None

    def must_report(self):
        """Why a pending trap can't wait for the word at the PC, or None."""
        word = self.word()
        if word is None:
            return "there is no code at the PC"
        if word.kind == table.BARRIER:
            return "the word is a barrier"
        if self.fault(word) is not None:
            return "the word's access would fault"
        return f"{MOST_WAITED} words have been executed since the trigger" if self.waited >= MOST_WAITED else None

    # ---- a step with nothing pending

    def step(self):
        """Makes a step, with an overflow completed at once. It answers `barrier`, `overflow`, `ended` or `went`."""
        word = self.word()
        if word is None:
            return self.ends("fetch", self.pc)
        if word.kind == table.BARRIER:
            return self.barrier(word)
        fault = self.fault(word)
        if fault is not None:
            return self.ends(*fault)
        if word.kind == table.TRIGGER and self.result(word)[2]:
            return self.overflow(word)
        self.execute(word)
        return "went"

    def ends(self, name, first, second=0):
        self.end = name, first, second
        return "ended"

    def set(self, register, value):
        if register != 31:
            self.regs[register] = value & MASK

    def overflow(self, word):
        if self.completion == "stop":
            return self.ends("overflow", self.pc)
        self.complete(self.image.place(self.pc))
        return "overflow"

    def complete(self, place):
        """Completes the /V word of a place by the registers as they are, and goes on behind it."""
        word = self.words[place]
        self.set(word.rc, self.result(word)[1 if self.completion == "saturate" else 0])
        self.overflowed_at, self.lock = self.image.address(place), None
        self.pc = self.overflowed_at + 4

    def execute(self, word):
        """A word that neither faults nor overflows nor is a barrier."""
        if word.kind in (table.LOAD, table.STORE, table.LOCKED):
            self.access(word)
        elif word.kind == table.TURN:
            self.turn(word, self.pc + 4)
            return
        elif word.name in ("lda", "ldah"):
            self.set(word.ra, self.regs[word.rb] + word.displacement * (65_536 if word.name == "ldah" else 1))
        elif word.kind == table.TRIGGER:
            self.set(word.rc, self.result(word)[0])
        elif word.name in OPERATES:
            self.set(word.rc, OPERATES[word.name][0](*self.operands(word), self.level))
        self.pc = self.pc + 4 & MASK

    def access(self, word):
        address, size = self.address(word), table.SIZES.get(word.name, 8)
        if word.name.endswith("_c"):
            is_stored = self.lock == address // 16
            if is_stored:
                self.store(address, size, self.regs[word.ra])
            self.set(word.ra, int(is_stored))
            self.lock = None
        elif word.name.startswith("st"):
            self.store(address, size, self.regs[word.ra])
        else:
            value = int.from_bytes(self.bytes_at(address, size), "little")
            self.set(word.ra, value - (value >> 31 << 32) if size == 4 else value)
            self.lock = address // 16 if word.kind == table.LOCKED else self.lock

    def bytes_at(self, address, count):
        region = self.region(address, count, False)
        return bytes(region.content[address - region.base:address - region.base + count])

    def store(self, address, size, value):
        self.store_bytes(address, (value & (1 << 8 * size) - 1).to_bytes(size, "little"))

    def store_bytes(self, address, content):
        region = self.region(address, len(content), True)
        region.content[address - region.base:address - region.base + len(content)] = content

    def turn(self, word, left):
        """A branch or a jump, which leaves a value in its register if it has one."""
        target = self.pc + 4 + 4 * word.displacement & MASK
        if word.name in table.JUMP:
            target = self.regs[word.rb] & ~3
        elif word.name not in ("br", "bsr") and not TESTS[word.name[1:]](self.regs[word.ra]):
            target = self.pc + 4 & MASK
        if word.name in table.JUMP or word.name in ("br", "bsr"):
            self.set(word.ra, left)
        self.pc = target

    # ---- barriers

    def barrier(self, word):
        if word.name in SIGNALS:
            return self.ends("signal", SIGNALS[word.name], self.pc)
        if word.name == "callsys":
            if self.regs[0] == 1:
                return self.ends("exit", self.regs[16])
            self.call()
            self.lock = None
        elif word.name == "rdunique":
            self.set(0, self.unique)
        elif word.name == "wrunique":
            self.unique = self.regs[16]
        self.pc = self.pc + 4 & MASK
        return "barrier"

    def call(self):
        """The system calls read and write, and the errors."""
        number, descriptor, address, count = self.regs[0], *self.regs[16:19]
        error = None
        if number not in (3, 4):
            error = NO_CALL
        elif descriptor != (0 if number == 3 else 1):
            error = BAD_DESCRIPTOR
        elif count and self.region(address, count, number == 3) is None:
            error = BAD_RANGE
        if error is None and number == 3:
            count = min(count, len(self.given) - self.taken)
        self.set(0, count if error is None else error)
        self.set(19, 0 if error is None else 1)
        if error is not None or count == 0:
            return
        if number == 3:
            self.store_bytes(address, self.given[self.taken:self.taken + count])
            self.taken += count
        else:
            self.put += self.bytes_at(address, count)

    # ---- late traps

    def trigger(self, value):
        """The word at the PC overflows: its destination gets any value, and the trap is pending."""
        word = self.word()
        self.mask, self.waited = table.bit(word.rc), 0
        self.set(word.rc, value)
        self.pc = self.pc + 4 & MASK

    def wait(self, adds, value):
        """Executes the word at the PC while the trap is pending. What it writes may be any value."""
        word = self.word()
        self.waited += 1
        self.mask |= word.insn.sets if adds else 0
        if word.kind == table.TURN:
            self.turn(word, value)
            return
        if word.kind in (table.STORE, table.LOCKED):
            self.spoil(word, value)
        if word.insn.sets:
            self.set(word.insn.sets.bit_length() - 1, value)
        self.pc = self.pc + 4 & MASK

    def spoil(self, word, value):
        """The bytes of a store, and the lock flag."""
        address, size = self.address(word), table.SIZES.get(word.name, 8)
        if word.kind == table.STORE or word.name.endswith("_c") and self.lock == address // 16:
            self.store(address, size, value)
        if word.kind == table.LOCKED:
            self.lock = None if word.name.endswith("_c") else address // 16

    def report(self):
        """Reports the pending trap. It answers `overflow`, or `ended` where the trap is lost or the program stops."""
        place = self.scan()
        if place is None:
            return self.ends("lost", self.pc, self.mask)
        self.waited = None
        if self.completion == "stop":
            self.pc = self.image.address(place)
            return self.ends("overflow", self.pc)
        self.complete(place)
        return "overflow"

    def scan(self):
        """The greatest place before the PC that has /V, so that each register of the mask is the destination of it or
        of a /V word behind it, with no barrier and no turn between; or None."""
        end = self.image.address(len(self.words))
        place, found = len(self.words) if self.pc == end else self.image.place(self.pc), 0
        if place is None or self.mask == 0:
            return None
        for at in range(place - 1, -1, -1):
            insn = self.words[at].insn
            if insn.kind in (table.BARRIER, table.TURN):
                return None
            if insn.kind == table.TRIGGER:
                found |= insn.sets
                if not self.mask & ~found:
                    return at
        return None
