"""The words that run before a program under Linux: they make the registers of the product's start, and may set a
handler.

Numbers of calls and of signals are those of Linux for alpha, and so are the layouts of its `sigaction`, `stack_t` and
`sigcontext`.
"""
import struct

from . import table

OPCODES = {name: opcode for opcode, name in table.MEMORY.items()}
CALLSYS, GENTRAP, BIS, BEQ, JUMP = 0x83, 0xAA, 0x47E00400, 0x39, 0x1A
RET = 2
SIGACTION, SIGRETURN, SIGALTSTACK = 352, 103, 235
SIGFPE, ON_STACK, SET_BYTES = 8, 1, 8
# Where a signal's context has the address of the word behind the one that trapped.
CONTEXT_PC = 16
TOP_OF_STACK = 1 << 30


class Words:
    """Words from an address on."""

    def __init__(self, base):
        self.base, self.words = base, []

    def here(self):
        return self.base + 4 * len(self.words)

    def quadwords(self, *values):
        """Data; its address."""
        at = self.here()
        self.words += struct.unpack(f"<{2 * len(values)}I", struct.pack(f"<{len(values)}Q", *values))
        return at

    def memory(self, name, register, displacement, by=31):
        self.words.append(OPCODES[name] << 26 | register << 21 | by << 16 | displacement & 0xFFFF)

    def move(self, source, target):
        self.words.append(BIS | source << 16 | target)

    def number(self, value, register):
        """A number from 0 up, below 2^31 - 2^15."""
        self.memory("ldah", register, value + 0x8000 >> 16)
        self.memory("lda", register, value, register)

    def jump(self, by, kind=0):
        self.words.append(JUMP << 26 | 31 << 21 | by << 16 | kind << 14)

    def call(self, number):
        self.memory("lda", 0, number)
        self.words.append(CALLSYS)

    def spelled(self):
        return struct.pack(f"<{len(self.words)}I", *self.words)


def stub(base, entry, stack=None):
    """The bytes to stand at a base, and the address in them where a program begins. With a stack for it, as (its base,
    its size), they set a handler of SIGFPE."""
    words = Words(base)
    if stack is None:
        start = words.here()
    else:
        start = set_handler(words, *stack)
    words.number(entry, 27)
    words.memory("ldah", 30, TOP_OF_STACK >> 16)
    for register in range(30):
        if register != 27:
            words.move(31, register)
    words.jump(27)
    return words.spelled(), start


def set_handler(words, low, size):
    """Lays the handler and the words that set it; the address of these. They go on to what comes behind them."""
    own_stack = words.quadwords(low, 0, size)
    default = words.quadwords(0, 0, 0)
    restorer = words.here()
    words.move(30, 16)
    words.call(SIGRETURN)
    handler = words.here()
    handle(words, default, restorer)
    action = words.quadwords(handler, ON_STACK, 0)
    start = words.here()
    words.number(own_stack, 16)
    words.move(31, 17)
    words.call(SIGALTSTACK)
    set_action(words, action, restorer)
    return start


def handle(words, default, restorer):
    """The handler: it goes on behind the word that overflowed, whose result is there already. A gentrap sends the same
    signal, and ends the program: it runs once more, with the signal's default action."""
    words.memory("ldq", 1, CONTEXT_PC, 18)
    words.memory("ldl", 2, -4, 1)
    words.memory("lda", 2, -GENTRAP, 2)
    words.words.append(BEQ << 26 | 2 << 21 | 1)
    words.jump(26, RET)
    words.memory("lda", 1, -4, 1)
    words.memory("stq", 1, CONTEXT_PC, 18)
    set_action(words, default, restorer)
    words.jump(26, RET)


def set_action(words, action, restorer):
    words.memory("lda", 16, SIGFPE)
    words.number(action, 17)
    words.move(31, 18)
    words.memory("lda", 19, SET_BYTES)
    words.number(restorer, 20)
    words.call(SIGACTION)
