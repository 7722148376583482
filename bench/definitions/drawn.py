"""Random code and images, by a chooser (`random.Random`)."""
from .reference import broken_in, image, table

OPCODES = {name: opcode for opcode, name in table.MEMORY.items()}
OPERATES = {name: (opcode, function) for opcode, names in table.OPERATE.items() for function, name in names.items()}
BRANCHES = {name: opcode for opcode, name in table.BRANCH.items()}
TRIGGERS = [name for name in OPERATES if name.endswith("/v")]
PLAIN = [name for name in OPERATES if not name.endswith("/v")]
TRAPB, CALLSYS = 0x63FF0000, 0x83
CODE, DATA, STACK = 0x10000, 0x10000000, 64
EDGES = (0, 1, 2, 3, 7, 8, 31, 32, 63, 127, 128, 255, 1 << 15, (1 << 31) - 1, 1 << 31, (1 << 32) - 1, (1 << 63) - 1,
         1 << 63,
         (1 << 64) - 1, (1 << 64) - (1 << 31), 0x8000000080000000, 0x0123456789ABCDEF, 0xFF00FF00FF00FF00)
LARGE = ((1 << 63) - 1, 1 << 63, (1 << 63) - 5, 0x7FFFFFFF7FFFFFFF, 0x8000000080000000, 0x7000000070000000, 0x80000001)


def memory(name, ra, rb, displacement):
    return OPCODES[name] << 26 | ra << 21 | rb << 16 | displacement & 0xFFFF


def operate(name, ra, rb, rc, literal=None):
    opcode, function = OPERATES[name]
    source = rb << 16 if literal is None else literal << 13 | 1 << 12
    return opcode << 26 | ra << 21 | source | function << 5 | rc


def branch(name, ra, displacement):
    return BRANCHES[name] << 26 | ra << 21 | displacement & 0x1FFFFF


def jump(kind, ra, rb, hint=0):
    return 0x1A << 26 | ra << 21 | rb << 16 | kind << 14 | hint


def number(chooser):
    """A number of 64 bits, often one at an edge."""
    if chooser.random() < 0.5:
        return chooser.choice(EDGES) + chooser.choice((0, 0, 1, -1)) & (1 << 64) - 1
    return chooser.getrandbits(chooser.choice((8, 16, 32, 33, 64)))


def operate_word(chooser, names, registers):
    """A word of one of these instructions over these registers, as the table has it."""
    name = chooser.choice(names)
    ra, rb, rc = (chooser.choice(registers) for _ in range(3))
    literal = chooser.choice((None, chooser.getrandbits(8), chooser.getrandbits(3)))
    if name in table.UNARY:
        ra = 31
    if name in table.LEVEL_TWO:
        literal = None
    return operate(name, ra, rb, rc, 1 if name == "implver" else literal)


def access_word(chooser, registers, names, bases):
    """An access, which mostly goes well where R5 has the data's base and R30 the stack's end; R27 has the code's."""
    name, base = chooser.choice(names), chooser.choice(bases)
    if chooser.random() < 0.06:
        return memory(name, chooser.choice(registers), base, chooser.choice((1, 2, 4, 7, 9, -4, -64, 200)))
    size = 1 if name.endswith("_u") else table.SIZES.get(name, 8)
    displacement = chooser.randrange(40 // size) * size
    return memory(name, chooser.choice(registers), base, displacement - 64 if base == 30 else displacement)


ACCESSES = [name for name in OPCODES if name not in ("lda", "ldah")]
LOOSE = [name for name in ACCESSES if not name.endswith(("_l", "_c"))]


def word(chooser, registers, bases, level=1):
    """A word of any class."""
    kind = chooser.random()
    if kind < 0.2:
        # One whose sources mostly are large, and whose destination is none of them.
        return operate(chooser.choice(TRIGGERS), chooser.choice((1, 2, 3, 4)), chooser.choice((1, 2, 3, 4)),
                       chooser.choice((6, 7, 7)))
    if kind < 0.28:
        return operate_word(chooser, TRIGGERS, registers)
    if kind < 0.52:
        return operate_word(chooser, [name for name in PLAIN if level == 2 or name not in table.LEVEL_TWO], registers)
    if kind < 0.56:
        return memory(chooser.choice(("lda", "ldah")), chooser.choice(registers), chooser.choice(registers),
                      chooser.randrange(-3, 9))
    if kind < 0.76:
        return access_word(chooser, registers, LOOSE, bases)
    if kind < 0.86:
        return access_word(chooser, registers, ACCESSES, bases)
    if kind < 0.90:
        return branch(chooser.choice(list(BRANCHES)), chooser.choice(registers), chooser.choice((0, 0, 1, 1, 2, 3, -2)))
    if kind < 0.91:
        return jump(chooser.randrange(4), chooser.choice(registers), chooser.choice(bases), chooser.getrandbits(14))
    if kind < 0.995:
        return chooser.choice((TRAPB, TRAPB, TRAPB | 0x400, 0x63FF4000, 0x63FF4400, 0x63E88000, 0x63EAA000, 0x86, 0x9E,
                               0x9F))
    return chooser.choice((0x80, 0x81, 0xAA, CALLSYS, 0x9E, 0x9F))


def code(chooser, length, registers=(1, 2, 3, 4, 31), bases=(2, 5, 5, 30)):
    return [word(chooser, registers, bases) for _ in range(length)]


def repaired(words, most=400):
    """The code with barriers before its broken places, and with other words for triggers that none helps; accepted."""
    words = list(words)
    for _ in range(most):
        broken = broken_in(words)
        if not broken:
            return words
        trigger, at, _ = min(broken)
        if at == trigger:
            words[at] = table.without_overflow(words[at])
        else:
            words.insert(at, TRAPB)
    return [TRAPB]


def refused(whole):
    """The image with code behind its own that breaks a condition."""
    return longer(whole, operate("addq/v", 1, 2, 3))


def longer(whole, last):
    """The image with a word behind its own code."""
    return image.Image([*whole.words, last], whole.code_base, whole.entry, whole.segments, whole.stack, whole.level)


def call(chooser):
    """A system call with registers that are set for it: a good one, or one of its errors."""
    which = chooser.choice((3, 3, 4, 4, 4, 5, 1))
    descriptor = chooser.choice((0, 1) if which != 3 else (0, 0, 0, 1))
    descriptor = 1 if which == 4 and chooser.random() < 0.8 else descriptor
    count = chooser.choice((0, 1, 3, 8, 16, 40))
    return [memory("lda", 0, 31, which), memory("lda", 16, 31, descriptor),
            memory("lda", 17, chooser.choice((5, 5, 5, 31)),
            chooser.choice((0, 4, 8))), memory("lda", 18, 31, count), CALLSYS]


def program(chooser, is_accepted, level=1, front=0):
    """An image whose code loads registers from its data and goes on with random words, some of them system calls. So
    many words stand in front of its entry."""
    start = [memory("ldah", 5, 31, 0x1000)] + [memory("ldq", n, 5, 8 * n) for n in (1, 2, 3, 4)]
    body = []
    for _ in range(chooser.randrange(3, 22)):
        body += (call(chooser) if chooser.random() < 0.06
                 else [word(chooser, (1, 2, 3, 4, 6, 6, 7, 7, 8, 8, 31), (5,) * 8 + (30,) * 8 + (27, 27, 2), level)])
    end = [TRAPB] if chooser.random() < 0.9 else []
    end += [memory("lda", 0, 31, 4), memory("lda", 16, 31, 1), operate("bis", 31, 5, 17), memory("lda", 18, 31, 48),
            CALLSYS]
    end += [operate("bis", 31, 1, 16), memory("lda", 0, 31, 1), CALLSYS]
    words = start + body + end
    words = repaired(words) if is_accepted else words
    data = b"".join(chooser.choice((number(chooser), chooser.choice(LARGE))).to_bytes(8, "little") for _ in range(6))
    segments = [image.Segment(DATA, data, chooser.choice((0, 8, 24)))]
    if level == 2 and chooser.random() < 0.5:
        segments.append(image.Segment(DATA + 0x10000, b"\1\2\3", 5))
    return image.Image([TRAPB] * front + words, CODE, CODE + 4 * front, segments, STACK, 0 if level == 1 else 2)


def branching():
    """An accepted image that reads a byte, puts an even one only where that is odd, and ends with it."""
    words = [memory("ldah", 5, 31, 0x1000), memory("lda", 0, 31, 3), memory("lda", 16, 31, 0),
             operate("bis", 31, 5, 17), memory("lda", 18, 31, 1), CALLSYS, memory("ldq", 1, 5, 0),
             branch("blbc", 1, 5), memory("lda", 0, 31, 4), memory("lda", 16, 31, 1), memory("lda", 17, 5, 8),
             memory("lda", 18, 31, 1), CALLSYS,
             operate("bis", 31, 1, 16), memory("lda", 0, 31, 1), CALLSYS]
    return image.Image(words, CODE, CODE, [image.Segment(DATA, bytes(8) + b"B")], STACK, 0)
