"""Further images: two faults of each pair of rules, segments whose sizes are odd, words that differ in one bit from one
of the table, and what a run begins with."""
import itertools

from parts import table
from .images import (BASE, CALLSYS, DATA, EXIT, LDQ, MOST_DATA, MOST_WORDS, NOP, OPCODES, PAGE, TOP, Segment, field,
                     first, memory, put, reached, row, second)

# What breaks each field of an image of version 2 with one segment: offset, number, size.
BROKEN = {1: (8, 1, 8), 2: (40, 1, 8), 3: (24, 0, 4), 4: (48, MOST_DATA + 1, 4), 5: (52, MOST_DATA + 1, 4),
          6: (28, 8, 4),
          7: (16, 1, 8), 8: (40, BASE, 8), 9: (32, 3, 4), 10: (36, 9, 4)}
# ldah $1,0x1000($31); ldq $16,0($1); lda $0,1($31); callsys
LOADED = [0x243F1000, 0xA6010000, EXIT[0], CALLSYS]
# lda $0,4($31); lda $16,1($31); lda $18,0($31); callsys
WRITE = [0x201F0004, 0x221F0001, 0x225F0000, CALLSYS]


def pairs():
    """Two bad fields: the least is told, but for field 10."""
    good = second(segments=[Segment(DATA, b"x")])
    for (one, first), (other, last) in itertools.combinations(BROKEN.items(), 2):
        if first[0] == last[0]:
            continue
        told = 10 if other == 10 else one
        yield row(f"pair-{one}-{other}", put(put(good, *first), *last), f"bad fields {one} and {other}", field(told))
    two = second(segments=[Segment(PAGE), Segment(DATA)])
    yield row("both-4-5-second", put(put(two, 52, MOST_DATA + 1), 64, MOST_DATA + 1),
              "too many zeroed bytes of the first segment, and too many data bytes of the second", field(4))


def overlaps():
    """A segment that goes on into a later one, over empty ones between them."""
    for first, last in itertools.combinations(range(8), 2):
        parts = [Segment(DATA + n * PAGE, zeroed=(last - first) * PAGE + 1 if n == first else n == last)
                 for n in range(8)]
        yield row(f"overlap-{first}-{last}", second(segments=parts),
                  f"segment {first} of eight goes on into segment {last}", field(8))
        parts[first] = Segment(DATA + first * PAGE, zeroed=(last - first) * PAGE)
        if last == first + 1:
            yield row(f"touching-{first}-{last}", second(segments=parts),
                      f"segment {first} of eight ends where segment {last} begins")


def within():
    """A segment of each place and size beside the code, the stack and another segment, in pages: before it, over its
    ends, within it and around it."""
    for place, size in itertools.product(range(-2, 4), (0, 1, *(n * PAGE + more for n in range(1, 6)
                                                                for more in (0, 1)))):
        is_shared = size > 0 and place < 3 and place * PAGE + size > 0
        told, answer = f"{size} bytes {place} pages from", field(8) if is_shared else None
        code = [*EXIT, *[NOP] * (6_144 - len(EXIT))]
        yield row(f"beside-code-{place}-{size}",
                  first(code, base=4 * PAGE, segment=Segment((4 + place) * PAGE, zeroed=size)),
                  f"a segment of {told} a code of three pages", answer)
        other = Segment(DATA, zeroed=3 * PAGE)
        if place > 0:
            yield row(f"beside-segment-{place}-{size}",
                      second(segments=[other, Segment(DATA + place * PAGE, zeroed=size)]),
                      f"a segment of {told} one of three pages", answer)
        if place * PAGE + size <= 3 * PAGE and place < 3:
            yield row(f"beside-stack-{place}-{size}",
                      first(segment=Segment(TOP + (place - 3) * PAGE, zeroed=size), stack=3 * PAGE),
                      f"a segment of {told} a stack of three pages", answer)
    for place, count in itertools.product(range(-2, 3), range(1, 6)):
        if place + count <= 3:
            code = [*EXIT, *[NOP] * (2_048 * count - len(EXIT))]
            yield row(f"beside-stack-code-{place}-{count}",
                      first(code, base=TOP + (place - 3) * PAGE, stack=3 * PAGE),
                      f"a code of {count} pages {place} pages from a stack of three",
                      field(8) if place + count > 0 else None)


def odd_sizes():
    """Data and zeroed bytes of all small sizes, of which the first eight are the exit value."""
    for count in range(10):
        data = bytes(0x81 + n for n in range(count))
        for zeroed in (7, 8, 15):
            if count + zeroed >= 8:
                yield row(f"sizes-{count}-{zeroed}", second(LOADED, segments=[Segment(DATA, data, zeroed)]),
                          f"{count} data bytes and {zeroed} zeroed ones")


def distant():
    """Words whose places differ in one bit, behind a write of no bytes and before one of four."""
    words, base = [NOP] * MOST_WORDS, 0x20
    places = [base, *(base ^ 1 << bit for bit in range(2, 18) if bit != 5)]
    for number, place in enumerate(places, 1):
        # s4addq $15,number,$15; ret $31,($26)
        words[place:place + 2] = [0x41E0144F | number << 13, 0x6BFA8000]
    start = 0x140
    words[0] = 0xC3E00000 | start - 1
    # ldah $17,1($31), and a write of four bytes of the code
    code = [0x263F0001, *WRITE[:2], 0x225F0004, CALLSYS, *["call"] * (2 * len(places)), 0x45FF0410, EXIT[0], CALLSYS]
    called = iter([*places, *places[::-1]])
    for at, word in enumerate(code, start):
        words[at] = 0xD3400000 | next(called) - at - 1 & 0x1FFFFF if word == "call" else word
    yield row("distant-behind", second(words), "words of 262,144 whose places differ in one bit, twice, behind a write")


# ---- words

def words_of_table():
    """A word of each instruction some of whose bits the table fixes, by its name."""
    found = {}
    for opcode, names in table.OPERATE.items():
        for function, name in names.items():
            first_register = 31 if name in table.UNARY else 1
            second_field = 1 << 13 | 1 << 12 if name == "implver" else 2 << 16
            found[name] = opcode << 26 | first_register << 21 | second_field | function << 5 | 3
    for function, name in {**table.BARRIERS, **table.ORDERS}.items():
        found[name] = 0x63FF0000 | function
    found |= {name: 0x63E10000 | function for function, name in table.FETCHES.items()}
    return found | {name: function for function, name in table.PAL.items()}


def near_words():
    """Words outside the table that differ in one bit from one of it; and unknown opcodes with all registers R31."""
    told = {}
    for name, word in words_of_table().items():
        for bit in range(26):
            if table.insn_of(word ^ 1 << bit) is None:
                told.setdefault(word ^ 1 << bit, f"{name.replace('/', '-')}-{bit}")
    told |= {opcode << 26 | 0x03FF001F: f"opcode-{opcode:02x}" for opcode in OPCODES}
    told |= {0x5FFF041F: "fnop", 0x63FFC000: "rpcc"}
    for word, name in told.items():
        yield row(f"near-{name}", second([*EXIT, word], level=2), f"the word {word:08x}, which the table hasn't",
                  f"image kind 5 first 3 second {word}")


def bits_of(count):
    """No bit of a field, all, each alone, and all others."""
    every = (1 << count) - 1
    return [0, every, *[1 << bit for bit in range(count)], *[every ^ 1 << bit for bit in range(count)]]


def words_that_are():
    """Words of the table, with fields of all kinds."""
    registers = (0, 1, 2, 16, 30, 31)
    for opcode, functions in table.OPERATE.items():
        for function in functions:
            for first_register, third in itertools.product(registers, registers):
                word = opcode << 26 | first_register << 21 | function << 5 | third
                yield from (word | other << 16 for other in registers)
                if first_register in (1, 31) and third in (3, 30, 31):
                    yield from (word | 1 << 12 | literal << 13 for literal in bits_of(8))
    for opcode in table.MEMORY:
        for one, other in itertools.product((0, 1, 31), (1, 30, 31)):
            yield from (opcode << 26 | one << 21 | other << 16 | number for number in bits_of(16))
    for opcode in table.BRANCH:
        for register in (1, 31):
            yield from (opcode << 26 | register << 21 | number for number in bits_of(21))
    for one, other in itertools.product(registers, registers):
        yield from (0x1A << 26 | one << 21 | other << 16 | number for number in bits_of(16))
    for function in (*table.BARRIERS, *table.ORDERS, *table.FETCHES):
        yield from (0x63E00000 | other << 16 | function for other in range(32))
    yield from table.PAL


def taken():
    """Images of very many words of the table, which aren't run."""
    words = [word for word in dict.fromkeys(words_that_are()) if table.insn_of(word) is not None]
    for level in (1, 2):
        some = [word for word in words if table.level_of([word]) <= level]
        yield row(f"words-taken-{level}", second([0xC3E00000 | len(some), *some, *EXIT], level=level),
                  f"{len(some):,} words of the table at level {level}, which a branch goes over")


# ---- segments

def segments():
    """As many segments as may be and one more, sums that 32 bits don't hold, and no segment."""
    nine = [Segment(DATA + n * PAGE, b"x") for n in range(9)]
    yield row("segments-9-whole", second(segments=nine), "nine segments, all of which are there", field(10))
    for more in (0, 16, PAGE):
        parts = [Segment(n * PAGE, zeroed=TOP - n * PAGE) for n in range(4)]
        parts.append(Segment(4 * PAGE, zeroed=6 * PAGE + more))
        yield row(f"zeroed-sum-{more}", second(base=TOP - PAGE, segments=parts),
                  f"zeroed bytes of five segments, whose sum is {more} in 32 bits", field(5))
    for name, base, count in (("on", TOP - 65_536, 3), ("into", TOP - 65_536 - PAGE, 2_049)):
        yield row(f"overlap-none-{name}", second([NOP] * (count - 3) + EXIT, base=base),
                  "code that shares an address with the stack, and no segment", field(8))
    for size in (255, 256, 257, 4_096, 4_097, 8_191, 8_192, 8_193, 65_535, 65_536, 65_537, 70_001):
        data = bytes(n * 7 % 251 + 1 for n in range(size))
        code = reached(DATA + size - 1, memory(0x0A, 16, 1))
        yield row(f"data-{size}", first(code, segment=Segment(DATA, data, 5)),
                  f"{size:,} data bytes, of which the last is the exit value")
        yield row(f"data-second-{size}", second(code, segments=[Segment(DATA - PAGE, b"ab"), Segment(DATA, data)]),
                  f"{size:,} data bytes of a second segment, of which the last is the exit value")


def over_ends():
    """Accesses whose first bytes lie in a region of few bytes, and the others behind it."""
    opcodes = {name: opcode for opcode, name in table.MEMORY.items() if name not in ("lda", "ldah")}
    for name, opcode in opcodes.items():
        size = table.SIZES.get(name, 8)
        for count in range(1, 16):
            if count % size:
                data = bytes(range(1, count // 2 + 1))
                yield row(f"over-{name}-{count}",
                          second(reached(DATA + count // size * size, memory(opcode, 16, 1)),
                                 segments=[Segment(DATA, data, count - len(data))]),
                          f"`{name}` over the end of a segment of {count} bytes")


# ---- the start

def starts():
    """What registers and the lock flag have at the start, by images of both versions, levels and numbers of
    segments."""
    all_others = [0x47F00410, *[0x46000410 | n << 16 for n in range(30) if n not in (16, 27)]]
    told = {"others": (all_others, "all registers but $27 and $30 are 0 at the start"),
            "27": ([NOP, 0x47FB0410], "$27 is the entry at the start"),
            "30": ([0x47FE0410], "$30 is 2^30 at the start")}
    for name, (code, about) in told.items():
        code = [*code, EXIT[0], CALLSYS]
        yield row(f"start-{name}", first(code), f"{about}, by version 1")
        yield row(f"start-{name}-later", first([NOP, NOP, *code], entry=BASE + 8), f"{about}, by a later entry")
        for count, level in itertools.product((0, 1, 8), (1, 2)):
            parts = [Segment(DATA + n * PAGE, b"x") for n in range(count)]
            for later in (0, 1):
                yield row(f"start-{name}-{count}-{level}-{later}",
                          second([NOP] * later + code, entry=BASE + 4 * later, segments=parts, level=level,
                                 stack=1 << 20 if later else 16),
                          f"{about}, with {count} segments at level {level}")
    # lda $1,5($31); stl_c or stq_c $1 to an address; then $1, or the bytes, are the exit value
    for name, opcode in (("stl_c", 0x2E), ("stq_c", 0x2F)):
        for count, address in itertools.product((1, 2, 3, 8), (0, 8, 16)):
            parts = [Segment(n * PAGE, zeroed=32) for n in range(count)]
            for what, last in (("register", 0x47E10410), ("memory", memory(LDQ, 16, 31, address))):
                yield row(f"start-{name}-{what}-{count}-{address}",
                          second([0x203F0005, memory(opcode, 1, 31, address), last, EXIT[0], CALLSYS], base=BASE * 4,
                                 segments=parts),
                          f"the lock flag is clear at the start: `{name}` to address {address}, of {count} segments")


def rows():
    for part in (pairs, overlaps, within, odd_sizes, distant, near_words, taken, segments, over_ends, starts):
        yield from part()
