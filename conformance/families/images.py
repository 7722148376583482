"""Images at the edge of the rules of docs/images.md, on both sides."""
import struct

from parts.image import Image, Segment
from .blocks import STEPS, Row

BASE, DATA, TOP, PAGE = 0x10000, 0x10000000, 1 << 30, 8_192
NOP, TRAPB, CALLSYS = 0x47FF041F, 0x63FF0000, 0x83
# lda $0,1($31); lda $16,7($31); callsys
EXIT = [0x201F0001, 0x221F0007, CALLSYS]
CTPOP = 0x73E10603
MOST_WORDS, MOST_DATA, MOST_STACK = 262_144, 16_777_216, 1_048_576


def row(name, content, about, answer=None):
    """A case: bytes that are no image, by what is told of them, or an image, which is run."""
    return Row(f"images.{name}", "image", "-", "wrap", STEPS, content, None, answer=answer, about=about)


def field(number):
    return f"image kind 3 first {number} second 0"


def first(words=None, base=BASE, entry=None, segment=None, stack=65_536):
    """The bytes of an image of version 1."""
    return Image(EXIT if words is None else words, base, base if entry is None else entry, [segment or Segment(DATA)],
                 stack).spelled()


def second(words=None, base=BASE, entry=None, segments=(), stack=65_536, level=1):
    """The bytes of an image of version 2."""
    kept = Image(EXIT if words is None else words, base, base if entry is None else entry, list(segments), stack,
                 1).spelled()
    return put(kept, 32, level)


def put(whole, at, value, size=4):
    return whole[:at] + value.to_bytes(size, "little") + whole[at + size:]


def bases():
    for number, base in enumerate((1, 4, 4_096, PAGE - 1, BASE + 16, BASE + 4_096, TOP, TOP + PAGE, 1 << 32,
                                   (1 << 32) + BASE, (1 << 63) + BASE, (1 << 64) - PAGE)):
        yield row(f"code-base-{number}", first(base=base), f"the code base {base:#x}", field(1))
        yield row(f"code-base-second-{number}", second(base=base), f"the code base {base:#x}, by version 2", field(1))
        yield row(f"data-base-{number}", first(segment=Segment(base)), f"the data base {base:#x}", field(2))
        yield row(f"data-base-second-{number}", second(segments=[Segment(PAGE), Segment(base)]),
                  f"the base {base:#x} of a second segment", field(2))
    for name, one, other in (("same", DATA, DATA), ("below", DATA, DATA - PAGE), ("zero", PAGE, 0)):
        yield row(f"order-{name}", second(segments=[Segment(one), Segment(other)]),
                  f"a segment at {other:#x} behind one at {one:#x}", field(2))
    yield row("order-third", second(segments=[Segment(DATA), Segment(DATA + 2 * PAGE), Segment(DATA + PAGE)]),
              "the third segment is below the second", field(2))
    yield row("code-at-0", first(base=0), "the code base 0")
    yield row("code-at-top", first(base=TOP - 2 * PAGE, stack=PAGE),
              "code that ends directly before the stack, but for some words")
    yield row("data-at-0", first([0xA43F0000, *EXIT], segment=Segment(0, b"12345678")),
              "a segment at address 0, which is loaded from")
    yield row("order-good", second(segments=[Segment(0), Segment(PAGE), Segment(DATA)]),
              "three segments in their order")


def sizes():
    for count in (0, MOST_WORDS + 1, 1 << 24, (1 << 32) - 1, 1 << 31):
        yield row(f"words-{count}", put(first(), 32, count), f"{count:,} code words", field(3))
        yield row(f"words-second-{count}", put(second(), 24, count), f"{count:,} code words, by version 2", field(3))
    yield row("code-over-top", put(first(base=TOP - PAGE), 32, 2_049), "code that ends above 2^30", field(3))
    yield row("code-to-top", put(first(base=TOP - PAGE), 32, 2_048), "code that ends at 2^30, where the stack is",
              field(8))
    far = [0xC3E00000 + MOST_WORDS - 4, *[NOP] * (MOST_WORDS - 4), *EXIT]
    yield row("words-most", first(far), "262,144 code words, and a branch to the last three")
    for number, (data, zeroed) in enumerate(((MOST_DATA + 1, 0), (1 << 31, 0), ((1 << 32) - 1, 0))):
        yield row(f"data-bytes-{number}", put(first(), 36, data), f"{data:,} data bytes", field(4))
        yield row(f"data-bytes-second-{number}", put(second(segments=[Segment(PAGE), Segment(DATA)]), 64, data),
                  f"{data:,} data bytes in a second segment", field(4))
    for number, (data,
                 zeroed) in enumerate(((0, MOST_DATA + 1), (1, MOST_DATA), (MOST_DATA, 1), (0, (1 << 32) - 1),
                                       (1, (1 << 32) - 1), (16, 1 << 31))):
        yield row(f"zeroed-{number}", put(put(first(), 36, data), 40, zeroed),
                  f"{data:,} data bytes and {zeroed:,} zeroed ones", field(5))
    shared = [Segment(DATA, zeroed=6_000_000), Segment(DATA + (1 << 24), zeroed=6_000_000),
              Segment(DATA + (1 << 25), zeroed=4_777_217)]
    yield row("zeroed-together", second(segments=shared), "16,777,217 zeroed bytes of three segments together",
              field(5))
    wide = [Segment(DATA, zeroed=(1 << 32) - 1), Segment(DATA + (1 << 24), zeroed=1)]
    yield row("zeroed-sum", second(segments=wide), "zeroed bytes whose sum is 0 in 32 bits", field(5))
    for zeroed, answer in ((PAGE + 1, field(5)), (PAGE, field(8))):
        yield row(f"zeroed-top-{zeroed}", first(segment=Segment(TOP - PAGE, zeroed=zeroed)),
                  f"{zeroed:,} zeroed bytes in the last page below 2^30", answer)
    yield row("data-top", first(segment=Segment(TOP - PAGE, b"x" * 8_000, 193)),
              "data and zeroed bytes that end above 2^30", field(5))
    # lda $1,-1($31); ldah $2,0x1100($31); stb $1,-1($2); ldbu $16,-1($2); lda $0,1($31); callsys
    last = [0x203FFFFF, 0x245F1100, 0x3822FFFF, 0x2A02FFFF, 0x201F0001, CALLSYS]
    yield row("zeroed-most", first(last, segment=Segment(DATA, zeroed=MOST_DATA)),
              "16,777,216 zeroed bytes, of which the last is stored and loaded")
    yield row("data-most", first(last, segment=Segment(DATA, bytes(MOST_DATA))),
              "16,777,216 data bytes, of which the last is stored and loaded")
    for stack in (0, 1, 8, 15, 17, 24, 65_535, 65_544, MOST_STACK + 1, MOST_STACK + 16, 1 << 31, (1 << 32) - 16):
        yield row(f"stack-{stack}", first(stack=stack), f"a stack of {stack:,} bytes", field(6))
        yield row(f"stack-second-{stack}", second(stack=stack), f"a stack of {stack:,} bytes, by version 2", field(6))
    # ldq_u $16,-16($30) or its like; then lda $0,1($31); callsys
    yield row("stack-least", first([0xA61EFFF0, *EXIT[:1], CALLSYS], stack=16),
              "a stack of 16 bytes, of which the lowest are loaded")
    yield row("stack-under", first([0xA61EFFE8, *EXIT[:1], CALLSYS], stack=16),
              "and those below them, which are nowhere")
    # ldah $1,-16($30); stq $1,0($1); ldq $16,0($1)
    yield row("stack-most", first([0x243EFFF0, 0xB4210000, 0xA6010000, EXIT[0], CALLSYS], stack=MOST_STACK),
              "the largest stack, at its lowest address")
    yield row("stack-most-under", first([0x243EFFF0, 0xB421FFF8], stack=MOST_STACK), "and below it")


def entries():
    for number, distance in enumerate((-4, 1, 2, 3, 12, 16, -PAGE, 1 << 32, (1 << 64) - BASE)):
        entry = (BASE + distance) % (1 << 64)
        yield row(f"entry-{number}", first(entry=entry), f"the entry {entry:#x} of three words at {BASE:#x}", field(7))
        yield row(f"entry-second-{number}", second(entry=entry), f"the entry {entry:#x}, by version 2", field(7))
    yield row("entry-last", first([*EXIT, 0x80], entry=BASE + 12), "the last word is the entry")
    yield row("entry-middle", second([0x80, 0x221F0009, *EXIT], entry=BASE + 8), "the third word is the entry")


def overlaps():
    told = {"code-data": dict(segment=Segment(BASE, b"x")),
            "code-zeroed": dict(segment=Segment(BASE - PAGE, zeroed=PAGE + 1)),
            "data-code": dict(words=[NOP] * 2_049, segment=Segment(BASE + PAGE, b"x")),
            "data-stack": dict(segment=Segment(TOP - 65_536, b"x")),
            "data-into-stack": dict(segment=Segment(TOP - 65_536 - PAGE, zeroed=PAGE + 1)),
            "stack-data": dict(segment=Segment(TOP - PAGE, zeroed=1), stack=MOST_STACK),
            "code-stack": dict(base=TOP - 65_536),
            "code-into-stack": dict(base=TOP - 65_536 - PAGE, words=[NOP] * 2_049)}
    for name, parts in told.items():
        yield row(f"overlap-{name}", first(**parts),
                  f"code, segment and stack: {name.replace('-', ' ')}, by an address that both have", field(8))
    segments = {"two": [Segment(DATA, zeroed=PAGE + 1), Segment(DATA + PAGE, b"x")],
                "third": [Segment(DATA), Segment(DATA + PAGE, zeroed=3 * PAGE), Segment(DATA + 3 * PAGE, b"x")],
                "skip": [Segment(DATA, zeroed=3 * PAGE), Segment(DATA + PAGE), Segment(DATA + 2 * PAGE, b"x")],
                "code": [Segment(0), Segment(BASE, b"x")],
                "code-under": [Segment(BASE - PAGE, zeroed=PAGE + 1), Segment(DATA)],
                "stack": [Segment(DATA), Segment(TOP - PAGE, b"x")]}
    for name, parts in segments.items():
        yield row(f"overlap-second-{name}", second(segments=parts),
                  f"two regions of version 2 share an address: {name}", field(8))
    touching = [Segment(BASE - PAGE, zeroed=PAGE), Segment(BASE + PAGE, b"y" * PAGE),
                Segment(BASE + 2 * PAGE, zeroed=1)]
    yield row("touching", second([*[NOP] * 2_045, *EXIT], segments=touching),
              "regions that touch, and share no address")
    yield row("touching-stack", first([*[NOP] * 2_045, *EXIT], base=TOP - 65_536 - PAGE),
              "code that ends where the stack begins")
    yield row("touching-stack-data", first(segment=Segment(TOP - 65_536 - PAGE, zeroed=PAGE)),
              "a segment that ends where the stack begins")
    for name, base in (("code", BASE), ("stack", TOP - PAGE), ("zero", 0)):
        yield row(f"empty-{name}", first(segment=Segment(base)),
                  f"a segment without bytes at {base:#x}, which shares no address")
        yield row(f"empty-second-{name}", second(segments=[Segment(base)]), f"the same by version 2, at {base:#x}")
    yield row("empty-inside", second(segments=[Segment(DATA, zeroed=3 * PAGE), Segment(DATA + PAGE)]),
              "a segment without bytes within another")


def memory(opcode, register, base, displacement=0):
    """A word of a load, a store, LDA or LDAH."""
    return opcode << 26 | register << 21 | base << 16 | displacement & 0xFFFF


LDA, LDAH, LDL, LDQ, STQ = 0x08, 0x09, 0x28, 0x29, 0x2D


def reached(address, *words):
    """Code that has an address in $1, and exits by what these words leave in $16."""
    return [memory(LDAH, 1, 31, address + 0x8000 >> 16), memory(LDA, 1, 1, address), *words, EXIT[0], CALLSYS]


def found():
    """Accesses where an empty segment has the same base, or one within a region."""
    store = [memory(STQ, 1, 1), memory(LDQ, 16, 1)]
    within, page = [Segment(DATA, zeroed=3 * PAGE), Segment(DATA + PAGE)], DATA + PAGE
    for name, address, segments in (("inside", page, within), ("behind", page + 8, within),
                                    ("last", page + 2 * PAGE - 8, within), ("before", page - 8, within),
                                    ("stack", TOP - 65_536, [Segment(TOP - 65_536)]),
                                    ("stack-next", TOP - 65_528, [Segment(TOP - 65_536)]),
                                    ("stack-within", TOP - 32_768, [Segment(TOP - 32_768)]),
                                    ("zero", 0, [Segment(0), Segment(PAGE, zeroed=PAGE)]),
                                    ("alone", DATA, [Segment(DATA)]),
                                    ("next", DATA, [Segment(DATA - PAGE, zeroed=PAGE), Segment(DATA)])):
        yield row(f"found-{name}", second(reached(address, *store), segments=segments),
                  f"an access at {address:#x}, with an empty segment at {segments[-1].base:#x}"
                  if name != "zero" else "an access at 0, where a segment without bytes is")
    for name, address in (("code", BASE), ("code-next", BASE + 4), ("code-end", BASE + 24)):
        yield row(f"found-{name}", second(reached(address, memory(LDL, 16, 1)), segments=[Segment(BASE)]),
                  f"a load at {address:#x} from the code, with an empty segment at its base")
    yield row("found-code-within",
              second([*[NOP] * 2_048, *reached(BASE + PAGE, memory(LDL, 16, 1))], segments=[Segment(BASE + PAGE)]),
              "a load from the code, with an empty segment within it")
    most, none = [Segment(DATA + n * PAGE, zeroed=8) for n in range(8)], []
    for name, segments, address in (("most-stack", most, TOP - 8), ("most-last", most, DATA + 7 * PAGE),
                                    ("most-first", most, DATA), ("none-stack", none, TOP - 65_536)):
        yield row(f"found-{name}", second(reached(address, *store), segments=segments),
                  f"a store at {address:#x} and a load, with {len(segments)} segments")
    yield row("found-most-code", second(reached(BASE + 4, memory(LDL, 16, 1)), segments=most),
              "a load from the code, with eight segments")
    yield row("found-first", first(reached(BASE, memory(LDL, 16, 1)), segment=Segment(BASE)), "the same by version 1")


def distant():
    """Words whose places differ in one bit, which are run one behind the other."""
    words, base = [NOP] * MOST_WORDS, 0x20
    places = [base, *(base ^ 1 << bit for bit in range(2, 18) if bit != 5)]
    for number, place in enumerate(places, 1):
        # s4addq $16,number,$16; ret $31,($26)
        words[place:place + 2] = [0x42001450 | number << 13, 0x6BFA8000]
    # br $31 to the calls, and each of those a bsr $26
    start = 0x140
    words[0] = 0xC3E00000 | start - 1
    for at, place in enumerate([*places, *places[::-1]], start):
        words[at] = 0xD3400000 | place - at - 1 & 0x1FFFFF
    for at, word in enumerate((EXIT[0], CALLSYS), start + 2 * len(places)):
        words[at] = word
    yield row("distant", first(words), "words of 262,144 whose places differ in one bit, one behind the other, twice")


def zeros():
    """Ends at address 0."""
    # bpt, bugchk, gentrap; ldq $5,8($31); stq $5,0($31); ldq $5,1($31); jmp $31,($31)
    told = {"bpt": 0x80, "bugchk": 0x81, "gentrap": 0xAA, "access": memory(LDQ, 5, 31, 4_096),
            "store": memory(STQ, 5, 31), "align": memory(LDQ, 5, 31, 1),
            "high": memory(LDQ, 5, 31, -8)}
    for name, word in told.items():
        yield row(f"zero-{name}", first([word, *EXIT], base=0),
                  f"the word {word:08x} at address 0, which ends the program there")
    yield row("zero-fetch", first([0x6BFF0000, *EXIT]), "a jump to address 0, where no code is")
    yield row("zero-load", first([NOP, *EXIT[:1], memory(LDL, 16, 31), CALLSYS], base=0),
              "a load from the code at address 0")


def levels():
    for level in (0, 3, 4, 256, 258, (1 << 31) + 1, (1 << 32) - 1):
        yield row(f"level-{level}", second(level=level), f"the level {level}", field(9))
    for count in (9, 10, 16, 256, (1 << 31) + 1, (1 << 32) - 1):
        yield row(f"segments-{count}", put(second(), 36, count), f"{count:,} segments", field(10))
    yield row("segments-none", second([0x203F0005, *EXIT]), "no segment")
    yield row("segments-most",
              second([0x243F1001, 0x2C21E008, *EXIT],
                     segments=[Segment(DATA + n * PAGE, b"%d2345678" % n * 2) for n in range(8)]), "eight segments")
    yield row("count-first", first([CTPOP, *EXIT]), "CTPOP in an image of version 1",
              f"image kind 5 first 0 second {CTPOP}")
    yield row("count-second", second([NOP, CTPOP, *EXIT]), "CTPOP at level 1", f"image kind 5 first 1 second {CTPOP}")
    for name, word in (("ctlz", 0x73E10643), ("cttz", 0x73E10663)):
        yield row(f"{name}-second", second([NOP, word, *EXIT]), f"{name.upper()} at level 1",
                  f"image kind 5 first 1 second {word}")
    yield row("count-good", second([0x203F00FF, CTPOP, 0x46030410, 0x201F0001, CALLSYS], level=2), "CTPOP at level 2")


def lengths():
    for name, whole in (("first", first(segment=Segment(DATA, b"abc", 5))),
                        ("second", second(segments=[Segment(DATA, b"abc"), Segment(DATA + PAGE, b"de")]))):
        for more in (-5, -4, -1, 1, 4, 300):
            changed = whole[:more] if more < 0 else whole + bytes(more)
            yield row(f"length-{name}-{more}", changed,
                      f"{abs(more)} bytes {'less' if more < 0 else 'more'} than the numbers make",
                      f"image kind 4 first {len(changed)} second {len(whole)}")
        for at in range(8):
            changed = put(whole, at, whole[at] ^ 0x20, 1)
            yield row(f"magic-{name}-{at}", changed, f"byte {at} of the magic is another",
                      "image kind 2 first 0 second 0")
    for name, whole, sizes_of in (("first", first(), (0, 1, 7, 8, 40, 47)), ("second", second(), (8, 9, 24, 39)),
                                  ("segments", second(segments=[Segment(DATA)] * 2), (40, 56, 71))):
        for size in sizes_of:
            yield row(f"short-{name}-{size}", whole[:size], f"{size} bytes alone",
                      f"image kind 1 first {size} second 0")
    for text in (b"ALPHAIM0", b"ALPHAIM3", b"alphaim1", b"ALPHAJR1", b"\x7fELF\2\1\1\0"):
        yield row(f"magic-{text.hex()}", text + first()[8:], "another beginning", "image kind 2 first 0 second 0")
    yield row("odd-data",
              second([0x243F1000, 0x2C410002, 0x46E20410, *EXIT[:1], CALLSYS],
                     segments=[Segment(DATA, b"abc", 10), Segment(DATA + PAGE, b"defgh")]), "segments of odd lengths")


def orders():
    """Two faults at once, of which the first is told."""
    bad = put(first(base=1, segment=Segment(1)), 32, 0)
    yield row("both-1-2", first(base=1, segment=Segment(1)), "a bad code base and a bad data base", field(1))
    yield row("both-2-3", put(bad, 8, BASE, 8), "a bad data base and no code", field(2))
    yield row("both-3-4", put(put(first(), 32, 0), 36, MOST_DATA + 1), "no code and too many data bytes", field(3))
    yield row("both-4-5", put(put(first(), 36, MOST_DATA + 1), 40, MOST_DATA + 1),
              "too many data bytes, and too many zeroed ones", field(4))
    yield row("both-5-6", put(first(stack=8), 40, MOST_DATA + 1), "too many zeroed bytes, and a bad stack", field(5))
    yield row("both-6-7", first(stack=8, entry=0), "a bad stack and a bad entry", field(6))
    yield row("both-7-8", first(entry=0, segment=Segment(BASE, b"x")), "a bad entry and an overlap", field(7))
    yield row("both-8-9", second(segments=[Segment(BASE, b"x")], level=3), "an overlap and a bad level", field(8))
    yield row("both-9-10", put(second(level=3), 36, 9), "a bad level and too many segments, which come first",
              field(10))
    yield row("both-1-10", put(second(base=1), 36, 9), "a bad code base and too many segments, which come first",
              field(10))
    yield row("both-10-short", put(second(), 36, 9)[:40], "too many segments come before those that aren't there",
              field(10))
    yield row("both-1-short", put(second(base=1), 36, 2), "segments that aren't there come before a bad code base",
              "image kind 1 first 52 second 0")
    yield row("both-9-length", second(level=3) + b"x", "a bad level and another length", field(9))
    yield row("both-8-length", first(segment=Segment(BASE, b"x")) + b"x", "an overlap and another length", field(8))
    yield row("both-length-word", first([0, *EXIT]) + b"x", "another length and a bad word",
              f"image kind 4 first {48 + 17} second {48 + 16}")
    yield row("both-short-magic", b"X" * 47, "too few bytes, and another beginning", "image kind 1 first 47 second 0")
    yield row("both-magic-field", put(first(base=1), 0, 0x58, 1), "another beginning and a bad field",
              "image kind 2 first 0 second 0")
    yield row("both-words", first([NOP, 0x07000000, 0x04000000, *EXIT]), "two bad words",
              f"image kind 5 first 1 second {0x07000000}")
    yield row("both-word-level", second([NOP, CTPOP, 0x04000000, *EXIT]), "a word above the level, and a bad word",
              f"image kind 5 first 1 second {CTPOP}")


# Words beside the table: fields that an instruction has no use for, functions and opcodes that aren't there.
BAD_WORDS = {
    "gnu-trapb": 0x60000000, "gnu-excb": 0x60000400, "gnu-mb": 0x60004000, "gnu-wmb": 0x60004400,
    "trapb-ra": 0x63DF0000, "trapb-rb": 0x63FE0000,
    "excb-ra": 0x63DF0400, "excb-rb": 0x63FE0400, "mb-ra": 0x63DF4000, "mb-rb": 0x63FE4000, "wmb-ra": 0x63DF4400,
    "wmb-rb": 0x63FE4400,
    "fetch-ra": 0x60218000, "fetch-m-ra": 0x6001A000, "rpcc": 0x601FC000, "rc": 0x601FE000, "rs": 0x601FF000,
    "ecb": 0x63FFE800, "wh64": 0x63FFF800,
    "trapb-function": 0x63FF0001, "trapb-0200": 0x63FF0200, "mb-4800": 0x63FF4800, "fetch-8001": 0x63FF8001,
    "register-bits-13": 0x40223403 & ~0x1000 | 0x2000,
    "register-bits-14": 0x40224403, "register-bits-15": 0x40228403, "trapping-bits": 0x40222C03,
    "cmov-bits": 0x44222483, "shift-bits": 0x48222683,
    "product-bits": 0x4C222403, "sextb-ra": 0x70220003, "sextw-ra": 0x70020023, "amask-ra": 0x44220C23,
    "implver-ra": 0x44203D83, "implver-register": 0x47E10D83,
    "implver-literal": 0x47E05D83, "implver-zero": 0x47E01D83, "sextb-bits": 0x73E22003,
    "call-0": 0x00000000, "call-7f": 0x7F, "call-82": 0x82, "call-84": 0x84, "call-85": 0x85, "call-87": 0x87,
    "call-9d": 0x9D, "call-a0": 0xA0, "call-a9": 0xA9,
    "call-ab": 0xAB, "call-ae": 0xAE, "call-92": 0x92, "call-high": 0x02000083, "call-180": 0x183,
    "call-bit-16": 0x10086}
COUNTS = {"ctpop-literal": 0x73E03603, "ctlz-literal": 0x73E03643, "cttz-literal": 0x73E03663, "ctpop-ra": 0x70410603,
          "ctlz-ra": 0x70410643, "cttz-ra": 0x70410663}
OPCODES = (*range(0x01, 0x08), *range(0x14, 0x18), 0x19, 0x1B, 0x1D, 0x1E, 0x1F, *range(0x20, 0x28), 0x31, 0x32, 0x33,
           0x35, 0x36, 0x37)
FUNCTIONS = {0x10: (0x01, 0x03, 0x0D, 0x10, 0x13, 0x19, 0x1F, 0x3F, 0x42, 0x4B, 0x52, 0x62, 0x6B, 0x72,
                    0x7D), 0x11: (0x01, 0x04, 0x10, 0x18, 0x22, 0x34, 0x4A, 0x60, 0x6D, 0x7F),
             0x12: (0x00, 0x03, 0x0A, 0x1A, 0x33, 0x35, 0x38, 0x42, 0x56, 0x5B, 0x66, 0x7B),
             0x13: (0x01, 0x10, 0x31, 0x41, 0x70, 0x50), 0x1C: (0x02, 0x20, 0x31, 0x34, 0x37, 0x3E, 0x70, 0x78)}


def words():
    for name, word in BAD_WORDS.items():
        yield row(f"word-{name}", first([NOP, word, *EXIT]), f"the word {word:08x}",
                  f"image kind 5 first 1 second {word}")
    for name, word in COUNTS.items():
        yield row(f"word-{name}", second([NOP, word, *EXIT], level=2), f"the word {word:08x} at level 2",
                  f"image kind 5 first 1 second {word}")
    for opcode in OPCODES:
        word = opcode << 26 | 0x02220003
        yield row(f"opcode-{opcode:02x}", first([word, *EXIT]), f"the opcode {opcode:02X}",
                  f"image kind 5 first 0 second {word}")
    for opcode, functions in FUNCTIONS.items():
        for function in functions:
            word = opcode << 26 | (0x3E20003 if opcode == 0x1C else 0x220003) | function << 5
            yield row(f"function-{opcode:02x}-{function:02x}", second([*EXIT, word], level=2),
                      f"the function {function:02X} of opcode {opcode:02X}, in the last word",
                      f"image kind 5 first 3 second {word}")


def rows():
    for part in (bases, sizes, entries, overlaps, found, distant, zeros, levels, lengths, orders, words):
        yield from part()
