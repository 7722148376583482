"""What docs/instructions.md says of each instruction: in words, as a function of Python, and at one value.

The functions follow the instruction descriptions of the Architecture Handbook, over Python's whole numbers. None of
them reads the product's code. `a` is the value of Ra, `b` that of Rb or the literal, `c` what Rc had.
"""
import re

MASK = (1 << 64) - 1
PLACE = 0x10000


def number_text(value, counts):
    """A number of a row; one that counts something is decimal where it is small."""
    return str(value) if value < (1000 if counts else 10) else f"{value:#x}"


def signed(value, bits):
    value &= (1 << bits) - 1
    return value - (1 << bits) if value >> bits - 1 else value


def wrapping(bits, exact):
    return lambda a, b, c, level: signed(exact(signed(a, bits), signed(b, bits)), bits) & MASK


def trapping(bits, exact):
    """The result by `wrap` and by `saturate`, and whether it overflows."""
    def result(a, b, c, level):
        value = exact(signed(a, bits), signed(b, bits))
        low, high = -(1 << bits - 1), (1 << bits - 1) - 1
        return signed(value, bits) & MASK, min(max(value, low), high) & MASK, not low <= value <= high
    return result


def flag(test):
    return lambda a, b, c, level: int(test(a, b))


def bitwise(result):
    return lambda a, b, c, level: result(a, b) & MASK


def move(test):
    return lambda a, b, c, level: b if test(a) else c


def low_bytes(value, count):
    return value & (1 << 8 * count) - 1


def extract_low(size):
    return lambda a, b, c, level: low_bytes(a >> 8 * (b % 8), size)


def extract_high(size):
    return lambda a, b, c, level: low_bytes(a << 8 * ((8 - b % 8) % 8) & MASK, size)


def insert_low(size):
    return lambda a, b, c, level: low_bytes(a, size) << 8 * (b % 8) & MASK


def insert_high(size):
    return lambda a, b, c, level: low_bytes(a, size) << 8 * (b % 8) >> 64


def mask(size, high):
    def result(a, b, c, level):
        marked = range(b % 8, b % 8 + size)
        kept = [a >> 8 * k & 255 if k + (8 if high else 0) not in marked else 0 for k in range(8)]
        return sum(byte << 8 * k for k, byte in enumerate(kept))
    return result


def by_bits(kept_where):
    return lambda a, b, c, level: sum((a >> 8 * k & 255) << 8 * k for k in range(8) if (b >> k & 1) == kept_where)


def compare_bytes(a, b, c, level):
    return sum(1 << k for k in range(8) if (a >> 8 * k & 255) >= (b >> 8 * k & 255))


def leading_zeros(a, b, c, level):
    return 64 - b.bit_length()


def trailing_zeros(a, b, c, level):
    return (b & -b).bit_length() - 1 if b else 64


def add(a, b):
    return a + b


def subtract(a, b):
    return a - b


def multiply(a, b):
    return a * b


def scaled(factor, then):
    return lambda a, b: then(factor * a, b)


# The bits that AMASK clears at each level: 0 is the byte and word instructions, 2 the counts.
FEATURES = {1: 1, 2: 5}
HIGH32, LOW63, BYTES, LETTERS = 0x7FFFFFFF, (1 << 63) - 1, 0x8877665544332211, 0x0123456789ABCDEF

# The instructions whose small numbers are written in decimal.
COUNTING = re.compile(r"(s[48])?(add|sub|mul)[lq]|ct|callsys|s[lr][la]")

# Name: its function, and the worked values of Ra, of Rb and of what Rc had; None where the line has no such operand.
OPERATES = {
    "addl": (wrapping(32, add), HIGH32, 1, None),
    "addl/v": (trapping(32, add), HIGH32, 1, None),
    "addq": (wrapping(64, add), MASK, 3, None),
    "addq/v": (trapping(64, add), LOW63, 1, None),
    "subl": (wrapping(32, subtract), 3, 5, None),
    "subl/v": (trapping(32, subtract), 0x80000000, 1, None),
    "subq": (wrapping(64, subtract), 3, 5, None),
    "subq/v": (trapping(64, subtract), 1 << 63, 1, None),
    "s4addl": (wrapping(32, scaled(4, add)), 0x20000000, 1, None),
    "s4addq": (wrapping(64, scaled(4, add)), 5, 1, None),
    "s4subl": (wrapping(32, scaled(4, subtract)), 5, 1, None),
    "s4subq": (wrapping(64, scaled(4, subtract)), 0, 1, None),
    "s8addl": (wrapping(32, scaled(8, add)), 0x10000001, 2, None),
    "s8addq": (wrapping(64, scaled(8, add)), 5, 1, None),
    "s8subl": (wrapping(32, scaled(8, subtract)), 5, 1, None),
    "s8subq": (wrapping(64, scaled(8, subtract)), 5, 41, None),
    "mull": (wrapping(32, multiply), 0x10000, 0x18000, None),
    "mull/v": (trapping(32, multiply), 0x10000, 0x8000, None),
    "mulq": (wrapping(64, multiply), 1 << 32, (1 << 32) + 3, None),
    "mulq/v": (trapping(64, multiply), 1 << 63, MASK, None),
    "umulh": (lambda a, b, c, level: a * b >> 64, MASK, MASK, None),
    "cmpeq": (flag(lambda a, b: a == b), 5, 5, None),
    "cmplt": (flag(lambda a, b: signed(a, 64) < signed(b, 64)), MASK, 0, None),
    "cmple": (flag(lambda a, b: signed(a, 64) <= signed(b, 64)), 1, MASK, None),
    "cmpult": (flag(lambda a, b: a < b), MASK, 0, None),
    "cmpule": (flag(lambda a, b: a <= b), 1, MASK, None),
    "cmpbge": (compare_bytes, BYTES, 0x4444444444444444, None),
    "and": (bitwise(lambda a, b: a & b), 0xFF00, 0x0FF0, None),
    "bic": (bitwise(lambda a, b: a & ~b), 0xFF00, 0x0FF0, None),
    "bis": (bitwise(lambda a, b: a | b), 0xFF00, 0x0FF0, None),
    "ornot": (bitwise(lambda a, b: a | ~b), 0xFF00, 0x0FF0, None),
    "xor": (bitwise(lambda a, b: a ^ b), 0xFF00, 0x0FF0, None),
    "eqv": (bitwise(lambda a, b: a ^ ~b), 0xFF00, 0x0FF0, None),
    "cmoveq": (move(lambda a: a == 0), 0, 7, 1),
    "cmovne": (move(lambda a: a != 0), 0, 7, 1),
    "cmovlt": (move(lambda a: signed(a, 64) < 0), 1 << 63, 7, 1),
    "cmovle": (move(lambda a: signed(a, 64) <= 0), 0, 7, 1),
    "cmovgt": (move(lambda a: signed(a, 64) > 0), 1 << 63, 7, 1),
    "cmovge": (move(lambda a: signed(a, 64) >= 0), 0, 7, 1),
    "cmovlbs": (move(lambda a: a & 1 == 1), 3, 7, 1),
    "cmovlbc": (move(lambda a: a & 1 == 0), 3, 7, 1),
    "sll": (bitwise(lambda a, b: a << b % 64), LETTERS, 68, None),
    "srl": (bitwise(lambda a, b: a >> b % 64), 1 << 63, 4, None),
    "sra": (bitwise(lambda a, b: signed(a, 64) >> b % 64), 1 << 63, 4, None),
    "sextb": (lambda a, b, c, level: signed(b, 8) & MASK, None, 0x180, None),
    "sextw": (lambda a, b, c, level: signed(b, 16) & MASK, None, 0x18000, None),
    "extbl": (extract_low(1), BYTES, 2, None),
    "extwl": (extract_low(2), BYTES, 2, None),
    "extll": (extract_low(4), BYTES, 2, None),
    "extql": (extract_low(8), BYTES, 2, None),
    "extwh": (extract_high(2), BYTES, 7, None),
    "extlh": (extract_high(4), BYTES, 7, None),
    "extqh": (extract_high(8), BYTES, 7, None),
    "insbl": (insert_low(1), BYTES, 2, None),
    "inswl": (insert_low(2), BYTES, 2, None),
    "insll": (insert_low(4), BYTES, 2, None),
    "insql": (insert_low(8), BYTES, 2, None),
    "inswh": (insert_high(2), BYTES, 7, None),
    "inslh": (insert_high(4), BYTES, 7, None),
    "insqh": (insert_high(8), BYTES, 7, None),
    "mskbl": (mask(1, False), BYTES, 2, None),
    "mskwl": (mask(2, False), BYTES, 2, None),
    "mskll": (mask(4, False), BYTES, 2, None),
    "mskql": (mask(8, False), BYTES, 2, None),
    "mskwh": (mask(2, True), BYTES, 7, None),
    "msklh": (mask(4, True), BYTES, 7, None),
    "mskqh": (mask(8, True), BYTES, 7, None),
    "zap": (by_bits(0), BYTES, 0x0F, None),
    "zapnot": (by_bits(1), BYTES, 0x0F, None),
    "amask": (lambda a, b, c, level: b & ~FEATURES[level] & MASK, None, 7, None),
    "implver": (lambda a, b, c, level: level, None, None, None),
    "ctpop": (lambda a, b, c, level: bin(b).count("1"), None, LETTERS, None),
    "ctlz": (leading_zeros, None, LETTERS, None),
    "cttz": (trailing_zeros, None, 0x6400, None),
}

SIZES = {"b": (1, "byte"), "w": (2, "word of 2 bytes"), "l": (4, "longword"), "q": (8, "quadword")}
CONDITIONS = {
    "eq": "*a* is 0", "ne": "*a* isn't 0", "lt": "*a* is below 0, signed", "le": "*a* is 0 or below, signed",
    "gt": "*a* is above 0, signed", "ge": "*a* is 0 or above, signed", "lbs": "the low bit of *a* is 1",
    "lbc": "the low bit of *a* is 0",
}


def bytes_of(size):
    return "byte" if size == 1 else f"{size} bytes"


def byte_words(name):
    """Of the extracts, inserts and masks."""
    size = SIZES[name[3]][0]
    if name.startswith("ext"):
        return (f"*a* shifted right by *n* bytes, of that the low {bytes_of(size)}" if name.endswith("l")
                else f"*a* shifted left by (8 - *n*) mod 8 bytes, of that the low {bytes_of(size)}")
    if name.startswith("ins"):
        half = "low" if name.endswith("l") else "high"
        return f"the {half} 64 bits of the low {bytes_of(size)} of *a*, shifted left by *n* bytes"
    if name.endswith("l"):
        which = "byte *n*" if size == 1 else f"the bytes *n* to *n* + {size - 1}, those up to byte 7,"
        return f"*a* with {which} cleared"
    if size == 8:
        return "*a* with the low *n* bytes cleared"
    return f"*a* with the low *n* - {8 - size} bytes cleared, none where *n* is at most {8 - size}"


OPERATE_WORDS = {
    "addl": "*a* + *b*, wrapped to 32 bits",
    "addl/v": "as `addl`",
    "addq": "*a* + *b* modulo 2^64",
    "addq/v": "as `addq`",
    "subl": "*a* - *b*, wrapped to 32 bits",
    "subl/v": "as `subl`",
    "subq": "*a* - *b* modulo 2^64",
    "subq/v": "as `subq`",
    "s4addl": "4 *a* + *b*, wrapped to 32 bits",
    "s4addq": "4 *a* + *b* modulo 2^64",
    "s4subl": "4 *a* - *b*, wrapped to 32 bits",
    "s4subq": "4 *a* - *b* modulo 2^64",
    "s8addl": "8 *a* + *b*, wrapped to 32 bits",
    "s8addq": "8 *a* + *b* modulo 2^64",
    "s8subl": "8 *a* - *b*, wrapped to 32 bits",
    "s8subq": "8 *a* - *b* modulo 2^64",
    "mull": "*a* times *b*, wrapped to 32 bits",
    "mull/v": "as `mull`",
    "mulq": "*a* times *b* modulo 2^64",
    "mulq/v": "as `mulq`",
    "umulh": "the high 64 bits of the unsigned product of *a* and *b*",
    "cmpeq": "1 where *a* equals *b*, else 0",
    "cmplt": "1 where *a* is below *b*, signed, else 0",
    "cmple": "1 where *a* is at most *b*, signed, else 0",
    "cmpult": "1 where *a* is below *b*, unsigned, else 0",
    "cmpule": "1 where *a* is at most *b*, unsigned, else 0",
    "cmpbge": "bit *k*, for *k* from 0 to 7, is 1 where byte *k* of *a* is at least byte *k* of *b*, unsigned",
    "and": "*a* and *b*, bit by bit",
    "bic": "*a* and not *b*",
    "bis": "*a* or *b*",
    "ornot": "*a* or not *b*",
    "xor": "*a* exclusive or *b*",
    "eqv": "*a* exclusive or not *b*",
    "sll": "*a* shifted left by *b* mod 64 bits",
    "srl": "*a* shifted right by *b* mod 64 bits, zeros come in",
    "sra": "*a* shifted right by *b* mod 64 bits, copies of the sign come in",
    "sextb": "the low 8 bits of *b*, extended by their sign",
    "sextw": "the low 16 bits of *b*, extended by their sign",
    "zap": "*a* with byte *k* cleared where bit *k* of *b* is 1, for *k* from 0 to 7",
    "zapnot": "*a* with byte *k* cleared where bit *k* of *b* is 0, for *k* from 0 to 7",
    "amask": "*b* with the bits of the level's features cleared (above)",
    "implver": "the number of the level's implementation (above)",
    "ctpop": "the number of 1 bits in *b*",
    "ctlz": "the number of 0 bits above the highest 1 bit of *b*; 64 for 0",
    "cttz": "the number of 0 bits below the lowest 1 bit of *b*; 64 for 0",
}
OPERATE_WORDS.update({"cmov" + test: f"*b* where {text}, else Rc stays" for test, text in CONDITIONS.items()})
OPERATE_WORDS.update({name: byte_words(name) for name in OPERATES if name[:3] in ("ext", "ins", "msk")})

DATA, CELLS = 0x10000000, bytes(range(0x80, 0x90))


def cells_with(offset, stored):
    return (DATA, (CELLS[:offset] + stored + CELLS[offset + len(stored):]).hex())


def load(op, size, signs, line, at):
    value = int.from_bytes(CELLS[at:at + size], "little")
    if signs:
        value = signed(value, 8 * size) & MASK
    return line, {2: DATA}, {1: value}


STORED = {size: LETTERS.to_bytes(8, "little")[:size] for size in (1, 2, 4, 8)}
LOADED = "the {} at *b* + disp, {}"

# Name: in words, the line, registers before and behind it, and what else there is to see.
MEMORY = {
    "lda": ("*b* + disp modulo 2^64, into Ra", "lda $1,-8($2)", {2: 1 << 30}, {1: (1 << 30) - 8}, {}),
    "ldah": ("*b* + 65,536 disp modulo 2^64, into Ra", "ldah $1,-1($2)", {2: 1 << 30}, {1: (1 << 30) - 65536}, {}),
    "ldbu": (LOADED.format("byte", "extended with zeros, into Ra"), *load("ldbu", 1, False, "ldbu $1,1($2)", 1), {}),
    "ldwu": (LOADED.format("2 bytes", "extended with zeros, into Ra"), *load("ldwu", 2, False, "ldwu $1,2($2)", 2), {}),
    "ldl": (LOADED.format("4 bytes", "extended by their sign, into Ra"), *load("ldl", 4, True, "ldl $1,4($2)", 4), {}),
    "ldq": (LOADED.format("8 bytes", "into Ra"), *load("ldq", 8, False, "ldq $1,8($2)", 8), {}),
    "ldq_u": ("the 8 bytes at *b* + disp with its three low bits cleared, into Ra",
              *load("ldq_u", 8, False, "ldq_u $1,11($2)", 8), {}),
    "ldl_l": ("as `ldl`, and sets the lock flag", *load("ldl_l", 4, True, "ldl_l $1,4($2)", 4), {}),
    "ldq_l": ("as `ldq`, and sets the lock flag", *load("ldq_l", 8, False, "ldq_l $1,8($2)", 8), {}),
    "stb": ("the low byte of *a* to *b* + disp", "stb $1,1($2)", {1: LETTERS, 2: DATA}, {},
            {"memory": cells_with(1, STORED[1])}),
    "stw": ("the low 2 bytes of *a* to *b* + disp", "stw $1,2($2)", {1: LETTERS, 2: DATA}, {},
            {"memory": cells_with(2, STORED[2])}),
    "stl": ("the low 4 bytes of *a* to *b* + disp", "stl $1,4($2)", {1: LETTERS, 2: DATA}, {},
            {"memory": cells_with(4, STORED[4])}),
    "stq": ("the 8 bytes of *a* to *b* + disp", "stq $1,8($2)", {1: LETTERS, 2: DATA}, {},
            {"memory": cells_with(8, STORED[8])}),
    "stq_u": ("the 8 bytes of *a* to *b* + disp with its three low bits cleared", "stq_u $1,11($2)",
              {1: LETTERS, 2: DATA}, {}, {"memory": cells_with(8, STORED[8])}),
    "stl_c": ("as `stl` where the lock flag is set for these 16 bytes, and 1 into Ra; else no store, and 0 into Ra. "
              "The flag is clear then", "stl_c $1,4($2)", {1: LETTERS, 2: DATA}, {1: 1},
              {"memory": cells_with(4, STORED[4]), "first": ("ldl_l $4,8($2)",)}),
    "stq_c": ("as `stl_c`, with 8 bytes", "stq_c $1,8($2)", {1: LETTERS, 2: DATA}, {1: 0},
              {"memory": cells_with(0, b"")}),
}

TAKEN, PASSED = {"pc": PLACE + 12}, {"pc": PLACE + 4}


def branch(condition, value, how):
    return (f"on at the target where {CONDITIONS[condition]}", f"b{condition} $1,.+12",
            {1: value}, {}, how)


BRANCHES = {
    "br": ("PC + 4 into Ra, on at the target", "br $1,.+12", {}, {1: PLACE + 4}, TAKEN),
    "bsr": ("as `br`", "bsr $26,.+12", {}, {26: PLACE + 4}, TAKEN),
    "beq": branch("eq", 0, TAKEN), "bne": branch("ne", 0, PASSED), "blt": branch("lt", MASK, TAKEN),
    "ble": branch("le", 0, TAKEN), "bgt": branch("gt", MASK, PASSED), "bge": branch("ge", 0, TAKEN),
    "blbs": branch("lbs", 3, TAKEN), "blbc": branch("lbc", 3, PASSED),
}

JUMPS = {
    "jmp": ("on at *b* with its two low bits cleared, and PC + 4 into Ra", "jmp $31,($27),0", {27: PLACE + 19}, {},
            {"pc": PLACE + 16}),
    "jsr": ("as `jmp`", "jsr $26,($27),0", {27: PLACE + 16}, {26: PLACE + 4}, {"pc": PLACE + 16}),
    "ret": ("as `jmp`", "ret $31,($26),1", {26: PLACE + 16}, {}, {"pc": PLACE + 16}),
    "jsr_coroutine": ("as `jmp`, also where both are one register", "jsr_coroutine $27,($27),0", {27: PLACE + 16},
                      {27: PLACE + 4},
                      {"pc": PLACE + 16}),
}

MISC = {
    "trapb": ("nothing; a barrier, before which a pending trap is reported", "trapb", {}, {}, {}),
    "excb": ("nothing; a barrier, as `trapb`", "excb", {}, {}, {}),
    "mb": ("nothing, and no barrier for traps", "mb", {}, {}, {}),
    "wmb": ("nothing, and no barrier for traps", "wmb", {}, {}, {}),
    "fetch": ("nothing; no access is made", "fetch 0($1)", {1: 1}, {1: 1}, {}),
    "fetch_m": ("nothing; no access is made", "fetch_m 0($1)", {1: 1}, {1: 1}, {}),
}

PAL = {
    "bpt": ("the program ends by signal 0; a barrier", "bpt", {}, {},
            {"pc": PLACE, "end": "signal 0 at 0000000000010000"}),
    "bugchk": ("the program ends by signal 1; a barrier", "bugchk", {}, {},
               {"pc": PLACE, "end": "signal 1 at 0000000000010000"}),
    "gentrap": ("the program ends by signal 2; a barrier", "gentrap", {}, {},
                {"pc": PLACE, "end": "signal 2 at 0000000000010000"}),
    "callsys": ("the system call of R0 ([machines.md](machines.md)); a barrier", "callsys", {0: 9}, {0: 78, 19: 1}, {}),
    "imb": ("nothing; a barrier", "imb", {}, {}, {}),
    "rdunique": ("the unique value into R0; a barrier", "rdunique", {16: 7}, {0: 7}, {"first": ("wrunique",)}),
    "wrunique": ("R16 into the unique value; a barrier", "wrunique", {16: 7}, {16: 7}, {}),
}

SECTIONS = [
    ("Arithmetic",
     "\"Wrapped to 32 bits\": the low 32 bits of the exact result, extended by their sign. These forms use "
     "the low 32 bits of their operands alone. With `/V` an instruction gives what it gives without, and overflows "
     "where the "
     "exact sum, difference or product of its operands, signed and of 32 or 64 bits, isn't in -2^31..2^31 - 1 or "
     "-2^63..2^63 - 1.",
     ["addl", "addl/v", "addq", "addq/v", "subl", "subl/v", "subq", "subq/v", "mull", "mull/v", "mulq", "mulq/v",
      "umulh", "s4addl", "s4addq", "s4subl", "s4subq", "s8addl", "s8addq", "s8subl", "s8subq"]),
    ("Comparisons", "", ["cmpeq", "cmplt", "cmple", "cmpult", "cmpule", "cmpbge"]),
    ("Logic and shifts", "", ["and", "bic", "bis", "ornot", "xor", "eqv", "sll", "srl", "sra"]),
    ("Conditional moves", "", ["cmoveq", "cmovne", "cmovlt", "cmovle", "cmovgt", "cmovge", "cmovlbs", "cmovlbc"]),
    ("Bytes", "*n* is *b* mod 8. Byte 0 is the lowest.",
     ["extbl", "extwl", "extll", "extql", "extwh", "extlh", "extqh", "insbl", "inswl", "insll", "insql", "inswh",
      "inslh", "insqh", "mskbl", "mskwl", "mskll", "mskql", "mskwh", "msklh", "mskqh", "zap", "zapnot", "sextb",
      "sextw"]),
    ("Counts, and what a level has",
     "`ctpop`, `ctlz` and `cttz` are of level 2, all other instructions of both levels.",
     ["ctpop", "ctlz", "cttz", "amask", "implver"]),
    ("Memory",
     "Before the line of a load or a store the 16 bytes from 0x10000000 on are 80 81 82 and so on to 8f, $2 is "
     "0x10000000, and $1 of a store 0x123456789abcdef.",
     ["lda", "ldah", "ldbu", "ldwu", "ldl", "ldq", "ldq_u", "ldl_l", "ldq_l", "stb", "stw", "stl", "stq", "stq_u",
      "stl_c", "stq_c"]),
    ("Branches", "Where a condition isn't met, the program goes on at the next word.",
     ["br", "bsr", "beq", "bne", "blt", "ble", "bgt", "bge", "blbs", "blbc"]),
    ("Jumps", "", ["jmp", "jsr", "ret", "jsr_coroutine"]),
    ("Barriers and hints", "", ["trapb", "excb", "mb", "wmb", "fetch", "fetch_m"]),
    ("PALcode calls", "", ["bpt", "bugchk", "gentrap", "callsys", "imb", "rdunique", "wrunique"]),
]
