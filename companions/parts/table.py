"""The instruction table as the companions need it: which words are instructions, and what matters of one to a shadow.

It repeats the table of the product (crates/alpha_table), by the Architecture Handbook's numbers. The test holds it
against words that GNU as made and against the program itself.
"""
from collections import namedtuple

MEMORY = {0x08: "lda", 0x09: "ldah", 0x0A: "ldbu", 0x0B: "ldq_u", 0x0C: "ldwu", 0x0D: "stw", 0x0E: "stb", 0x0F: "stq_u",
          0x28: "ldl", 0x29: "ldq", 0x2A: "ldl_l", 0x2B: "ldq_l", 0x2C: "stl", 0x2D: "stq", 0x2E: "stl_c",
          0x2F: "stq_c"}
BRANCH = {0x30: "br", 0x34: "bsr", 0x38: "blbc", 0x39: "beq", 0x3A: "blt", 0x3B: "ble", 0x3C: "blbs", 0x3D: "bne",
          0x3E: "bge", 0x3F: "bgt"}
JUMP = ("jmp", "jsr", "ret", "jsr_coroutine")
OPERATE = {
    0x10: {0x00: "addl", 0x02: "s4addl", 0x09: "subl", 0x0B: "s4subl", 0x0F: "cmpbge", 0x12: "s8addl", 0x1B: "s8subl",
           0x1D: "cmpult", 0x20: "addq", 0x22: "s4addq", 0x29: "subq", 0x2B: "s4subq", 0x2D: "cmpeq", 0x32: "s8addq",
           0x3B: "s8subq", 0x3D: "cmpule", 0x40: "addl/v", 0x49: "subl/v", 0x4D: "cmplt", 0x60: "addq/v",
           0x69: "subq/v", 0x6D: "cmple"},
    0x11: {0x00: "and", 0x08: "bic", 0x14: "cmovlbs", 0x16: "cmovlbc", 0x20: "bis", 0x24: "cmoveq", 0x26: "cmovne",
           0x28: "ornot", 0x40: "xor", 0x44: "cmovlt", 0x46: "cmovge", 0x48: "eqv", 0x61: "amask", 0x64: "cmovle",
           0x66: "cmovgt", 0x6C: "implver"},
    0x12: {0x02: "mskbl", 0x06: "extbl", 0x0B: "insbl", 0x12: "mskwl", 0x16: "extwl", 0x1B: "inswl", 0x22: "mskll",
           0x26: "extll", 0x2B: "insll", 0x30: "zap", 0x31: "zapnot", 0x32: "mskql", 0x34: "srl", 0x36: "extql",
           0x39: "sll", 0x3B: "insql", 0x3C: "sra", 0x52: "mskwh", 0x57: "inswh", 0x5A: "extwh", 0x62: "msklh",
           0x67: "inslh", 0x6A: "extlh", 0x72: "mskqh", 0x77: "insqh", 0x7A: "extqh"},
    0x13: {0x00: "mull", 0x20: "mulq", 0x30: "umulh", 0x40: "mull/v", 0x60: "mulq/v"},
    0x1C: {0x00: "sextb", 0x01: "sextw", 0x30: "ctpop", 0x32: "ctlz", 0x33: "cttz"},
}
UNARY = {"amask", "sextb", "sextw", "implver", "ctpop", "ctlz", "cttz"}
LEVEL_TWO = {"ctpop", "ctlz", "cttz"}
BARRIERS = {0x0000: "trapb", 0x0400: "excb"}
ORDERS = {0x4000: "mb", 0x4400: "wmb"}
FETCHES = {0x8000: "fetch", 0xA000: "fetch_m"}
PAL = {0x80: "bpt", 0x81: "bugchk", 0x83: "callsys", 0x86: "imb", 0x9E: "rdunique", 0x9F: "wrunique", 0xAA: "gentrap"}
SIZES = {"ldbu": 1, "stb": 1, "ldwu": 2, "stw": 2, "ldl": 4, "stl": 4, "ldl_l": 4, "stl_c": 4}
# `trapb`, `excb`, `mb` and `wmb` as GNU as writes them, with register fields of 0, and as this table has them, of 31.
GNU_BARRIERS = {0x60000000 | function: 0x63FF0000 | function for function in (0x0000, 0x0400, 0x4000, 0x4400)}
# The words of each `/V` row and of its row without `/V` differ in this bit of the function.
OVERFLOW_BIT = {0x10: 0x40 << 5, 0x13: 0x40 << 5}

TRIGGER, LOAD, STORE, LOCKED, TURN, BARRIER, PLAIN = "trigger", "load", "store", "locked", "turn", "barrier", "plain"
# Registers are sets of bits, in which R31 never is; `span` is (base register, first byte, one past the last) or None.
Insn = namedtuple("Insn", "name kind uses sets span")


def bit(register):
    return 0 if register == 31 else 1 << register


def insn_of(word):
    """The instruction of a word, or None where the table has none."""
    opcode, ra, rb = word >> 26, word >> 21 & 31, word >> 16 & 31
    if opcode in MEMORY:
        return memory_insn(MEMORY[opcode], ra, rb, (word & 0xFFFF ^ 0x8000) - 0x8000)
    if opcode in BRANCH:
        name = BRANCH[opcode]
        linking = name in ("br", "bsr")
        return Insn(name, TURN, 0 if linking else bit(ra), bit(ra) if linking else 0, None)
    if opcode in OPERATE:
        return operate_insn(word, opcode, ra, rb)
    if opcode == 0x1A:
        return Insn(JUMP[word >> 14 & 3], TURN, bit(rb), bit(ra), None)
    if opcode == 0x18:
        return misc_insn(word & 0xFFFF, ra, rb)
    if opcode == 0 and word in PAL:
        return Insn(PAL[word], BARRIER, 0, 0, None)
    return None


def memory_insn(name, ra, rb, displacement):
    if name in ("lda", "ldah"):
        return Insn(name, PLAIN, bit(rb), bit(ra), None)
    store, locked = name.startswith("st"), name.endswith(("_l", "_c"))
    if ra == 31 and not store and not locked:
        return Insn(name, PLAIN, 0, 0, None)
    first, size = (displacement - 7, 15) if name.endswith("_u") else (displacement, SIZES.get(name, 8))
    uses = bit(rb) | (bit(ra) if store else 0)
    sets = bit(ra) if not store or name.endswith("_c") else 0
    return Insn(name, LOCKED if locked else STORE if store else LOAD, uses, sets, (rb, first, first + size))


def operate_insn(word, opcode, ra, rb):
    name = OPERATE[opcode].get(word >> 5 & 0x7F)
    literal = word >> 12 & 1
    if name is None or not literal and word >> 13 & 7:
        return None
    if name in UNARY and ra != 31 or name in LEVEL_TWO and literal:
        return None
    if name == "implver" and (not literal or word >> 13 & 0xFF != 1):
        return None
    rc = word & 31
    uses = bit(ra) | (0 if literal else bit(rb)) | (bit(rc) if name.startswith("cmov") else 0)
    return Insn(name, TRIGGER if name.endswith("/v") else PLAIN, uses, bit(rc), None)


def misc_insn(function, ra, rb):
    if function in BARRIERS and ra == rb == 31:
        return Insn(BARRIERS[function], BARRIER, 0, 0, None)
    if function in ORDERS and ra == rb == 31:
        return Insn(ORDERS[function], PLAIN, 0, 0, None)
    if function in FETCHES and ra == 31:
        return Insn(FETCHES[function], PLAIN, 0, 0, None)
    return None


def without_overflow(word):
    """The word of a `/V` instruction without its `/V`: the same registers, and no trigger."""
    return word & ~OVERFLOW_BIT[word >> 26]


def level_of(words):
    """The least level that has all of these words."""
    return 2 if any(word >> 26 == 0x1C and insn_of(word) and insn_of(word).name in LEVEL_TWO for word in words) else 1


def reason(word):
    """Why the table hasn't this word, in a few words."""
    opcode = word >> 26
    if opcode == 0:
        return f"PALcode call {word & 0x3FFFFFF:#x}"
    if opcode in (0x14, 0x15, 0x16, 0x17) or 0x20 <= opcode <= 0x27 or opcode in (0x31, 0x32, 0x33, 0x35, 0x36, 0x37):
        return f"floating point, opcode {opcode:02X}"
    if opcode == 0x1C:
        function = word >> 5 & 0x7F
        return ("floating point, opcode 1C" if function in (0x70, 0x78)
                else f"multimedia or unknown, function {function:02X}")
    if opcode == 0x18:
        other = {0xC000: "rpcc", 0xE000: "rc", 0xE800: "ecb", 0xF000: "rs", 0xF800: "wh64", 0xFC00: "wh64en"}
        return other.get(word & 0xFFFF, f"function {word & 0xFFFF:04X} of opcode 18, or other register fields")
    if opcode in OPERATE:
        return f"function {word >> 5 & 0x7F:02X} of opcode {opcode:02X}, or other fixed fields"
    return f"opcode {opcode:02X}"
