"""Runs: addresses, the PC, calls, steps; and lines of which each gives a value for every row of the input."""
from parts import table
from . import blocks, late
from .blocks import CELLS, CODE, MASK, Blocks, Row, quadwords

TOP, STACK = 1 << 30, (1 << 30) - 65_536
ACCESSES = (*late.LOADS, *late.STORES)


def size_of(name):
    return table.SIZES.get(name, 8)


def accesses():
    """Each load and store: at the ends of each region, misaligned, and at addresses of 64 bits."""
    made = Blocks("accesses",
                  "Each load and store at the address of $6: at both ends of each region, misaligned, and where no "
                  "region is.",
                  front=["        .segment 0x0", "        .zero 40"],
                  back=["        .segment 0x10002000", "        .byte 1,2,3", "        .zero 10"])
    for name in ACCESSES:
        made.add(name, [f"{name} $5,0($6)", "trapb", "ldq_u $7,0($6)", "br dump"])
        made.add(f"{name}_alone", [f"{name} $5,0($6)", "trapb", "br dump"])
    end = made.end()
    regions = {"code": (CODE, end), "low": (0, 40), "cells": (CELLS, CELLS + 384),
               "odd": (CELLS + 0x2000, CELLS + 0x200D), "stack": (STACK, TOP)}
    for name in ACCESSES:
        size = size_of(name)
        for region, (first, behind) in regions.items():
            last = (behind - size) // size * size
            for how, address in {"before": first - size, "first": first, "last": last, "behind": last + size}.items():
                label = f"{name}_alone" if region == "odd" or how in ("before", "behind") or region == "code" else name
                made.run(f"{name}-{region}-{how}", label,
                         f"`{name} $5,0($6)` at {address & MASK:#x}, {how} of the {region} region",
                         {5: 0xF7F6F5F4F3F2F1F0, 6: address})
        for odd in range(1, size):
            for how, base in (("cells", CELLS + 72), ("nowhere", 1 << 29), ("code", CODE)):
                if how == "cells" or odd in (1, size // 2):
                    made.run(f"{name}-odd-{how}-{odd}", f"{name}_alone",
                             f"`{name} $5,0($6)` at {base + odd:#x}: alignment comes first, and "
                             "`ldq_u` and `stq_u` clear three bits", {5: 0xF7F6F5F4F3F2F1F0, 6: base + odd})
        bits = range(30, 64) if name in ("ldq", "stb") else (31, 32, 33, 47, 62, 63)
        for bit in bits:
            made.run(f"{name}-bit-{bit}", f"{name}_alone",
                     f"`{name} $5,0($6)` at {CELLS + 64 | 1 << bit:#x}: all 64 bits of an address count",
                     {6: CELLS + 64 | 1 << bit})
        made.run(f"{name}-nowhere", f"{name}_alone",
                 f"`{name} $5,0($6)` where no region is; `ldq_u` and `stq_u` tell the address that they "
                 "have cleared", {6: (1 << 29) + (7 if name.endswith("_u") else 0)})
    return made


def displacements():
    """All 16 bits of a displacement, and addresses modulo 2^64."""
    made = Blocks("displacements",
                  "A segment at address 0, and displacements: each bit of one, both bounds, and sums that wrap.",
                  front=["        .segment 0x0",
                         "        .quad 0x0102030405060708,0x1112131415161718,0x2122232425262728",
                         "        .zero 32760"])
    for name in ACCESSES:
        size = size_of(name)
        for number in (8, -8, 32_760, -32_768, 256, -256):
            label = f"{name}_{number}".replace("-", "m")
            made.add(label, [f"{name} $5,{number}($6)", "trapb", "ldq $7,8($31)", "br dump"])
            base = (8 - number) & MASK
            made.run(f"{name}-{number}", label, f"`{name} $5,{number}($6)` with $6 = {base:#x}: address 8, modulo 2^64",
                     {5: 0xF7F6F5F4F3F2F1F0, 6: base})
        if size == 1:
            continue
        made.add(f"{name}_31", [f"{name} $5,16($31)", "trapb", "br dump"])
        made.run(f"{name}-zero", f"{name}_31", f"`{name} $5,16($31)`: R31 as a base is 0", {5: 0xF7F6F5F4F3F2F1F0})
    for bit in range(15):
        made.add(f"bit_{bit}", [f"ldbu $5,{1 << bit}($31)", f"ldbu $7,{-(1 << bit)}($6)", "trapb", "br dump"])
        made.run(f"bit-{bit}", f"bit_{bit}", f"displacements of {1 << bit} and of {-(1 << bit)}", {6: (1 << bit) + 5})
        made.add(f"far_{bit}", [f"ldbu $5,{1 << bit}($6)"])
        made.run(f"far-{bit}", f"far_{bit}", f"a displacement of {1 << bit}, by the address that is told", {6: 1 << 40})
    return made


def places():
    """All 64 bits of the PC, and all 21 bits of a displacement."""
    made = Blocks("places", "Jumps and branches out of the code: the end tells the PC, all of its bits.",
                  code=0x20000000)
    for name in late.JUMPS:
        made.add(name, [f"{name} $5,($6)"])
        bits = range(64) if name == "jmp" else (1, 17, 32, 63)
        for bit in bits:
            made.run(f"{name}-bit-{bit}", name, f"`{name} $5,($6)`: bit {bit} of the PC, of which 0 and 1 are cleared",
                     {6: 1 << bit})
    for name in late.JUMPS:
        for bit in range(30, 64) if name == "jmp" else (32, 63):
            made.run(f"{name}-over-{bit}", name,
                     f"`{name} $5,($6)` to the address of a code word with bit {bit}, where no code is",
                     {6: made.places["dump"] | 1 << bit})
    # The code has no word so far away, so that each target is the end's address.
    words = ([1 << bit for bit in range(12, 20)] + [-(1 << bit) for bit in range(12, 21)]
             + [(1 << 20) - 1, -4097, 0xAAAAA, -0xAAAAB])
    for name, register in [*[(name, "$31") for name in ("br", "bsr")], *[(name, "$6") for name in late.BRANCHES]]:
        taken = {"bne": 1, "blt": 1 << 63, "bgt": 1, "blbs": 1}.get(name, 0)
        for number in words if name in ("br", "beq") else words[3:5] + words[16:19]:
            label = f"{name}_{number}".replace("-", "m")
            made.add(label, [f"{name} {register},.{4 + 4 * number:+d}"])
            made.run(f"{name}-{number}", label, f"`{name}` by {number} words: all 21 bits of a displacement count",
                     {6: taken})
        made.add(f"{name}_end", [f"{name} {register},.-{made.end() + 4 - 0x20000000}"])
        made.run(f"{name}-before", f"{name}_end", f"`{name}` to the address before the code", {6: taken})
    return made


def calls():
    """System calls by registers of 64 bits."""
    made = Blocks("calls-wide",
                  "A system call by registers of the input: $1 is the number, $2 the descriptor, $3 the address, $4 "
                  "the count.",
                  back=["        .segment 0x10002000", "        .byte 65,66,67", "        .zero 10"])
    made.add("call", ["mov $1,$0", "mov $2,$16", "mov $3,$17", "mov $4,$18", "lda $19,77($31)", "callsys", "br dump"])
    made.add("unique", ["mov $1,$16", "wrunique", "clr $16", "rdunique", "trapb", "br dump"])
    made.add("first", ["rdunique", "trapb", "br dump"])
    made.add("kept", ["mov $1,$16", "wrunique", "lda $0,99($31)", "callsys", "clr $16", "rdunique", "mov $0,$7",
                      "rdunique", "br dump"])
    cell, end = CELLS + 64, made.end()
    good = {3: (0, cell, 8), 4: (1, cell, 8)}
    told = {}
    for bit in (1, 2, 3, 5, 8, 31, 32, 33, 63):
        told[f"number-{bit}"] = (3 ^ 1 << bit if bit > 2 else bit + 4, 0, cell, 8)
        told[f"exit-{bit}"] = (1 ^ 1 << bit if bit > 1 else 0, 5, cell, 8)
        told[f"write-number-{bit}"] = (4 ^ 1 << bit, 1, cell, 8)
    for number, (descriptor, address, count) in good.items():
        for bit in (0, 1, 2, 8, 31, 32, 63):
            told[f"descriptor-{number}-{bit}"] = (number, descriptor ^ 1 << bit, address, count)
            told[f"descriptor-{number}-{bit}-none"] = (number, descriptor ^ 1 << bit, address, 0)
        for bit in (29, 31, 32, 63):
            told[f"address-{number}-{bit}"] = (number, descriptor, address | 1 << bit, count)
        for bit in (16, 31, 32, 33, 62, 63):
            told[f"count-{number}-{bit}"] = (number, descriptor, address, count | 1 << bit)
        told[f"count-{number}-bare"] = (number, descriptor, address, 1 << 32)
        told[f"wraps-{number}"] = (number, descriptor, address, -address & MASK)
        told[f"wraps-more-{number}"] = (number, descriptor, address, -address + 16 & MASK)
        for more in (0, 1, 8, 320):
            told[f"around-{more}-{number}"] = (number, descriptor, address, -64 + more & MASK)
        told[f"top-{number}"] = (number, descriptor, MASK - 7, 8)
        told[f"top-one-{number}"] = (number, descriptor, MASK, 1)
        for region, (first, behind) in {"cells": (CELLS, CELLS + 384), "odd": (CELLS + 0x2000, CELLS + 0x200D),
                                        "stack": (STACK, TOP),
                                        "code": (CODE, end)}.items():
            for how, at, size in (("last", behind - 3, 3), ("over", behind - 3, 4), ("before", first - 1, 2),
                                  ("behind", behind, 1),
                                  ("one", first, 1), ("none", behind, 0), ("all", first, behind - first),
                                  ("more", first, behind - first + 1)):
                if how not in ("all", "more") or region == "odd" or number == 4 and region != "stack":
                    told[f"{region}-{how}-{number}"] = (number, descriptor, at, size)
        for size in (0, 1, 2, 7, 40, 100):
            told[f"size-{number}-{size}"] = (number, descriptor, cell, size)
        told[f"empty-{number}"] = (number, descriptor, 0, 0)
        told[f"order-descriptor-{number}"] = (number, 7, 0, 9)
        told[f"order-none-{number}"] = (number, 7, 0, 0)
    told["order-number"] = (9, 7, 0, 9)
    told["order-number-none"] = (9, 0, 0, 0)
    told["order-number-range"] = (2, 0, 0, 9)
    for name, (number, descriptor, address, count) in told.items():
        made.run(name, "call",
                 f"the call {number:#x} with descriptor {descriptor:#x}, address {address:#x}, count {count:#x}",
                 {1: number, 2: descriptor, 3: address, 4: count})
        made.rows[-1] = made.rows[-1]._replace(given=made.rows[-1].given
                                               + b"The rest of the input, 40 bytes of it.!!"[:40])
    for value in (0, 1, 255, 1 << 32, 1 << 63, MASK):
        made.run(f"exit-value-{value:x}", "call", f"exit by {value:#x}: all 64 bits are the value", {1: 1, 2: value})
    made.run("unique", "unique", "the unique value has 64 bits", {1: 0x8877665544332211})
    made.run("unique-first", "first", "the unique value is 0 at the start", {})
    made.run("unique-kept", "kept", "a system call leaves the unique value, and so does reading it", {1: 5})
    return made


READER = """# Reads 150,000 bytes by one call, and writes them again.
        .level 2
        .segment 0x10000000
        .zero 200000
        .code
start:  ldah $9,0x1000($31)
        lda $0,3($31)
        clr $16
        mov $9,$17
        ldah $18,2($31)
        lda $18,18928($18)
        callsys
        mov $0,$18
        trapb
        lda $0,4($31)
        lda $16,1($31)
        callsys
        mov $0,$20
        lda $0,3($31)           # and once more, at the end of the input
        clr $16
        callsys
        trapb
        subq $20,$0,$16
        lda $0,1($31)
        callsys
        .entry start
"""


def reader_rows():
    """Reads of many bytes, and of an input that comes in pieces: where + stands the next piece is late."""
    pattern = bytes(n * 7 % 251 for n in range(160_000))
    for name, about, *pieces in (("none", "an empty input", b""),
                                 ("small", "100 bytes in three pieces", pattern[:1], pattern[1:60], pattern[60:100]),
                                 ("page", "4,096 bytes and one more", pattern[:4_097]),
                                 ("two", "5,000 bytes in two pieces", pattern[:2_500], pattern[2_500:5_000]),
                                 ("pipe", "100,000 bytes, more than a pipe holds", pattern[:100_000]),
                                 ("most", "just as many as are asked for", pattern[:150_000]),
                                 ("more", "more than are asked for", pattern)):
        yield Row(f"reads-long.{name}", "run", "reads-long", "wrap", blocks.STEPS, pieces, None,
                  about=f"a read of 150,000 bytes: {about}")


def steps():
    """How many steps are made."""
    made = Blocks("steps",
                  "A few steps, among them an overflow, a barrier, calls and the exit, by other numbers of steps.")
    made.add("few", ["addq/v $1,$2,$3", "trapb", "br .+4", "lda $0,9($31)", "callsys", "stq $3,64($9)", "mov $3,$16",
                     "lda $0,1($31)", "callsys"])
    made.add("stops", ["addq/v $1,$2,$3", "trapb"])
    made.add("faults", ["nop", "ldq $5,1($31)"])
    for number in (0, 1, 2, 6, *range(14, 26), 255, 256, 1 << 31, 1 << 32, (1 << 32) + 16, 1 << 63, MASK):
        made.run(f"few-{number}", "few", f"at most {number} steps", late.OVERFLOWS, steps=number)
    made.add("counts", ["again:", "subq $4,1,$4", "bgt $4,again", "mov $5,$16", "lda $0,1($31)", "callsys"])
    for number in (99_999, 131_072, 300_017, 300_018, 1_000_000):
        made.run(f"counts-{number}", "counts", f"at most {number} steps of 300,018", {4: 150_000, 5: 9}, steps=number)
    for number in (15, 16, 17):
        made.run(f"stops-{number}", "stops", f"at most {number} steps, by `stop`: the one that ends is one of them",
                 late.OVERFLOWS, steps=number, completion="stop")
        made.run(f"faults-{number}", "faults", f"at most {number} steps: a fault ends by one of them", {}, steps=number)
    return made


def overflows():
    """Every register as the destination of an overflow, by each completion, and an overflow's operands."""
    made = Blocks("overflows", "An overflow into each register.")
    for register in range(32):
        made.add(f"to_{register}",
                 [f"addq/v $1,$2,${register}", "trapb", *(["ldah $9,0x1000($31)"] if register == 9 else []), "br dump"])
        made.run(f"to-{register}", f"to_{register}", f"an overflow into ${register}, and the log", late.OVERFLOWS)
        made.add(f"from_{register}",
                 ["mov $1,$3", *([f"mov $1,${register}"] if register != 31 else []), f"addq/v ${register},1,$4",
                  f"subq/v $4,${register},$5",
                                      *(["ldah $9,0x1000($31)"] if register == 9 else []), "trapb", "br dump"])
        made.run(f"from-{register}", f"from_{register}", f"${register} as a source", {1: blocks.MAX - 1})
    return made


def turns():
    """The lock flag over each jump, and over each branch, taken or not."""
    made = Blocks("locks-turns",
                  "A jump or a branch between a locked load and its conditional store, which tells whether the flag is "
                  "still set.")
    for name in (*late.JUMPS, "br", "bsr", *late.BRANCHES):
        turn = f"{name} $6,($7)" if name in late.JUMPS else f"{name} $6,.+8"
        made.add(name, ["ldq_l $5,64($9)", "lda $7,16($8)", turn, "nop", "stq_c $5,64($9)", "trapb", "br dump"])
        for value in (0, 1, 1 << 63) if name in late.BRANCHES else (0,):
            made.run(f"{name}-{value:x}", name, f"`{turn}` with $6 = {value:#x} leaves the lock flag", {6: value})
    return made


def families():
    return [accesses(), displacements(), places(), calls(), steps(), overflows(), turns()]
