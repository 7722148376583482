"""Further faults of that emulator: the order of an image's rules, segments, bits that are counted, long calls, long
runs; and some that change no answer."""
from .faults import LOADED, Fault
from .state import WORD_IN

FIRST_RULE = "    if (base % PAGE || base >= TOP)\n        return 1;"
OVERLAPS = "            if (shares(part[n].base, size, part[k].base, part[k].data + part[k].zeroed))"
COPIED = "    memcpy(r->bytes, data, count);"
TOLD = "    set(0, error ? error : count);"
PUT = "        append(&m.output, bytes_at(address, count, 0), count);"
# What breaks each rule of an image's fields.
EACH = "    for (unsigned n = 0; n < count; n++)\n        if ({})\n            return {};\n"
RULES = {2: EACH.format("part[n].base % PAGE || part[n].base >= TOP", 2),
         3: "    if (words == 0 || words > MOST_WORDS || base + 4 * words > TOP)\n        return 3;\n",
         4: EACH.format("part[n].data > MOST_DATA", 4), 5: EACH.format("part[n].zeroed > MOST_DATA", 5),
         6: "    if (stack < LEAST_STACK || stack > MOST_STACK || stack % 16)\n        return 6;\n",
         7: "    if (entry % 4 || entry < base || entry >= base + 4 * words)\n        return 7;\n",
         8: EACH.format("shares(part[n].base, part[n].data + part[n].zeroed, base, 4 * words)", 8)}
BEHIND = {2: "    if (words == 0 || words > MOST_WORDS ||",
          4: "    for (unsigned n = 0; n < count; n++)\n        bytes +=",
          5: "    if (stack < LEAST_STACK ||", 6: "    if (entry % 4 || entry < base ||",
          7: "    if (shares(base, 4 * words, TOP - stack, stack))"}


def of_images():
    for number, text in RULES.items():
        yield Fault(f"field-{number}-first", "images", f"rule {number} of the fields is looked at first", FIRST_RULE,
                    text + FIRST_RULE, "images.pair-4" if number == 8 else "images.pair-1")
        for before, right in BEHIND.items():
            if before < number - 1:
                yield Fault(f"field-{number}-behind-{before}", "images",
                            f"rule {number} of the fields is looked at behind rule {before}", right, text + right,
                            "images.pair-4" if (number, before) == (8, 2) else f"images.pair-{before + 1}")
    yield Fault("field-5-each", "images", "rules 4 and 5 of the fields are looked at segment by segment",
                "        if (part[n].data > MOST_DATA)\n            return 4;",
                "        if (part[n].data > MOST_DATA)\n            return 4;\n        else if (part[n].zeroed > "
                "MOST_DATA)\n            return 5;", "images.both-4-5")
    for last in range(1, 8):
        for first in range(last):
            yield Fault(f"overlap-{first}-{last}", "images", f"segments {first} and {last} may share addresses",
                        OVERLAPS,
                        OVERLAPS.replace("if (", f"if (!(k == {first} && n == {last}) && "),
                        f"images.overlap-{first}-{last}")
    for name, told, test in (("7", "7 zeroed ones behind an odd count", "count % 2 && zeroed % 8 == 7"),
                             ("odd", "an odd count", "count % 2 && zeroed"), ("8", "8 zeroed ones", "zeroed == 8"),
                             ("9", "nine or more", "count > 8 && zeroed"), ("none", "none", "!count && zeroed")):
        yield Fault(f"data-later-{name}", "images", f"data bytes are a byte later: {told}", COPIED,
                    f"    if ({test})\n        r->bytes[0] = 1;\n    memcpy(r->bytes + (r->size > count && {test}), "
                    "data, count);", "images.sizes-")
    yield Fault("decoded-behind", "runs", "words that are decoded behind a call are kept by 15 bits of their place",
                WORD_IN,
                "    static struct word kept[32768];\n    static byte known[32768];\n    u64 at = place % 32768;\n"
                "    if (known[at] && m.output.count + m.taken)\n        return kept[at];\n    if (m.output.count + "
                "m.taken)\n        known[at] = 1;\n"
                "    return kept[at] = word_of((unsigned)little(m.code + 4 * place, 4));", "images.distant-behind")


def of_counts():
    """One bit of which a count is wrong."""
    for name, right, wrong in (("ctpop", "return (u64)__builtin_popcountll(b);", "__builtin_popcountll(b)"),
                               ("ctlz", "return b ? (u64)__builtin_clzll(b) : 64;", "(b ? __builtin_clzll(b) : 64)"),
                               ("cttz", "return b ? (u64)__builtin_ctzll(b) : 64;", "(b ? __builtin_ctzll(b) : 64)")):
        for bit in (3, 9, 14, 20, 27, 34, 40, 46, 52, 59):
            yield Fault(f"{name}-bit-{bit}", "values", f"`{name}` of bit {bit} alone is one more", right,
                        f"return (u64){wrong} + (b == 1ull << {bit});", "answers/values-counts")


def of_calls():
    for name, told, text in (("write-16", "a write is told by 16 bits", "is_read ? count : count & 0xFFFF"),
                             ("read-16", "a read is told by 16 bits", "is_read ? count & 0xFFFF : count"),
                             ("write-most", "a write is told by 65,535 at most",
                              "!is_read && count > 65535 ? 65535 : count"),
                             ("write-page", "a write is told by 4,096 at most",
                              "!is_read && count > 4096 ? 4096 : count")):
        yield Fault(f"told-{name}", "runs", told, TOLD, f"    set(0, error ? error : {text});", "reads-long")
    for size in (4_096, 65_536):
        yield Fault(f"put-{size}", "runs", f"a write puts {size:,} bytes at most", PUT,
                    PUT.replace(", count);", f", count > {size} ? {size} : count);"), "reads-long")
    yield Fault("taken-100000", "runs", "a read takes 100,000 bytes at most",
                "        count = count < left ? count : left;",
                "        count = count < left ? count : left;\n        count = count > 100000 ? 100000 : count;",
                "reads-long")


def of_long_runs():
    counted = "        items.at[items.count - 1].value++;"
    for name, most in (("255", 255), ("65535", 65_535)):
        yield Fault(f"units-{name}", "recording", f"a Units is kept of {most:,} units at most", counted,
                    counted.replace("++", f" += items.at[items.count - 1].value < {most}"), "end-l")
    yield Fault("full-early", "recording", "a run of more than 200,000 items that ends has no room",
                "used > MOST_UNITS)",
                "used > MOST_UNITS || (m.end != NONE && items.count > 200000))", "late-counted.many")
    yield Fault("full-items-17", "recording", "a run has 131,072 items at most", "items.count > MOST_ITEMS ||",
                "items.count > MOST_ITEMS / 8 ||", "late-counted.many")
    yield Fault("follow-pending-input", "following",
                "a run that doesn't end may have a trap pending, where there is input",
                "m.second != second || m.is_pending)", "m.second != second || (m.is_pending && in == 0))",
                "pending.pending-alone")


# Name, group, what, the right text, the wrong text, and why an emulator with it is right.
SAME = [
    ("mask-sign", "late", "the mask of a lost trap is extended by its sign", "end_by(LOST, m.pc, m.mask);",
     "end_by(LOST, m.pc, (u64)(s64)(int)m.mask);", "a mask has no bit 31"),
    ("distance-shifted", "runs", "a displacement is extended by a shift of 32 bits",
     "w.distance = (s64)extended(number, 21) * 4;", "w.distance = (s64)((int)(number << 11) >> 9);",
     "21 bits and two more are fewer than 32"),
    ("cttz-halves", "values", "`cttz` looks at one half and then at the other",
     "return b ? (u64)__builtin_ctzll(b) : 64;",
     "return b ? (unsigned)b ? (u64)__builtin_ctz((unsigned)b) : 32 + (u64)__builtin_ctz((unsigned)(b >> 32) | 1u << "
     "31) : 64;", "where the low half is 0 the other has a bit"),
    ("complete-alike", "late", "the handler takes the first operand for a second one of the same register",
     "    u64 value = result(&w, m.reg[w.ra], operand(&w), 0);",
     "    u64 value = result(&w, m.reg[w.ra], w.ra == w.rb && !w.has_literal ? m.reg[w.ra] : operand(&w), 0);",
     "one register has one value"),
    ("load-again", "runs", "a load is extended twice", LOADED,
     LOADED.replace("longword(loaded)", "longword(longword(loaded))"), "what is extended stays as it is"),
]


def of_same():
    for name, group, what, right, wrong, equal in SAME:
        yield Fault(name, group, what, right, wrong, "", equal)


def faults():
    for part in (of_images, of_counts, of_calls, of_long_runs, of_same):
        yield from part()
