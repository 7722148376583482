"""Faults of that emulator that show under two conditions alone: an instruction and a value, an end and its last step, a
forced report and a word that is drawn behind it."""
from parts import table

from .faults import CODES, LOADED, LOADS, MEMORY, STORED, STORES, TRAPPING, WAITING, Fault
from .waiting import dashed, operate_test

OVERFLOWS = "    return w->kind == TRAPPING && (value < -bound || value >= bound);"
SPELLED = "    if (!w->has_literal && (w->number >> 13 & 7))\n        return 0;"
KIND = "    w.kind = kind_of(&w);"
RESULT = "    switch (w->opcode << 8 | w->function) {\n    case 0x1000: case 0x1040:"
TEST = "    s64 number = (s64)value;\n"
LOGGED = "    note_overflow(address);\n    m.is_locked = 0;"
INSIDE = "count <= r->size - (address - r->base))\n"
PUT_OUT = "    fwrite(m.output.at, 1, m.output.count, stdout);"
MADE = "    for (; m.end == NONE && steps; steps--)\n        step();"
FAULTED = "        end_by(fault, m.pc, address_of(&w));"
CHOICE = "    u64 choice = can_wait() ? chosen() : 0;"
FLAGGED = "(one->flag && (w.kind != TRAPPING || w.rc == 31))"
PENDING = "        if (m.is_pending || overflows(&w))"
TRIGGERED = "        if (m.is_pending || !overflows(&w))"
LEFT = "    if (m.taken < in)\n"
KEPT = "    keep_item(WAIT, (byte)adds, value);"
LAST = {"fetch": "w.kind == NO_WORD", "align": "fault_of(&w) == ALIGN", "access": "fault_of(&w) == ACCESS",
        "bpt": "w.number == 0x80", "bugchk": "w.number == 0x81", "gentrap": "w.number == 0xAA && !w.opcode",
        "exit": "w.number == 0x83 && m.reg[0] == 1", "overflow": "m.completion == STOP && overflows(&w)"}
ENDS = ("NONE", "SIGNAL", "FETCH", "ACCESS", "ALIGN", "LOST", "OVERFLOW")


def of_values():
    """An instruction, and one bit or one form of its operands."""
    for name in ("cmpeq", "cmpult", "cmpule", "cmplt", "cmple"):
        for bit in (8, 20, 31, 32, 33, 47, 62):
            yield Fault(f"without-{bit}-{name}", "values", f"`{name}` doesn't look at bit {bit}", RESULT,
                        f"    if ({operate_test(name)})\n        a &= ~(1ull << {bit}), b &= ~(1ull << "
                        f"{bit});\n{RESULT}",
                        "answers/values-comparisons")
        if name != "cmpeq":
            sign = "(int32_t)a < (int32_t)b" if name in ("cmpult", "cmplt") else "(int32_t)a <= (int32_t)b"
            yield Fault(f"halves-{name}", "values",
                        f"`{name}` compares low halves as signed where the high ones are one",
                        RESULT,
                        f"    if ({operate_test(name)} && a >> 32 == b >> 32)\n        return {sign};\n{RESULT}",
                        "answers/values-comparisons")
    for name, code in {"beq": 0x39, "bne": 0x3D, "ble": 0x3B, "bgt": 0x3F, "cmoveq": 0x24, "cmovne": 0x26,
                       "cmovle": 0x64, "cmovgt": 0x66}.items():
        near = "answers/values-moves" if name.startswith("cmov") else "answers/values-branches"
        for told, test in (("32 low bits are", "!(unsigned)value"), ("32 high bits are", "!(value >> 32)")):
            yield Fault(f"zero-{told.split()[0]}-{told.split()[1]}-{name}", "values",
                        f"to `{name}` 0 is what {told} 0 of",
                        TEST, f"    if (test == {code:#x} && {test} && (s64)value > 0)\n        value = 0;\n{TEST}",
                        near)
        yield Fault(f"zero-least-{name}", "values", f"to `{name}` the least number is 0", TEST,
                    f"    if (test == {code:#x} && !(value << 1))\n        value = 0;\n{TEST}", near,
                    None if name[-2:] in ("eq", "ne") else "both are 0 at most")
    for name in TRAPPING:
        here = operate_test(name)
        for told, test in (("a literal above 127", "w->has_literal && w->literal > 127"),
                           ("a literal below 128", "w->has_literal && w->literal < 128"),
                           ("registers that are one", "!w->has_literal && w->ra == w->rb"),
                           ("its own first operand", "w->ra == w->rc"), ("its own second operand", "w->rb == w->rc")):
            equal = ("a difference of equal numbers never overflows"
                     if name.startswith("sub") and told.startswith("registers") else None)
            yield Fault(f"quiet-{told.split()[-1]}-{'own' if 'own' in told else 'form'}-{told.split()[2]}-{name}",
                        "values", f"`{name}` with {told} doesn't overflow", OVERFLOWS,
                        OVERFLOWS.replace("return ", f"return !({here} && {test}) && "),
                        "answers/values-forms-triggers", equal)
        there = here.replace("w->", "w.")
        yield Fault(f"lock-none-{name}", "runs", f"`{name}` that overflows into $31 leaves the lock flag", LOGGED,
                    LOGGED.replace("m.is_locked", f"if (!({there} && w.rc == 31))\n        m.is_locked"),
                    "answers/values-flags")
        if name.startswith("sub"):
            yield Fault(f"from-none-{name}", "values", f"`{name}` of $31 that overflows leaves what was there", LOGGED,
                        f"    if ({there} && w.ra == 31)\n        set(w.rc, 0);\n{LOGGED}",
                        "answers/values-forms-triggers")


def of_shifts():
    """A number of bits, by a register and by a literal, of small numbers and of others."""
    for name, kept in (("srl", "a >> (b & 31)"), ("sra", "(u64)((s64)a >> (b & 31))"), ("sll", "a << (b & 31)")):
        yield Fault(f"small-{name}", "values", f"`{name}` goes on by 32 bits less where its operand has 32 bits",
                    RESULT,
                    f"    if ({operate_test(name)} && a == (unsigned)a && b & 32)\n        return {kept};\n{RESULT}",
                    "answers/values-masks")
        yield Fault(f"by-9-{name}", "values", f"`{name}` by the literal 9 gives 32 bits", RESULT,
                    f"    if ({operate_test(name)} && w->has_literal && b == 9)\n"
                    f"        a &= {(1 << 32) - 1 if name == 'sll' else ((1 << 32) - 1) << 32:#x};\n{RESULT}",
                    "answers/values-literals")
    for name in ("extqh", "insql", "mskwl"):
        for number in (3, 6):
            yield Fault(f"by-{number}-{name}", "values", f"`{name}` by the literal {number} goes on by a byte more",
                        RESULT,
                        f"    if ({operate_test(name)} && w->has_literal && b == {number})\n        b++;\n{RESULT}",
                        "answers/values-literals")


def of_refusals():
    """Words of the table that are refused, for a field that may be anything."""
    for name, test in {"hint": "w.opcode == 0x1A && number >> 13 & 1",
                       "jump-none": "w.opcode == 0x1A && w.ra == 31 && w.rb "
                       "== 31", "branch-self": "w.opcode >= 0x38 && w.distance == -4",
                       "br-self": "w.opcode == 0x30 && w.distance == -4", "ldah-none": "w.opcode == 0x09 && w.ra == 31",
                       "sextw-literal": "w.opcode == 0x1C && w.function == 1 && w.has_literal && w.literal > 127",
                       "implver-none": "w.opcode == 0x11 && w.function == 0x6C && w.rc == 31",
                       "store-none": "w.opcode == 0x0F && w.rb == 31",
                       "fetch-high": "w.opcode == 0x18 && number >> 15 & 1 && w.rb > 15"}.items():
        yield Fault(f"refused-{name}", "images", f"words of the table are refused: {name}", KIND,
                    f"    w.kind = {test} ? NO_WORD : kind_of(&w);", "images.words-taken")


def of_places():
    """Accesses at some places alone, where the bytes beside are others."""
    for size, at in ((1, 7), (2, 6), (4, 4), (4, 56), (2, 40), (1, 33)):
        yield Fault(f"wide-{size}-{at}", "runs", f"a store of {size} bytes puts a further one at places {at} of 64",
                    STORED,
                    STORED.replace(", size);", f", size + (size == {size} && address % 64 == {at} && bytes_at(address, "
                                               f"{size + 1}, 1) ? 1 : 0));"), "bytes.st")
        yield Fault(f"highest-{size}-{at}", "runs", f"a load of {size} bytes has another highest bit at {at} of 64",
                    LOADED, f"    if (size == {size} && address % 64 == {at})\n"
                            f"        loaded ^= 1ull << {8 * size - 1};\n{LOADED}", "bytes.ld")


def of_words():
    """Words that the table hasn't, by one bit."""
    for name in CODES:
        if name in ("implver", "ctpop", "ctlz", "cttz"):
            continue
        for bit in (13, 14, 15):
            yield Fault(f"unused-{bit}-{name}", "images", f"`{name}` may have bit {bit}", SPELLED,
                        SPELLED.replace("(w->number >> 13 & 7)",
                                        f"(w->number >> 13 & 7 & ~({operate_test(name)} ? {1 << bit - 13} : 0))"),
                        f"images.near-{dashed(name) if '/' in name else name}")
    for name, test in {"rpcc": "number == 0x63FFC000", "fnop": "number == 0x5FFF041F",
                       "implver-3": "(number & ~0x1Fu) == 0x47E07D80", "ret-19": "w.opcode == 0x19 && w.ra == 31",
                       "float-load": "w.opcode == 0x23 && w.ra == 31", "float-operate": "w.opcode == 0x16 && w.rc == 31"
                       }.items():
        yield Fault(f"taken-{name}", "images", f"the word of {name} changes nothing", KIND,
                    f"    w.kind = {test} ? PLAIN : kind_of(&w);", "images.near")
    for name, number in {name: number for number, name in table.PAL.items()}.items():
        for bit in (8, 16, 24, 25):
            yield Fault(f"call-{bit}-{name}", "images", f"the number of `{name}` may have bit {bit}", KIND,
                        f"    if (number == {number | 1 << bit:#x})\n        w.number = {number:#x};\n{KIND}",
                        f"images.near-{name}")


def of_memory():
    """How much of an access lies in a region, the locked address itself, and alike registers."""
    for size, parts in ((2, (1,)), (4, (1, 2, 3)), (8, range(1, 8))):
        for part in parts:
            for told, test in (("load", "!is_written"), ("store", "is_written")):
                inside = f"(count <= r->size - (address - r->base) || ({test} && count == {size} && r->size - " \
                         f"(address - r->base) == {part} && !m.taken)))\n"
                yield Fault(f"over-{size}-{part}-{told}", "runs",
                            f"a {told} of {size} bytes may have {part} of them in a region", INSIDE, inside,
                            f"images.over-{'ld' if told == 'load' else 'st'}")
    for name in STORES[:5]:
        yield Fault(f"lock-same-{name}", "runs", f"`{name}` to the locked address clears the lock flag", STORED,
                    f"{STORED}\n            if (w->opcode == {MEMORY[name]:#x} && m.lock == address)\n"
                    "                m.is_locked = 0;", "answers/values-flags")
    for name in (*LOADS, *STORES):
        yield Fault(f"told-own-{name}", "runs", f"`{name}` that faults tells its register where that is its base",
                    FAULTED,
                    FAULTED.replace("address_of(&w)", f"w.opcode == {MEMORY[name]:#x} && w.ra == w.rb ? m.reg[w.rb] : "
                                                      "address_of(&w)"), f"faults-alike.{name}")
    yield Fault("lock-first", "runs", "the lock flag is that of address 0 until something was read",
                "(m.is_locked && m.lock / 16 == address / 16);",
                "((m.is_locked || (!m.lock && !m.taken)) && m.lock / 16 == address / 16);", "images.start")
    for told, count in (("none", 0), ("most", 8)):
        yield Fault(f"start-{told}", "runs", f"$26 isn't 0 at the start where there are {count} segments",
                    "m.reg[30] = TOP;", f"m.reg[30] = TOP, m.reg[26] = count == {count} && m.level == 2;",
                    "images.start")


def of_calls():
    range_of = "    else if (count && !bytes_at(address, count, is_read))"
    for told, test in (("read", "is_read && descriptor == 1"), ("write", "!is_read && descriptor == 0")):
        yield Fault(f"none-{told}", "runs", f"a {told} of no bytes may have the other descriptor",
                    "    else if (descriptor != (is_read ? 0 : 1))",
                    f"    else if (descriptor != (is_read ? 0 : 1) && !({test} && !count))", "calls-wide.descriptor")
    yield Fault("whole-code", "runs", "a write of all of the code is an error", range_of,
                range_of.replace("count && !bytes_at(address, count, is_read)",
                                 "count && (!bytes_at(address, count, is_read) || (address == m.code_base && count == "
                                 "4 * "
                                 "m.words))"), "calls-wide.code")
    for told, text in (("cleared", "memset(bytes_at(address, m.reg[18], 1), 0, m.reg[18]);"),
                       ("most", "count = count > 1 << 20 ? 1 << 20 : count;")):
        yield Fault(f"read-{told}", "runs", "a read of less than it asks for clears the rest" if told == "cleared" else
                    "a read takes 1 MiB at most", "        if (count)\n            memcpy(",
                    f"        if (m.reg[18] > count || count > 1 << 20) {{\n            {text}\n        }}\n"
                    "        if (count)\n            memcpy(", "reads-most" if told == "most" else "reads-long")
    yield Fault("output-most", "runs", "1 MiB of output is written", PUT_OUT,
                PUT_OUT.replace("m.output.count,", "m.output.count > 1 << 20 ? 1 << 20 : m.output.count,"),
                "reads-most")


def of_ends():
    for name in ENDS:
        yield Fault(f"unput-{name.lower()}", "runs", f"the output is lost by the end {name.lower()}", PUT_OUT,
                    f"    if (m.end != {name})\n    {PUT_OUT}", "ends-put")
    for name, test in LAST.items():
        yield Fault(f"last-step-{name}", "runs", f"the end {name} isn't made by the last step", MADE,
                    "    for (; m.end == NONE && steps; steps--) {\n        struct word w = here();\n"
                    f"        if (steps == 1 && {test})\n            break;\n        step();\n    }}", "ends-put")


def of_choices():
    """What is drawn behind a report, by what forced it; and files that end within a word."""
    for name, test in {"limit": "m.waited == MOST_WAITED", "align": "fault_of(&w) == ALIGN",
                       "access": "fault_of(&w) == ACCESS", "barrier": "w.kind == BARRIER",
                       "end": "w.kind == NO_WORD"}.items():
        yield Fault(f"choice-forced-{name}", "late", f"a report that is forced by the {name} draws a word", CHOICE,
                    f"{CHOICE}\n    if ({test})\n        chosen();", "late-forced")
    for name, text in {"short-ones": "if (choices.at == choices.file.count && choices.file.count % 8)\n        value "
                                     "|= "
                                     "0xFFull << 56;",
                       "short-none": "if (choices.file.count < 8)\n        return 0;"}.items():
        yield Fault(f"choice-{name}", "late", "a short last word is filled up with ones, or isn't read",
                    "    return value;\n}\n\nstatic void keep_item", f"    {text}\n    return value;\n}}\n\n"
                    "static void keep_item", "late-forced.own")
    for name, test in {"own": "w.rc == w.ra", "literal": "w.has_literal", "high": "w.rc > 25"}.items():
        yield Fault(f"adds-{name}", "late", f"a /V word ({name}) adds nothing to the mask", "    if (adds)\n",
                    f"    if (adds && !({test}))\n", "late-forced" if name != "high" else "late-added")
    yield Fault("lost-long", "late", "a trap that is lost behind 1,000 words has no $0",
                "end_by(LOST, m.pc, m.mask);", "end_by(LOST, m.pc, m.waited > 1000 ? m.mask & ~1u : m.mask);",
                "late-forced.lost")
    yield Fault("waits-at-zero", "late", "a trap can't wait at address 0", WAITING, WAITING.replace("return ",
                                                                                                    "return m.pc && "),
                "late-zero-waits")


def of_following():
    """Items that are impossible where they stand, by the word there."""
    plain = {"08": "lda", "09": "ldah", "0A": "ldbu", "10": "addq", "11": "bis", "12": "sll", "13": "mulq", "18": "mb",
             "1A": "jmp", "1C": "sextb", "28": "ldl", "2A": "ldl_l", "2D": "stq", "2F": "stq_c", "30": "br",
             "39": "beq"}
    for opcode, name in plain.items():
        yield Fault(f"flag-plain-{opcode}", "following", f"a Wait may have flag 1 at a word of opcode {opcode}",
                    FLAGGED,
                    f"(one->flag && (w.kind != TRAPPING || w.rc == 31) && !(w.opcode == 0x{opcode} && w.kind != "
                    f"TRAPPING))",
                    f"pending-words.{name}")
        yield Fault(f"limit-{opcode}", "following", f"a Wait of opcode {opcode} may stand behind 1,024 others",
                    "        if (!m.is_pending || !can_wait() ||",
                    f"        m.waited -= m.is_pending && m.waited == MOST_WAITED && w.opcode == 0x{opcode};\n"
                    "        if (!m.is_pending || !can_wait() ||", "limit-words")
    for name, test in {"none": "w.rc == 31", "stop": "m.completion == STOP",
                       "saturate": "m.completion == SATURATE"}.items():
        yield Fault(f"units-over-{name}", "following", f"a Units may go on at an overflow ({name})", PENDING,
                    PENDING.replace("overflows(&w)", f"(overflows(&w) && !({test}))"), "units-words")
    for name, test in {"outside": "w.kind == NO_WORD", "barrier": "w.kind == BARRIER", "fault": "fault_of(&w)",
                       "plain": "w.kind == PLAIN", "empty": "!m.mask"}.items():
        yield Fault(f"units-pending-{name}", "following", f"a Units may stand while a trap is pending ({name})",
                    PENDING,
                    PENDING.replace("m.is_pending", f"(m.is_pending && !({test}))"), "pending-words")
    for name, test in {"empty": "!m.mask", "other": "!(m.mask >> w.rc & 1)"}.items():
        yield Fault(f"trigger-pending-{name}", "following", f"a Trigger may stand while a trap is pending ({name})",
                    TRIGGERED, TRIGGERED.replace("m.is_pending", f"(m.is_pending && !({test}))"), "pending-words")
    for name in ENDS:
        yield Fault(f"left-{name.lower()}", "following", f"input may be left by the end {name.lower()}", LEFT,
                    LEFT.replace("m.taken < in", f"m.taken < in && m.end != {name}"), "ends-otherwise")
    yield Fault("end-before-output", "following", "the end is looked at before the output",
                "    for (u64 n = 0; n < out || n < m.output.count; n++)",
                "    if (m.end != file.at[9])\n        no_run(3, 0);\n"
                "    for (u64 n = 0; n < out || n < m.output.count; n++)", "ends-otherwise")
    yield Fault("short-by-one", "following", "the output may be a byte shorter", "    if (file.count < 38 + in + out)",
                "    if (file.count + 1 < 38 + in + out)", "ends-otherwise")
    yield Fault("read-at-end", "following", "of a journal a read at the end of the input is an error",
                "        u64 left = m.input.count - m.taken;",
                "        u64 left = m.input.count - m.taken;\n        if (!notes_overflows && !left && count)\n"
                "            error = 9;", "calls-followed")


def of_recording():
    for name, test in {"stl": "w.opcode == 0x2C", "stq_c": "w.opcode == 0x2F", "ldq": "w.opcode == 0x29"}.items():
        yield Fault(f"kept-value-{name}", "recording", f"the value of a Wait at `{name}` is kept with another bit",
                    KEPT,
                    KEPT.replace("value)", f"{test} ? value ^ 1ull << 31 : value)"), "record-words")
    for register in (0, 16, 28, 30):
        yield Fault(f"kept-flag-{register}", "recording", f"the flag of a Wait of ${register} isn't kept", KEPT,
                    KEPT.replace("(byte)adds", f"(byte)(adds && w.rc != {register})"), "record-words")
        yield Fault(f"kept-trigger-{register}", "recording", f"the value of a Trigger of ${register} isn't kept",
                    "        keep_item(TRIGGER, 0, value);",
                    f"        keep_item(TRIGGER, 0, w.rc == {register} ? 0 : value);", "record-words")
    yield Fault("kept-mask", "recording", "16 bits of a lost trap's mask are kept",
                "put_little(head + 18, m.second, 8);",
                "put_little(head + 18, m.end == LOST ? m.second & 0xFFFF : m.second, 8);", "record-lost")
    yield Fault("kept-output", "recording", "the number of 65,535 bytes of output is kept at most",
                "put_little(head + 30, m.output.count, 4)", "put_little(head + 30, m.output.count & 0xFFFF, 4)",
                "values-arithmetic")


def of_images():
    yield Fault("nine-segments", "images", "nine segments may be, where they are all there",
                "        if (count > MOST_SEGMENTS)\n            bad_image(3, 10, 0);",
                "        if (count == 9 && file.count > 40 + 9 * 16)\n            count = 8;\n"
                "        if (count > MOST_SEGMENTS)\n            bad_image(3, 10, 0);", "images.segments-9")
    yield Fault("sum-32", "images", "bytes of segments are counted in 32 bits", "    u64 bytes = 0;",
                "    unsigned bytes = 0;", "images.zeroed-sum")
    yield Fault("stack-shared", "images", "without a segment the code may share addresses with the stack",
                "    if (shares(base, 4 * words, TOP - stack, stack))",
                "    if (count && shares(base, 4 * words, TOP - "
                "stack, stack))", "images.overlap-none")
    for count in (255, 4_096, 8_192, 65_535):
        yield Fault(f"data-above-{count}", "images", f"the last of more than {count:,} data bytes is lost",
                    "    memcpy(r->bytes, data, count);", f"    memcpy(r->bytes, data, count - (count > {count}));",
                    "images.data-")


def faults():
    for part in (of_values, of_shifts, of_words, of_refusals, of_memory, of_places, of_calls, of_ends, of_choices,
                 of_following, of_recording, of_images):
        yield from part()
