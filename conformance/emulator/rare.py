"""Faults of that emulator which few programs show: numbers of calls, bytes that a text has otherwise, addresses of 30
bits, words into $31, regions around others, and long runs."""
from .faults import Fault

CALL = "            if (m.reg[0] == 1) {"
TAKEN = "        count = count < left ? count : left;\n"
PUT = "        append(&m.output, bytes_at(address, count, 0), count);"
ERROR = "    set(19, error != 0);"
EXECUTED = "    m.pc += 4;\n}\n\nstatic void note_overflow"
TURNED = "    m.pc = target;\n}"
SHARED = "base < other + other_size && other < base + size"
UNITS = "items.at[n].value : items.at[n].kind == TRIGGER;\n    }\n    if (units > MOST_UNITS)"


def of_calls():
    for number in (2, 20, 405, 1_024, 4_003):
        yield Fault(f"call-{number}", "runs", f"the call {number} exits too", CALL,
                    CALL.replace(") {", f" || m.reg[0] == {number}) {{"), "calls-numbers")
    for name, told, test in (("lines", "a line feed behind a return is kept alone", "at[k] == 13 && at[k + 1] == 10"),
                             ("marks", "a mark of order isn't kept", "at[k] == 0xEF && at[k + 1] == 0xBB")):
        yield Fault(f"taken-{name}", "runs", f"of a read {told}", TAKEN,
                    TAKEN + "        byte *at = m.input.at + m.taken;\n        for (u64 k = 0; k + 1 < count; k++)\n"
                    f"            if ({test})\n                at[k] = at[k + 1];\n", "calls-texts")
    yield Fault("put-zero", "runs", "of a write the last byte isn't put where it alone is 0", PUT,
                PUT + "\n        byte *at = bytes_at(address, count, 0);\n"
                "        if (memchr(at, 0, count) == at + count - 1)\n            m.output.count--;", "calls-texts")
    yield Fault("end-error", "runs", "a read of more than 100 bytes at the end of the input tells an error", ERROR,
                ERROR.replace("error != 0", "error != 0 || (is_read && !count && m.reg[18] > 100)"), "calls-texts")


def of_addresses():
    """What tells or leaves an address of 28 bits alone."""
    for name, told, right in (("overflow", "the note of an overflow", "(unsigned long long)address);"),
                              ("barrier", "the note of a barrier", "(unsigned long long)m.pc);"),
                              ("signal", "a signal", 'signal %llu at %016llx\\n", first, second)'),
                              ("stop", "a stop", 'stop at %016llx\\n", first)'),
                              ("link", "a link", "drawn ? *drawn : next);")):
        wrong = right.replace(");", " << 36 >> 36);") if right.endswith(");") else f"{right[:-1]} << 36 >> 36)"
        yield Fault(f"address-28-{name}", "runs", f"{told} has 28 bits of an address", right, wrong, "high")
    yield Fault("address-28-completed", "runs", "behind a completion the PC has 28 bits", "    m.pc = address + 4;",
                "    m.pc = (address << 36 >> 36) + 4;", "high")


def of_flags():
    """Words into $31 that clear the lock flag."""
    words = {"lda": "w->opcode == 0x08 && w->ra == 31", "ldah": "w->opcode == 0x09 && w->ra == 31",
             "ldq": "w->opcode == 0x29 && w->ra == 31", "ldq_u": "w->opcode == 0x0B && w->ra == 31",
             "addq": "w->opcode == 0x10 && w->rc == 31", "bis": "w->opcode == 0x11 && w->rc == 31",
             "sll": "w->opcode == 0x12 && w->rc == 31", "mulq": "w->opcode == 0x13 && w->rc == 31",
             "sextb": "w->opcode == 0x1C && w->rc == 31"}
    for name, test in words.items():
        yield Fault(f"flag-31-{name}", "runs", f"a word like `{name}` into $31 clears the lock flag", EXECUTED,
                    EXECUTED.replace("4;\n}", f"4;\n    if ({test})\n        m.is_locked = 0;\n}}"),
                    "answers/values-flags")
    for name, test in (("stack", "w->kind == STORE && w->rb == 30"), ("code", "w->kind == LOAD && w->rb == 27")):
        yield Fault(f"flag-by-{name}", "runs", f"an access by the register that begins at the {name} clears the flag",
                    EXECUTED, EXECUTED.replace("4;\n}", f"4;\n    if ({test})\n        m.is_locked = 0;\n}}"),
                    "answers/values-flags")
    yield Fault("flag-31-br", "runs", "`br` with $31 clears the lock flag", TURNED,
                TURNED.replace("\n}", "\n    if (w->opcode == 0x30 && w->ra == 31)\n        m.is_locked = 0;\n}"),
                "answers/values-flags")


def of_regions():
    ends = "(base + size > other && base + size < other + other_size)"
    for name, told, text in (("around", "lies around it", f"(base >= other && base < other + other_size) || {ends}"),
                             ("within", "lies within it",
                              f"({SHARED}) && !(other > base && other + other_size < base + size)"),
                             ("same", "has its base", f"({SHARED}) && base != other"),
                             ("to-end", "has its end", f"({SHARED}) && base + size != other + other_size")):
        yield Fault(f"share-{name}", "images", f"a region may share addresses with one that {told}", SHARED,
                    f"({text})", "images.beside")


def of_runs():
    """Long runs, and what a trigger left."""
    counting = "static void run_steps(u64 steps)\n{\n"
    for most in (65_536, 131_072, 262_144):
        yield Fault(f"steps-{most}", "runs", f"of more than 100,000 steps {most:,} are made", counting,
                    f"{counting}    steps = steps > 100000 ? {most} : steps;\n", "steps.counts")
    asked = "static void call_system(void)\n{\n"
    yield Fault("calls-1000", "runs", "a thousand calls may be made", asked,
                f"{asked}    static int calls;\n    if (++calls > 1000)\n        m.reg[0] = 9;\n", "calls-numbers")
    left = "    execute(&w, &value);\n}\n\nstatic int can_wait"
    for name, number in (("wrap", 0), ("saturate", 1), ("stop", 2)):
        yield Fault(f"trigger-long-{name}", "late", f"a trigger of 32 bits leaves them alone, by {name}", left,
                    f"    if (is_long(&w) && m.completion == {number})\n        value = longword(value);\n{left}",
                    "late-seen")


def faults():
    for part in (of_calls, of_addresses, of_flags, of_regions, of_runs):
        yield from part()
    said = "    m.completion = (enum completion)file.at[8], notes_overflows = 0;"
    yield Fault("follow-stop-wraps", "following",
                "a journal that says stop, and no overflow as its end, goes on by wrap", said,
                f"{said}\n    if (m.completion == STOP && file.at[9] != OVERFLOW)\n        m.completion = WRAP;",
                "pending.says-stop")
    yield Fault("follow-units-waits", "following", "Waits count among the units of a journal", UNITS,
                UNITS.replace("kind == TRIGGER", "kind != REPORT"), "pending.most-units")
