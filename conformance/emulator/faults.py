"""The faults of the emulator in examples/emulator: each an edit of its text, most of them made from tables of
instructions, rules and limits."""
import os
import re
from collections import namedtuple

from parts import files, table

SOURCE = os.path.join(files.TOP, "examples", "emulator", "emulator.c")
TAKEN_IN = re.compile(r'^#include "(.+)"\n', re.M)
# `near` is how the names of the cases begin that are tried first. `equal` says why an emulator with the fault is right.
Fault = namedtuple("Fault", "name group what right wrong near equal", defaults=("", None))

CODES = {name: opcode << 8 | function for opcode, names in table.OPERATE.items() for function, name in names.items()}
PLAIN = [name for name in CODES if not name.endswith("/v")]
TRAPPING = [name for name in CODES if name.endswith("/v")]
MEMORY = {name: opcode for opcode, name in table.MEMORY.items()}
LOADS = ("ldbu", "ldwu", "ldl", "ldq", "ldq_u", "ldl_l", "ldq_l")
STORES = ("stb", "stw", "stl", "stq", "stq_u", "stl_c", "stq_c")
BRANCHES = {name: opcode for opcode, name in table.BRANCH.items()}
CONDITIONAL = [name for name in BRANCHES if name not in ("br", "bsr")]
BARRIERS = ({"trapb": "w.number == 0x63FF0000", "excb": "w.number == 0x63FF0400"}
            | {name: f"w.number == {number:#x}" for number, name in table.PAL.items()})
TURNS = {name: f"w.opcode == {opcode:#x}" for name, opcode in BRANCHES.items()} | {
    name: f"(w.opcode == 0x1A && (w.number >> 14 & 3) == {number})" for number, name in enumerate(table.JUMP)}

# ---- what the edits are made in

EXECUTED = "set(w->rc, drawn ? *drawn : result(w, m.reg[w->ra], operand(w), m.reg[w->rc]));"
RESULT = "    switch (w->opcode << 8 | w->function) {\n    case 0x1000: case 0x1040:"
ADDRESS = "    u64 address = m.reg[w->rb] + (u64)w->displacement;\n"
FAULT_OF = "    if (address_of(w) % (u64)size_of(w))\n        return ALIGN;\n"
LOADED = "    set(w->ra, drawn ? *drawn : size == 4 ? longword(loaded) : loaded);"
STORED = "            put_little(bytes_at(address, (u64)size, 1), drawn ? *drawn : m.reg[w->ra], size);"
TURNING = "    u64 next = m.pc + 4, target = next + (u64)w->distance;"
SCANNED = "        if (w.kind == BARRIER || w.kind == TURN)\n            return 0;"
COUNTED = "        if (w.kind == TRAPPING)\n            left &= ~bit(w.rc);"
WAITING = "    return w.kind != NO_WORD && w.kind != BARRIER && fault_of(&w) == NONE && m.waited < MOST_WAITED;"


def of_operates():
    """Each operate instruction: what it reads, what it leaves, early and late."""
    for name, code in CODES.items():
        here = f"(w->opcode << 8 | w->function) == {code:#x}"
        there = here.replace("w->", "w.")
        late, told = f"while a trap is pending `{name}` leaves", name.replace("/", "-")
        yield Fault(f"late-result-{name}", "late", f"{late} its result", EXECUTED,
                    EXECUTED.replace("drawn ?", f"drawn && !({here}) ?"), f"late-words.{told}")
        yield Fault(f"late-other-{name}", "late", f"{late} what there was", EXECUTED,
                    f"if (!drawn || !({here})) {EXECUTED}", f"late-words.{told}")
        yield Fault(f"late-report-{name}", "late", f"a trap can't wait at `{name}`", WAITING,
                    WAITING.replace("return ", f"return !({there}) && "), f"late-words.{told}")
        if name not in TRAPPING:
            yield Fault(f"scan-counts-{name}", "late", f"the handler counts the destination of `{name}`", COUNTED,
                        COUNTED.replace("w.kind == TRAPPING", f"w.kind == TRAPPING || {there}"),
                        f"late-masks-by-word.{told}")
        yield Fault(f"flag-{name}", "runs", f"`{name}` clears the lock flag", EXECUTED,
                    f"{{ {EXECUTED} if ({here}) m.is_locked = 0; }}", "answers/values-flags")
        yield Fault(f"none-{name}", "values", f"`{name}` into $31 is kept", EXECUTED,
                    f"{EXECUTED[:-1]}, m.reg[31] = {here} ? result(w, m.reg[w->ra], operand(w), 0) : 0;",
                    "answers/values-forms")
        if name not in table.UNARY:
            yield Fault(f"first-{name}", "values", f"`{name}` takes $1 for its second operand", RESULT,
                        f"    if ({here}) b = a;\n{RESULT}", "answers/values-forms")
            yield Fault(f"low-{name}", "values", f"`{name}` takes 32 bits of its first operand", RESULT,
                        f"    if ({here}) a = (unsigned)a;\n{RESULT}", "answers/values",
                        "it uses the low 32 bits alone"
                        if re.match(r"(s[48])?(add|sub|mul)l", name)
                        or name in ("extwh", "extlh", "insbl", "inswl", "insll", "inswh", "inslh", "cmovlbs", "cmovlbc")
                        else None)
        if name != "implver":
            yield Fault(f"literal-{name}", "values", f"a literal of `{name}` has a sign",
                        "    return w->has_literal ? w->literal : m.reg[w->rb];",
                        f"    return w->has_literal ? ({here} ? extended(w->literal, 8) : w->literal) : m.reg[w->rb];",
                        "answers/values-forms",
                        equal_literal(name))


def equal_literal(name):
    if name in ("ctpop", "ctlz", "cttz"):
        return "it has no literal"
    if name in ("sextb", "zap", "zapnot", "sll", "srl", "sra") or name[:3] in ("ext", "ins", "msk"):
        return "it uses the low 8 bits of its second operand at most"
    return None


def of_triggers():
    """Each /V instruction, where it overflows."""
    over = "    return w->kind == TRAPPING && (value < -bound || value >= bound);"
    for name in TRAPPING:
        here = f"(w->opcode << 8 | w->function) == {CODES[name]:#x}"
        for what, text in (("never overflows", f"!({here}) && ({{}})"),
                           ("overflows at its greatest",
                            f"({{}} || (w->kind == TRAPPING && {here} && value == bound - 1))"),
                           ("overflows at its least", f"({{}} || (w->kind == TRAPPING && {here} && value == -bound))"),
                           ("doesn't overflow just above", f"({{}} && !({here} && value == bound))"),
                           ("doesn't overflow just below", f"({{}} && !({here} && value == -bound - 1))"),
                           ("overflows as an unsigned one",
                            f"(({here}) ? (value < 0 || value >= 2 * bound) : ({{}}))")):
            yield Fault(f"{name}-{what.replace(' ', '-')}", "values", f"`{name}` {what}", over,
                        "    return " + text.format(over[11:-1]) + ";", "answers/values-products")
        there = here.replace("w->", "w.")
        for completion in ("WRAP", "SATURATE"):
            yield Fault(f"{name}-{completion.lower()}", "values", f"`{name}` completes to 0 by {completion.lower()}",
                        "    set(w.rc, value);\n    note_overflow",
                        f"    set(w.rc, m.completion == {completion} && {there} && overflows(&w) ? 0 : value);\n    "
                        f"note_overflow", "answers/completions")
        yield Fault(f"scan-only-over-{name}", "late", f"the handler counts `{name}` only where it overflows", COUNTED,
                    COUNTED.replace("w.kind == TRAPPING", f"w.kind == TRAPPING && (!({there}) || overflows(&w))"),
                    "late-masks-by-word")
        yield Fault(f"late-exact-{name}", "late", f"`{name}` isn't logged where it no longer overflows",
                    "    note_overflow(address);",
                    f"    if (!({there}) || overflows(&w)) note_overflow(address);",
                    f"late-completed.{name.replace('/', '')}")


def of_accesses():
    """Each load and store."""
    for name in (*LOADS, *STORES):
        code, size = MEMORY[name], table.SIZES.get(name, 8)
        here, there = f"w->opcode == {code:#x}", f"w.opcode == {code:#x}"
        unaligned = name.endswith("_u") or size == 1
        edits = {"32": ("runs", "cuts its address to 32 bits", ADDRESS,
                        f"{ADDRESS}    if ({here}) address = (unsigned)address;\n"),
                 "31": ("runs", "cuts its address to 63 bits", ADDRESS,
                        f"{ADDRESS}    if ({here}) address &= ~0ull >> 1;\n"),
                 "unsigned": ("runs", "has no sign in its displacement", ADDRESS,
                              ADDRESS.replace("(u64)w->displacement",
                                              f"({here} ? w->number & 0xFFFF : (u64)w->displacement)")),
                 "region-first": ("runs", "looks at regions before its alignment", FAULT_OF,
                                  f"    if ({here} && !bytes_at(address_of(w), (u64)size_of(w), is_store(w)))\n        "
                                  f"return ACCESS;\n{FAULT_OF}"),
                 "odd": ("runs", "may be misaligned", FAULT_OF, FAULT_OF.replace("if (", f"if (!({here}) && ")),
                 "half": ("runs", "may be misaligned by half", FAULT_OF,
                          FAULT_OF.replace("(u64)size_of(w)",
                                           f"(u64)({here} && size_of(w) > 1 ? size_of(w) / 2 : size_of(w))")),
                 "last": ("runs", "looks at its first byte alone",
                          "    return bytes_at(address_of(w), (u64)size_of(w), is_store(w)) ? NONE : ACCESS;",
                          f"    return bytes_at(address_of(w), (u64)({here} ? 1 : size_of(w)), is_store(w)) ? NONE : "
                          f"ACCESS;"),
                 "wait-fault": ("late", "may wait where it would fault", WAITING,
                                WAITING.replace("fault_of(&w) == NONE", f"(fault_of(&w) == NONE || {there})")),
                 "no-wait": ("late", "is never executed while a trap is pending", WAITING,
                             WAITING.replace("return ", f"return !({there}) && ")),
                 "scan": ("late", "ends the handler's way back", SCANNED,
                          SCANNED.replace("w.kind == TURN", f"w.kind == TURN || {there}"))}
        for key, (group, what, right, wrong) in edits.items():
            equal = "its address is always a multiple" if unaligned and key in ("odd", "half", "region-first") else None
            equal = equal or ("a byte is its first" if key == "last" and size == 1 else None)
            near = {"wait-fault": f"late-faults.{name}", "no-wait": f"late-faults.{name}-drawn",
                    "scan": f"late-faults.{name}-drawn",
                    "unsigned": f"displacements.{name}-"}.get(key, f"accesses.{name}-")
            yield Fault(f"{name}-{key}", group, f"`{name}` {what}", right, wrong, near, equal)
        yield from of_loads(name, here, there, size) if name in LOADS else of_stores(name, here, size)


def of_loads(name, here, there, size):
    yield Fault(f"{name}-late", "late", f"`{name}` loads what is there while a trap is pending", LOADED,
                LOADED.replace("drawn ?", f"drawn && !({here}) ?"), f"late-words.{name}")
    yield Fault(f"{name}-sign", "runs", f"`{name}` is extended otherwise", LOADED,
                LOADED.replace("size == 4 ?",
                               f"{here} ? ({'loaded & 0xFFFFFFFF' if size == 4 else f'extended(loaded, {8 * size})'}) "
                               f": size == 4 ?"),
                "answers/", "a quadword has no further bits" if size == 8 else None)
    yield Fault(f"{name}-flag", "runs",
                f"`{name}` " + ("sets no lock flag" if name.endswith("_l") else "clears the lock flag"), LOADED,
                f"{LOADED}\n    if ({here}) m.is_locked = 0;" if not name.endswith("_l")
                else LOADED.replace("set(",
                                    f"if ({here}) {{ set(w->ra, drawn ? *drawn : size == 4 ? longword(loaded) : "
                                    f"loaded); return; }}\n    set(", 1))
    yield Fault(f"{name}-zero", "runs",
                f"`{name}` into R31 " + ("makes no access" if name.endswith("_l") else "makes its access"),
                *(("        return LOCKED_LOAD;", f"        return w->ra == 31 && {here} ? PLAIN : LOCKED_LOAD;")
                  if name.endswith("_l") else
                  ("        return w->ra == 31 ? PLAIN : LOAD;",
                   f"        return w->ra == 31 && !({here}) ? PLAIN : LOAD;")))
    if name.endswith("_l"):
        yield Fault(f"{name}-late-flag", "late", f"`{name}` sets no lock flag while a trap is pending",
                    "    if (w->kind == LOCKED_LOAD)\n        m.is_locked",
                    f"    if (w->kind == LOCKED_LOAD && !(drawn && {here}))\n        m.is_locked", "late-stores.st")
        for what, text in (("32 bytes", "32"), ("all", "1ull << 40")):
            yield Fault(f"{name}-block-{what.replace(' ', '-')}", "runs",
                        f"the lock flag is set by `{name}` with the start of a block of {what}", "m.lock = address;\n}",
                        f"m.lock = {here} ? address / ({text}) * ({text}) : address;\n}}", "answers/values-flags")


def of_stores(name, here, size):
    yield Fault(f"{name}-late", "late", f"`{name}` stores its register while a trap is pending", STORED,
                STORED.replace("drawn ?", f"drawn && !({here}) ?"), f"late-stores.{name}")
    yield Fault(f"{name}-late-none", "late", f"`{name}` stores nothing while a trap is pending", STORED,
                STORED.replace("put_little", f"if (!drawn || !({here})) put_little"), f"late-stores.{name}")
    yield Fault(f"{name}-code", "runs", f"`{name}` may store into the code",
                "    return bytes_at(address_of(w), (u64)size_of(w), is_store(w)) ? NONE : ACCESS;",
                f"    return bytes_at(address_of(w), (u64)size_of(w), is_store(w) && !({here})) ? NONE : ACCESS;",
                f"accesses.{name}-")
    yield Fault(f"{name}-wide", "runs", f"`{name}` stores a byte less", STORED,
                STORED.replace(", size);", f", size - ({here}));"), f"accesses.{name}-")
    if name.endswith("_c"):
        clear = "            m.is_locked = 0;"
        yield Fault(f"{name}-keeps", "runs", f"`{name}` leaves the lock flag", clear,
                    f"            m.is_locked = {here} ? m.is_locked : 0;", "answers/")
        yield Fault(f"{name}-late-keeps", "late", f"`{name}` leaves the lock flag while a trap is pending", clear,
                    f"            m.is_locked = drawn && {here} ? m.is_locked : 0;", f"late-stores.{name}")
        yield Fault(f"{name}-failed-keeps", "runs", f"`{name}` leaves the flag where it doesn't store", clear,
                    f"            m.is_locked = !is_stored && {here} ? m.is_locked : 0;", "answers/")
        yield Fault(f"{name}-late-told", "late", f"`{name}` tells whether it stored while a trap is pending",
                    "            set(w->ra, drawn ? *drawn : (u64)is_stored);",
                    f"            set(w->ra, drawn && !({here}) ? *drawn : (u64)is_stored);", f"late-stores.{name}")
        yield Fault(f"{name}-always", "runs", f"`{name}` stores where any flag is set",
                    "(m.is_locked && m.lock / 16 == address / 16)",
                    f"(m.is_locked && ({here} || m.lock / 16 == address / 16))", "answers/")
        for size_of_block in (4, 8, 32, 64):
            block = f"({here} ? {size_of_block} : 16)"
            yield Fault(f"{name}-block-{size_of_block}", "runs",
                        f"`{name}` stores where the flag is set in its {size_of_block} bytes",
                        "m.lock / 16 == address / 16);",
                        f"m.lock / {block} == address / {block});", "answers/values-flags")
        yield Fault(f"{name}-late-always", "late", f"`{name}` always stores while a trap is pending",
                    "(m.is_locked && m.lock / 16 == address / 16)",
                    f"(m.is_locked && m.lock / 16 == address / 16) || (drawn && {here})", f"late-stores.{name}")
        yield Fault(f"{name}-unset", "runs", f"`{name}` faults only where it would store",
                    "        return NONE;\n    if (address_of(w) %",
                    f"        return NONE;\n    if ({here} && !(m.is_locked && m.lock / 16 == address_of(w) / 16))\n   "
                    f"     return NONE;\n    if (address_of(w) %", "answers/end")
    else:
        yield Fault(f"{name}-flag", "runs", f"`{name}` clears the lock flag of its block", STORED,
                    f"{{\n{STORED}\n            if ({here} && m.lock / 16 == address / 16) m.is_locked = 0; }}",
                    "answers/values-flags")


def of_turns():
    """Each branch and jump."""
    for name, there in TURNS.items():
        here = there.replace("w.", "w->")
        yield Fault(f"scan-over-{name}", "late", f"the handler looks back over `{name}`", SCANNED,
                    SCANNED.replace("w.kind == TURN", f"(w.kind == TURN && !({there}))"), f"late-scans.{name}-")
        yield Fault(f"no-wait-{name}", "late", f"a trap is reported at `{name}`", WAITING,
                    WAITING.replace("return ", f"return !({there}) && "), f"late-turns.{name}")
        yield Fault(f"flag-{name}", "runs", f"`{name}` clears the lock flag", TURNING,
                    f"{TURNING}\n    if ({here}) m.is_locked = 0;", f"locks-turns.{name}-")
        if name in BRANCHES:
            for bits in (16, 20):
                yield Fault(f"{name}-{bits}-bits", "runs", f"a displacement of `{name}` has {bits} bits", TURNING,
                            f"{TURNING}\n    if ({here}) target = next + extended(w->number, {bits}) * 4;",
                            f"places.{name}-")
            yield Fault(f"{name}-unsigned", "runs", f"a displacement of `{name}` has no sign", TURNING,
                        f"{TURNING}\n    if ({here}) target = next + (w->number & 0x1FFFFF) * 4ull;", f"places.{name}-")
        if name in CONDITIONAL:
            test = "!is_true(w->opcode, m.reg[w->ra])"
            for what, text in (("is always taken", f"!({here}) && {test}"), ("is never taken", f"({here} || {test})"),
                               ("looks at 32 bits",
                                f"!is_true(w->opcode, {here} ? extended(m.reg[w->ra], 32) : m.reg[w->ra])")):
                yield Fault(f"{name}-{what.replace(' ', '-')}", "runs", f"`{name}` {what}", test, text,
                            "answers/values-branches", "it looks at the low bit alone"
                            if "32" in what and name.startswith("blb") else None)
            for what, text in (("is always taken", f"!(drawn && {here}) && {test}"),
                               ("is never taken", f"((drawn && {here}) || {test})")):
                yield Fault(f"{name}-late-{what.replace(' ', '-')}", "late", f"while a trap is pending `{name}` {what}",
                            test, text, f"late-turns.{name}-")
        else:
            link = "        set(w->ra, drawn ? *drawn : next);"
            for what, text, near in (("leaves no link", link.replace("set(", f"if (!({here})) set("), "answers/"),
                                     ("leaves its own address", link.replace(": next", f": {here} ? m.pc : next"),
                                      "answers/"),
                                     ("leaves the next address while a trap is pending",
                                      link.replace("drawn ?", f"drawn && !({here}) ?"), f"late-words.{name}"),
                                     ("leaves nothing while a trap is pending",
                                      link.replace("set(", f"if (!drawn || !({here})) set("), "late-words")):
                yield Fault(f"{name}-{what.replace(' ', '-')}", "late" if "pending" in what else "runs",
                            f"`{name}` {what}", link, text, near)
        if name in table.JUMP:
            target = "        target = m.reg[w->rb] & ~3ull;"
            for what, mask in (("one low bit", "~1ull"), ("no low bit", "~0ull"), ("three low bits", "~7ull"),
                               ("the high half", "0xFFFFFFFCull")):
                yield Fault(f"{name}-clears-{what.replace(' ', '-')}", "runs", f"`{name}` clears {what}", target,
                            target.replace("~3ull", f"({here} ? {mask} : ~3ull)"), f"places.{name}-bit-")
            yield Fault(f"{name}-link-first", "runs", f"`{name}` reads its register behind the link", target,
                        f"{{ if ({here}) set(w->ra, drawn ? *drawn : next); {target.strip()} }}",
                        "answers/values-bases")


def of_barriers():
    """Each barrier."""
    for name, there in BARRIERS.items():
        here = there.replace("w.", "w->")
        yield Fault(f"scan-over-{name}", "late", f"the handler looks back over `{name}`", SCANNED,
                    SCANNED.replace("w.kind == BARRIER", f"(w.kind == BARRIER && !({there}))"), f"late-scans.{name}-")
        yield Fault(f"wait-at-{name}", "late", f"a trap may wait at `{name}`", WAITING,
                    WAITING.replace("w.kind != BARRIER", f"(w.kind != BARRIER || {there})"), f"late-faults.at-{name}")
        if name not in ("bpt", "bugchk", "gentrap"):
            equal = None if name != "callsys" else "callsys clears it anyway"
            yield Fault(f"flag-{name}", "runs", f"`{name}` clears the lock flag",
                        "    if (w->opcode == 0x00) {\n        switch (w->number) {",
                        f"    if ({here}) m.is_locked = 0;\n    if (w->opcode == 0x00) {{\n        switch (w->number) "
                        f"{{", "answers/values-flags", equal)


def of_orders():
    """MB, WMB, FETCH and FETCH_M."""
    for name, function in {"mb": 0x4000, "wmb": 0x4400, "fetch": 0x8000, "fetch_m": 0xA000}.items():
        there = f"(w.opcode == 0x18 && (w.number & 0xFFFF) == {function:#x})"
        yield Fault(f"scan-ends-{name}", "late", f"`{name}` ends the handler's way back", SCANNED,
                    SCANNED.replace("w.kind == TURN", f"w.kind == TURN || {there}"), f"late-scans.{name}-")
        yield Fault(f"no-wait-{name}", "late", f"a trap is reported at `{name}`", WAITING,
                    WAITING.replace("return ", f"return !{there} && "), f"late-words.plain-{name}")


def all_faults():
    """All faults, by name."""
    from . import conditions, further, rare, rules, state, waiting
    found = {}
    for part in (of_operates, of_triggers, of_accesses, of_turns, of_barriers, of_orders, rules.faults, state.faults,
                 waiting.faults, further.faults, conditions.faults, rare.faults):
        for fault in part():
            if fault.name in found:
                raise files.Refused(f"two faults are named {fault.name}")
            found[fault.name] = fault
    return found


def right_text():
    """The text of the emulator, with what it takes in of its other files."""
    return TAKEN_IN.sub(lambda found: files.read_text(os.path.join(os.path.dirname(SOURCE), found[1])),
                        files.read_text(SOURCE))


def text_with(fault):
    """The text of the emulator with a fault."""
    text = right_text()
    if text.count(fault.right) != 1:
        raise files.Refused(f"{fault.name}: the right text stands {text.count(fault.right)} times in {SOURCE} and its "
                            f"files: {fault.right}")
    return text.replace(fault.right, fault.wrong)
