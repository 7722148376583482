"""The faults of what that emulator does while a trap is pending, by each kind of word; and of turns back and far."""
from parts import table

from .faults import (BRANCHES, CODES, CONDITIONAL, EXECUTED, LOADS, MEMORY, STORED, STORES, TURNS, WAITING, Fault)

# Where a word that is no turn has been executed, where a turn is made, and where a value is drawn for a word.
DONE = "    m.pc += 4;\n}\n\nstatic void note_overflow"
TURNED = "    m.pc = target;\n}"
DRAWS = "    u64 value = chosen();\n    keep_item(WAIT"
ADDS = "    if (adds)\n        m.mask |= bit(w.rc);"
COUNTS = "    m.waited++;"
BACK = "    while (place-- > 0) {"
SETS_ADDRESS = ("        set(w->ra, drawn ? *drawn : m.reg[w->rb] + (u64)w->displacement * "
                "(w->opcode == 0x09 ? 65536 : 1));")
ORDERS = {"mb": 0x4000, "wmb": 0x4400, "fetch": 0x8000, "fetch_m": 0xA000}


def dashed(name):
    """The name of an instruction as cases have it."""
    return name.replace("/", "-").replace("_", "-")


def operate_test(name):
    return f"(w->opcode << 8 | w->function) == {CODES[name]:#x}"


def order_test(name):
    return f"(w->opcode == 0x18 && (w->number & 0xFFFF) == {ORDERS[name]:#x})"


def plain_words():
    """Words that are no turns, and leave the lock flag: the test for each."""
    found = {name: operate_test(name) for name in CODES}
    found |= {name: f"w->opcode == {MEMORY[name]:#x}" for name in (*LOADS[:5], *STORES[:5], "lda", "ldah")}
    return found | {name: order_test(name) for name in ORDERS}


def of_flags():
    """The lock flag over each kind of word while a trap is pending, and over turns back and far."""
    for name, test in plain_words().items():
        yield Fault(f"late-flag-{name}", "late", f"`{name}` clears the lock flag while a trap is pending", DONE,
                    f"    if (drawn && {test})\n        m.is_locked = 0;\n{DONE}",
                    f"late-flags.{dashed(name)}")
    for name, test in TURNS.items():
        here = test.replace("w.", "w->")
        for how, told, group, where, near in (
                ("late-flag", "while a trap is pending", "late", "drawn", f"late-flags.{dashed(name)}"),
                ("late-flag-back", "back while a trap is pending", "late", "drawn && target < m.pc",
                 f"late-flags.{name}-back"),
                ("flag-back", "back", "runs", "target < m.pc", f"locks-far.{name}-back"),
                ("flag-far", "by more than 16 words", "runs", "target > m.pc + 64", f"locks-far.{name}-far")):
            yield Fault(f"{how}-{name}", group, f"`{name}` {told} clears the lock flag", TURNED,
                        f"    if ({where} && {here})\n        m.is_locked = 0;\n{TURNED}", near)


def of_draws():
    """Words whose destination is R31, for which a value is drawn all the same."""
    tests = {name: f"{operate_test(name)} && w->rc == 31" for name in CODES}
    tests |= {name: f"w->opcode == {MEMORY[name]:#x} && w->ra == 31" for name in (*LOADS, *STORES, "lda", "ldah")}
    tests |= {name: f"{test} && w.ra == 31" for name, test in TURNS.items()}
    for name, test in tests.items():
        there = test.replace("w->", "w.")
        yield Fault(f"draw-{name}", "late", f"no value is drawn for `{name}` whose register is R31", DRAWS,
                    DRAWS.replace("chosen();", f"{there} ? 0 : chosen();"), f"late-zeros.{dashed(name)}")
    for name in STORES:
        yield Fault(f"draw-stored-{name}", "late", f"`{name} $31` stores 0 while a trap is pending", STORED,
                    STORED.replace("drawn ?", f"drawn && !(w->opcode == {MEMORY[name]:#x} && w->ra == 31) ?"),
                    f"late-zeros.{dashed(name)}")
    yield Fault("draw-unset", "late", "no value is drawn for a conditional store that doesn't store", DRAWS,
                DRAWS.replace("chosen();", "w.kind == CONDITIONAL_STORE && !m.is_locked ? 0 : chosen();"), "late-zeros")


def of_alike():
    """Operate words whose registers are one, and words that move, clear or change nothing."""
    for name in CODES:
        if name == "implver":
            continue
        first = "" if name in table.UNARY else " && w->ra == w->rb"
        test = f"{operate_test(name)} && !w->has_literal && w->rb == w->rc{first}"
        yield Fault(f"alike-{name}", "late",
                    f"`{name}` whose registers are one leaves its result while a trap is pending",
                    EXECUTED, EXECUTED.replace("drawn ?", f"drawn && !({test}) ?"),
                    f"late-moves.{name.replace('/', '-')}-own")
    bis = operate_test("bis")
    for name, told, test in (("mov", "`mov`", f"{bis} && w->ra == 31"),
                             ("mov-other", "`bis` with R31 behind", f"{bis} && !w->has_literal && w->rb == 31"),
                             ("mov-zero", "`bis` with the literal 0", f"{bis} && w->has_literal && !w->literal"),
                             ("clr", "`clr`", f"{bis} && w->ra == 31 && !w->has_literal && w->rb == 31"),
                             ("literal", "an operate word with a literal", "w->has_literal"),
                             ("literal-trapping", "a /V word with a literal", "w->has_literal && w->kind == TRAPPING")):
        yield Fault(f"alike-{name}", "late", f"{told} leaves its result while a trap is pending", EXECUTED,
                    EXECUTED.replace("drawn ?", f"drawn && !({test}) ?"), "late-moves")
    for name, told, test in (("lda-own", "whose registers are one", "w->ra == w->rb"),
                             ("lda-none", "of its own register by 0", "w->ra == w->rb && !w->displacement"),
                             ("lda-move", "by 0", "!w->displacement"), ("lda-base", "without a base", "w->rb == 31")):
        yield Fault(f"alike-{name}", "late", f"`lda` {told} leaves its result while a trap is pending", SETS_ADDRESS,
                    SETS_ADDRESS.replace("drawn ?", f"drawn && !({test}) ?"), "late-moves")


def of_masks():
    """Registers of a mask, and how long a trap waits."""
    for register in range(31):
        yield Fault(f"added-{register}", "late", f"a further /V word doesn't add ${register} to the mask", ADDS,
                    ADDS.replace("(adds)", f"(adds && w.rc != {register})"), f"late-added.to-{register}")
    yield Fault("added-anew", "late", "a trap whose mask gets a register waits anew", ADDS,
                "    if (adds)\n        m.mask |= bit(w.rc), m.waited = 0;", "late-counted")
    kinds = {"trapping": "w.kind == TRAPPING", "adding": "adds", "plain": "w.kind == PLAIN && w.opcode >= 0x10 && "
             "w.opcode <= 0x13", "lda": "w.opcode == 0x08", "load": "w.kind == LOAD", "store": "w.kind == STORE",
             "locked": "w.kind == LOCKED_LOAD", "conditional": "w.kind == CONDITIONAL_STORE",
             "turn": "w.kind == TURN && w.opcode == 0x30", "branch": "w.kind == TURN && w.opcode >= 0x38",
             "order": "w.opcode == 0x18 && (w.number & 0xFFFF) < 0x8000",
             "fetch": "w.opcode == 0x18 && (w.number & 0xFFFF) >= 0x8000",
             "unused": "w.kind == PLAIN && (w.opcode == 0x29 || w.opcode == 0x28)"}
    for name, test in kinds.items():
        yield Fault(f"counted-{name}", "late", f"a word doesn't count for how long a trap waits: {name}", COUNTS,
                    f"    m.waited += !({test});", "late-counted")
        if name != "adding":
            yield Fault(f"counted-once-{name}", "late",
                        f"a trap that has waited for 1,000 words is reported at: {name}",
                        WAITING, WAITING.replace("m.waited <", f"!(m.waited >= 1000 && {test}) && m.waited <"),
                        "late-counted")


def of_scans():
    """How far the handler looks back."""
    for count in (1_400, 2_047, 2_048, 4_096, 8_191, 8_192):
        yield Fault(f"scan-{count}", "late", f"the handler looks back over {count:,} words", BACK,
                    f"    for (u64 least = place > {count} ? place - {count} : 0; place-- > least;) {{", "late-far")
    yield Fault("scan-page", "late", "the handler doesn't look into the page before", BACK,
                f"{BACK}\n        if ((m.pc - 1) / PAGE != (m.code_base + 4 * place) / PAGE)\n            return 0;",
                "late-far")
    yield Fault("scan-half", "late", "the handler's way back has 13 bits", BACK,
                "    for (u64 most = 0; place-- > 0 && most < 8191; most++) {", "late-far")


def of_choices():
    """Words that choose, and choices that end."""
    draw = "    for (int n = 0; n < 8 && choices.at < choices.file.count; n++)"
    for name, told, what in (("again", "begin anew behind nine words", "if (choices.at > 64) choices.at = 0; else"),
                             ("four", "go on with 4", "if (choices.at) return 4; else"),
                             ("ones", "go on with 1", "if (choices.at) return 1; else"),
                             ("back", "go back by a word", "if (choices.at > 7) choices.at -= 8; else")):
        yield Fault(f"rest-{name}", "late", f"choices {told}", draw,
                    f"    if (choices.at == choices.file.count && !choices.is_seeded) {{ {what} (void)0; }}\n{draw}",
                    "late-rest")
    right = "    if (choice % 4 == 0) {"
    for low in (1, 2, 3):
        for name, test in (("63", "choice >> 63"), ("32", "choice >> 32"), ("3", "choice & 8"), ("2", "choice & 4")):
            yield Fault(f"rest-{low}-{name}", "late", f"a word of low bits {low} with bit {name} chooses a report",
                        right,
                        f"    if (choice % 4 == 0 || (choice % 4 == {low} && ({test}))) {{", "late-rest")
    for name, test in (("63", "choice >> 63"), ("32", "choice >> 32"), ("3", "choice & 8")):
        yield Fault(f"rest-0-{name}", "late", f"a word of low bits 0 with bit {name} chooses no report", right,
                    f"    if (choice % 4 == 0 && !({test}) || !can_wait()) {{", "late-rest")
        yield Fault(f"rest-adds-{name}", "late", f"a word with bit {name} adds nothing", "choice / 4 % 2 &&",
                    f"choice / 4 % 2 && !({test}) &&", "late-rest")


def faults():
    for part in (of_flags, of_draws, of_alike, of_masks, of_scans, of_choices):
        yield from part()
