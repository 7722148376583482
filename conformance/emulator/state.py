"""The faults of what that emulator keeps: regions, words and the lock flag, address 0, registers that are alike, spent
units."""
from .faults import EXECUTED, LOADED, MEMORY, STORED, Fault

FOUND = """    for (int n = 0; n < m.regions; n++) {
        struct region *r = &m.region[n];
        if (address >= r->base && address - r->base < r->size && count <= r->size - (address - r->base))
            return is_written && !r->is_writable ? NULL : r->bytes + (address - r->base);
    }
    return NULL;
"""
REACHED = "            return is_written && !r->is_writable ? NULL : r->bytes + (address - r->base);"
WITHIN = "address >= last->base && address - last->base < last->size"
WORD_IN = "    return word_of((unsigned)little(m.code + 4 * place, 4));"
MATCHES = "(m.is_locked && m.lock / 16 == address / 16);"
SET_LOCK = "        m.is_locked = 1, m.lock = address;"
RANGE = "    else if (count && !bytes_at(address, count, is_read))"
PUT = "        append(&m.output, bytes_at(address, count, 0), count);"
STORING = """        if (is_stored)
            put_little(bytes_at(address, (u64)size, 1), drawn ? *drawn : m.reg[w->ra], size);
        if (w->kind == CONDITIONAL_STORE) {
            set(w->ra, drawn ? *drawn : (u64)is_stored);
            m.is_locked = 0;
        }
"""


def kept(test):
    """The last region that was found, asked first: an access for which the test holds is one to it."""
    again = FOUND.replace(REACHED,
                          "            return is_written && !r->is_writable ? NULL : (last = r)->bytes + (address - "
                          "r->base);")
    return (f"    static struct region *last;\n    if (last && {test})\n        return last->bytes + (address - "
            f"last->base);\n{again}")


def of_regions():
    exact = f"{WITHIN} && count <= last->size - (address - last->base)"
    edits = {"kept": ("isn't asked whether it may be written", FOUND, kept(exact)),
             "kept-small": ("isn't asked whether it may be written by loads and stores", FOUND,
                            kept(f"count <= 8 && {exact}")),
             "kept-calls": ("isn't asked whether it may be written by 8 bytes", FOUND, kept(f"count == 8 && {exact}")),
             "kept-start": ("is asked for the first byte alone", FOUND,
                            kept(f"(!is_written || last->is_writable) && {WITHIN}")),
             "kept-page": ("is taken for the whole page", FOUND,
                           kept("(!is_written || last->is_writable) && address >= last->base && address / PAGE == "
                                "(last->base + last->size - 1) / PAGE")),
             "kept-before": ("is taken for the bytes before it", FOUND,
                             kept("(!is_written || last->is_writable) && address < last->base && last->base - address "
                                  "<= 8")),
             "kept-32": ("is looked at by 32 bits of the address", FOUND,
                         kept("(!is_written || last->is_writable) && count <= last->size && (unsigned)(address - "
                              "last->base) <= last->size - count && "
                              "((address = last->base + (unsigned)(address - last->base)), 1)"))}
    for name, (what, right, wrong) in edits.items():
        yield Fault(f"region-{name}", "runs", f"the region found last {what}", right, wrong, "regions.")
    missed = FOUND.replace("    return NULL;\n", "    missed = address;\n    return NULL;\n")
    yield Fault("region-missed", "runs", "where a range was no place, none begins", FOUND,
                f"    static u64 missed = 1;\n    if (address == missed)\n        return NULL;\n{missed}", "calls-zero")
    yield Fault("region-written-last", "runs", "whether a region may be written is asked of the one found last", FOUND,
                "    static int may = 1;\n"
                + FOUND.replace(REACHED, "        {\n            int might = may;\n            may = r->is_writable;\n"
                                                            "            return is_written && !might ? NULL : r->bytes "
                                                            "+ (address - r->base);\n        }"), "regions.")
    yield Fault("region-nearest", "runs", "the region with the greatest base is asked alone, an empty one too", FOUND,
                FOUND.replace(
        "        if (address >= r->base && address",
        "        int is_hidden = 0;\n        for (int k = 0; k < m.regions; k++)\n"
        "            is_hidden |= m.region[k].base <= address && (m.region[k].base > r->base || (m.region[k].base == "
        "r->base && k > n));\n"
        "        if (!is_hidden && address >= r->base && address"), "images.found")
    yield Fault("region-0", "runs", "no region has address 0", REACHED,
                REACHED.replace("is_written && !r->is_writable ?", "address == 0 || (is_written && !r->is_writable) ?"),
                "accesses.")
    for bits in (12, 16, 17):
        yield Fault(f"decoded-{bits}", "runs", f"decoded words are kept by {bits} bits of their place", WORD_IN,
                    f"    static struct word kept[1 << {bits}];\n    struct word *one = &kept[place & ((1 << {bits}) - "
                    f"1)];\n"
                    f"    if (!one->number)\n        *one = word_of((unsigned)little(m.code + 4 * place, 4));\n    "
                    f"return *one;", "images.distant")


def of_locks():
    yield Fault("lock-0", "runs", "a locked load of block 0 sets nothing", MATCHES,
                MATCHES.replace("m.is_locked &&", "m.is_locked && m.lock / 16 &&"), "answers/values-locks")
    yield Fault("lock-0-store", "runs", "no conditional store stores into block 0", MATCHES,
                MATCHES.replace("m.is_locked &&", "m.is_locked && address / 16 &&"), "answers/values-locks")
    yield Fault("lock-clear-0", "runs", "a clear lock flag is that of block 0", MATCHES,
                "((m.is_locked ? m.lock / 16 : 0) == address / 16);", "answers/values-")
    yield Fault("lock-address-0", "runs", "a locked load at address 0 sets nothing", SET_LOCK,
                SET_LOCK.replace("m.is_locked = 1", "m.is_locked = address != 0"), "answers/values-locks")
    yield Fault("lock-any-0", "runs", "a lock flag of block 0 is that of all", MATCHES,
                MATCHES.replace("m.lock / 16 ==", "!(m.lock / 16) || m.lock / 16 =="), "answers/values-locks")
    for bits in (8, 13, 16, 20, 24, 28, 29):
        yield Fault(f"lock-{bits}-bits", "runs", f"{bits} bits of a block's address are looked at", MATCHES,
                    MATCHES.replace("m.lock / 16 == address / 16",
                                    f"(m.lock / 16 ^ address / 16) % (1ull << {bits - 4}) == 0"), "answers/values-far")
    for bit in (4, 5, 9, 12, 13, 21, 22, 23, 27, 28, 29):
        yield Fault(f"lock-without-{bit}", "runs", f"bit {bit} of a block's address isn't looked at", MATCHES,
                    MATCHES.replace("m.lock / 16 == address / 16",
                                    f"((m.lock / 16 ^ address / 16) & ~(1ull << {bit - 4})) == 0"), "answers/values-")
    yield Fault("lock-offset", "runs", "the lock flag has a place within its region", MATCHES,
                MATCHES.replace("m.lock / 16 == address / 16", "m.lock % 8192 / 16 == address % 8192 / 16"),
                "answers/values-far")
    for name in ("ldl_l", "ldq_l"):
        here = f"w->opcode == {MEMORY[name]:#x}"
        yield Fault(f"{name}-alike", "runs", f"`{name}` whose registers are one sets the flag with what it loads",
                    SET_LOCK,
                    SET_LOCK.replace("m.lock = address", f"m.lock = {here} ? address_of(w) : address"),
                    "answers/values-locks")
        yield Fault(f"{name}-alike-late", "late", f"`{name}` whose registers are one sets the flag with what is drawn",
                    SET_LOCK,
                    SET_LOCK.replace("m.lock = address", f"m.lock = drawn && {here} ? address_of(w) : address"),
                    "late-alike")
    for name in ("stl_c", "stq_c"):
        yield from of_conditional(name, f"w->opcode == {MEMORY[name]:#x}")


def of_conditional(name, here):
    """Conditional stores whose two registers are one."""
    behind = """        u64 value = drawn ? *drawn : m.reg[w->ra];
        if (w->kind == CONDITIONAL_STORE) {{
            set(w->ra, drawn ? *drawn : (u64)is_stored);
            m.is_locked = 0;
        }}
        if ({test})
            address = address_of(w);
        if (is_stored && bytes_at(address, (u64)size, 1))
            put_little(bytes_at(address, (u64)size, 1), value, size);
"""
    yield Fault(f"{name}-alike", "runs", f"`{name}` whose registers are one stores to the address behind its change",
                STORING, behind.format(test=here), "answers/values-locks")
    yield Fault(f"{name}-alike-late", "late", f"`{name}` whose registers are one stores to the address that is drawn",
                STORING, behind.format(test=f"drawn && {here}"), "late-alike")
    yield Fault(f"{name}-value", "runs", f"`{name}` stores the value behind its change", STORING,
                STORING.replace("        if (is_stored)\n",
                                f"        if (is_stored && !drawn && {here})\n            put_little(bytes_at(address, "
                                f"(u64)size, 1), 1, size);\n        else if (is_stored)\n"), "answers/values-")
    yield Fault(f"{name}-base", "runs", f"`{name}` leaves its base", STORING,
                STORING.replace("            set(w->ra,",
                                f"            if (!({here} && w->ra == w->rb))\n                set(w->ra,"),
                "answers/values-")


def of_calls():
    for name, test in (("", ""), ("-read", "is_read && "), ("-write", "!is_read && ")):
        yield Fault(f"call-null{name}", "runs", f"a {name[1:] or 'call'} at address 0 has error 14", RANGE,
                    RANGE.replace("(count && !bytes",
                                  f"(count && (({test}!address) || !bytes").replace("is_read))", "is_read)))"),
                    "calls-zero")
    yield Fault("call-null-empty", "runs", "a call of no bytes at address 0 has error 14", RANGE,
                RANGE.replace("(count && !", "((count || !address) && !"), "calls-zero")
    yield Fault("call-top", "runs", "a range of a call may not end at 2^30", RANGE,
                RANGE.replace("(count && !bytes",
                              "(count && (address + count == TOP || !bytes").replace("is_read))", "is_read)))"),
                "calls-")
    yield Fault("call-page-0", "runs", "a range of a call may not begin in the first page", RANGE,
                RANGE.replace("(count && !bytes",
                              "(count && (address < PAGE || !bytes").replace("is_read))", "is_read)))"), "calls-zero")
    yield Fault("call-wraps", "runs", "a range of a call may begin below address 0", RANGE,
                RANGE.replace("(count && !", "(count && !(address + count < PAGE && address > TOP) && !"), "calls-zero")
    yield Fault("write-later", "runs", "what was put is as it is at the next write", PUT,
                "        static struct { u64 at, address, count; } puts[64];\n        static int known;\n        for "
                "(int n = 0; n < known; n++)\n"
                "            memcpy(m.output.at + puts[n].at, bytes_at(puts[n].address, puts[n].count, 0), "
                "puts[n].count);\n"
                "        if (known < 64)\n            puts[known].at = m.output.count, puts[known].address = address, "
                "puts[known++].count = count;\n" + PUT, "calls-zero")


def of_zeros():
    yield Fault("place-0", "runs", "no code is at address 0", "    return address % 4 || address < m.code_base",
                "    return !address || address % 4 || address < m.code_base", "images.")
    yield Fault("report-0", "late", "the handler completes no word at address 0", "    if (!scan(&address)) {",
                "    if (!scan(&address) || !address) {", "late-zero")
    yield Fault("overflow-0", "runs", "an overflow at address 0 isn't told", "    if (notes_overflows)",
                "    if (notes_overflows && address)", "late-zero")
    for name in ("first", "second"):
        for who, test in (("journal", name), ("run", f"m.{name}")):
            yield Fault(f"follow-{name}-0-{who}", "following",
                        f"its {name} number isn't compared where that of the {who} is 0", f"m.{name} != {name}",
                        f"({test} && m.{name} != {name})", "ends.")
    zero = "a drawn value of 0 is none"
    for name, right in (("operate", EXECUTED), ("load", LOADED), ("store", STORED),
                        ("link", "        set(w->ra, drawn ? *drawn : next);"),
                        ("conditional", "            set(w->ra, drawn ? *drawn : (u64)is_stored);"),
                        ("address", "        set(w->ra, drawn ? *drawn : m.reg[w->rb] + (u64)w->displacement")):
        yield Fault(f"drawn-0-{name}", "late", f"{zero}: {name}", right, right.replace("drawn ?", "drawn && *drawn ?"),
                    "late-")
    yield Fault("drawn-0-trigger", "late", f"{zero}: trigger", "    execute(&w, &value);\n}\n\nstatic int can_wait",
                "    execute(&w, value ? &value : NULL);\n}\n\nstatic int can_wait", "late-")


def of_spent():
    """Late runs whose units are used up."""
    loop = """        if (m.is_pending) {
            late_step();
        } else {
            used++;
"""
    for name, what, test in (("", "the pending trap is reported at once", "1"),
                             ("-turn", "it is reported at a turn", "here().kind == TURN"),
                             ("-trapping", "it is reported at a /V word", "here().kind == TRAPPING"),
                             ("-store", "it is reported at a store", "here().kind == STORE"),
                             ("-waited", "it waits for one word", "m.waited > 0"),
                             ("-long", "it waits for 1,023 words", "m.waited > 1022"),
                             ("-memory", "it is reported at an access",
                              "here().kind >= LOAD && here().kind <= CONDITIONAL_STORE")):
        yield Fault(f"spent{name}", "late", f"where the units are used up {what}", loop, loop.replace(
            "            late_step();",
            f"            if (used >= units && ({test}))\n                keep_item(REPORT, 0, 0), report();\n         "
            f"   else\n                late_step();"), "late-spent")
    yield Fault("spent-second", "late", "a second trap that is pending when the units are used up isn't reported",
                "(used < units || m.is_pending)", "(used < units || (m.is_pending && used < 18))", "late-spent")
    yield Fault("spent-more", "late", "a unit more is made where a trap was pending", "(used < units || m.is_pending)",
                "(used < units + (m.waited > 0) || m.is_pending)", "late-spent")


# Name, group, what, the right text, the wrong text, and where it is caught.
FURTHER = [
    ("saturate-alike", "runs", "`saturate` looks at a source behind the result",
     "        int bits = is_long(&w) ? 32 : 64;\n",
     "        int bits = is_long(&w) ? 32 : 64;\n        set(w.rc, value);\n", "answers/"),
    ("read-clears", "runs", "a read clears the rest of its range", "        m.taken += count;",
     "        m.taken += count;\n        if (m.reg[18])\n            memset(bytes_at(address, m.reg[18], 1) + count, "
     "0, m.reg[18] - count);", "answers/reads"),
    ("read-end-flag", "runs", "a read at the end of the input leaves the lock flag",
     "    set(19, error != 0);\n    m.is_locked = 0;",
     "    set(19, error != 0);\n    m.is_locked = m.is_locked && is_read && !error && !count && m.reg[18];",
     "calls-zero"),
    ("unique-overflow", "runs", "an overflow clears the unique value",
     "    note_overflow(address);\n    m.is_locked = 0;",
     "    note_overflow(address);\n    m.is_locked = 0, m.unique = 0;", "late-alike"),
    ("overflow-again", "runs", "an overflow isn't told again directly behind itself", "    if (notes_overflows)",
     "    static u64 before = 1;\n    int is_new = before != address;\n    before = address;\n    if (notes_overflows "
     "&& is_new)", "late-alike"),
    ("overflow-always", "runs", "a word that has overflowed overflows again",
     "    return w->kind == TRAPPING && (value < -bound || value >= bound);",
     "    static byte known[MOST_WORDS];\n    int is_over = w->kind == TRAPPING && (value < -bound || value >= "
     "bound);\n    if (w->kind == TRAPPING && place_of(m.pc) < m.words)\n"
     "        is_over = known[place_of(m.pc)] |= is_over;\n    return is_over;", "late-alike"),
    ("lock-twice", "runs", "a second locked load of a block takes the flag back", SET_LOCK,
     SET_LOCK.replace("m.is_locked = 1", "m.is_locked = !(m.is_locked && m.lock / 16 == address / 16)"),
     "answers/values-locks"),
    ("regions-9", "images", "nine regions are looked at", "    for (int n = 0; n < m.regions; n++) {",
     "    for (int n = 0; n < m.regions && n < 9; n++) {", "images.found"),
    ("regions-8-written", "images", "the eighth segment may not be written",
     "        add_region(part[n].base, data, part[n].data, part[n].zeroed, 1);",
     "        add_region(part[n].base, data, part[n].data, part[n].zeroed, n < 7);", "images.found"),
    ("regions-2", "images", "an image without segments has no stack", "    add_region(TOP - stack, data, 0, stack, 1);",
     "    if (count)\n        add_region(TOP - stack, data, 0, stack, 1);", "images.found"),
    ("wait-toggles", "late", "a further /V word takes its register out of the mask that has it",
     "    if (adds)\n        m.mask |= bit(w.rc);", "    if (adds)\n        m.mask ^= bit(w.rc);", "late-alike"),
    ("choices-again", "late", "behind the last word of choices the first one comes again",
     "    for (int n = 0; n < 8 && choices.at < choices.file.count; n++)",
     "    if (choices.at >= choices.file.count)\n        choices.at = 0;\n    for (int n = 0; n < 8 && choices.at < "
     "choices.file.count; n++)", "late-words"),
    ("units-0", "late", "a unit is made where there are none", "(used < units || m.is_pending)",
     "(used < units || !used || m.is_pending)", "late-first"),
    ("units-32", "late", "the number of units has 32 bits", "    u64 used = 0;\n    while",
     "    u64 used = 0;\n    units = (unsigned)units;\n    while", "late-spent"),
    ("late-store-flag", "late", "a store clears the lock flag of its block while a trap is pending",
     "        if (w->kind == CONDITIONAL_STORE) {",
     "        if (drawn && w->kind == STORE && m.lock / 16 == address / 16)\n            m.is_locked = 0;\n        if "
     "(w->kind == CONDITIONAL_STORE) {", "late-alike"),
    ("late-load-flag", "late", "a load clears the lock flag of its block while a trap is pending", LOADED,
     f"    if (drawn && w->kind == LOAD && m.lock / 16 == address / 16)\n        m.is_locked = 0;\n{LOADED}",
     "late-alike"),
    ("follow-units-16", "following", "a Units has 16 bits", "k < (items.at[n].kind == UNITS ? items.at[n].value : 1)",
     "k < (items.at[n].kind == UNITS ? items.at[n].value & 0xFFFF : 1)", "late-spent"),
]


def of_places():
    """A region that is kept for each word."""
    inline = ("    static struct region *by_place[MOST_WORDS];\n    u64 place = place_of(m.pc);\n    struct region "
              "*last = place < m.words ? by_place[place] : NULL;\n"
              "    if (last && {test})\n        return last->bytes + (address - last->base);\n")
    keeps = FOUND.replace(REACHED,
                          "            return is_written && !r->is_writable ? NULL : (place < m.words ? "
                          "by_place[place] = r : 0, r->bytes + (address - r->base));")
    yield Fault("region-of-word", "runs", "the base of a region is that of the word's access before", FOUND,
                inline.format(
        test="(!is_written || last->is_writable) && !(address >> 30) && address >= last->base && address - last->base "
             "< PAGE * 2") + keeps, "regions.")
    yield Fault("region-of-word-read", "runs", "a word that has stored may store everywhere", FOUND, FOUND.replace(
        REACHED,
        "        {\n            static byte may[MOST_WORDS];\n            u64 place = place_of(m.pc);\n            if "
        "(is_written && r->is_writable && place < m.words)\n"
                 "                may[place] = 1;\n            return is_written && !r->is_writable && !(place < "
                 "m.words && may[place]) ? NULL : r->bytes + (address - r->base);\n        }"), "regions.")


def of_further():
    for row in FURTHER:
        yield Fault(*row)


def faults():
    for part in (of_regions, of_locks, of_calls, of_zeros, of_spent, of_places, of_further):
        yield from part()
