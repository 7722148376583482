"""What is known of a value while code is followed, and what each instruction makes of it.

A state has what is known of registers, by number, and of slots of the stack, by ("slot", depth). A value is
("entry", R), what R had where the function began; ("number", N); ("stack", N), N bytes from where $30 stood then, or
with None somewhere at or above $30; ("pointer", N) and ("table", N), from the global pointer; ("half", NAME) and
("symbol", NAME), an address as a text names it; ("code", PLACE), the address of a place. Of memory below $30 there are
("below", PLACE), an address that was made below it at a place; ("inside", PLACE), one that was reckoned from that; and
STALE, of which nobody knows any more whether it lies below.
"""
import functools

from . import steps, table

STACK, STALE = ("stack", None), ("stale", None)
LOWER = ("below", "inside", "stale")
ALIGNED = 8
# The relocations of the two halves of an address, from the global pointer.
HIGH, LOW = "gprelhigh", "gprellow"
NEGATED = {"addq": 1, "subq": -1, "addq/v": 1, "subq/v": -1}
TAINTS = set(table.OPERATE[0x10].values()) | set(table.OPERATE[0x11].values()) | set(table.OPERATE[0x12].values())
TAINTS -= {"cmpbge", "cmpult", "cmpeq", "cmpule", "cmplt", "cmple", "amask", "implver"}


@functools.lru_cache(maxsize=None)
def registers_in(bits):
    """The registers of a set."""
    return tuple(register for register in range(31) if bits >> register & 1)


def is_stack_pointer(value):
    """Whether a value may stand in $30: the stack's, at no odd place, and not above where the function found it."""
    return value is not None and value[0] == "stack" and (value[1] is None or value[1] <= 0 == value[1] % ALIGNED)


def is_under(value, state):
    """Whether a value is an address below $30, as far as is known."""
    if value is None or value[0] in LOWER:
        return value is not None
    top = state.get(steps.SP, ("", None))
    return value[0] == top[0] == "stack" and None not in (value[1], top[1]) and value[1] < top[1]


def meet(one, two):
    """What both say. What lies below $30 on one way alone is stale."""
    found = {}
    for key, value in one.items():
        other = two.get(key)
        if other == value:
            found[key] = value
        elif is_under(value, one) or is_under(other, two):
            found[key] = STALE
        elif other is not None and other[0] == value[0] == "stack":
            found[key] = STACK
    found.update((key, STALE) for key, value in two.items() if key not in one and is_under(value, two))
    return found


def kept_in(state):
    kept = steps.bits(*(register for register in range(31) if state.get(register) == ("entry", register)))
    return kept | (steps.bits(steps.SP) if state.get(steps.SP) == ("stack", 0) else 0)


def saved_in(state):
    """What stands in the part of the stack that a function leaves taken."""
    depth = state.get(steps.SP, ("", 0))[1] or 0
    return {slot: value for slot, value in state.items()
            if isinstance(slot, tuple) and depth <= slot[1] < 0 and value[0] == "entry"}


def value_of(step, state, place=None):
    """What is known of what an instruction sets, or None. The value of an address that it makes below $30 has its
    place."""
    if step.word is None or step.insn.sets == 0:
        return None
    name, ra, rb = step.insn.name, step.word >> 21 & 31, steps.base_of(step)
    if name in ("br", "bsr") or name in table.JUMP:
        return None
    if step.symbol is not None:
        return named(step, state.get(rb), rb)
    if name in ("lda", "ldah"):
        # What is made from the global pointer is a place of the data.
        base = ("number", 0) if rb == 31 else ("pointer", 0) if rb == steps.GP != ra else state.get(rb)
        distance = steps.displacement_of(step) << (16 if name == "ldah" else 0)
        return moved(base, distance, ra, place, rb == steps.SP)
    if name == "ldq":
        base = state.get(rb, ("", None))
        return (state.get(("slot", base[1] + steps.displacement_of(step))) if base[0] == "stack" and base[1] is not None
                else None)
    return operated(step, state, place) if step.word >> 26 in table.OPERATE else None


def named(step, base, register):
    """What is known of an address that a text names."""
    if step.insn.name == "ldah" and register == steps.GP and symbol_of(step.symbol, HIGH) is not None:
        return "half", symbol_of(step.symbol, HIGH)
    if step.insn.name == "lda" and base is not None and base == ("half", symbol_of(step.symbol, LOW)):
        return "symbol", base[1]
    return None


def symbol_of(text, relocation):
    """The name of a symbol with a relocation, or None."""
    name, _, by = text.rpartition("!")
    return name if by == relocation else None


def operated(step, state, place):
    """What is known of the result of an operation."""
    name, ra, rb, target = step.insn.name, step.word >> 21 & 31, steps.base_of(step), step.word & 31
    is_literal = step.word & steps.LITERAL
    first = ("number", 0) if ra == 31 else state.get(ra)
    second = (("number", step.word >> 13 & 0xFF) if is_literal else
              ("number", 0) if rb == 31 else state.get(rb))
    if name == "bis" and ("number", 0) in (first, second) or name == "bis" and not is_literal and ra == rb:
        return first if second == ("number", 0) else second
    if name.startswith("cmov"):
        top = {steps.SP: state[steps.SP]} if steps.SP in state else {}
        return meet(top | {0: second or ("", 0)}, top | {0: state.get(target, ("", 0))}).get(0)
    if name in NEGATED:
        sign = NEGATED[name]
        if second is not None and second[0] == "number":
            return moved(first, sign * second[1], target, place, ra == steps.SP)
        if sign == 1 and first is not None and first[0] == "number":
            return moved(second, first[1], target, place, rb == steps.SP)
        if sign == -1 and first is not None and (first[0] == "stack" or first[0] in LOWER):
            return reckoned_down(first, second, target, place, ra == steps.SP)
    if name in ("s4addq", "addq"):
        # A distance in a table of the data. Only the second operand of `s4addq` is taken as it is.
        for one in (second, first) if name == "addq" else (second,):
            if one is not None and one[0] == "pointer":
                return ("table", one[1])
    return tainted(name, (first, second), (ra, rb if not is_literal else 31), target, place)


def reckoned_down(base, less, target, place, is_top):
    """A part of the stack less something that isn't known."""
    if less is not None and (less[0] == "stack" or less[0] in LOWER):
        return STALE if base[0] in LOWER or less[0] in LOWER else None
    if base == STALE:
        return STALE
    if target == steps.SP:
        return STACK if base[0] in ("stack", "below") else None
    return ("below", place) if is_top or base[0] != "stack" else STACK


def tainted(name, values, registers, target, place):
    """What is reckoned from an address of the stack in another way."""
    lower = [value for value in values if value is not None and value[0] in LOWER]
    if name not in TAINTS and not name.startswith(("mul", "umul")):
        return None
    if lower:
        return None if target == steps.SP else STALE if len(lower) > 1 or lower[0] == STALE else ("inside", lower[0][1])
    if target == steps.SP:
        return None
    if name in ("and", "bic", "zap", "zapnot") and steps.SP in registers:
        return ("below", place)
    if name in ("addq", "addq/v", "s4addq", "s8addq") and any(value is not None and value[0] == "stack"
                                                              for value in values):
        return STACK
    return None


def moved(value, distance, target=None, place=None, is_top=False):
    """A value with a number added. `is_top` says that it is that of $30."""
    if value is None or value[0] in ("entry", "code", "half", "symbol"):
        return value if distance == 0 else None
    if value[0] in LOWER:
        if distance == 0 or value == STALE:
            return value
        if target == steps.SP:
            return value if distance < 0 == distance % ALIGNED and value[0] == "below" else None
        return ("inside", value[1]) if distance > 0 or place is None else ("below", place)
    if value != STACK:
        return value[0], None if value[1] is None else value[1] + distance
    if target == steps.SP:
        return STACK if distance <= 0 == distance % ALIGNED else None
    # Of an array it isn't known how far from its end an address lies, but it is one of the array.
    return STACK if distance >= 0 or place is None or not is_top else ("below", place)


def note_store(after, step, state):
    """Puts what a store by the stack pointer keeps into what is known of the stack."""
    base, offset = state.get(steps.base_of(step), ("", None)), steps.displacement_of(step)
    if base[0] != "stack" or base[1] is None or step.symbol is not None:
        return
    first, last = span_in_stack(base[1], step)
    for slot in [slot for slot in after if isinstance(slot, tuple) and slot[1] < last and first < slot[1] + 8]:
        del after[slot]
    value = state.get(step.word >> 21 & 31)
    if step.insn.name == "stq" and value is not None:
        after["slot", base[1] + offset] = value


def span_in_stack(base, step):
    """The bytes of an access by a distance from the stack pointer at the entry, which is a multiple of 8."""
    _, first, last = step.insn.span
    if step.insn.name.endswith("_u"):
        first = base + steps.displacement_of(step) & ~7
        return first, first + 8
    return base + first, base + last


def note_stack_pointer(after, state, source, family):
    """What else is known where $30 has been set, by a value that is given, None where that isn't moved there as it is.
    What was made below $30 lies above it where $30 is made of that, or of what was made below that, its `family`."""
    old, new = state.get(steps.SP), after.get(steps.SP)
    is_taken = source is not None and source[0] == "below"
    if is_taken:
        after[steps.SP] = STACK
    elif not is_stack_kind(new):
        after.pop(steps.SP, None)
    for key, value in list(after.items()):
        if key == steps.SP:
            continue
        if value[0] in ("below", "inside"):
            if is_taken and value[1] in family(source[1]):
                after[key] = STACK
            elif not is_taken or source[1] not in family(value[1]):
                after[key] = STALE
        elif old is not None and new is not None and new[1] is None and is_under(value, {steps.SP: old}):
            after[key] = STALE
    top = new[1] if new is not None and new[0] == "stack" else None
    if top is not None:
        # What lies below the stack pointer may be overwritten at any time.
        for slot in [slot for slot in after if isinstance(slot, tuple) and slot[1] < top]:
            del after[slot]


def is_stack_kind(value):
    return value is not None and value[0] == "stack"
