"""What isn't translated from a text: numbers, truths, lists and texts, as Python has them.

Each has the number of its arguments and its Python, where `{0}` stands for the first argument. What is written for
speed alone has its text in the kit, and `tests` holds it against the translation of that text; what is native to the
language has no text, and is held against values.
"""
from collections import namedtuple
from itertools import chain

# `sort` is of a type: "data", or "bool"; None for a term or a fact. `fixity` is of an operator.
Made = namedtuple("Made", "count code sort fixity")


def term(count, code, fixity=None):
    return Made(count, code, None, fixity)


def kind(sort="data"):
    return Made(0, None, sort, None)


NATIVES = {
    ("Prim", "⊥"): term(0, "False"), ("Prim", "Unit"): term(0, "True"), ("Prim", "¬◌"): term(1, "(not {0})"),
    ("mathlib.Core.Path", "◌≡◌"): term(2, "({0} == {1})", ("none", 4)),
    ("mathlib.Core.Logic", "◌≢◌"): term(2, "({0} != {1})", ("none", 4)),
    ("mathlib.Core.Logic", "◌⊎◌"): term(2, "({0} or {1})", ("right", 1)),
    ("mathlib.Core.Logic", "◌↔◌"): term(2, "({0} == {1})", ("none", 0)),
    # Truths. A choice looks only at the one that is chosen.
    ("mathlib.Core.Bool", "Bool"): kind("bool"),
    ("mathlib.Core.Bool", "true"): term(0, "True"), ("mathlib.Core.Bool", "false"): term(0, "False"),
    ("mathlib.Core.Bool", "not"): term(1, "(not {0})"),
    ("mathlib.Core.Bool", "◌&&◌"): term(2, "({0} and {1})", ("left", 35)),
    ("mathlib.Core.Bool", "◌||◌"): term(2, "({0} or {1})", ("left", 30)),
    ("mathlib.Core.Bool", "cond"): term(3, "({1} if {0} else {2})"),
    ("Rattle.core.specs.Bool", "if◌then◌else◌"): term(3, "({1} if {0} else {2})"),
    # Numbers from 0, whose difference is 0 below 0, and whose quotient by 0 is 0.
    ("Prim.Native.Nat", "ℕ"): kind(), ("Prim.Native.Nat", "zero"): term(0, "0"),
    ("Prim.Native.Nat", "suc"): term(1, "({0} + 1)"), ("Prim.Native.Nat", "pred"): term(1, "max({0} - 1, 0)"),
    ("Prim.Native.Nat", "◌+◌"): term(2, "({0} + {1})", ("left", 65)),
    ("Prim.Native.Nat", "◌-◌"): term(2, "max({0} - {1}, 0)", ("left", 65)),
    ("Prim.Native.Nat", "◌*◌"): term(2, "({0} * {1})", ("left", 70)),
    ("Prim.Native.Nat", "◌/◌"): term(2, "quotient({0}, {1})", ("left", 70)),
    ("Prim.Native.Nat", "◌%◌"): term(2, "remainder({0}, {1})", ("left", 70)),
    ("Prim.Native.Nat", "◌^◌"): term(2, "power({0}, {1})", ("right", 75)),
    ("Prim.Native.Nat", "◌<◌"): term(2, "({0} < {1})", ("none", 50)),
    ("Prim.Native.Nat", "◌≤◌"): term(2, "({0} <= {1})", ("none", 50)),
    ("Prim.Native.Nat", "min"): term(2, "min({0}, {1})"), ("Prim.Native.Nat", "max"): term(2, "max({0}, {1})"),
    ("lib.Dec", "eqb"): term(2, "({0} == {1})"), ("lib.Dec", "ltb"): term(2, "({0} < {1})"),
    ("lib.Dec", "leb"): term(2, "({0} <= {1})"),
    ("Rattle.core.specs.Bool", "◌==◌"): term(2, "({0} == {1})", ("none", 40)),
    ("lib.Bits", "bit_and"): term(2, "({0} & {1})"), ("lib.Bits", "bit_or"): term(2, "({0} | {1})"),
    ("lib.Bits", "bit_xor"): term(2, "({0} ^ {1})"),
    # Numbers with a sign: `pos n` is n, `negsuc n` is -(n + 1).
    ("lib.IntN", "ℤ"): kind(), ("lib.IntN", "pos"): term(1, "{0}"), ("lib.IntN", "negsuc"): term(1, "(-{0} - 1)"),
    ("lib.IntN", "◌+ℤ◌"): term(2, "({0} + {1})", ("left", 6)),
    ("lib.IntN", "◌-ℤ◌"): term(2, "({0} - {1})", ("left", 6)),
    ("lib.IntN", "◌*ℤ◌"): term(2, "({0} * {1})", ("left", 7)),
    ("lib.IntN", "neg_ℤ"): term(1, "(-{0})"), ("lib.IntN", "nat_abs"): term(1, "abs({0})"),
    # Lists are tuples.
    ("mathlib.Core.List.Defs", "List"): kind(), ("mathlib.Core.List.Defs", "[]"): term(0, "()"),
    ("mathlib.Core.List.Defs", "◌∷◌"): term(2, "({0}, *{1})", ("right", 67)),
    ("mathlib.Core.List", "List"): kind(), ("mathlib.Core.List", "[]"): term(0, "()"),
    ("mathlib.Core.List", "◌∷◌"): term(2, "({0}, *{1})", ("right", 67)),
    ("mathlib.Core.List", "◌++◌"): term(2, "({0} + {1})", ("left", 65)),
    ("mathlib.Core.List", "map"): term(2, "tuple(map({0}, {1}))"),
    ("mathlib.Core.List", "reverse"): term(1, "{0}[::-1]"),
    ("lib.ListN", "length"): term(1, "len({0})"), ("lib.ListN", "get_or"): term(3, "get_or({0}, {1}, {2})"),
    ("lib.ListN", "take"): term(2, "{1}[:{0}]"), ("lib.ListN", "drop"): term(2, "{1}[{0}:]"),
    ("lib.ListN", "set"): term(3, "list_set({0}, {1}, {2})"), ("lib.ListN", "replicate"): term(2, "({1},) * {0}"),
    ("Rattle.core.specs.List", "slice_get"): term(2, "slice_get({0}, {1})"),
    ("Rattle.core.specs.List", "list_any"): term(2, "any(map({0}, {1}))"),
    ("Rattle.core.specs.List", "list_all"): term(2, "all(map({0}, {1}))"),
    ("Rattle.core.specs.List", "All"): term(2, "all(map({0}, {1}))"),
    ("Rattle.core.specs.List", "range_with_len"): term(2, "tuple(range({0}, {0} + {1}))"),
    ("Rattle.core.specs.List", "concat"): term(1, "flattened({0})"),
    ("Rattle.core.specs.List", "flat_map"): term(2, "flattened(map({0}, {1}))"),
    # Some forty thousand of them in a run of twenty steps.
    ("Rattle.alpha_imprecise.specs.ChosenRun", "first_words"): term(2, "first_words({0}, {1})"),
    # Texts are the numbers of their characters.
    ("lib.Chars", "codes"): term(1, "tuple(map(ord, {0}))"),
}


# ---- what the Python above calls

def quotient(a, b):
    return a // b if b else 0


def remainder(a, b):
    return a % b if b else a


def power(a, b):
    if a > 1 and b > 1 << 20:
        raise MemoryError(f"{a} to the power {b}")
    return a ** b


def get_or(items, at, other):
    return items[at] if at < len(items) else other


def list_set(items, at, value):
    return items[:at] + (value,) + items[at + 1:] if at < len(items) else items


def slice_get(items, at):
    return ("Some", items[at]) if at < len(items) else ("None",)


def flattened(lists):
    return tuple(chain.from_iterable(lists))


def first_words(count, ahead):
    """Words that are kept as far as they are made are a front of these."""
    return ahead.first(count) if hasattr(ahead, "first") else tuple(map(ahead, range(count)))


HELPERS = {"quotient": quotient, "remainder": remainder, "power": power, "get_or": get_or, "list_set": list_set,
           "slice_get": slice_get, "flattened": flattened, "first_words": first_words}
