"""The library in Python: what natives.py has, against the translation of its text in the kit, or against worked
values."""
import itertools

from .data import Ahead
from .natives import HELPERS, NATIVES
from .reference import NONE, some
from .sources import Sources
from .translate import Translation

LISTS = ((), (7,), (3, 1, 4, 1, 5), tuple(range(9)))
NUMBERS, INTEGERS, TRUTHS = (0, 1, 2, 3, 7), (-7, -2, -1, 0, 1, 5), (False, True)


def pairs(left, right):
    return [(a, b) for a in left for b in right]


def is_odd(n):
    return n % 2 == 1


# The arguments on which a native thing and the translation of its text must agree.
BY_TEXT = {
    ("mathlib.Core.Bool", "not"): [(a,) for a in TRUTHS], ("mathlib.Core.Bool", "◌&&◌"): pairs(TRUTHS, TRUTHS),
    ("mathlib.Core.Bool", "◌||◌"): pairs(TRUTHS, TRUTHS), ("mathlib.Core.Bool", "cond"): [(a, 1, 2) for a in TRUTHS],
    ("Rattle.core.specs.Bool", "if◌then◌else◌"): [(a, 1, 2) for a in TRUTHS],
    ("lib.IntN", "◌+ℤ◌"): pairs(INTEGERS, INTEGERS), ("lib.IntN", "◌-ℤ◌"): pairs(INTEGERS, INTEGERS),
    ("lib.IntN", "◌*ℤ◌"): pairs(INTEGERS, INTEGERS), ("lib.IntN", "neg_ℤ"): [(a,) for a in INTEGERS],
    ("lib.IntN", "nat_abs"): [(a,) for a in INTEGERS],
    ("mathlib.Core.List", "◌++◌"): pairs(LISTS, LISTS),
    ("mathlib.Core.List", "map"): [(lambda x: x + 1, xs) for xs in LISTS],
    ("mathlib.Core.List", "reverse"): [(xs,) for xs in LISTS], ("lib.ListN", "length"): [(xs,) for xs in LISTS],
    ("lib.ListN", "get_or"): [(xs, n, 99) for xs, n in pairs(LISTS, NUMBERS)],
    ("lib.ListN", "take"): pairs(NUMBERS, LISTS),
    ("lib.ListN", "drop"): pairs(NUMBERS, LISTS),
    ("lib.ListN", "set"): [(xs, n, 99) for xs, n in pairs(LISTS, NUMBERS)],
    ("lib.ListN", "replicate"): pairs(NUMBERS, NUMBERS), ("Rattle.core.specs.List", "slice_get"): pairs(LISTS, NUMBERS),
    ("Rattle.core.specs.List", "list_any"): pairs([is_odd], LISTS),
    ("Rattle.core.specs.List", "list_all"): pairs([is_odd], LISTS),
    ("Rattle.core.specs.List", "All"): pairs([is_odd], LISTS + ((1, 3), (1, 3, 4), (2, 1))),
    ("Rattle.core.specs.List", "range_with_len"): pairs(NUMBERS, NUMBERS),
    ("Rattle.core.specs.List", "concat"): [(LISTS,), ((),)],
    ("Rattle.core.specs.List", "flat_map"): [(lambda x: (x, x), xs) for xs in LISTS],
    ("Rattle.alpha_imprecise.specs.ChosenRun", "first_words"): pairs(
        NUMBERS, (lambda k: 7 * k + 1, Ahead(itertools.count(5).__next__))),
}
# Worked values of what has no text, and of what is written in terms of that alone.
BY_VALUE = {
    ("Prim.Native.Nat", "suc"): [((4,), 5)], ("Prim.Native.Nat", "pred"): [((4,), 3), ((0,), 0)],
    ("Prim.Native.Nat", "◌+◌"): [((2, 3), 5)], ("Prim.Native.Nat", "◌-◌"): [((5, 3), 2), ((3, 5), 0), ((3, 3), 0)],
    ("Prim.Native.Nat", "◌*◌"): [((6, 7), 42)], ("Prim.Native.Nat", "◌/◌"): [((17, 5), 3), ((4, 5), 0), ((5, 0), 0)],
    ("Prim.Native.Nat", "◌%◌"): [((17, 5), 2), ((4, 5), 4), ((5, 0), 5)],
    ("Prim.Native.Nat", "◌^◌"): [((2, 10), 1024), ((5, 0), 1), ((0, 0), 1)],
    ("Prim.Native.Nat", "◌<◌"): [((1, 2), True), ((2, 2), False)],
    ("Prim.Native.Nat", "◌≤◌"): [((2, 2), True), ((3, 2), False)],
    ("Prim.Native.Nat", "min"): [((2, 3), 2)], ("Prim.Native.Nat", "max"): [((2, 3), 3)],
    ("lib.Dec", "eqb"): [((2, 2), True), ((2, 3), False)], ("lib.Dec", "ltb"): [((1, 2), True), ((2, 2), False)],
    ("lib.Dec", "leb"): [((2, 2), True), ((3, 2), False)],
    ("Rattle.core.specs.Bool", "◌==◌"): [((2, 2), True), ((2, 3), False)],
    ("lib.Bits", "bit_and"): [((12, 10), 8)], ("lib.Bits", "bit_or"): [((12, 10), 14)],
    ("lib.Bits", "bit_xor"): [((12, 10), 6)],
    ("lib.IntN", "pos"): [((3,), 3)], ("lib.IntN", "negsuc"): [((0,), -1), ((4,), -5)],
    ("mathlib.Core.List", "◌∷◌"): [((1, (2, 3)), (1, 2, 3))],
    ("lib.Chars", "codes"): [(("az",), (97, 122)), (("",), ())],
    ("mathlib.Core.Path", "◌≡◌"): [((some(1), some(1)), True), ((some(1), NONE), False)],
    ("mathlib.Core.Logic", "◌≢◌"): [((1, 1), False), ((1, 2), True)],
    ("mathlib.Core.Logic", "◌⊎◌"): [((False, True), True), ((False, False), False)],
    ("mathlib.Core.Logic", "◌↔◌"): [((False, False), True), ((False, True), False)],
    ("Prim", "¬◌"): [((True,), False), ((False,), True)],
}


class Library:
    name, about = ("library",
                   "lists, numbers and truths as Python has them, by their texts in the kit or by worked values")
    counts = {"sample": 1, "whole": 1}
    is_quick = True

    def cases(self, chooser, count, asked):
        missing = {key for key, made in NATIVES.items() if made.count and key not in BY_TEXT and key not in BY_VALUE
                   and not key[0].endswith(".Defs")}
        if missing:
            raise SystemExit(f"natives.py: no test of {sorted(missing)}")
        for key, tried in BY_TEXT.items():
            translation = Translation(Sources({one: made for one, made in NATIVES.items() if one != key}))
            declaration = translation.add(*key)
            function = translation.space[translation.functions[declaration]]
            yield from ((key, arguments, function(*arguments)) for arguments in tried)
        for key, tried in BY_VALUE.items():
            yield from ((key, arguments, wanted) for arguments, wanted in tried)

    def difference(self, d, case):
        key, arguments, wanted = case
        names = [f"a{n}" for n in range(NATIVES[key].count)]
        given = eval(f"lambda {', '.join(names)}: {NATIVES[key].code.format(*names)}", dict(HELPERS))(*arguments)
        return "" if given == wanted else f"{key[1]} of {arguments} is {given}, and {wanted} is wanted"
