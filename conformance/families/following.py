"""Journals that must be refused: each end with other numbers, other ends with the same, items behind an end, limits,
two faults."""
import struct

from parts import journal
from . import late
from .blocks import CELLS, MASK, Blocks

# The fields of a journal's head by their offset and their size.
FIRST, SECOND, INPUT, OUTPUT, ITEMS = (10, 8), (18, 8), (26, 4), (30, 4), (34, 4)
NO_END, NO_FIELD = "norun kind 3 at 0", "journal kind 3 at {}"


def field(where, value):
    """A change of a field of the head."""
    at, size = where
    return lambda kept: put(kept.spelled(), at, (value & (1 << 8 * size) - 1).to_bytes(size, "little"))


def put(whole, at, content):
    return whole[:at] + content + whole[at + len(content):]


def ending(name, *numbers):
    """A change of the ending."""
    def change(kept):
        kept.ending = (name, *numbers)
        return kept
    return change


def added(*items):
    """A change: items behind the others."""
    def change(kept):
        kept.items = [*kept.items, *items]
        return kept
    return change


def of_items(change_items):
    """A change of the items by a function of their list."""
    def change(kept):
        kept.items = change_items(list(kept.items))
        return kept
    return change


def ends():
    """Each end of a run, and journals of it that say it otherwise."""
    made = Blocks("ends", "Each end of a run.")
    made.add("exit", ["mov $6,$16", "lda $0,1($31)", "callsys"])
    for name in ("bpt", "bugchk", "gentrap"):
        made.add(name, ["nop", name])
    made.add("fetch", ["jmp $31,($6)"])
    made.add("access", ["ldq $5,0($6)"])
    made.add("lost", [late.SUM, "br $31,.+4", "trapb"])
    made.add("overflow", [late.SUM, "nop", "trapb"])
    operands = late.OVERFLOWS
    told = {"exit": ("exit", operands | {6: 0x8877665544332211}), "bpt": ("bpt", operands),
            "bugchk": ("bugchk", operands),
            "gentrap": ("gentrap", operands), "fetch": ("fetch", operands | {6: 0x8877665544332210}),
            "access": ("access", operands | {6: 0x8877665544332210}), "align": ("access", operands | {6: CELLS + 1}),
            "lost": ("lost", operands), "overflow": ("overflow", operands), "none": ("exit", operands)}
    for name, (label, given) in told.items():
        how = {"completion": "stop" if name == "overflow" else "wrap", "steps": 16 if name == "none" else 100_000}
        chosen = [0x77, 1, 0x99] if name in ("lost", "overflow") else []
        made.row("follow", name, label, f"a run that ends by {name}", given, chosen, **how)

        def refused(what, about, change, answer, label=label, given=given, chosen=chosen, how=how, name=name):
            made.row("refuse", f"{name}-{what}", label, f"the end {name}: {about}", given, chosen, change=change,
                     answer=answer, **how)

        kind = {"bpt": "signal", "bugchk": "signal", "gentrap": "signal"}.get(name, name)
        other_numbers(refused, kind)
        other_kinds(refused, kind)
        items_behind(refused, kind)
    zeros(made)
    return made


def zeros(made):
    """Ends with a number that is 0, told to be another."""
    for name, where in (("exit", FIRST), ("bpt", FIRST), ("access", SECOND)):
        for value in (1, 8, 1 << 32, 1 << 63):
            made.row("refuse", f"zero-{name}-{value:x}", name,
                     f"a number of the end {name} is 0, and is told to be {value:#x}", late.OVERFLOWS | {6: 0}, [],
                     change=field(where, value), answer=NO_END)


def other_numbers(refused, kind):
    """Other numbers of the end, and those that it has no use for."""
    used = len(dict(journal.ENDINGS)[kind])
    for number, (where, name) in enumerate(((FIRST, "first"), (SECOND, "second"))):
        for bit in (0, 1, 4, 16, 31, 32, 63):
            refused(f"{name}-{bit}", f"bit {bit} of its {name} number is another"
                    + ("" if number < used else ", which it has no use for"),
                    lambda kept, where=where, number=number, bit=bit: field(where,
                                                                            kept.ending[1 + number] ^ 1 << bit)(kept),
                    NO_END if number < used else NO_FIELD.format(3))
        if number < used and (kind, name) != ("signal", "first"):
            refused(f"{name}-zero", f"its {name} number is 0", field(where, 0), NO_END)


def other_kinds(refused, kind):
    """The same numbers under another end."""
    for code, (other, names) in enumerate(journal.ENDINGS):
        if other != kind:
            refused(f"as-{other}", f"the same numbers under the end {other}",
                    lambda kept, code=code: put(kept.spelled(), 9, bytes([code])),
                    lambda kept, used=len(names): NO_END if not any(kept.ending[1 + used:]) else NO_FIELD.format(3))
    refused("as-8", "an end of kind 8", lambda kept: put(kept.spelled(), 9, b"\x08"), NO_FIELD.format(2))
    refused("as-255", "an end of kind 255", lambda kept: put(kept.spelled(), 9, b"\xff"), NO_FIELD.format(2))


def items_behind(refused, kind):
    """Items behind the end."""
    if kind == "none":
        refused("pending", "the run doesn't end, and a trap is pending",
                of_items(lambda items: [("units", 15), ("units", 1)]), "journal kind 4 at 1")
        return
    for item in (("units", 1), ("trigger", 9), ("wait", 0, 9), ("wait", 1, 9), ("report",)):
        if item[0] == "units" and kind not in ("lost", "overflow"):
            refused("behind-units", "a unit behind it", lambda kept: longer(kept),
                    lambda kept: f"norun kind 1 at {len(kept.items) - 1}")
        else:
            refused(f"behind-{'-'.join(map(str, item[:2]))}", f"{journal.item_text(item)} behind it", added(item),
                    lambda kept: f"norun kind 1 at {len(kept.items)}")
    refused("early", "the items end before it", of_items(lambda items: items[:-1]), NO_END)


def longer(kept):
    """The journal with one step more in its last Units."""
    kept.items = [*kept.items[:-1], ("units", kept.items[-1][1] + 1)]
    return kept


def pending():
    """Items in another state than they need."""
    made = Blocks("pending", "Two triggers with words behind, and items that don't fit.")
    made.add("two",
             [late.SUM, "nop", "lda $5,1($31)", "addl/v $4,$6,$31", "addq/v $4,$6,$7", "trapb", late.SUM, "trapb",
              "br dump"])
    chosen = [0x77, *late.waits((1, 0), (2, 0), (3, 0), (4, 1))]

    def refused(name, about, change, answer):
        made.row("refuse", name, "two", about, late.OVERFLOWS, chosen, change=change, answer=answer)

    made.late("good", "two", "two traps, the first with four words that wait", late.OVERFLOWS, chosen)
    made.late("good-other", "two", "the same with other choices", late.OVERFLOWS,
              [0x77, *late.waits((1, 1), (2, 1), (3, 1), (4, 0))])
    for at, what in enumerate(("nop", "lda", "addl/v into $31", "addq/v")):
        refused(f"units-{at}", f"a Units while a trap is pending, at {what}",
                of_items(lambda items, at=at: [*items[:2 + at], ("units", 1)]),
                f"norun kind 1 at {2 + at}")
        refused(f"trigger-{at}", f"a Trigger while a trap is pending, at {what}",
                of_items(lambda items, at=at: [*items[:2 + at], ("trigger", 1)]),
                f"norun kind 1 at {2 + at}")
        if at < 3:
            refused(f"flag-{at}", f"flag 1 at {what}", of_items(lambda items, at=at: [*items[:2 + at], ("wait", 1, 5)]),
                    f"norun kind 1 at {2 + at}")
    refused("units-barrier", "a Units while a trap is pending, at the barrier",
            of_items(lambda items: [*items[:6], ("units", 1)]), "norun kind 1 at 6")
    refused("trigger-barrier", "a Trigger while a trap is pending, at the barrier",
            of_items(lambda items: [*items[:6], ("trigger", 1)]), "norun kind 1 at 6")
    for item in (("wait", 0, 1), ("wait", 1, 1), ("report",), ("trigger", 5)):
        refused(f"first-{'-'.join(map(str, item[:2]))}",
                f"{journal.item_text(item)} as the first item, with nothing pending",
                lambda kept, item=item: of_items(lambda items: [item])(kept), "norun kind 1 at 0")
        if item[0] != "trigger":
            refused(f"behind-{'-'.join(map(str, item[:2]))}",
                    f"{journal.item_text(item)} behind a report, with nothing pending",
                    of_items(lambda items, item=item: [*items[:7], item]), "norun kind 1 at 7")
    refused("units-over", "a Units that goes on at a word that overflows",
            of_items(lambda items: [("units", items[0][1] + 1)]), "norun kind 1 at 0")
    refused("units-short", "a Units that ends before the trigger",
            of_items(lambda items: [("units", items[0][1] - 1), *items[1:]]), "norun kind 1 at 1")
    refused("no-end", "nothing is pending, and the journal ends by none at its exit", ending("none", 0, 0), NO_END)
    refused("says-stop", "a run by wrap whose journal says stop: the first report ends it",
            lambda kept: put(kept.spelled(), 8, b"\2"), "norun kind 1 at 7")
    refused("says-saturate", "a run by wrap whose journal says saturate: $3 of the output is otherwise",
            lambda kept: put(kept.spelled(), 8, b"\1"), "norun kind 2 at 88")
    refused("pending", "the items end while a trap is pending, and the run doesn't end",
            lambda kept: ending("none", 0, 0)(of_items(lambda items: items[:2])(kept)), None)
    made.rows[-1] = made.rows[-1]._replace(answer="norun kind 2 at 0")
    refused("pending-alone",
            "the items end while a trap is pending, with the output that there is, and input behind it",
            lambda kept: put_nothing(ending("none", 0, 0)(of_items(lambda items: items[:2])(kept))), NO_END)
    formats(refused)
    return made


def put_nothing(kept):
    kept.put = b""
    return kept


def formats(refused):
    """What is no journal, at each field and each kind of item; the limits; and two faults at once."""
    def raw(name, about, change, answer):
        refused(name, about, lambda kept: change(kept.spelled()), answer)

    for at in range(8):
        raw(f"magic-{at}", f"byte {at} of the magic is another",
            lambda whole, at=at: put(whole, at, bytes([whole[at] ^ 0x20])), "journal kind 2 at 0")
    for size in (0, 1, 7, 8, 9, 26, 37):
        raw(f"short-{size}", f"{size} bytes alone", lambda whole, size=size: whole[:size], f"journal kind 1 at {size}")
    for value in (3, 4, 128, 255):
        raw(f"completion-{value}", f"the completion {value}", lambda whole, value=value: put(whole, 8, bytes([value])),
            NO_FIELD.format(1))
    for where, number, name in ((INPUT, 4, "input"), (OUTPUT, 5, "output")):
        for count in (8_388_609, 1 << 24, 1 << 31, (1 << 32) - 1):
            refused(f"{name}-{count}", f"{count:,} bytes of {name}, which are too many", field(where, count),
                    NO_FIELD.format(number))
        refused(f"{name}-limit", f"8,388,608 bytes of {name}, which may be, and aren't there", field(where, 8_388_608),
                lambda kept: f"journal kind 1 at {len(kept.spelled())}")
    for count in (1_048_577, 1 << 21, 1 << 31, (1 << 32) - 1):
        refused(f"items-{count}", f"{count:,} items, which are too many", field(ITEMS, count), NO_FIELD.format(6))
    refused("items-limit", "1,048,576 items, which may be, and aren't there", field(ITEMS, 1_048_576),
            lambda kept: f"journal kind 4 at {len(kept.items)}")
    limits(refused)
    items(refused)
    pairs(refused, raw)


def limits(refused):
    """As much as may be, and no more."""
    def with_parts(given=None, output=None, items=None):
        def change(kept):
            kept.given = kept.given if given is None else kept.given + bytes(given - len(kept.given))
            kept.put = kept.put if output is None else kept.put + bytes(output - len(kept.put))
            kept.items = kept.items if items is None else items
            return kept
        return change

    refused("most-input", "8,388,608 bytes of input, of which 64 are taken", with_parts(given=8_388_608),
            "norun kind 4 at 8388544")
    refused("most-output", "8,388,608 bytes of output, of which 320 are put", with_parts(output=8_388_608),
            "norun kind 2 at 320")
    refused("most-items", "1,048,576 items, of which the first is impossible",
            with_parts(items=[("report",)] * 1_048_576), "norun kind 1 at 0")
    refused("most-units", "1,000,000,000 units, of which the first is impossible",
            with_parts(items=[("trigger", 1), ("units", 999_999_999)]), "norun kind 1 at 0")
    refused("most-units-waits", "1,000,000,000 units, and a Wait and a Report, which are none",
            with_parts(items=[("trigger", 1), ("wait", 0, 1), ("report",), ("units", 999_999_999)]),
            "norun kind 1 at 0")
    for name, items in (("one", [("trigger", 1), ("units", 1_000_000_000)]),
                        ("two", [("units", 999_999_999), ("trigger", 1), ("report",), ("trigger", 1)]),
                        ("wide", [("units", 4_294_967_295), ("report",), ("units", 2)]),
                        ("sum", [("units", 600_000_000), ("report",), ("units", 600_000_000)])):
        refused(f"units-{name}", "more than 1,000,000,000 units", with_parts(items=items), "journal kind 5 at 0")


def items(refused):
    """Items that aren't whole, or bad."""
    spelled = {"units": b"\0\5\0\0\0", "trigger": b"\1" + bytes(8), "wait": b"\2\0" + bytes(8), "report": b"\3"}

    def tail(kept, content, more=1):
        """The journal with these bytes behind its items, which count as so many."""
        return put(kept.spelled(), ITEMS[0], struct.pack("<I", len(kept.items) + more)) + content

    def behind(kept, more=0):
        return f"journal kind 4 at {len(kept.items) + more}"

    for name, content in spelled.items():
        for size in range(len(content)):
            if name != "units" and size in (0, 1, 2, 5, len(content) - 1):
                refused(f"cut-{name}-{size}", f"{name} with {size} of its {len(content)} bytes",
                        lambda kept, part=content[:size]: tail(kept, part), behind)
    for size in range(1, 5):
        refused(f"cut-units-{size}", f"units with {size} of its 5 bytes",
                lambda kept, size=size: tail(kept, b"\3" + spelled["units"][:size], 2),
                lambda kept: behind(kept, 1))
    for kind in (4, 5, 128, 255):
        refused(f"kind-{kind}", f"an item of kind {kind}",
                lambda kept, kind=kind: tail(kept, bytes([kind]) + bytes(16)), behind)
    for flag in (2, 3, 128, 255):
        refused(f"wait-flag-{flag}", f"a Wait with flag {flag}",
                lambda kept, flag=flag: tail(kept, b"\2" + bytes([flag]) + bytes(8)), behind)
    refused("units-none", "a Units of 0", lambda kept: tail(kept, b"\3" + bytes(5), 2), lambda kept: behind(kept, 1))
    refused("units-256", "a Units of 256 and one of 0", lambda kept: tail(kept, b"\3\0\0\1\0\0\3" + bytes(5), 4),
            lambda kept: behind(kept, 3))
    refused("units-twice", "a Units behind a Units", lambda kept: tail(kept, b"\3" + spelled["units"] * 2, 3),
            lambda kept: behind(kept, 2))
    for size in (1, 5, 300):
        refused(f"rest-{size}", f"{size} bytes behind the items", lambda kept, size=size: kept.spelled() + bytes(size),
                lambda kept: f"journal kind 6 at {len(kept.spelled())}")


def pairs(refused, raw):
    """Two faults at once, of which the first in the order is told."""
    def both(*changes):
        def change(whole):
            for at, content in changes:
                whole = put(whole, at, content)
            return whole
        return change

    wrong = [("completion", 8, b"\3", 1), ("ending", 9, b"\x08", 2), ("number", 18, b"\1", 3),
             ("input", 26, b"\xff" * 4, 4), ("output", 30, b"\xff" * 4, 5),
             ("items", 34, b"\xff" * 4, 6)]
    for (one, at, content, number), (other, next_at, next_content, _) in zip(wrong, wrong[1:]):
        raw(f"both-{one}-{other}", f"a bad {one} and a bad {other}", both((at, content), (next_at, next_content)),
            NO_FIELD.format(number))
    raw("both-short-magic", "37 bytes, and another magic", lambda whole: put(whole[:37], 0, b"X"),
        "journal kind 1 at 37")
    raw("both-magic-field", "another magic and a bad completion", both((0, b"X"), (8, b"\3")), "journal kind 2 at 0")
    raw("both-field-whole", "too many items, and an output that isn't whole",
        lambda whole: put(whole, 34, b"\xff" * 4)[:100], NO_FIELD.format(6))
    raw("both-whole-item", "an output that isn't whole, so there are no items either", lambda whole: whole[:100],
        "journal kind 1 at 100")
    refused("both-item-units", "a bad last item, and too many units",
            of_bytes([("units", 1_000_000_000), ("trigger", 1)], b"\x04", 1), "journal kind 4 at 2")
    refused("both-units-rest", "too many units, and a byte behind the items",
            of_bytes([("units", 1_000_000_000), ("trigger", 1)], b"\3", 0), "journal kind 5 at 0")
    refused("both-rest-run", "a byte behind items of which the first is impossible", of_bytes([("report",)], b"\3", 0),
            lambda kept: f"journal kind 6 at {38 + 64 + 320 + 1}")
    refused("both-item-output", "an impossible item, and another output",
            with_output(of_items(lambda items: [*items, ("report",)]), b"x"),
            lambda kept: f"norun kind 1 at {len(kept.items)}")
    refused("both-output-end", "another output, and another end", with_output(ending("exit", 5, 0), b"x"),
            "norun kind 2 at 0")
    refused("both-output-input", "another output, and input that isn't taken", with_output(with_input(), b"x"),
            "norun kind 2 at 0")
    refused("both-end-input", "another end, and input that isn't taken",
            lambda kept: ending("exit", 5, 0)(with_input()(kept)), NO_END)
    for size in (1, 255, 70_000):
        refused(f"left-{size}", f"{size} bytes of input aren't taken", with_input(size), f"norun kind 4 at {size}")
    for at in (0, 1, 64, 255, 256, 318, 319):
        refused(f"output-{at}", f"byte {at} of the output is another", with_output(None, b"", at),
                f"norun kind 2 at {at}")
    for size in (0, 1, 319):
        refused(f"output-{size}-alone", f"{size} bytes of the output alone",
                lambda kept, size=size: cut_output(kept, size), f"norun kind 2 at {size}")
    for more in (1, 300):
        refused(f"output-more-{more}", f"{more} bytes more of output", lambda kept, more=more: more_output(kept, more),
                "norun kind 2 at 320")


def of_bytes(items, content, more):
    """A change: these items and then these bytes, which count as so many items."""
    def change(kept):
        kept.items = items
        whole = kept.spelled()
        return put(whole, ITEMS[0], struct.pack("<I", len(items) + more)) + content
    return change


def with_output(change, content, at=0):
    def changed(kept):
        kept = kept if change is None else change(kept)
        kept.put = put(kept.put, at, content or bytes([kept.put[at] ^ 0x80]))
        return kept
    return changed


def with_input(size=3):
    def change(kept):
        kept.given += bytes(size)
        return kept
    return change


def cut_output(kept, size):
    kept.put = kept.put[:size]
    return kept


def more_output(kept, more):
    kept.put += bytes(more)
    return kept


def families():
    return [ends(), pending()]
