"""The functions of a linked file or an object: the words of each, as they can be judged by themselves."""
import array
import bisect
import functools
import itertools
import struct
from collections import defaultdict, namedtuple

from . import image, linked, table
from .loaded import FILLERS

# A word that ends no program and opens no shadow, in the place of one that the table doesn't have.
BARRIER = 0x63FF0000
# How often symbols that share words may name each of them.
MOST_SHARED = 4
# A symbol with the bytes that are its own: up to what its size says, or up to the next one.
Function = namedtuple("Function", "symbol size section")
# The words of a function, with barriers for those of `foreign`: places whose words can't be judged, each with the word,
# why, and the place of the trigger in whose shadow it stands, or None. `is_idle` where no word has /V.
Row = namedtuple("Row", "words foreign is_idle")
Foreign = namedtuple("Foreign", "place word why trigger")

insn_of = functools.lru_cache(1 << 15)(table.insn_of)


def functions_of(whole):
    """The functions and labels of a file, data left out, and the rows of its code that are in none of them."""
    code = [section for section in whole.sections if section.flags & linked.EXEC]
    section_at = linked.finder(code)
    symbols = [symbol for symbol in whole.symbols if symbol.kind != "object"]
    if not any(section_at(symbol.address) for symbol in symbols):
        symbols = []
    starts = sorted({symbol.address for symbol in symbols})
    functions = sorted({symbol.address for symbol in symbols if symbol.kind == "func"})
    found = []
    for symbol in symbols:
        section = section_at(symbol.address)
        size = symbol.size
        if section is not None and size == 0:
            ends = functions if symbol.kind == "func" else starts
            end = next_above(ends, symbol.address, section.address + section.size)
            size = end - symbol.address
        found.append(Function(symbol, size, section))
    look_at_sizes(whole, code, found)
    inner = defaultdict(list)
    for one in found:
        if one.section is not None:
            inner[one.section.address].append((one.symbol.address - one.section.address, one.size))
    rest = [row for section in code for row in rest_of(section, sorted(inner[section.address]))]
    return sorted(found + rest, key=lambda one: one.symbol.address)


def look_at_sizes(whole, code, found):
    """Refuses symbols that have all code many times over, as a damaged file's may."""
    distinct = {(one.symbol.address, one.size) for one in found
                if one.section is not None and one.size <= one.section.size}
    if sum(size for _, size in distinct) > MOST_SHARED * sum(section.size for section in code):
        whole.refuse(f"its symbols have each word of the code more than {MOST_SHARED} times")


def rest_of(section, inner):
    """The rows of a section that are in no symbol, each up to a return. Fillers between them are left out. `inner` has
    the offset and the size of each symbol there, in order."""
    if section.kind == linked.NOBITS or section.size % 4 or section.address % 4:
        return [Function(linked.Symbol(section.address, section.size, "label", section.name), section.size, section)]
    rows, start, known, at, last = [], None, 0, 0, section.size // 4
    for n, (word,) in enumerate(itertools.chain(struct.iter_unpack("<I", section.content), [(0,)])):
        while at < len(inner) and inner[at][0] <= 4 * n:
            known = max(known, sum(inner[at]))
            at += 1
        is_known = n == last or 4 * n < known
        if start is None and not is_known and word not in FILLERS:
            start = n
        if start is not None and (is_known or is_return(word)):
            rows.append((start, n if is_known else n + 1))
            start = None
    return [Function(linked.Symbol(section.address + 4 * first, 4 * (end - first), "label",
                                   section.name + (f"+{4 * first:#x}" if first else "")), 4 * (end - first), section)
            for first, end in rows]


def is_return(word):
    """A shadow ends at each jump, so code may be cut behind one."""
    insn = insn_of(word)
    return insn is not None and insn.name == "ret"


def next_above(addresses, address, last):
    """The next of some rising addresses above one, but the last one at most."""
    at = bisect.bisect_right(addresses, address)
    return min(addresses[at], last) if at < len(addresses) else last


def words_of(function):
    """The words of a function, GNU's barriers as the product has them, or the reason why it has none."""
    row, why = row_of(function)
    if row is not None and row.foreign:
        return None, foreign_text(function.symbol.address, row)
    return (None, why) if row is None else (list(row.words), None)


def row_of(function):
    """The row of a function, or the reason why it has none."""
    symbol, size, section = function
    if section is None:
        return None, "no code"
    start = symbol.address - section.address
    if section.kind == linked.NOBITS or size == 0 or size % 4 or symbol.address % 4 or start + size > section.size:
        return None, f"no row of words: {size} bytes in {section.name}"
    if size // 4 > image.MOST_WORDS:
        return None, f"{size // 4} words: an image has at most {image.MOST_WORDS}"
    words = (table.GNU_BARRIERS.get(word, word)
             for word, in struct.iter_unpack("<I", section.content[start:start + size]))
    return row_with_barriers(array.array("I", words), {(offset - start) // 4 for offset in section.loose}), None


def row_with_barriers(words, loose=frozenset()):
    """A condition looks at the words from a trigger to a place alone, so what is broken before a word that can't be
    judged is so whatever that does, and one in no shadow changes nothing."""
    foreign, trigger, loads = [], None, []
    for n, word in enumerate(words):
        insn = insn_of(word)
        why = table.reason(word) if insn is None else unsure(insn, n in loose, loads)
        if why is not None:
            foreign.append(Foreign(n, word, why, trigger))
        if why is not None or insn.kind in (table.BARRIER, table.TURN):
            trigger, loads = None, []
        elif insn.kind == table.TRIGGER and trigger is None:
            trigger = n
        elif insn.kind == table.LOAD and trigger is not None:
            loads.append((insn.span[0], n in loose))
    for one in foreign:
        words[one.place] = BARRIER
    return Row(words, foreign, not any(insn_of(word).kind == table.TRIGGER for word in words))


def unsure(insn, is_loose, loads):
    """Why a word of an object can't be judged, or None: C5 asks whether a store meets a load before it, and where one
    of them is by a distance that the linker makes, nobody knows it yet."""
    if is_loose and insn.span is None and insn.name not in ("lda", "ldah"):
        return f"{insn.name}, which the linker changes"
    if insn.kind == table.STORE and any(base == insn.span[0] and (is_loose or other) for base, other in loads):
        return f"{insn.name} behind a load by the same register, and the linker makes one's distance"
    return None


def foreign_text(address, row):
    """What is said of words that can't be judged: the first of them, or the first in a shadow, and whether a /V word
    stands beside them."""
    place, word, why, trigger = next((one for one in row.foreign if one.trigger is not None), row.foreign[0])
    shadow = f", in the shadow of {address + 4 * trigger:016x}" if trigger is not None else ""
    more = f", and {len(row.foreign) - 1} more" if len(row.foreign) > 1 else ""
    idle = "; no /V word" if row.is_idle else ""
    return f"{address + 4 * place:016x} is {word:08x}: {why}{shadow}{more}{idle}"
