"""The words of a repair that moves no other word: where they stand, behind the code of a listing and before it, and
which places have some of them together.

An aside is that of one place, from which a branch leads to it and back. Where these have no room, places with the same
word share one: `bsr` leaves the address behind the place in a register that nobody reads, and the aside goes back by
that. So its barrier and its other words are there once, and each place needs one free register more.
"""
from collections import Counter, namedtuple

from . import addresses, files, gas, image, steps

# Below this address Linux may let no code run; the first page stays free, so that an access by a null pointer faults.
LOW, LOWEST = 0x10000, image.PAGE
PAGE_WORDS = image.PAGE // 4
# An aside: the places that lead to it, its lines without the way back, and the register of that way where it is shared.
Aside = namedtuple("Aside", "places lines link")


class Room:
    """How many words have room behind the code and before it, as the fields and the data of a listing leave it."""

    def __init__(self, statements, count):
        self.base, segments = addresses.data_of(statements)
        end, stack = self.base + 4 * count, image.STACK_BYTES
        stack = next((gas.number_of(one.operands[0]) for one in statements if one.name == ".stack" and one.operands),
                     stack)
        ranges = [(start, start + size) for start, size in sizes_of(statements, segments)]
        # An image has no more words than these beside those that it has.
        self.more = image.MOST_WORDS - count
        limit = min([image.END - stack, *(start for start, _ in ranges if start >= end)])
        self.behind = min((limit - end) // 4, self.more)
        self.floor = max([LOWEST,
                          *(-(-last // image.PAGE) * image.PAGE for start, last in ranges if start < self.base)])
        self.before = max(0, self.base - self.floor) // image.PAGE * PAGE_WORDS

    def split(self, sizes):
        """How many of some blocks stand behind the code, where one word more ends them, and how many words before it
        have no room. As few blocks as can be go before."""
        left, count = self.behind - 1, 0
        while count < len(sizes) and sizes[count] <= left:
            left -= sizes[count]
            count += 1
        behind = sum(sizes[:count]) + (count > 0)
        before = min(self.before, (self.more - behind) // PAGE_WORDS * PAGE_WORDS)
        return count, max(0, sum(sizes[count:]) - before)

    def refuse(self, path, sizes, missing):
        raise files.Refused(
            f"{path}: the repair takes {sum(sizes) + 1} words, and there is room for {max(0, self.behind)} behind the "
            f"code "
            f"and for {self.before} before it, down to {self.floor:#x}, but no more than {self.more} in an image: "
            f"{missing} "
            "are missing. Link the program again at a higher address, or with more room between code and data; or "
            "repair "
            "its text")

    def base_for(self, count):
        """The base of the code with so many words before it."""
        return self.base - -(-count // PAGE_WORDS) * image.PAGE


def sizes_of(statements, segments):
    """The base and the size of each segment, with its zeroed bytes."""
    zeroed, at = {}, -1
    for statement in statements:
        if statement.name == ".segment" or statement.name == ".data" and at < 0:
            at += 1
        elif statement.name == ".zero" and at >= 0:
            zeroed[at] = zeroed.get(at, 0) + (gas.number_of(statement.operands[0]) or 0)
    return [(start, len(content) + zeroed.get(number, 0)) for number, (start, content) in enumerate(segments) if
            len(content) + zeroed.get(number, 0)]


def fitting(made, room, path):
    """The asides of a repair, one for each place or, where these have no room, as few as can be, and how many of them
    stand behind the code."""
    found = [Aside([place], change.lines, None) for place, change in sorted(made.changes.items())]
    sizes = [size_of(aside) for aside in found]
    if room.split(sizes)[1]:
        found = shared(made)
        sizes = [size_of(aside) for aside in found]
        _, missing = room.split(sizes)
        if missing:
            room.refuse(path, sizes, missing)
    return found, room.split(sizes)[0]


def size_of(aside):
    """The words of an aside, with that of the way back."""
    return len(aside.lines) + 1


def shared(made):
    """The asides of a repair where places with the same word have one together."""
    groups, found = {}, []
    for place, change in sorted(made.changes.items()):
        # Behind the last word of the code no address is one of the code.
        can_share = not change.is_kept and made.code.after[place] is not None
        groups.setdefault(made.code.steps[place].word if can_share else ("alone", place), []).append(place)
    for left in groups.values():
        while left:
            change, link, places = most_together(made, left)
            if change is None:
                found += [Aside([place], made.changes[place].lines, None) for place in places]
            else:
                found.append(Aside(places, change.lines, link))
                made.changes.update(dict.fromkeys(places, change))
            done = set(places)
            left = [place for place in left if place not in done]
    return sorted(found)


def most_together(made, places):
    """The change of an aside for as many of some places as can have one together, the register of its way back, and
    these places; without both, all of them, where no two can."""
    pairs = {place: dict.fromkeys(pairs_at(made, place)) for place in places} if len(places) > 1 else {}
    counts = Counter(pair for found in pairs.values() for pair in found)
    if not counts or max(counts.values()) < 2:
        return None, None, places
    register, link = max(counts, key=counts.__getitem__)
    together = [place for place in places if (register, link) in pairs[place]]
    return made.change_through(together[0], register), link, together


def pairs_at(made, place):
    """The pairs of registers by which a shared aside of a place can go: that of the result, None where it needs none
    but its destination, and that of the way back, never that of divisions, so that it doesn't look like one of
    theirs."""
    free = made.free_at(place)
    for register in free if made.changes[place].register is not None else [None]:
        yield from ((register, link) for link in free if link not in (register, steps.BY_DIVISION))
