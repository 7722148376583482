"""Where the code of a text or of an image goes, and what is reached."""
from collections import namedtuple

from . import returns, steps, table

EXIT = 1
# Where a jump by a table leads: the places to which it goes, and those that stand in the table behind them, to which it
# never goes. Compilers leave code there that nothing else leads to.
Leads = namedtuple("Leads", "goes beyond")


class Code:
    """Instructions by place, with the places to which they branch, None for one that isn't here.

    `roots` are the places that a name or the entry makes code, `functions` those of them where a function begins, and
    `outside` those that code elsewhere may call, and `taken` those of which an address is made. `tables` has where
    each jump by a table leads, by its place. `strange` are those that are come to in a way that isn't seen, in the
    midst of a function. `is_whole` says that nothing stands behind the last word.
    """

    def __init__(self, found, targets, roots, functions, outside=(), tables=None, after=None, taken=()):
        self.steps, self.targets, self.taken, self.is_whole = found, targets, set(taken), False
        # The place behind each in its section, None where that holds data or ends.
        self.after = after or [place + 1 for place in range(len(found) - 1)] + [None] * bool(found)
        self.functions, self.outside = set(functions), set(outside)
        self.roots = set(roots) | {self.after[place] for place in range(len(found)) if self.links_back(place)} - {None}
        self.tables = tables or {}
        self.joined = self.roots | self.functions | {target for target in targets if target is not None}
        self.joined |= self.in_tables()
        # Where the flow goes on, as far as it is followed, and where it may really go; what it reaches by each.
        self.next = [self.onward(place) for place in range(len(found))]
        self.goes = list(self.next)
        for place, leads in self.tables.items():
            self.goes[place] = leads.goes
        self.reached = self.reach(self.roots | self.functions, True)
        self.come_to = self.reach(self.roots | self.functions, True, self.goes)
        self.ways = [self.way(place) for place in range(len(found))]
        self.entries = self.entries_of()
        self.strange = self.strange_of()
        self.entries |= self.strange
        self.known = self.like = None

    def links_back(self, place):
        """Whether a word that is no call leaves the address behind it, so that something may go there."""
        step = self.steps[place]
        if step.word is None or steps.is_call(step) or not (step.insn.name == "br" or steps.is_jump(step)):
            return False
        after = self.after[place]
        return steps.link_of(step) != 31 and (self.targets[place] != after or steps.is_jump(step))

    def strange_of(self):
        """The places in the midst of functions that an address or a word that leaves one makes known: whoever goes
        there by it may have other registers than the function has."""
        behind = {self.after[place] for place in range(len(self.steps)) if self.links_back(place)} - {None}
        return ((self.taken - self.functions | behind) & self.reached) - self.entries

    def returns(self):
        """What the flow shows of its functions, found once."""
        if self.known is None:
            self.known, self.like = returns.Returns(self, self.like and self.like.known), None
        return self.known

    def onward(self, place):
        """The places where the flow goes on within a function; a call comes back behind it. None stands for
        elsewhere."""
        step = self.steps[place]
        name, behind = step.insn.name, self.after[place]
        if name == "br":
            return [self.targets[place]]
        if steps.is_conditional(step):
            return [behind, self.targets[place]]
        if name in table.JUMP and not steps.is_call(step):
            leads = self.tables.get(place) if name == "jmp" else None
            return [] if leads is None else leads.goes + leads.beyond
        if name == "callsys" and self.is_exit(place):
            return []
        return [behind]

    def is_exit(self, place):
        """Whether a system call is the one that ends a program: its number is loaded before it, with no label
        between."""
        while place > 0 and place not in self.joined and self.after[place - 1] == place:
            place -= 1
            step = self.steps[place]
            if step.spoils & 1:
                return step.word == steps.OPCODES["lda"] << 26 | 31 << 16 | EXIT and step.symbol is None
            if step.insn.kind in (table.TURN, table.BARRIER):
                return False
        return False

    def in_tables(self):
        """The places that stand in the tables of jumps."""
        return {place for leads in self.tables.values() for place in leads.goes + leads.beyond}

    def leads(self, goes, behind):
        """Where a jump leads that goes to some places. Of those that stand behind them in its table only those count
        to which nothing else leads."""
        goes = sorted(set(goes))
        return Leads(goes, sorted(set(behind) - self.come_to - set(goes)))

    def way(self, place):
        """The places here to which the flow goes on. Nobody comes to others than those to which it may really go from
        where somebody comes to."""
        found = set(self.next[place]) - self.come_to
        return (found | set(self.goes[place]) if place in self.come_to else found) - {None}

    def reach(self, starts, with_calls, ways=None):
        """The places that the flow reaches from some on."""
        ways = self.next if ways is None else ways
        found, left = set(), [start for start in starts if start is not None]
        while left:
            place = left.pop()
            if place in found:
                continue
            found.add(place)
            left += [after for after in ways[place] if after is not None]
            if with_calls and self.targets[place] is not None:
                left.append(self.targets[place])
        return found

    def entries_of(self):
        """Where functions begin: where a name says so, where a call leads, and else where nothing but a name does."""
        entries = {place for place in self.functions if place < len(self.steps)}
        entries |= {self.targets[place] for place in self.reached if steps.is_call(self.steps[place])} - {None}
        covered = self.reach(entries, True)
        for place in sorted(self.roots):
            if place not in covered:
                entries.add(place)
                covered |= self.reach([place], True)
        return entries

    def places(self):
        """The places that are reached, in order."""
        return sorted(self.reached)


def locked(code):
    """The places that lie between a locked load and its conditional store, on some way through the code."""
    loads = {place for place in code.reached if code.steps[place].insn.name.endswith("_l")}
    stores = {place for place in code.reached if code.steps[place].insn.name.endswith("_c")}
    if not loads or not stores:
        return set()
    onward = {place: [after for after in code.next[place] if after is not None] for place in code.reached}
    before = {place: [] for place in code.reached}
    for place, others in onward.items():
        for other in others:
            before[other].append(place)
    return spread(loads, stores, onward) & spread(stores, loads, before)


def spread(starts, ends, ways):
    """The places that ways lead to from some on, up to the ends."""
    found, left = set(), [other for start in starts for other in ways[start]]
    while left:
        place = left.pop()
        if place not in found and place not in ends:
            found.add(place)
            left += ways[place]
    return found
