"""Trap shadows side by side: lanes, and rows of text."""
import heapq
from collections import defaultdict

ENDS = ["barrier", "turn", "open", "long", "cut"]
AROUND, LEAST_FOLD = 2, 4
MOST_TOLD = 6


def lanes(drawn, most):
    """For each shadow the lane that it is drawn in, the first one that is free; None where `most` are taken."""
    free, used, ends, found = [], 0, [], []
    for shadow in drawn:
        while ends and ends[0][0] < shadow.trigger:
            heapq.heappush(free, heapq.heappop(ends)[1])
        if free:
            lane = heapq.heappop(free)
        elif used < most:
            lane = used
            used += 1
        else:
            found.append(None)
            continue
        heapq.heappush(ends, (shadow.end, lane))
        found.append(lane)
    return found


def remarks(drawn):
    """By place: (trigger, condition) of each broken place there."""
    found = defaultdict(list)
    for shadow in drawn:
        for place, condition in shadow.broken:
            found[place].append((shadow.trigger, condition))
    return found


def told(remarks, more, whole):
    """What stands beside a word: the conditions by their triggers, and how many shadows there have no lane."""
    conditions = defaultdict(list)
    for trigger, condition in remarks:
        conditions[trigger].append(f"C{condition}")
    said = [f"{' '.join(names)} of {whole.address(trigger):x}"
            for trigger, names in list(conditions.items())[:MOST_TOLD]]
    if len(conditions) > MOST_TOLD:
        said.append(f"and of {len(conditions) - MOST_TOLD} more")
    return ", ".join(said) + (f"  +{more} not drawn" if more else "")


def shown(drawn, count):
    """For each place whether it is in a shadow or near one."""
    near = [False] * count
    done = 0
    for shadow in drawn:
        start, end = max(done, shadow.trigger - AROUND), min(count, shadow.end + AROUND + 1)
        if end > start:
            near[start:end] = [True] * (end - start)
            done = end
    return near


class Open:
    """The cells of one row after another."""

    def __init__(self, drawn, lane_of, width):
        self.waiting = list(zip(drawn, lane_of))[::-1]
        self.width, self.open = width, []

    def row(self, place):
        """The cells of the place, and how many shadows are there that no lane is for."""
        while self.waiting and self.waiting[-1][0].trigger == place:
            self.open.append(self.waiting.pop())
        cells, more = [" "] * self.width, 0
        for shadow, lane in self.open:
            if lane is None:
                more += 1
            else:
                cells[lane] = mark(shadow, place)
        self.open = [(shadow, lane) for shadow, lane in self.open if shadow.end > place]
        return "".join(cells), more


def mark(shadow, place):
    if any(place == at for at, _ in shadow.broken):
        return "#" if place == shadow.trigger else "X"
    if place == shadow.trigger:
        return "V"
    if place == shadow.end and shadow.why == "barrier":
        return "^"
    return "o" if place in shadow.sources else "|"
