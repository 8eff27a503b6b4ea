"""Where a picture puts what it draws: operations in lanes and rows, and folds, each of which stands for several of them."""
from dataclasses import dataclass
from graphlib import TopologicalSorter


@dataclass
class Item:
    """An operation, or a fold of those from this one on that aren't drawn."""

    process: int
    first: int
    count: int = 1
    row: int = 0

    @property
    def at(self):
        return self.process, self.first

    @property
    def is_fold(self):
        return self.count > 1


def lanes_of(lengths, named, around):
    """The items of each process, where only these operations, and so many around each, are drawn as such."""
    near = {(p, k + step) for p, k in named for step in range(-around, around + 1)}
    lanes = []
    for process, length in enumerate(lengths):
        items, place = [], 0
        while place < length:
            end = place
            while end < length and (process, end) not in near:
                end += 1
            items += [Item(process, place, end - place)] if end > place else [Item(process, place)]
            place = max(end, place + 1)
        lanes.append(items)
    return lanes


def lanes_with(lanes, named):
    """The lanes with an operation that is named."""
    return [items if any(item.at in named for item in items) else [] for items in lanes]


def whole_lanes(lengths):
    return [[Item(process, place) for place in range(length)] for process, length in enumerate(lengths)]


def place_by_orders(lanes, orders):
    """Gives rows in which each operation stands below those that come before it. Orders that would close a circle are left to go up."""
    before = {item.at: set() for items in lanes for item in items}
    for items in lanes:
        for upper, lower in zip(items, items[1:]):
            before[lower.at].add(upper.at)
    for start, end in orders:
        if start in before and end in before and start != end and not reaches(before, start, end):
            before[end].add(start)
    rows = {}
    for at in TopologicalSorter(before).static_order():
        rows[at] = max((rows[it] + 1 for it in before[at]), default=0)
    for items in lanes:
        for item in items:
            item.row = rows[item.at]


def reaches(before, end, start):
    """Whether a way leads from the start to the end."""
    seen, waiting = {end}, [end]
    while waiting:
        at = waiting.pop()
        if at == start:
            return True
        fresh = before[at] - seen
        seen |= fresh
        waiting += fresh
    return False


def place_by_schedule(lanes, schedule):
    """Gives operations the rows in which the schedule has them; what it doesn't have stands below, and folds where their first one does."""
    rows, counts = {}, {}
    for row, process in enumerate(schedule):
        rows[process, counts.get(process, 0)] = row
        counts[process] = counts.get(process, 0) + 1
    for items in lanes:
        below = len(schedule)
        for item in items:
            if item.at in rows:
                item.row = rows[item.at]
            else:
                item.row, below = below, below + 1
