"""Makes an inconsistent trace smaller, so that the inconsistency of the smaller one shows that of the larger.

A legal schedule of the larger trace, without the operations that went, is one of the smaller: each read that stays still
has the same write before it, since no other operation that stays reads a value that a write which went has left in its cell."""
from dataclasses import dataclass, replace

from model.machine import OPEN
from tester.monitor import Stop
from tester.reasons import orders_of

LAWS = {
    "cells": "a cell goes with all its accesses: what is read from the others was written there",
    "loads": "a load goes: nobody sees a load",
    "stores": "a store goes whose value no operation that stays reads from its cell: none of them saw it",
    "read-and-writes": "a read-and-write goes, as a load and a store, where no operation that stays reads what it wrote",
    "read-and-writes that became stores": "the read of a read-and-write goes, as a load does",
    "read-and-writes that became loads": "the write of a read-and-write goes, where no other operation that stays reads what it wrote",
    "processes": "a process without operations goes",
    "names": "cells get short names, and so do values, each cell's one by one: a schedule stays as legal as it was",
}
GONE = {"R": "loads", "W": "stores", "RW": "read-and-writes"}
WEAKER = {"W": "read-and-writes that became stores", "R": "read-and-writes that became loads"}
LEAST_BUDGET, MOST_BUDGET = 10_000, 1_000_000
SHORT_NAMES = "xyzuvw"


def at_lines(recording):
    """Each operation by the number of the line that reported it, which it keeps: its kind, cell, and what it reads and writes."""
    found = {}
    for process, place in recording.operations:
        kind, cell, old, new = recording.operation((process, place))
        name = recording.cells[cell]
        found[recording.lines[process][place].number] = (kind, name, None if kind == "W" else old, None if kind == "R" else new)
    return found


def counts_by_law(larger, smaller):
    """What went from the larger trace to the smaller one, counted by the law that lets it go. Stops where none does."""
    before, after = at_lines(larger), at_lines(smaller)
    left = {name for _, name, _, _ in after.values()}
    readers = {}
    for line, (kind, name, old, _) in after.items():
        if kind != "W":
            readers.setdefault((name, old), set()).add(line)
    counts = dict.fromkeys(LAWS, 0)
    counts["cells"] = len({name for _, name, _, _ in before.values()} - left)
    for line, (kind, name, old, new) in before.items():
        now = after.pop(line, None)
        if now == (kind, name, old, new):
            continue
        if now not in (None, ("W", name, None, new), ("R", name, old, None)) or kind != "RW" and now:
            raise Stop(f"the operation of line {line} was changed: an error of shrink", 70)
        if kind != "R" and (now is None or now[0] == "R") and readers.get((name, new), set()) - {line}:
            raise Stop(f"the write of line {line} went, whose value is read: an error of shrink", 70)
        if now or name in left:
            counts[WEAKER[now[0]] if now else GONE[kind]] += 1
    if after:
        raise Stop("operations came that weren't there: an error of shrink", 70)
    return counts


@dataclass
class Judge:
    """Whether the monitor finds a trace inconsistent: by a short refutation, or by all situations within a budget."""

    monitor: object
    budget: int = LEAST_BUDGET

    def orders(self, recording):
        """The orders of a short refutation, [] where there is another one, None where the trace isn't found inconsistent."""
        verdict = self.verdict(recording)
        if verdict == "consistent":
            return None  # orders would be looked for in vain, in a long trace for a minute
        found = orders_of(recording, *recording.ask(self.monitor, "cycle"))
        return found or ([] if verdict == "inconsistent" else None)

    def verdict(self, recording):
        return recording.ask(self.monitor, "ask", budget=self.budget)[0].partition(" ")[0]

    def settle(self, recording):
        """The verdict about the trace that was given, with a budget that is raised until there is one. Steps are judged with it."""
        if orders_of(recording, *recording.ask(self.monitor, "cycle")):
            return "inconsistent"
        while (verdict := self.verdict(recording)) == "undecided" and self.budget < MOST_BUDGET:
            self.budget *= 10
        return verdict


def closed(start, more):
    """The places that are there at the start, and what each of them brings along."""
    found, waiting = set(start), list(start)
    while waiting:
        fresh = set(more(waiting.pop())) - found
        found |= fresh
        waiting += fresh
    return found


def with_readers(recording, gone):
    """These operations and all that read what one of them wrote, and so on."""
    readers = {}
    for at in recording.operations:
        kind, cell, old, _ = recording.operation(at)
        if kind != "W":
            readers.setdefault((cell, old), []).append(at)

    def read_by(at):
        kind, cell, _, new = recording.operation(at)
        return [] if kind == "R" else readers.pop((cell, new), [])  # once is enough: they all come with the first
    return closed(gone, read_by)


def with_writers(recording, kept):
    """These operations and all that wrote what one of them reads, and so on."""
    writers = {}
    for at in recording.operations:
        kind, cell, _, new = recording.operation(at)
        if kind != "R":
            writers.setdefault((cell, new), []).append(at)

    def written_by(at):
        kind, cell, old, _ = recording.operation(at)
        return [] if kind == "W" else writers.pop((cell, old), [])  # once is enough: they all come with the first
    return closed(kept, written_by)


def changed(recording, at, operation):
    """The same trace with another operation in this place."""
    sequences = [list(sequence) for sequence in recording.trace.sequences]
    sequences[at[0]][at[1]] = operation
    return replace(recording, trace=replace(recording.trace, sequences=sequences))


class Shrinking:
    def __init__(self, recording, judge, tell=lambda count: None):
        self.recording, self.judge, self.tell = recording, judge, tell
        self.orders = judge.orders(recording)
        self.judged = 0

    def run(self):
        self.keep_what_is_named()
        self.by_halves([self.accesses(cell) for cell in range(len(self.recording.cells))])
        size = None
        while size != (size := self.size()):
            self.by_halves([{at} for at in self.recording.operations])
            self.weaken()
        return self.recording

    def size(self):
        kinds = [self.recording.operation(at)[0] for at in self.recording.operations]
        return len(kinds), kinds.count("RW")

    def accept(self, smaller):
        """Takes the smaller trace where it is inconsistent."""
        self.judged += 1
        orders = self.judge.orders(smaller)
        if orders is None:
            return False
        self.recording, self.orders = smaller, orders
        self.tell(len(smaller.operations))
        return True

    def accesses(self, cell):
        return {at for at in self.recording.operations if self.recording.operation(at)[1] == cell}

    def keep_what_is_named(self):
        """While a short refutation is found, what it names stays, with each write of a value that is read of these."""
        size = None
        while self.orders and size != (size := len(self.recording.operations)):
            kept = with_writers(self.recording, {at for order in self.orders for at in order.named})
            if len(kept) < size:
                self.accept(self.recording.only(kept))

    def by_halves(self, parts):
        """Leaves out as many of these sets of operations as it may: halves first, then halves of these, in the end each alone."""
        size = len(parts)
        while size > 1:
            size = (size + 1) // 2
            parts = self.left_of(parts, size)
        self.left_of(parts, 1)

    def left_of(self, parts, size):
        """The parts that stay where so many at a time are tried; operations are named by their lines meanwhile, which they keep."""
        named = [{self.line(at) for at in part} for part in parts]
        groups, stay = [named[at:at + size] for at in range(0, len(named), size)], []
        for group in groups:
            lines = set().union(*group)
            gone = {at for at in self.recording.operations if self.line(at) in lines}
            if gone and not self.leave_out(gone):
                stay += group
        places = {self.line(at): at for at in self.recording.operations}
        return [left for group in stay if (left := {places[line] for line in group if line in places})]

    def line(self, at):
        return self.recording.lines[at[0]][at[1]].number

    def leave_out(self, gone):
        gone = with_readers(self.recording, gone)
        done = self.accept(self.recording.only(at for at in self.recording.operations if at not in gone))
        if done:
            self.keep_what_is_named()
        return done

    def weaken(self):
        """Read-and-writes become stores, or loads, where that is enough."""
        for at in self.recording.operations:
            kind, cell, old, new = self.recording.operation(at)
            if kind == "RW" and not self.accept(changed(self.recording, at, ("W", cell, None, new))) and with_readers(self.recording, {at}) == {at}:
                self.accept(changed(self.recording, at, ("R", cell, old, old)))


def smallest(recording, judge, tries, tell=lambda count: None):
    """The smallest of several: each time the search begins anew without a load that the last one ended with."""
    best = found = Shrinking(recording, judge, tell).run()
    for _ in range(tries):
        loads = {line for line, (kind, *_) in at_lines(recording).items() if kind == "R"}
        named = [number for number in at_lines(found) if number in loads]
        recording = recording.only(at for at in recording.operations if recording.lines[at[0]][at[1]].number not in named[-1:])
        if not named or judge.orders(recording) is None:
            break
        found = Shrinking(recording, judge, tell).run()
        best = min(best, found, key=lambda it: len(it.operations))
    return best


def renamed(recording):
    """The same without idle processes and cells, under short names, and what stands for what: each cell's name, each process."""
    trace = recording.trace
    processes = [p for p, sequence in enumerate(trace.sequences) if sequence]
    cells = list(dict.fromkeys(recording.operation(at)[1] for at in recording.operations))
    names = {cell: SHORT_NAMES[n] if len(cells) <= len(SHORT_NAMES) else f"c{n}" for n, cell in enumerate(cells)}
    values = {cell: {} if trace.first[cell] is OPEN else {trace.first[cell]: 0} for cell in cells}
    for at in recording.operations:
        _, cell, old, new = recording.operation(at)
        for value in (old, new):
            if value is not None:
                values[cell].setdefault(value, len(values[cell]) + (trace.first[cell] is OPEN))
    sequences = [[(kind, cells.index(cell), values[cell].get(old), values[cell].get(new)) for kind, cell, old, new in trace.sequences[p]] for p in processes]
    first = tuple(OPEN if trace.first[cell] is OPEN else 0 for cell in cells)
    short = replace(trace, names=[names[cell].encode() for cell in cells], widths=[trace.widths[cell] for cell in cells], first=first, sequences=sequences)
    return replace(recording, trace=short, lines=[recording.lines[p] for p in processes]), {names[cell]: recording.cells[cell] for cell in cells}, processes
