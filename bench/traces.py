"""Consistent traces of many kinds, as scripts for the monitor: each is what a sequentially consistent memory did."""

import random

BUDGET = 1_000_000


class Memory:
    """A memory that makes one access after another and notes the reports of each process."""

    def __init__(self, procs, cells):
        self.held = [0] * cells
        self.reports = [[] for _ in range(procs)]
        self.order = []
        self.fresh = 0

    def note(self, process, report):
        self.reports[process].append(report)
        self.order.append(process)

    def load(self, process, cell):
        self.note(process, f"lw c{cell} {self.held[cell]}")
        return self.held[cell]

    def store(self, process, cell, value):
        self.held[cell] = value
        self.note(process, f"sw c{cell} {value}")

    def swap(self, process, cell, value):
        old, self.held[cell] = self.held[cell], value
        self.note(process, f"rw c{cell} {old} {value}")
        return old

    def add(self, process, cell):
        return self.swap(process, cell, self.held[cell] + 1)

    def unused(self):
        self.fresh += 1
        return self.fresh


def run(rng, memory, procs, length, slice_, steps):
    """Lets the processes take turns of about `slice_` accesses until each made `length`."""
    left = list(range(procs))
    while left:
        process = rng.choice(left)
        for _ in range(rng.randint(1, 2 * slice_ - 1)):
            if len(memory.reports[process]) >= length:
                break
            next(steps[process])
        if len(memory.reports[process]) >= length:
            left.remove(process)
    return memory


def script(memory, cells, budget=BUDGET, asks="a ask t"):
    procs = len(memory.reports)
    declared = " ".join(f"c{cell}:w=0" for cell in range(cells))
    yield f"a open t {procs} {budget} {declared}"
    for process in range(procs):
        yield f"a claim t {process}"
    for process, reports in enumerate(memory.reports):
        for report in reports:
            yield f"a do t {process} {report}"
    yield asks


def accesses(rng, memory, process, cells, reads, values, amos=0.1):
    while True:
        cell = rng.randrange(cells)
        value = rng.randrange(values) if values else memory.unused()
        if rng.random() < amos:
            memory.swap(process, cell, value)
        elif rng.random() < reads:
            memory.load(process, cell)
        else:
            memory.store(process, cell, value)
        yield


def at_random(rng, procs, length, cells, reads, slice_, values=0):
    memory = Memory(procs, cells)
    steps = [accesses(rng, memory, p, cells, reads, values) for p in range(procs)]
    return run(rng, memory, procs, length, slice_, steps), cells


def fair(rng, procs, length):
    """Any process that has something left comes next."""
    left = [length] * procs
    while any(left):
        process = rng.choice([p for p in range(procs) if left[p]])
        left[process] -= 1
        yield process


def in_slices(rng, procs, length):
    """A process makes 1 to 200 accesses at a time."""
    left = [length] * procs
    while any(left):
        process = rng.choice([p for p in range(procs) if left[p]])
        count = min(rng.randint(1, 200), left[process])
        left[process] -= count
        yield from [process] * count


def at_speeds(rng, procs, length):
    """Processes are 1 to 6 times as fast as the slowest can be."""
    left, speeds = [length] * procs, [rng.randint(1, 6) for _ in range(procs)]
    while any(left):
        process = rng.choices(range(procs), [speed * bool(more) for speed, more in zip(speeds, left)])[0]
        left[process] -= 1
        yield process


def in_phases(rng, procs, length, phase=50):
    """All processes wait for each other after every 50 accesses."""
    for begin in range(0, length, phase):
        yield from fair(rng, procs, min(phase, length - begin))


def with_one_late(rng, procs, length):
    """Process 0 begins when the others are half done."""
    order = [process + 1 for process in fair(rng, procs - 1, length)]
    rest = order[len(order) // 2 :] + [0] * length
    rng.shuffle(rest)
    return order[: len(order) // 2] + rest


SCHEDULERS = {"fair": fair, "slices": in_slices, "speeds": at_speeds, "phases": in_phases, "late": with_one_late, "hot cell": fair}


def of_values(rng, procs, length, cells, values, scheduler):
    """Half of the accesses load, one in twenty swaps; under the last scheduler half of all are about one cell."""
    memory = Memory(procs, cells)
    for process in SCHEDULERS[scheduler](rng, procs, length):
        cell = 0 if scheduler == "hot cell" and rng.random() < 0.5 else rng.randrange(cells)
        value = rng.randrange(values) if values else memory.unused()
        kind = rng.random()
        if kind < 0.5:
            memory.load(process, cell)
        elif kind < 0.55:
            memory.swap(process, cell, value)
        else:
            memory.store(process, cell, value)
    return memory, cells


def lock(rng, memory, process):
    while True:
        while memory.swap(process, 0, 1) != 0:
            yield
        yield
        count = memory.load(process, 1)
        yield
        memory.store(process, 1, count + 1)
        yield
        memory.store(process, 0, 0)
        yield


def ticket(rng, memory, process):
    while True:
        mine = memory.add(process, 0)
        yield
        while memory.load(process, 1) != mine:
            yield
        yield
        count = memory.load(process, 2)
        yield
        memory.store(process, 2, count + 1)
        yield
        memory.store(process, 1, mine + 1)
        yield


def counter(rng, memory, process):
    while True:
        if rng.random() < 0.2:
            memory.load(process, rng.randrange(2))
        else:
            memory.add(process, rng.randrange(2))
        yield


def queue(rng, memory, process):
    while True:
        slot = 2 + memory.add(process, process % 2) % 16
        yield
        if process % 2 == 0:
            memory.store(process, slot, 1_000 + memory.unused())
        else:
            while memory.load(process, slot) == 0:
                yield
        yield


def seqlock(rng, memory, process):
    while True:
        if process == 0:
            value = memory.unused()
            for cell, stored in ((0, 2 * value - 1), (1, value), (2, value), (0, 2 * value)):
                memory.store(process, cell, stored)
                yield
        else:
            while memory.load(process, 0) % 2:
                yield
            yield
            for cell in (1, 2, 0):
                memory.load(process, cell)
                yield


PROGRAMS = {"lock": (lock, 2), "ticket lock": (ticket, 3), "counters": (counter, 2), "queue": (queue, 18), "seqlock": (seqlock, 3)}


def synchronized(rng, name, procs, length, slice_):
    program, cells = PROGRAMS[name]
    memory = Memory(procs, cells)
    steps = [program(rng, memory, p) for p in range(procs)]
    return run(rng, memory, procs, length, slice_, steps), cells


def by_turns(length):
    """One process stores, the other loads it, then the other way round."""
    memory = Memory(2, 1)
    turn = 0
    while any(len(reports) < length for reports in memory.reports):
        memory.store(turn % 2, 0, memory.unused())
        memory.load(1 - turn % 2, 0)
        turn += 1
    return memory, 1


def growing(rng, procs, length, cells, reads, slice_, every=10, late=8):
    """The script of a trace that is asked about again and again, whose reports come late by some operations."""
    memory, _ = at_random(rng, procs, length, cells, reads, slice_)
    lines = list(script(memory, cells))
    head, asks = lines[: 1 + procs], lines[-1]
    due = sorted((place + rng.randint(0, late * procs), place, process) for place, process in enumerate(memory.order))
    # The reports of one process stay in order.
    told = [0] * procs
    yield from head
    for number, (_, _, process) in enumerate(due, 1):
        yield f"a do t {process} {memory.reports[process][told[process]]}"
        told[process] += 1
        if number % every == 0:
            yield asks
