"""Traces of which every situation is found: scripts of them, and models of them in Promela. Called by bench/situations.py."""

import random

BUDGET = 1_000_000
ABSENT = 1_000_003  # what nobody stores
ACCESSES = {"l": "ld", "s": "sd", "r": "rw"}


class Trace:
    """What each process does, and in what order it is reported: pairs of a process and an operation, which is a letter
    (l, s or r), a cell and one or two values."""

    def __init__(self, procs, cells):
        self.procs, self.cells, self.order = procs, cells, []

    def add(self, process, *operation):
        self.order.append((process, operation))

    def sequences(self):
        lists = [[] for _ in range(self.procs)]
        for process, operation in self.order:
            lists[process].append(operation)
        return lists

    def script(self, budget=BUDGET):
        declared = " ".join(f"c{cell}:d=0" for cell in range(self.cells))
        lines = [f"a open t {self.procs} {budget} {declared}"]
        lines += [f"a claim t {process}" for process in range(self.procs)]
        for process, (kind, cell, *values) in self.order:
            words = " ".join(str(value) for value in values)
            lines.append(f"a do t {process} {ACCESSES[kind]} c{cell} {words}")
        return "".join(line + "\n" for line in [*lines, "a ask t"]).encode()

    def promela(self):
        """The same as processes over global cells; the search is of all their states."""
        lines = [f"int c[{self.cells}];"]
        for process, operations in enumerate(self.sequences()):
            lines.append(f"active proctype p{process}() {{")
            lines += [f"  {statement(*operation)}" for operation in operations]
            lines += ["  false  /* or states would differ by which processes have gone */", "}"]
        return "\n".join(lines) + "\n"


def statement(kind, cell, value, new=None):
    if kind == "s":
        return f"c[{cell}] = {value};"
    if kind == "l":
        return f"c[{cell}] == {value};"
    return f"d_step {{ c[{cell}] == {value}; c[{cell}] = {new} }};"


def random_run(seed, procs, operations, cells, values, value_of=lambda number: number):
    """A run of processes that store, load and exchange few values on few cells, and then a load of what nobody stored."""
    drawn = random.Random(seed)
    trace, memory, left = Trace(procs, cells), [0] * cells, [operations] * procs
    while any(left):
        process = drawn.choice([it for it in range(procs) if left[it]])
        left[process] -= 1
        cell, kind = drawn.randrange(cells), drawn.random()
        value = value_of(drawn.randint(1, values))
        if kind < 0.5:
            trace.add(process, "s", cell, value)
        elif kind < 0.9:
            trace.add(process, "l", cell, memory[cell])
            continue
        else:
            trace.add(process, "r", cell, memory[cell], value)
        memory[cell] = value
    trace.add(0, "l", 0, ABSENT)
    return trace


def writers(count, stores, value_of=lambda number: number):
    """Each writer stores to a cell of its own: (stores + 1) to the number of writers situations. A reader can't begin."""
    trace = Trace(count + 1, count)
    for writer in range(count):
        for number in range(1, stores + 1):
            trace.add(writer, "s", writer, value_of(number))
    trace.add(count, "l", 0, ABSENT)
    return trace


def wide(stores):
    """32 processes and 64 cells, of which six processes store this often; the others can't begin, and would then store so
    many values that it takes the longest words. (stores + 1) to the sixth situations."""
    trace = Trace(32, 64)
    for writer in range(6):
        for number in range(1, stores + 1):
            trace.add(writer, "s", writer, number)
    for process in range(6, 32):
        trace.add(process, "l", 0, ABSENT)
        for number in range(1, 16):
            trace.add(process, "s", (process + number * 4) % 64, 100 + number)
    return trace
