"""What testers run, on a model of a machine: bench/machine.py PROGRAM [SAMPLES [ROWS]].

Programs ask a machine for one access after another. Its memory is sequentially consistent; when an access is made depends on who owns
the cell's cache line, on how many processes share a core, and on how fast that is. Reports stand process by process. For each kind of
program: how many traces PROGRAM decides of SAMPLES of each number of processes, and the user time of the question."""

import heapq
import operator
import random
import sys
from typing import NamedTuple

import programs
import schedules

PROCESSES = (4, 8, 16)
LENGTH = 400  # accesses of a process, in the mean
LINE = 4  # cells of a cache line
AMOS = {"amoadd": operator.add, "amoor": operator.or_, "amoand": operator.and_, "amomax": max, "amoswap": lambda _, operand: operand}


class Model(NamedTuple):
    """A core for so many processes, for how long one has it, what an access costs whose line is here or elsewhere, how slow cores are."""

    sharing: int
    quantum: int
    here: int
    elsewhere: int
    slowest: int


MODELS = (
    Model(sharing=1, quantum=1, here=1, elsewhere=60, slowest=1),  # caches
    Model(sharing=4, quantum=200, here=1, elsewhere=60, slowest=1),  # more processes than cores
    Model(sharing=1, quantum=1, here=2, elsewhere=40, slowest=4),  # big and little cores
    Model(sharing=64, quantum=50, here=1, elsewhere=1, slowest=1),  # a simulator that makes 50 accesses of each in turn
)


class Machine:
    """Makes the accesses of programs in the order of their times, and notes what each process would report."""

    def __init__(self, rng, procs, model):
        self.rng, self.procs, self.model = rng, procs, model
        self.held = {}
        self.holders = {}
        self.reports = [[] for _ in range(procs)]
        self.slow = [rng.randint(1, model.slowest) for _ in range(procs)]

    def run(self, running):
        """Until so many accesses are made."""
        waiting = [(self.rng.randint(1, 100), process, next(program)) for process, program in enumerate(running)]
        heapq.heapify(waiting)
        for _ in range(LENGTH * self.procs):
            time, process, access = heapq.heappop(waiting)
            found = self.make(process, *access)
            later = running[process].send(found)
            heapq.heappush(waiting, (self.time_of(time, process, later), process, later))

    def time_of(self, time, process, access):
        """When the access is made, if the one before was made then."""
        line, writes = access[1] // LINE, access[0] != "lw"
        owned = process in self.holders.get(line, ()) and (not writes or len(self.holders[line]) == 1)
        cost = self.model.here if owned else self.rng.randint(1, 2 * self.model.elsewhere - 1)
        return self.own_time(time + cost * self.slow[process], process)

    def own_time(self, time, process):
        """That time, or when the process has its core next."""
        place, sharers = process % self.model.sharing, min(self.model.sharing, self.procs)
        turn, passed = divmod(time, self.model.quantum)
        away = (place - turn) % sharers
        return time + away * self.model.quantum - (passed if away else 0)

    def make(self, process, kind, cell, *operands):
        """The access, whose result is what the cell held."""
        old = self.held.get(cell, 0)
        new, report = result_of(kind, cell, old, *operands)
        self.held[cell] = new
        self.reports[process].append(report)
        holders = self.holders.setdefault(cell // LINE, set())
        if kind != "lw":
            holders.clear()
        holders.add(process)
        return old


def result_of(kind, cell, old, *operands):
    """What the cell holds afterwards, and the report."""
    if kind == "lw":
        return old, f"lw c{cell} {old}"
    if kind == "sw":
        return operands[0], f"sw c{cell} {operands[0]}"
    if kind == "cas":
        expected, new = operands
        return (new, f"rw c{cell} {old} {new}") if old == expected else (old, f"lw c{cell} {old}")
    return AMOS[kind](old, operands[0]) % 2**32, f"{kind}.w c{cell} {operands[0]} {old}"


def script(kind, procs, sample):
    rng = random.Random(f"{kind} {procs} {sample}")
    machine = Machine(rng, procs, MODELS[(sample + procs // 4) % len(MODELS)])
    shared = {}
    machine.run([programs.KINDS[kind](programs.Process(rng, number, procs, shared)) for number in range(procs)])
    yield f"a open t {procs} 1000000 " + " ".join(f"c{cell}:w=0" for cell in range(1 + max(machine.held)))
    yield from (f"a claim t {process}" for process in range(procs))
    for process, reports in enumerate(machine.reports):
        yield from (f"a do t {process} {report}" for report in reports)
    yield "a ask t"


def question(program, lines):
    """Whether the trace was decided, and the user time of the question: that of the run, less that of the reports."""
    _, reporting = schedules.run(program, lines[:-1])
    replies, taken = schedules.run(program, lines)
    if any(b"refused" in reply for reply in replies or ()) or (replies and replies[-1].startswith(b"a inconsistent")):
        sys.exit(f"wrong reply: {lines[0]}")
    return bool(replies) and replies[-1].startswith(b"a consistent"), max(0.0, taken - reporting)


def main(program, samples="4", only=""):
    print(f"{'kind of trace':<36}" + "".join(f"{f'{procs} x {LENGTH}':>10}" for procs in PROCESSES) + f"{'mean s':>9} {'most s':>9}")
    for kind in (kind for kind in programs.KINDS if only in kind):
        told, times = "", []
        for procs in PROCESSES:
            asked = [question(program, list(script(kind, procs, sample))) for sample in range(int(samples))]
            told += f"{f'{sum(decided for decided, _ in asked)} of {len(asked)}':>10}"
            times += [taken for _, taken in asked]
        print(f"{kind:<36}{told}{sum(times) / len(times):>9.3f} {max(times):>9.3f}", flush=True)


if __name__ == "__main__":
    main(*sys.argv[1:])
