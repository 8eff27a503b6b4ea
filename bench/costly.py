"""Traces whose proposal costs much beside their search: bench/costly.py PROGRAM WITHOUT [ROWS]. WITHOUT is as bench/failing.py has it.

For each kind what both programs say, the user time of the questions, how many times longer PROGRAM took, and its time by default, with
workers. Of a trace that is asked again, the first question isn't counted, and each of the others follows a store."""

import random
import sys

import failing
import schedules
import traces

LEAST = 0.001  # seconds that tell something


def few_values(procs, length, cells, values, budget=traces.BUDGET, amos=0.1):
    """Half of the accesses load; five loads read something else."""
    rng, memory = random.Random(1), traces.Memory(procs, cells)
    steps = [traces.accesses(rng, memory, process, cells, 0.5, values, amos) for process in range(procs)]
    traces.run(rng, memory, procs, length, 10, steps)
    return list(traces.script(failing.changed(rng, memory, 5, values), cells, budget))


def asked_again(lines, procs, times):
    """The lines, and so many questions more."""
    for number in range(times):
        lines += [f"a do t {number % procs} sw c0 {number % 2}", "a ask t"]
    return lines


def excluded(rounds, stores=1_000):
    """One source after another of a read is supposed, and each contradicts itself; two more processes only store."""
    rounds = ["sw c1 5", "sw c1 6", "sw c0 1", "sw c0 0"] * rounds
    memory = traces.Memory(4, 4)
    memory.reports = [rounds, ["rw c0 1 9", "lw c1 5", "rw c0 9 2"]]
    memory.reports += [[f"sw c{cell} {10 + number}" for number in range(stores)] for cell in (2, 3)]
    return list(traces.script(memory, 4))


def changed_late(procs, length, cells, values):
    """One of the last 60 loads of each process reads something else."""
    rng = random.Random(1)
    memory, width = traces.of_values(rng, procs, length, cells, values, "fair")
    return list(traces.script(failing.changed(rng, memory, 1, values, length - 60), width))


KINDS = {
    "4 x 500, 4 values, asked 20 times more": lambda: asked_again(few_values(4, 500, 8, 4), 4, 20),
    "4 x 2000, 200 values, budget 1000, the same": lambda: asked_again(few_values(4, 2_000, 8, 200, 1_000), 4, 20),
    "4 x 50000, 200 values, budget 100": lambda: few_values(4, 50_000, 8, 200, 100),
    "32 x 100, one cell, 5 values": lambda: few_values(32, 100, 1, 5),
    "2 x 50000, one cell, 6 values": lambda: few_values(2, 50_000, 1, 6),
    "8 x 300, 2 cells, 6 values, 9 of 10 swap": lambda: few_values(8, 300, 2, 6, amos=0.9),
    "32 x 300, 2 cells, 6 values": lambda: few_values(32, 300, 2, 6),
    "32 x 1000, 8 cells, 3 values": lambda: few_values(32, 1_000, 8, 3),
    "32 x 2000, 8 cells, 50 values": lambda: few_values(32, 2_000, 8, 50),
    "32 x 3000, 64 cells, 200 values": lambda: few_values(32, 3_000, 64, 200),
    "2 x 1500, 8 cells, 3 values, changed late": lambda: changed_late(2, 1_500, 8, 3),
    "3 x 100000, 8 cells, 8 values, changed late": lambda: changed_late(3, 100_000, 8, 8),
    "16 x 2000, 16 cells, 48 values, changed late": lambda: changed_late(16, 2_000, 16, 48),
    "3,000 sources excluded": lambda: excluded(3_000),
}


def question(program, lines, words=schedules.ALONE):
    """What the last question says, and the user time of the questions, less that of what stands before them."""
    first = lines.index("a ask t")
    begun = first if first == len(lines) - 1 else first + 1
    _, before = schedules.run(program, lines[:begun], words)
    replies, taken = schedules.run(program, lines, words)
    return replies[-1].split()[1].decode() if replies else "given up", max(LEAST, taken - before)


def main(program, without, only=""):
    print(f"{'traces':<46} {'with':<13} {'without':<13} {'s':>7} {'s':>7} {'times':>7} {'default':>7}")
    for name in (name for name in KINDS if only in name):
        lines = KINDS[name]()
        (said, taken), (said_without, taken_without) = question(program, lines), question(without, lines)
        _, default = question(program, lines, ())
        times = taken / taken_without
        print(f"{name:<46} {said:<13} {said_without:<13} {taken:>7.3f} {taken_without:>7.3f} {times:>7.2f} {default:>7.3f}", flush=True)


if __name__ == "__main__":
    main(*sys.argv[1:])
