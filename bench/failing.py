"""What a question costs whose proposal fails: bench/failing.py PROGRAM WITHOUT [SEED]. WITHOUT is the program without proposals.

Traces of few values, of which some loads are changed: most have no schedule then. Some are large; some are easy for long, as each
store has a value of its own, and hard at the end; some have two processes more, of which one spins on a flag. Of those that neither
program decides it prints the user time of each, the least of three runs by turns, and how many times longer PROGRAM took."""

import itertools
import random
import sys

import schedules
import traces

RUNS = 3


def changed(rng, memory, count, values=3, since=0):
    """The memory's reports, of which so many loads, from a place of each process on, read another of the few values."""
    loads = []
    for process, reports in enumerate(memory.reports):
        places = range(since, len(reports))
        loads += [(process, at) for at in places if reports[at].startswith("lw") and int(reports[at].split()[2]) < values]
    for process, at in rng.sample(loads, count):
        word, cell, value = memory.reports[process][at].split()
        memory.reports[process][at] = f"{word} {cell} {(int(value) + rng.randint(1, values - 1)) % values}"
    return memory


def large(rng):
    """The name, the memory and the cells of each trace that is longer, or has more processes."""
    sizes = (8, 1_000, 8, 3), (8, 2_000, 4, 20), (16, 100, 32, 5), (16, 2_000, 8, 3), (16, 2_000, 8, 200), (32, 50, 64, 3)
    for (procs, length, width, values), reads in itertools.product(sizes, (0.3, 0.6)):
        memory = changed(rng, traces.at_random(rng, procs, length, width, reads, 10, values)[0], 3, values)
        yield f"{procs} x {length}, {width} cells, {values} values, {reads} loads", memory, width


def late(rng, procs, length, width):
    """Each store has a value of its own; of the last 150 of each process half have one of three."""
    memory = traces.Memory(procs, width)

    def steps(process, kinds):
        accesses = [traces.accesses(rng, memory, process, width, 0.5, values) for values in kinds]
        while True:
            yield next(rng.choice(accesses))

    for end, kinds in ((length, (0,)), (length + 150, (0, 3))):
        traces.run(rng, memory, procs, end, 10, [steps(process, kinds) for process in range(procs)])
    return changed(rng, memory, 4, since=length + 75)


def spinning(rng, spins):
    """Another process sets a flag and then spins on it; one more sees it unset after each of its stores. So the flag is set after
    all of them, and who tries to set it before makes all the loads in vain."""
    memory = changed(rng, traces.at_random(rng, 3, 200, 2, 0.4, 10, 3)[0], 8)
    memory.reports.append(["sw c2 1"] + ["lw c2 1"] * spins)
    memory.reports.append([it for number in range(2_000) for it in (f"sw c3 {1 + number % 2}", "lw c2 0")])
    return memory


def failing(rng):
    """The name, the memory and the cells of each trace."""
    for procs, width, reads, count in itertools.product((4, 8), (2, 8), (0.3, 0.5), (1, 2, 5)):
        memory = changed(rng, traces.at_random(rng, procs, 200, width, reads, 10, 3)[0], count)
        yield f"{procs} x 200, {width} cells, {reads} loads, {count} changed", memory, width
    yield from large(rng)
    for procs, length in ((8, 500), (8, 2_000), (16, 1_000), (16, 1_000), (32, 300)):
        yield f"{procs} x {length}, and 150 with few values", late(rng, procs, length, 8), 8
    for spins in (1_000, 5_000, 20_000) * 6:
        yield f"3 x 200, a flag loaded {spins} times", spinning(rng, spins), 4


def question(programs, lines):
    """For each program what the question says, and its user time: the least of some runs by turns, less that of the reports."""
    said, whole, reports = {}, {}, {}
    for program in programs * RUNS:
        _, taken = schedules.run(program, lines[:-1])
        reports[program] = min(taken, reports.get(program, taken))
        replies, taken = schedules.run(program, lines)
        whole[program] = min(taken, whole.get(program, taken))
        said[program] = replies and replies[-1].split()[1].decode()
    return [(said[program], max(0.001, whole[program] - reports[program])) for program in programs]


def main(program, without, seed="0"):
    ratios = []
    for count, (name, memory, cells) in enumerate(failing(random.Random(seed)), 1):
        with_it, without_it = question([program, without], list(traces.script(memory, cells)))
        if with_it[0] == without_it[0] == "undecided":
            ratios.append(with_it[1] / without_it[1])
            print(f"{name:<50} {with_it[1]:>7.3f} {without_it[1]:>7.3f} {ratios[-1]:>6.2f}", flush=True)
    print(f"{len(ratios)} of {count}: at most {max(ratios):.2f}, in the mean {sum(ratios) / len(ratios):.2f}")


if __name__ == "__main__":
    main(*sys.argv[1:])
