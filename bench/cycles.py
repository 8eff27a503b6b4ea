"""How many inconsistent traces `cycle` refutes, how short its lists are and how long it takes: bench/cycles.py PROGRAM [SAMPLES]."""

import random
import sys

import schedules
import traces

SMALL_BUDGET = 100_000
SMALL_AT_ONCE = 50


class Buffered(traces.Memory):
    """A memory whose processes each have a store buffer, as many processors do: a load sees its own stores first."""

    def __init__(self, rng, procs, cells):
        super().__init__(procs, cells)
        self.rng = rng
        self.buffers = [[] for _ in range(procs)]

    def drain(self, process):
        if self.buffers[process]:
            cell, value = self.buffers[process].pop(0)
            self.held[cell] = value

    def load(self, process, cell):
        stored = [value for at, value in self.buffers[process] if at == cell]
        seen = stored[-1] if stored else self.held[cell]
        self.note(process, f"lw c{cell} {seen}")
        self.pause()
        return seen

    def store(self, process, cell, value):
        self.buffers[process].append((cell, value))
        self.note(process, f"sw c{cell} {value}")
        self.pause()

    def swap(self, process, cell, value):
        while self.buffers[process]:
            self.drain(process)
        return super().swap(process, cell, value)

    def pause(self):
        for process in range(len(self.buffers)):
            if self.rng.random() < 0.05:
                self.drain(process)


def buffered(rng, procs, length, cells, values=0):
    memory = Buffered(rng, procs, cells)
    steps = [traces.accesses(rng, memory, p, cells, 0.5, values) for p in range(procs)]
    return traces.run(rng, memory, procs, length, 2, steps), cells


def refuted(reply):
    """The number of a list's lines, None where there is no list."""
    words = reply.split()
    return int(words[2]) if words[1] == b"cycle" else None


def closed(lines):
    """A trace's lines, a question for each of both answers, and its closing."""
    *reports, ask = lines
    return [*reports, ask, ask.replace("ask", "cycle"), "a close t"]


def small(program, name, values, samples):
    """Of small traces that are inconsistent by all their situations: how many are refuted by a list."""
    rng = random.Random(name)
    inconsistent, lengths = 0, []
    for _ in range(samples):
        lines = []
        for _ in range(SMALL_AT_ONCE):
            procs, length, cells = rng.randint(2, 4), rng.randint(3, 7), rng.randint(2, 3)
            memory, count = buffered(rng, procs, length, cells, values)
            lines += closed(traces.script(memory, count, SMALL_BUDGET))
        replies, _ = schedules.run(program, lines)
        asked = [at for at, line in enumerate(lines) if line == "a ask t"]
        for at in asked:
            if replies[at] != b"a inconsistent":
                if refuted(replies[at + 1]) is not None and replies[at].startswith(b"a consistent"):
                    sys.exit(f"{name}: a consistent trace is refuted")
                continue
            inconsistent += 1
            found = refuted(replies[at + 1])
            if found is not None:
                lengths.append(found)
    show(name, inconsistent, lengths, [])


def asked_for_cycle(program, reports):
    """How many lines the short refutation of the reported trace has, none where there is none, and the time of the question
    without the reports'."""
    _, reporting = schedules.run(program, reports)
    replies, taken = schedules.run(program, [*reports, "a cycle t"])
    return replies and refuted(replies[-1]), max(0.0, taken - reporting)


def large(program, name, procs, length, samples, values=0):
    """Of large traces of buffered stores: how many are refuted, and the time of that."""
    rng = random.Random(name)
    made, lengths, times = 0, [], []
    for _ in range(samples):
        memory, count = buffered(rng, procs, length, 8, values)
        lines = list(traces.script(memory, count))
        found, taken = asked_for_cycle(program, lines[:-1])
        made += 1
        times.append(taken)
        if found:
            lengths.append(found)
    show(name, made, lengths, times)


def with_a_load_changed(rng, memory, values):
    """Has one of the memory's loads give another value than it did."""
    loads = [(p, k) for p, reports in enumerate(memory.reports) for k, report in enumerate(reports) if report.startswith("lw")]
    process, k = rng.choice(loads)
    word, cell, old = memory.reports[process][k].split()
    value = rng.choice([it for it in range(values) if it != int(old)])
    memory.reports[process][k] = f"{word} {cell} {value}"


def changed(program, name, procs, length, cells, values, samples):
    """Of runs with one load changed, those for which no schedule is found: how many are refuted, and the time of that."""
    rng = random.Random(name)
    made, lengths, times = 0, [], []
    for _ in range(samples):
        memory, _ = traces.at_random(rng, procs, length, cells, 0.5, 2, values)
        with_a_load_changed(rng, memory, values)
        lines = list(traces.script(memory, cells))
        if schedules.run(program, lines)[0][-1].startswith(b"a consistent"):
            continue
        found, taken = asked_for_cycle(program, lines[:-1])
        made += 1
        times.append(taken)
        if found:
            lengths.append(found)
    show(name, made, lengths, times)


def show(name, made, lengths, times):
    median = sorted(lengths)[len(lengths) // 2] if lengths else "-"
    mean = f"{sum(times) / len(times):.3f}" if times else "-"
    most = f"{max(times):.3f}" if times else "-"
    print(f"{name:<40} {len(lengths):>5} of {made:<5} {median!s:>8} {mean:>9} {most:>9}", flush=True)


def main():
    program = sys.argv[1]
    samples = int(sys.argv[2]) if len(sys.argv) > 2 else 10
    print(f"{'inconsistent traces':<40} {'refuted':>14} {'median':>8} {'mean s':>9} {'most s':>9}")
    small(program, "small, unique values", 0, samples)
    small(program, "small, three values", 3, samples)
    small(program, "small, two values", 2, samples)
    large(program, "8 x 200, 32 values", 8, 200, samples, 32)
    large(program, "8 x 100, unique values", 8, 100, samples)
    large(program, "8 x 1000, unique values", 8, 1_000, samples)
    large(program, "16 x 1000, unique values", 16, 1_000, max(1, samples // 3))
    for procs, length, cells, values in [(4, 200, 4, 8), (4, 200, 4, 16), (8, 200, 8, 8), (8, 200, 8, 16), (8, 1_000, 16, 32)]:
        changed(program, f"{procs} x {length}, {values} values, a load changed", procs, length, cells, values, samples)


if __name__ == "__main__":
    main()
