"""How many consistent traces the monitor decides, and how long a question takes: bench/schedules.py PROGRAM [SAMPLES [ROWS]]."""

import itertools
import random
import resource
import subprocess
import sys

import traces

READS = (0.3, 0.5, 0.8)
SLICES = (1, 10, 100)
VALUES = (2, 3, 4, 6, 8, 16, 32, 64, 0)
SECONDS = 120
ALONE = ("--workers", "0")


def run(program, lines, words=ALONE):
    """The replies, and the user time of the run: other work on the machine counts little in it."""
    script = "".join(line + "\n" for line in lines).encode()
    begin = resource.getrusage(resource.RUSAGE_CHILDREN).ru_utime
    try:
        replies = subprocess.run([program, *words], input=script, stdout=subprocess.PIPE, timeout=SECONDS).stdout.splitlines()
    except subprocess.TimeoutExpired:
        replies = None
    return replies, resource.getrusage(resource.RUSAGE_CHILDREN).ru_utime - begin


def show(name, decided, times):
    """One row: the mean time, the one that 99 of 100 stay under, and the longest."""
    ordered = sorted(times)
    mean, nearly, most = sum(times) / len(times), ordered[len(times) * 99 // 100], ordered[-1]
    print(f"{name:<40} {decided:>4} of {len(times):<4} {mean:>9.4f} {nearly:>9.4f} {most:>9.4f}", flush=True)


def measure(program, name, scripts):
    """One row: how many of the scripts end in a schedule, and the time of the question, without that of the reports."""
    decided, times = 0, []
    for lines in scripts:
        lines = list(lines)
        _, reporting = run(program, lines[:-1])
        replies, taken = run(program, lines)
        if replies and replies[-1].startswith(b"a inconsistent"):
            sys.exit(f"{name}: wrong verdict")
        decided += bool(replies) and replies[-1].startswith(b"a consistent")
        times.append(max(0.0, taken - reporting))
    show(name, decided, times)


def at_random(procs, length, cells, values, samples):
    rng = random.Random(f"{procs} {length} {values}")
    for width, reads, slice_ in itertools.product(cells, READS, SLICES):
        for _ in range(samples):
            memory, count = traces.at_random(rng, procs, length, width, reads, slice_, values)
            yield traces.script(memory, count)


def synchronized(name, procs, samples):
    rng = random.Random(f"{name} {procs}")
    for slice_ in SLICES:
        for _ in range(samples):
            memory, count = traces.synchronized(rng, name, procs, 1_000, slice_)
            yield traces.script(memory, count)


def of_values(procs, length, cells, values, scheduler, samples):
    rng = random.Random(f"{procs} x {length}, {values} values, {scheduler}")
    for _ in range(samples):
        yield traces.script(*traces.of_values(rng, procs, length, cells, values, scheduler))


def rows_of_values(samples):
    """A row for each size and number of values under a fair scheduler, and for the other schedulers."""
    sizes = ((4, 200, 4), (4, 1_000, 8), (8, 200, 8), (8, 1_000, 16), (16, 200, 16), (16, 1_000, 16))
    kinds = [(*size, values, "fair") for size in sizes for values in VALUES]
    kinds += [(8, 200, 8, values, name) for name in traces.SCHEDULERS if name != "fair" for values in (8, 16, 32, 64)]
    for procs, length, cells, values, name in kinds:
        told = f"{values} values" if values else "unique"
        yield f"values: {procs} x {length}, {told}, {name}", of_values(procs, length, cells, values, name, samples)


def explained(lines):
    """For each question, whether each value that was read by then was written by then, or is a cell's first one."""
    missing, known = {}, set()
    for line in lines:
        words = line.split()
        if words[1] == "ask":
            yield not missing
        if words[1] != "do":
            continue
        kind, cell, values = words[4], words[5], words[6:]
        if kind != "sw" and values[0] != "0" and (cell, values[0]) not in known:
            missing[cell, values[0]] = True
        if kind != "lw":
            known.add((cell, values[-1]))
            missing.pop((cell, values[-1]), None)


def used(running):
    """The seconds of a processor that a running program has used."""
    with open(f"/proc/{running.pid}/schedstat", encoding="ascii") as told:
        return int(told.read().split()[0]) / 1e9


def questions(program, lines):
    """The reply to each question, with the processor's time of the question and of the reports just before it."""
    with subprocess.Popen([program, *ALONE], stdin=subprocess.PIPE, stdout=subprocess.PIPE) as running:
        waiting, before = 0, 0.0
        for line in lines:
            running.stdin.write(line.encode() + b"\n")
            waiting += 1
            if " ask " not in line:
                continue
            running.stdin.flush()
            reply = [running.stdout.readline() for _ in range(waiting)][-1]
            now = used(running)
            yield reply, now - before
            waiting, before = 0, now
        running.stdin.close()


def measure_growth(program, samples):
    """How many of the questions are decided whose values are all explained, and their times; the others have no schedule."""
    for number in range(samples):
        lines = list(traces.growing(random.Random(number), 8, 500, 8, 0.5, 10))
        asked = zip(questions(program, lines), explained(lines))
        able = [(reply, taken) for (reply, taken), is_able in asked if is_able]
        decided = sum(not reply.startswith(b"a undecided") for reply, _ in able)
        show("8 x 500, grows", decided, [taken for _, taken in able])


def main():
    program = sys.argv[1]
    samples = int(sys.argv[2]) if len(sys.argv) > 2 else 1
    only = sys.argv[3] if len(sys.argv) > 3 else ""
    print(f"{'traces':<40} {'decided':>12} {'mean s':>9} {'99 % s':>9} {'most s':>9}")
    rows = [(f"{p} x {n}, unique values", at_random(p, n, (2, 8, 32), 0, samples)) for p, n in itertools.product((2, 4, 8), (100, 1_000, 5_000))]
    rows += [(f"{p} x {n}, unique values", at_random(p, n, (2, 8, 32), 0, samples)) for p, n in itertools.product((16, 32), (200, 1_000))]
    rows += [(f"{p} x 1000, {name}", synchronized(name, p, samples)) for name, p in itertools.product(traces.PROGRAMS, (4, 8))]
    rows += [(f"{p} x 200, three values", at_random(p, 200, (2, 8, 32), 3, samples)) for p in (4, 8)]
    rows += rows_of_values(samples)
    rows += [("2 x 65535, by turns", iter([traces.script(*traces.by_turns(65_535))]))]
    for name, scripts in rows:
        if only in name:
            measure(program, name, scripts)
    if only in "grows":
        measure_growth(program, samples)


if __name__ == "__main__":
    main()
