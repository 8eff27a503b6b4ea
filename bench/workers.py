#!/usr/bin/env python3
"""Measures the monitor beside workers: what they cost and what they bring.

    bench/workers.py PROGRAM

Nothing fails for being slow, only for a wrong reply. Numbers of a busy machine say little."""
import os
import random
import resource
import subprocess
import sys
import time

WRITERS, STORES = 6, 9  # 10 to the number of writers situations, of which a budget of 500,000 lets half in
BUDGET = 500_000
CLOSED = 5  # writers of a trace that workers can close: 100,000 situations
REPORTS = 400_000
SILENCE = 10.0
REPEATS = 5
SESSIONS = 8
LIVE = 3_000  # reports of a live script, with a question after each
PAUSES = (0.003, 0.010, 0.050)  # seconds before a question
GAPS = (0.001, 0.005)  # seconds from one line to the next
STREAM = 3.0  # seconds of such lines
TICKS = os.sysconf("SC_CLK_TCK")


def opened(trace, processes, budget, cells):
    declared = " ".join(f"{cell}:w=0" for cell in cells)
    return [f"a open {trace} {processes} {budget} {declared}", *(f"a claim {trace} {process}" for process in range(processes))]


def forbidden(trace, writers, budget):
    """Each writer stores to a cell of its own; a reader claims to have seen what nobody stored: no schedule decides it."""
    cells = [f"c{writer}" for writer in range(writers)]
    lines = opened(trace, writers + 1, budget, cells)
    lines += [f"a do {trace} {writer} sw c{writer} {value}" for writer in range(writers) for value in range(1, STORES + 1)]
    return [*lines, f"a do {trace} {writers} lw c0 {STORES + 1}"]


class Run:
    """A running monitor, of which one line after the other can be asked."""

    def __init__(self, program, workers):
        self.process = subprocess.Popen([program, "--workers", str(workers)], stdin=subprocess.PIPE, stdout=subprocess.PIPE)

    def send(self, lines):
        """The replies to these lines, and the seconds until the last one came."""
        begin = time.perf_counter()
        self.process.stdin.write("".join(line + "\n" for line in lines).encode())
        self.process.stdin.flush()
        replies = [self.process.stdout.readline().decode().rstrip("\n") for _ in lines]
        return replies, time.perf_counter() - begin

    def processor_time(self):
        """The seconds of processor time so far, of all its threads."""
        with open(f"/proc/{self.process.pid}/stat", encoding="ascii") as stat:
            fields = stat.read().rpartition(")")[2].split()
        return (int(fields[11]) + int(fields[12])) / TICKS

    def rest(self):
        """Waits until the workers have nothing to do: no processor time in a quarter of a second."""
        before = -1.0
        while before != (now := self.processor_time()):
            before = now
            time.sleep(0.25)

    def end(self):
        self.process.stdin.close()
        self.process.wait()
        if self.process.returncode:
            sys.exit(f"bench: the program ended with status {self.process.returncode}")


def expect(is_right, what):
    if not is_right:
        sys.exit(f"bench: wrong reply: {what}")


def measure_silence(program):
    run = Run(program, 4)
    run.send(forbidden("t", 3, BUDGET))
    run.rest()
    before = run.processor_time()
    time.sleep(SILENCE)
    print(f"idle: {run.processor_time() - before:.2f} s of processor time in {SILENCE:.0f} s of silence, with 4 workers")
    run.end()


def reports_a_second(program, workers):
    """Reports to another trace, while a large one has much to be found; workers sleep, since lines come without a pause."""
    run = Run(program, workers)
    run.send([*forbidden("t", WRITERS, BUDGET), *opened("u", 2, BUDGET, ["x"])])
    lines = ["a do u 0 sw x 1", "a do u 1 lw x 1"] * 500
    begin, asked = time.perf_counter(), 0
    for _ in range(REPORTS // len(lines)):
        replies, _ = run.send(lines)
        expect(replies == ["a ok"] * len(lines), replies[0])
        asked += len(lines)
    rate = asked / (time.perf_counter() - begin)
    run.end()
    return rate


def measure_reports(program):
    rates = {0: [], 4: [], 16: []}
    for _ in range(REPEATS):
        for workers, found in rates.items():
            found.append(reports_a_second(program, workers))
    alone = max(rates.pop(0))
    print(f"reports: {alone:,.0f} a second without workers")
    for workers, found in rates.items():
        print(f"reports: {max(found):,.0f} a second beside {workers} workers that sleep: {max(found) / alone:.0%}")


def stream(program, workers, gap):
    """A line each so many seconds, while a large trace has much to be found: replies a second, the seconds to a reply in the
    middle and at most, and the seconds of processor time in one."""
    run = Run(program, workers)
    run.send([*forbidden("t", WRITERS, BUDGET), *opened("u", 2, BUDGET, ["x"])])
    lines, times = ("a do u 0 sw x 1", "a do u 1 lw x 1"), []
    before, begin = run.processor_time(), time.perf_counter()
    while (now := time.perf_counter() - begin) < STREAM:
        time.sleep(max(0.0, len(times) * gap - now))
        replies, took = run.send([lines[len(times) % 2]])
        expect(replies == ["a ok"], replies[0])
        times.append(took)
    busy = run.processor_time() - before
    run.end()
    times.sort()
    return len(times) / now, times[len(times) // 2], times[-1], busy / now


def measure_stream(program):
    print("\na line each so many milliseconds, while a large trace has much to be found")
    print(f"{'ms':>4} {'workers':>8} {'replies/s':>10} {'a reply, ms':>12} {'at most, ms':>12} {'processor s/s':>14}")
    for gap in GAPS:
        for workers in (0, 4, 16):
            rate, middle, longest, busy = stream(program, workers, gap)
            print(f"{gap * 1e3:>4.0f} {workers:>8} {rate:>10.0f} {middle * 1e3:>12.3f} {longest * 1e3:>12.3f} {busy:>14.2f}")


def question_after(program, workers, pause):
    """The seconds of a question so many seconds after the last line before it."""
    run = Run(program, workers)
    run.send(forbidden("t", CLOSED, BUDGET))
    time.sleep(pause)
    replies, asked = run.send(["a ask t"])
    expect(replies == ["a inconsistent"], replies[0])
    run.end()
    return asked


def measure_pauses(program):
    counts = (0, 2, 4, 16)
    print(f"\na question that no schedule decides, {(STORES + 1) ** CLOSED:,} situations, so long after the last line: its time "
          f"in the middle of {REPEATS} runs, ms")
    print(f"{'pause, ms':>10} " + " ".join(f"{workers:>8} workers" for workers in counts))
    for pause in PAUSES:
        times = {workers: [] for workers in counts}
        for _ in range(REPEATS):
            for workers, found in times.items():
                found.append(question_after(program, workers, pause))
        shown = " ".join(f"{sorted(found)[len(found) // 2] * 1e3:>16.1f}" for found in times.values())
        print(f"{pause * 1e3:>10.0f} {shown}")


def measure_question(program, workers):
    """The seconds of a question after a pause in which the workers did what they could, and of that pause; and the
    seconds of processor time in it."""
    run = Run(program, workers)
    lines = forbidden("t", CLOSED, BUDGET)
    _, reported = run.send(lines)
    begin = time.perf_counter()
    run.rest()
    pause, busy = time.perf_counter() - begin - 0.25, run.processor_time()
    replies, asked = run.send(["a ask t"])
    expect(replies == ["a inconsistent"], replies[0])
    run.end()
    return asked, pause + reported, busy


def measure_pay(program):
    situations = (STORES + 1) ** CLOSED
    print(f"\na question that no schedule decides, {situations:,} situations, after a pause")
    print(f"{'workers':>8} {'question, ms':>13} {'workers ended after, s':>23} {'processor time, s':>18} {'situations/s':>13}")
    for workers in (0, 1, 2, 4, 16):
        asked, pause, busy = min(measure_question(program, workers) for _ in range(3))
        rate = situations / (pause if workers else asked)
        print(f"{workers:>8} {asked * 1e3:>13.2f} {pause if workers else 0:>23.2f} {busy:>18.2f} {rate:>13,.0f}")


def seconds_of_one_line(program, workers):
    begin = time.perf_counter()
    ended = subprocess.run([program, "--workers", str(workers)], input=b"a list\n", capture_output=True, check=True)
    expect(ended.stdout == b"a traces 0\n", ended.stdout)
    return time.perf_counter() - begin


def measure_end(program):
    times = {workers: [] for workers in (0, 2, 4, 16)}
    for _ in range(40):
        for workers, found in times.items():
            found.append(seconds_of_one_line(program, workers))
    print(f"\na script of one line, in the middle of 40 runs: {in_the_middle(times)} workers")


def in_the_middle(times):
    return ", ".join(f"{sorted(found)[len(found) // 2] * 1e3:.1f} ms with {workers}" for workers, found in times.items())


def seconds_to_end(program, workers):
    """The seconds from the end of the input to that of the program, while workers search a large trace."""
    run = Run(program, workers)
    run.send(forbidden("t", WRITERS, BUDGET))
    time.sleep(max(PAUSES))
    begin = time.perf_counter()
    run.end()
    return time.perf_counter() - begin


def measure_end_of_work(program):
    times = {workers: [seconds_to_end(program, workers) for _ in range(REPEATS)] for workers in (0, 2, 4, 16)}
    print(f"the end of the input while workers search, in the middle of {REPEATS} runs: {in_the_middle(times)} workers")


def questions_of_sessions():
    """A script of sessions that take turns, each with questions on a trace of its own that no schedule decides."""
    scripts = []
    for number in range(SESSIONS):
        trace = f"t{number}"
        lines = [*forbidden(trace, CLOSED, BUDGET), f"a ask {trace}", f"a do {trace} 0 lw c1 0", f"a ask {trace}"]
        scripts.append([f"s{number}{line[1:]}\n" for line in lines])
    return "".join(line for turn in zip(*scripts) for line in turn).encode()


def seconds_of_sessions(program, script, options):
    begin = time.perf_counter()
    ended = subprocess.run([program, "--workers", "0", *options], input=script, capture_output=True, check=True)
    seconds = time.perf_counter() - begin
    expect(ended.stdout.count(b" inconsistent\n") == 2 * SESSIONS, ended.stdout[-200:])
    return seconds


def measure_sessions(program):
    script = questions_of_sessions()
    times = {(): [], ("--each",): []}
    for _ in range(REPEATS):
        for options, found in times.items():
            found.append(seconds_of_sessions(program, script, options))
    in_order, apart = (min(found) for found in times.values())
    print(f"\n{SESSIONS} sessions, each with questions on a trace of its own, on {os.cpu_count()} processors: "
          f"{in_order:.2f} s in order, {apart:.2f} s with --each")


def in_order(trace, processes, reports, seed):
    """Accesses at random, in the order of their happening, with a question after each."""
    chance, cells = random.Random(seed), ["x", "y", "z"]
    held = dict.fromkeys(cells, 0)
    lines = opened(trace, processes, 1_000_000, cells)
    for number in range(1, reports + 1):
        process, cell = chance.randrange(processes), chance.choice(cells)
        if chance.random() < 0.5:
            held[cell] = number
            lines.append(f"a do {trace} {process} sw {cell} {number}")
        else:
            lines.append(f"a do {trace} {process} lw {cell} {held[cell]}")
        lines.append(f"a ask {trace}")
    return lines


def live_scripts():
    """Live scripts by what they are: a question after each report, and all of them consistent."""
    yield from ((f"{processes} processes", in_order("t", processes, LIVE, processes)) for processes in (2, 4, 8))
    small = [line for number in range(150) for line in [*in_order("t", 3, 20, number), "a close t"]]
    yield "150 small traces", small


def costs(program, script, workers):
    """The seconds that a script takes, and its seconds of processor time."""
    before, begin = resource.getrusage(resource.RUSAGE_CHILDREN), time.perf_counter()
    ended = subprocess.run([program, "--workers", str(workers)], input=script, capture_output=True, check=True)
    seconds, after = time.perf_counter() - begin, resource.getrusage(resource.RUSAGE_CHILDREN)
    expect(b" refused " not in ended.stdout and b" inconsistent\n" not in ended.stdout, ended.stdout[-200:])
    return seconds, after.ru_utime + after.ru_stime - before.ru_utime - before.ru_stime


def measure_live(program):
    print(f"\na question after each report, {LIVE:,} reports or small traces: seconds (of processor time)")
    print(f"{'':>18} {'0 workers':>16} {'2 workers':>16} {'16 workers':>16}")
    for name, lines in live_scripts():
        script = "".join(line + "\n" for line in lines).encode()
        found = {0: [], 2: [], 16: []}
        for _ in range(REPEATS):
            for workers, times in found.items():
                times.append(costs(program, script, workers))
        shown = (f"{min(it[0] for it in times):.2f} ({min(it[1] for it in times):.2f})" for times in found.values())
        print(f"{name:>18} " + " ".join(f"{it:>16}" for it in shown))


def main():
    program = os.path.abspath(sys.argv[1])
    print(f"machine: {os.cpu_count()} processors, load {os.getloadavg()[0]:.1f}")
    measure_silence(program)
    measure_reports(program)
    measure_stream(program)
    measure_live(program)
    measure_pauses(program)
    measure_pay(program)
    measure_end(program)
    measure_end_of_work(program)
    measure_sessions(program)


main()
