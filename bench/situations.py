"""What a situation costs: user time and peak memory of questions that find all of them, without workers.

    bench/situations.py PROGRAM..    several programs are run by turns; the figures of the first are those to compare with
    bench/situations.py --spin       the same traces by Spin: all states, no reduction (wants spin and a C compiler)"""

import os
import subprocess
import sys
import tempfile
import time

from inconsistent import random_run, wide, writers

RUNS = 5  # by turns; the least user time counts
STATES = 26  # of Spin's table, as a power of two
LOW, HIGH = 20, 1 << 44  # how far values are moved, and by how much they are raised

# what each is called, how many situations it has, and the trace
FAMILIES = [
    ("writers, 4", 10_000, lambda: writers(4, 9)),
    ("writers, 5", 100_000, lambda: writers(5, 9)),
    ("writers, 6", 1_000_000, lambda: writers(6, 9)),
    ("random, 4 processes", 172_503, lambda: random_run(1, 4, 20, 4, 3)),
    ("random, 4 processes", 409_048, lambda: random_run(1, 4, 24, 4, 3)),
    ("random, 8 processes", 76_652, lambda: random_run(3, 8, 3, 4, 3)),
    ("random, 8 processes", 359_039, lambda: random_run(1, 8, 4, 4, 3)),
    ("wide, 32 processes, 64 cells", 117_649, lambda: wide(6)),
]

# how the value of a number is chosen; each is run on the same writers
VALUES = [
    ("counters", lambda number: number),
    ("multiples of 2^20", lambda number: number << LOW),
    ("multiples of 2^60", lambda number: number << 60 & (1 << 64) - 1),
    ("the same low bits", lambda number: number << 32 | 0xABCDEF),
    ("the same high bits", lambda number: HIGH * 0xFFF + number),
    ("random", lambda number: number * 0x9E3779B97F4A7C15 & (1 << 64) - 1),
]


def run(program, script):
    """User seconds and peak bytes of a run, and its replies."""
    with tempfile.TemporaryFile() as source, tempfile.TemporaryFile() as replies, tempfile.NamedTemporaryFile("r") as spent:
        source.write(script)
        source.seek(0)
        words = ["/usr/bin/time", "-o", spent.name, "-f", "%U %M", program, "--workers", "0"]
        subprocess.run(words, stdin=source, stdout=replies, check=True)
        replies.seek(0)
        user, peak = spent.read().split()
        return float(user), int(peak) * 1024, replies.read().splitlines()


def least(programs, script):
    """For each program the least user seconds and the greatest peak of some runs, by turns."""
    figures = [(float("inf"), 0)] * len(programs)
    for _ in range(RUNS):
        for at, program in enumerate(programs):
            user, peak, replies = run(program, script)
            if set(replies[:-1]) != {b"a ok"} or replies[-1] != b"a inconsistent":
                sys.exit(f"bench: wrong replies of {program}, the last {replies[-1][:80]!r}")
            figures[at] = (min(figures[at][0], user), max(figures[at][1], peak))
    return figures


def show(title, count, programs, script):
    for program, (user, peak) in zip(programs, least(programs, script)):
        rate = f"{count / user:>12,.0f}" if user else f"{'too short':>12}"
        print(f"{title:<30} {count:>10,} {os.path.basename(program):<14} {user:>7.2f} {rate} {peak / count:>8.1f}", flush=True)


def measure(programs):
    print(f"{'trace':<30} {'situations':>10} {'program':<14} {'user s':>7} {'situations/s':>12} {'bytes':>8}")
    for title, count, trace in FAMILIES:
        show(title, count, programs, trace().script())
    for title, value_of in VALUES:
        show(f"values: {title}", 100_000, programs, writers(5, 9, value_of).script())


def spin(title, count, trace):
    """States and user seconds of a verifier that Spin makes of a trace."""
    with tempfile.TemporaryDirectory() as folder:
        with open(f"{folder}/trace.pml", "w", encoding="utf-8") as model:
            model.write(trace.promela())
        how = {"cwd": folder, "check": True, "stdout": subprocess.PIPE}
        subprocess.run(["spin", "-a", "trace.pml"], **how)
        subprocess.run(["cc", "-O2", "-DNOREDUCE", "-DSAFETY", "-DMEMLIM=8000", "-o", "pan", "pan.c"], **how)
        began = os.times().children_user
        said = subprocess.run(["./pan", "-E", "-m1000000", f"-w{STATES}"], **how).stdout.decode()
        user = os.times().children_user - began
    states = next(line.split()[0] for line in said.splitlines() if "states, stored" in line)
    print(f"{title:<30} {count:>10,} spin: {states} states, {user:.2f} user s", flush=True)


def main():
    if sys.argv[1:] == ["--spin"]:
        for title, count, trace in FAMILIES:
            spin(title, count, trace())
    else:
        measure([os.path.abspath(program) for program in sys.argv[1:]])
    print(time.strftime("%d %B %Y"))


main()
