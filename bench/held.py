"""What a report and a question cost while nearly a million situations are held, each by itself: the middle, the mean and the
longest of 50, for one program after the other. Called as python3 bench/held.py PROGRAM.."""

import os
import subprocess
import sys
import time

from inconsistent import writers

STORES, WRITERS = 9, 6  # 1,000,000 situations
LEAST = 7  # stores of the first writer where a process waits for all of them: 911,111 situations
ASKED = 50


def timed(ran, lines):
    """The last reply to these lines, and the seconds until it came."""
    begin = time.perf_counter()
    ran.stdin.write("".join(line + "\n" for line in lines).encode())
    ran.stdin.flush()
    for _ in lines:
        reply = ran.stdout.readline()
    if not reply.startswith(b"a inconsistent"):
        sys.exit(f"bench: wrong verdict: {reply[:80]!r}")
    return time.perf_counter() - begin


def peak_of(ran):
    with open(f"/proc/{ran.pid}/status") as status:
        return next(int(line.split()[1]) for line in status if line.startswith("VmHWM"))


def stuck():
    """The reader, which can't begin, reads on: no situation is added."""
    return writers(WRITERS, STORES), WRITERS, lambda number: "ld c0 1"


def waiters():
    """Fewer stores, and a process that waits until all are made."""
    trace = writers(WRITERS, STORES)
    trace.order = [(process, it) for process, it in trace.order if process > 0 or it[2] <= LEAST]
    trace.procs += 1
    for cell in range(WRITERS):
        trace.add(WRITERS + 1, "l", cell, STORES if cell else LEAST)
    return trace


def waiting():
    """Then it reads on: each time one situation is added, and its count outgrows its field now and then."""
    return waiters(), WRITERS + 1, lambda number: f"ld c0 {LEAST}"


def storing():
    """It stores a new value each time: one situation is added, and the value's number outgrows its field now and then."""
    return waiters(), WRITERS + 1, lambda number: f"sd c0 {100 + number}"


def measure(program, name, trace, process, access):
    with subprocess.Popen([program, "--workers", "0"], stdin=subprocess.PIPE, stdout=subprocess.PIPE) as ran:
        first = timed(ran, trace.script().decode().splitlines())
        each = sorted(timed(ran, [f"a do t {process} {access(number)}", "a ask t"]) * 1_000 for number in range(ASKED))
        peak = peak_of(ran)
        ran.stdin.close()
    print(f"{os.path.basename(program)}, {name}: the first question {first:.2f} s; then, in ms: in the middle {each[ASKED // 2]:.3f}, in the mean"
          f" {sum(each) / ASKED:.2f}, at most {each[-1]:.1f}, and over 1: {sum(ms > 1 for ms in each)} of {ASKED}; peak {peak:,} kB")


def main():
    for program in sys.argv[1:] or sys.exit(__doc__):
        for ask in (stuck, waiting, storing):
            measure(os.path.abspath(program), ask.__name__, *ask())


main()
