"""Feeds generated scripts to the monitor, without workers but where it says so, and prints how long it took. Called by bench/run."""

import os
import platform
import subprocess
import sys
import tempfile
import time

TRACES = 64
REPORTS = 1_000_000
BUDGET = 1_000_000
SECONDS = 60  # after this a question is given up
REPEATS = 3  # the best of so many runs counts
TURNS = 21  # runs of two programs by turns
STORES = 9  # of each writer
WRITERS = range(1, 7)  # 10, 100, .. 1,000,000 situations
ASKED, AGAIN = 50, 10_000  # questions where many situations are held: those that take long, and the same again
ROUNDS = (10, 100, 1_000)  # of a trace that grows, two reports and a question each


def run(program, script, seconds=None):
    """The replies to a script of a program with these words, and the seconds that the run took, or None where it took longer
    than was given."""
    with tempfile.TemporaryFile() as source, tempfile.TemporaryFile() as replies:
        source.write(script)
        source.seek(0)
        begin = time.perf_counter()
        try:
            ended = subprocess.run(program, stdin=source, stdout=replies, timeout=seconds)
        except subprocess.TimeoutExpired:
            return None
        taken = time.perf_counter() - begin
        if ended.returncode != 0:
            sys.exit(f"bench: the program ended with status {ended.returncode}")
        replies.seek(0)
        return replies.read().splitlines(), taken


def best(program, script, seconds=None):
    """The replies, and the least time of some runs; one alone where it was long."""
    least = None
    for _ in range(REPEATS):
        ran = run(program, script, seconds)
        if ran is None:
            return None
        replies, taken = ran
        least = taken if least is None else min(least, taken)
        if taken > 5:
            break
    return replies, least


def usage(programs, lines):
    """Of each of these programs with words, run by turns, the user seconds of each run and its memory in MB. The figure of a
    child is never below what its parent had, so nothing is kept here."""
    runs = [[] for _ in programs]
    with tempfile.TemporaryFile() as source:
        source.writelines(f"{line}\n".encode() for line in lines)
        source.flush()
        for _ in range(TURNS):
            for program, ran in zip(programs, runs):
                source.seek(0)
                running = subprocess.Popen(program, stdin=source, stdout=subprocess.DEVNULL)
                _, status, used = os.wait4(running.pid, 0)
                if status != 0:
                    sys.exit(f"bench: the program ended with status {status}")
                ran.append((used.ru_utime, used.ru_maxrss / 1024))
    return runs


def script_of(lines):
    return "".join(line + "\n" for line in lines).encode()


def opened(trace, procs, cells):
    declared = " ".join(f"{cell}:w=0" for cell in cells)
    yield f"a open {trace} {procs} {BUDGET} {declared}"
    for process in range(procs):
        yield f"a claim {trace} {process}"


def reports():
    """A million reports, in turn to each of the traces, of two processes each: loads, stores and fetch-and-adds."""
    accesses = ["sw x 1", "lw x 1", "sw y 0x10", "lw y 16", "amoadd.w x 1 1", "lw x 2", "rw y 16 0", "sw x -1"]
    for trace in range(TRACES):
        yield from opened(f"t{trace}", 2, ["x", "y"])
    for number in range(REPORTS):
        access = accesses[number // TRACES % len(accesses)]
        yield f"a do t{number % TRACES} {number // TRACES // len(accesses) % 2} {access}"


def stored(writers):
    """Each writer stores to a cell of its own, so that (STORES + 1) to the number of writers situations can be reached. A reader
    has reported nothing yet."""
    yield from opened("t", writers + 1, [f"c{writer}" for writer in range(writers)])
    for writer in range(writers):
        for value in range(1, STORES + 1):
            yield f"a do t {writer} sw c{writer} {value}"


def forbidden(writers):
    """The reader claims to have seen what nobody stored: no situation is whole."""
    yield from stored(writers)
    yield f"a do t {writers} lw c0 {STORES + 1}"
    yield "a ask t"


def allowed(writers):
    """The reader saw the last store of each writer: consistent, with one operation more for each."""
    yield from stored(writers)
    for writer in range(writers):
        yield f"a do t {writers} lw c{writer} {STORES}"
    yield "a ask t"


def growing(rounds):
    """A store by one process and its load by another, and then the question whether the trace is consistent, so many
    times. Each question finds what the earlier ones left."""
    yield from opened("t", 2, ["x"])
    for number in range(1, rounds + 1):
        yield f"a do t 0 sw x {number}"
        yield f"a do t 1 lw x {number}"
        yield "a ask t"


def held(writers, later, times):
    """The first of these, and then the same lines a number of times. An operation of the reader after the one that has
    no place adds no situation."""
    yield from forbidden(writers)
    for _ in range(times):
        yield from (line.format(writers) for line in later)


def at_mark(writers, times):
    """The first of these, a mark, a report and a question behind it, and then questions at the mark."""
    yield from forbidden(writers)
    yield from ("a mark t", f"a do t {writers} lw c0 1", "a ask t")
    yield from ["a ask t 0"] * times


def machine():
    model = platform.processor() or platform.machine()
    memory = "memory unknown"
    try:
        with open("/proc/cpuinfo") as info:
            names = [line.split(":", 1)[1].strip() for line in info if line.startswith("model name")]
        model = names[0] if names else model
        with open("/proc/meminfo") as info:
            memory = f"{int(info.readline().split()[1]) / 2**20:.0f} GiB"
    except OSError:
        pass
    return f"{model}, {os.cpu_count()} processors, {memory}, {platform.system()} {platform.release()}"


def measure_reports(program, told):
    lines = list(reports())
    replies, taken = best(program, script_of(lines))
    if replies != [b"a ok"] * len(lines):
        sys.exit("bench: a report was refused")
    print(f"reports: {REPORTS} lines over {TRACES} traces in {taken:.2f} s {told}: {REPORTS / taken:,.0f} lines a second")


def measure_questions(program, title, family, verdict):
    print(f"\n{title}")
    print(f"{'writers':>8} {'stores':>7} {'situations':>11} {'seconds':>9} {'situations/s':>13}")
    for writers in WRITERS:
        situations = (STORES + 1) ** writers
        ran = best(program, script_of(family(writers)), SECONDS)
        if ran is None:
            print(f"{writers:>8} {STORES:>7} {situations:>11,} more than {SECONDS} s")
            return
        replies, taken = ran
        if not replies[-1].startswith(verdict):
            sys.exit(f"bench: wrong verdict: {replies[-1][:80]!r}")
        print(f"{writers:>8} {STORES:>7} {situations:>11,} {taken:>9.3f} {situations / taken:>13,.0f}")


def measure_held(program):
    """What a question costs beside those before it: the time of the run, less that of the same run without it."""
    print("\na question where situations are held, inconsistent before and after")
    print(f"{'situations':>11} {'asked again, ms':>16} {'a report and a question, ms':>28} {'at a mark again, ms':>20}")
    for writers in WRITERS[2:]:
        alone = best(program, script_of(forbidden(writers)), SECONDS)
        again = best(program, script_of(held(writers, ["a ask t"], AGAIN)), SECONDS)
        longer = best(program, script_of(held(writers, ["a do t {} lw c0 1", "a ask t"], ASKED)), SECONDS)
        mark = best(program, script_of(at_mark(writers, 1)), SECONDS)
        marks = best(program, script_of(at_mark(writers, 1 + ASKED)), SECONDS)
        if None in (alone, again, longer, mark, marks):
            return
        if not all(ran[0][-1].startswith(b"a inconsistent") for ran in (alone, again, longer, mark, marks)):
            sys.exit("bench: wrong verdict")
        pairs = ((again, alone, AGAIN), (longer, alone, ASKED), (marks, mark, ASKED))
        each = [(ran[1] - before[1]) / times * 1_000 for ran, before, times in pairs]
        print(f"{(STORES + 1) ** writers:>11,} {each[0]:>16.3f} {each[1]:>28.3f} {each[2]:>20.3f}")


def measure_growth(program):
    print("\na trace that grows and stays consistent: two reports and a question, again and again")
    print(f"{'questions':>10} {'operations':>11} {'seconds':>9} {'questions/s':>12}")
    for rounds in ROUNDS:
        replies, taken = best(program, script_of(growing(rounds)))
        if not all(reply.startswith(b"a consistent") for reply in replies[5::3]):
            sys.exit("bench: wrong verdict")
        print(f"{rounds:>10,} {2 * rounds:>11,} {taken:>9.3f} {rounds / taken:>12,.0f}")


def lists():
    """A million lists, in turn by 256 sessions, of four traces."""
    for trace in range(4):
        yield f"s0 open trace_{trace} 1 100 x:w=0"
    for line in range(REPORTS):
        yield f"s{line % 256} list"


def measure_default(program):
    """What two workers cost who have nothing to do."""
    print("\nthe default beside --workers 0: least user seconds, times; MB, times; times in the middle of the pairs")
    for title, lines in (("reports", reports), ("lists of 256 sessions", lists)):
        ran, ran_alone = usage([[program], [program, "--workers", "0"]], lines())
        (seconds, memory), (alone, less) = min(ran), min(ran_alone)
        times = sorted(one / other for (one, _), (other, _) in zip(ran, ran_alone))
        told = f"{seconds:>7.2f} {alone:>7.2f} {seconds / alone:>6.2f} {memory:>7.0f} {less:>7.0f} {memory / less:>6.2f}"
        print(f"a million {title:<24}{told} {times[len(times) // 2]:>6.2f}")
    searched = best([program], script_of(forbidden(WRITERS[-1])), SECONDS)
    again = best([program], script_of(held(WRITERS[-1], ["a ask t"], AGAIN)), SECONDS)
    if searched and again:
        if not all(ran[0][-1].startswith(b"a inconsistent") for ran in (searched, again)):
            sys.exit("bench: wrong verdict")
        print(f"the same question again, 1,000,000 situations held: {(again[1] - searched[1]) / AGAIN * 1_000:.3f} ms")


def measure_checker(checker):
    """The checker of refutations on a list of 100,000 situations, which that program makes itself."""
    if not os.access(checker, os.X_OK):
        print(f"\nchecker of refutations: there is no program at {checker}; 'rt run' in crates/scm_bench builds it")
        return
    replies, taken = best([checker], b"")
    if replies != [b"refuted 100000 situations"]:
        sys.exit("bench: the refutation was turned down")
    print(f"\nchecker of refutations: 100,000 situations in {taken:.3f} s, with the making of the list")


def main():
    by_default = [os.path.abspath(sys.argv[1])]
    program = [*by_default, "--workers", "0"]
    print(f"machine: {machine()}")
    measure_default(by_default[0])
    measure_reports(by_default, "by default")
    measure_reports(program, "without workers")
    measure_questions(program, "questions that are inconsistent: all situations are found", forbidden, b"a inconsistent")
    measure_questions(program, "questions that are consistent: the writers' situations, and those of the reader", allowed, b"a consistent")
    measure_held(program)
    measure_growth(program)
    measure_checker(os.path.abspath(sys.argv[2]))


main()
