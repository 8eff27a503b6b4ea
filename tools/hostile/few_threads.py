"""Runs of scripts in which not every thread starts that is asked for: the first one, a later one, some or all are refused, as a
system with too many does. Each reply is that of a run without workers, and the audit counts a tally for the collector and for
each worker that started. Threads are refused by a library in C that is put before the system's.

Beside workers the first thread is the crew's, and the next four are its workers'. Where it is refused, the crew comes behind the
script, in its thread. With a thread for each session the others' threads come between, in any order, unless the crew is refused:
then they come first."""
import os
import re
import shutil
import subprocess
import sys

HERE = os.path.dirname(os.path.abspath(__file__))
ROWS = f"{HERE}/../../rows"
sys.path.append(f"{HERE}/..")
from stored import first_difference  # noqa: E402

WORKERS = 4
ROW, SESSIONS = "store-buffering", ("p", "q", "r")
BESIDE, GROUPS = "few_threads::beside", "few_threads::in_groups"
REFUSED = ("", "x", ".x", "..x", "....x", "..xx", "...xx", ".xxxx", "xxxxx", "x.x", "xx")


def library(scratch):
    """The library that refuses threads, or None where no compiler is."""
    if shutil.which("cc") is None:
        return None
    built = f"{scratch}/few_threads.so"
    words = ["cc", "-std=c11", "-O2", "-Wall", "-Wextra", "-shared", "-fPIC", f"{HERE}/few_threads.c", "-o", built, "-ldl"]
    subprocess.run(words, check=True)
    return built


def text_of(name):
    with open(f"{ROWS}/{name}", "rb") as file:
        return file.read()


def started(refused, first):
    """How many workers start whose threads are asked for from this place on."""
    return refused[first:].ljust(WORKERS, ".")[:WORKERS].count(".")


def as_session(text, session):
    """These lines, all of one session, which works on a trace of its own."""
    named = re.sub(rb"(?m)^\w+ ", session.encode() + b" ", text)
    return re.sub(rb"(?m)^(\w+ \w+) t\b", rb"\1 t" + session.encode(), named)


def runs():
    """Each run: its test, what stands on standard input, which threads are refused, and what is written."""
    script, replies = text_of(f"{ROW}.scm"), text_of(f"{ROW}.replies")
    script = b"".join(line for line in script.splitlines(keepends=True) if not line.startswith(b"#"))
    scripts = [as_session(script, it) for it in SESSIONS]
    answers = [as_session(replies, it) for it in SESSIONS]
    others = len(SESSIONS) - 1
    for refused in REFUSED:
        yield BESIDE, script, refused, started(refused, 1), replies
        yield GROUPS, scripts[0], refused, started(refused, 1), answers[0]
        behind = f"x{refused}"
        yield GROUPS, b"".join(scripts), behind, started(behind, 1 + others), b"".join(answers)
    yield GROUPS, b"".join(scripts), "." + "x" * (others + WORKERS), 0, b"".join(answers)


def refuse_all(program, scratch):
    """Whether nothing was wrong."""
    before = library(scratch)
    if before is None:
        print("few threads: not run: there is no cc on this machine")
        return True
    made, wrong = 0, []
    for test, script, refused, workers, replies in runs():
        what, wanted = f"{test}, threads {refused!r}", b"tallies %d\n%s\n" % (1 + workers, replies)
        output, error, status = program.run([test], script, 0, LD_PRELOAD=before, FEW_THREADS=refused)
        made += 1
        wrong += [f"{what}: status {status}, {error!r}"] if status != 0 else first_difference(what, wanted, output[:len(wanted)])
    print(f"few threads: {made} runs, {len(wrong)} wrong")
    for fault in wrong:
        print(fault)
    return not wrong
