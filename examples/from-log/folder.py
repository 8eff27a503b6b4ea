#!/usr/bin/env python3
"""Converts, runs and counts a folder of logs, and shrinks the worst.

    python3 examples/from-log/folder.py LOGS OUT

Each file of LOGS is a log, and OUT gets its script, NAME.scm, as to_script.py makes it. Then the table: how many logs there
are of each verdict, and each that isn't consistent, the worst first. Of the inconsistent ones those with the fewest
operations are shrunk (NAME.small.scm) and drawn (NAME.html). How far it is stands on standard error.
"""
import argparse
from collections import Counter
from concurrent.futures import ThreadPoolExecutor
from dataclasses import dataclass
import os
import subprocess
import sys
import threading

HERE = os.path.dirname(os.path.realpath(__file__))
TOOLS = os.path.join(HERE, "../../tools")
sys.path.insert(0, TOOLS)

from tester.monitor import Monitor, Stop, add_program, read_script, run_tool
from tester.progress import Progress
from tester.runs import has_reply, lines_with_replies, runs_of

WORST = 3
MADE = (".scm", ".small.scm", ".html")  # of a log's name
ORDER = ("inconsistent", "refused", "no script", "undecided", "consistent")
STATUSES = {"refused": 4, "no script": 4, "inconsistent": 5, "undecided": 6}


@dataclass
class Row:
    name: str
    verdict: str
    operations: int = 0
    note: str = ""


class Runner:
    """Runs scripts, each thread with a monitor of its own, which goes on from script to script."""

    def __init__(self, program, out):
        self.program, self.out, self.own = program, out, threading.local()

    def row(self, log):
        name = os.path.splitext(os.path.basename(log))[0]
        with open(log, "rb") as text:
            made = subprocess.run([sys.executable, f"{HERE}/to_script.py"], stdin=text, capture_output=True, check=False)
        if made.returncode:
            return Row(name, "no script", note=(made.stderr.decode("utf-8", "replace").strip().splitlines() or ["?"])[-1])
        with open(f"{self.out}/{name}.scm", "wb") as script:
            script.write(made.stdout)
        return self.verdict(name, made.stdout)

    def verdict(self, name, script):
        if not hasattr(self.own, "monitor"):
            self.own.monitor = Monitor(self.program)
        calls = [line.decode() for line in script.split(b"\n") if has_reply(line)]
        if not calls:
            return Row(name, "no script", note="to_script.py printed nothing")
        session, _, trace = calls[0].split()[:3]
        replies = self.own.monitor.replies([*calls, f"{session} close {trace}"])
        if replies[-1] != "ok":
            self.own.monitor.begin()
        lines = lines_with_replies(script, [f"{session} {reply}" for reply in replies[:-1]])
        runs = runs_of(lines)
        operations = sum(run.operations for run in runs)
        for line in lines:
            if line.is_refused:
                return Row(name, "refused", operations, f"line {line.number}: {line.reply}")
        return Row(name, runs[-1].verdict, operations)


def arguments():
    statuses = "Status: 4 where a line was refused or a log gives no script, else 5 where one is inconsistent, else 6 where one is undecided, else 0; 2 bad input, 70 no monitor, 74 the output can't be written."
    parser = argparse.ArgumentParser(prog="folder", description=__doc__, epilog=statuses, formatter_class=argparse.RawDescriptionHelpFormatter)
    parser.add_argument("logs", metavar="LOGS", help="a folder of logs")
    parser.add_argument("out", metavar="OUT", help="a folder for what is made; it is made where it isn't there")
    parser.add_argument("--worst", type=int, metavar="N", default=WORST, help=f"how many inconsistent ones are shrunk and drawn (default: {WORST})")
    add_program(parser)
    options = parser.parse_args()
    if options.worst < 0:
        parser.error("--worst: no fewer than 0")
    return options


def rows_of(options, logs):
    runner, progress = Runner(options.program, options.out), Progress("folder", len(logs))
    rows, counts = [], Counter()
    with ThreadPoolExecutor(len(os.sched_getaffinity(0))) as pool:
        for row in pool.map(runner.row, logs):
            rows.append(row)
            counts[row.verdict] += 1
            progress.show(len(rows), ", ".join(f"{counts[it]} {it}" for it in ORDER if counts[it]))
    progress.end()
    return rows, counts


def made(path, *words):
    """Writes what a tool prints into a file."""
    with open(path, "wb") as file:
        status = subprocess.run(words, stdout=file, check=False).returncode
    if status:
        raise Stop(f"{path} could not be made", status)


def shrink(options, row):
    """What is left of an inconsistent trace, in words."""
    whole, small = f"{options.out}/{row.name}.scm", f"{options.out}/{row.name}.small.scm"
    program = ["--program", options.program]
    made(small, f"{TOOLS}/shrink", whole, *program)
    made(f"{options.out}/{row.name}.html", f"{TOOLS}/picture", small, *program)
    left = sum(b" do " in line and not line.startswith(b"#") for line in read_script(small).splitlines())
    return f"{left} operations left in {row.name}.small.scm, drawn in {row.name}.html"


def check_names(options, logs):
    """Stops where a log and another one would become the same file, or a log would be written over."""
    files = Counter(os.path.splitext(os.path.basename(log))[0] + ending for log in logs for ending in MADE)
    if max(files.values()) > 1:
        raise Stop(f"{options.logs}: several logs would become {files.most_common(1)[0][0]}")
    if os.path.samefile(options.logs, options.out):
        for log in logs:
            if os.path.basename(log) in files:
                raise Stop(f"{log} is a log, and would be written over: take another folder")


def main():
    options = arguments()
    try:
        logs = sorted(it.path for it in os.scandir(options.logs) if it.is_file())
        os.makedirs(options.out, exist_ok=True)
    except OSError as fault:
        raise Stop(f"{fault.filename}: {fault.strerror}") from None
    if not logs:
        raise Stop(f"{options.logs}: no file is in it")
    check_names(options, logs)
    Monitor(options.program).replies(["a list"])  # it is built before several want it
    rows, counts = rows_of(options, logs)
    rows.sort(key=lambda row: (ORDER.index(row.verdict), row.operations, row.name))
    print(f"{len(rows)} logs: {', '.join(f'{counts[it]} {it}' for it in ORDER if counts[it])}")
    inconsistent = [row for row in rows if row.verdict == "inconsistent"]
    for number, row in enumerate(inconsistent[:options.worst], 1):
        Progress("folder").show(0, f"shrinking {number} of {min(len(inconsistent), options.worst)}")
        row.note = shrink(options, row)
    for row in rows:
        if row.verdict != "consistent":
            print(f"{row.name}: {row.verdict}", *([f"{row.operations} operations"] if row.operations else []), *([row.note] if row.note else []), sep=", ")
    sys.stdout.flush()
    sys.exit(next((STATUSES[it] for it in ("refused", "no script", "inconsistent", "undecided") if counts[it]), 0))


run_tool("folder", main)
