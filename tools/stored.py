"""Runs the program on stored scripts, and tells where it does another thing than what is stored. Used by rows/check and
examples/check."""
import argparse
import os
import re
import subprocess
import sys
from concurrent.futures import ProcessPoolExecutor
from dataclasses import dataclass
from itertools import zip_longest
from operator import eq

TOP = os.path.normpath(os.path.join(os.path.dirname(os.path.abspath(__file__)), ".."))
sys.path.append(f"{TOP}/tools/model")
from judging import Wrong, compare, in_groups  # noqa: E402
from machine import asked_by, lines_of  # noqa: E402

COMPILED, PROVED = b", compiled, not yet proved here", b", proved"  # how --version ends; what is stored is the proved program's
MOST_WORKERS = 4
MOST_LISTED = 1_000_000  # the largest budget: so the model judges every verdict
LONGEST = 120
EVIDENCE = re.compile(rb"^\S+ (?:consistent|inconsistent|because|cycle)\b", re.M)
JOURNAL = re.compile(rb"^journal [0-9]+\n", re.M)
SCHEDULE = re.compile(rb"( consistent [0-9]+)( .*)?\Z")
OPEN_VERDICT = re.compile(rb" (consistent .*|undecided)\Z")


@dataclass
class Stored:
    """What stands on standard input, the words behind the program's name, and what comes of them."""
    name: str
    given: bytes
    words: list
    output: bytes
    error: bytes = b""
    status: int = 0


def stored_at(path, given="", output=".stdout"):
    """What PATH with these endings, and PATH.args, PATH.stderr and PATH.status say where they are there."""
    words = text_of(f"{path}.args").decode().split("\n")[:-1]
    status = int(text_of(f"{path}.status") or 0)
    return Stored(os.path.basename(path), text_of(path + given), words, text_of(path + output), text_of(f"{path}.stderr"), status)


def text_of(path):
    if not os.path.exists(path):
        return b""
    with open(path, "rb") as file:
        return file.read()


def scripts_in(folder):
    """Each NAME.scm with its NAME.replies."""
    names = sorted(file.removesuffix(".scm") for file in os.listdir(folder) if file.endswith(".scm"))
    return [stored_at(f"{folder}/{name}", ".scm", ".replies") for name in names]


def run(program, words, given):
    """Output, error and status."""
    try:
        ran = subprocess.run([program, *words], input=given, capture_output=True, timeout=LONGEST, check=False)
    except subprocess.TimeoutExpired:
        return b"", b"no end in %d seconds" % LONGEST, None
    return ran.stdout.replace(COMPILED, PROVED), ran.stderr, ran.returncode


def first_difference(what, wanted, given, is_same=eq):
    """The first line that isn't as it is wanted, in a list, which is empty where all are."""
    if wanted == given:
        return []
    for number, (one, other) in enumerate(zip_longest(wanted.split(b"\n"), given.split(b"\n")), 1):
        if one is None or other is None or not is_same(one, other):
            return [f"{what}, line {number}: {cut_short(other)}, wanted {cut_short(one)}"]
    return []


def cut_short(line):
    return "nothing" if line is None else f"{line[:100]}{' ..' if line[100:] else ''}"


def wrong_end(stored, error, status):
    found = first_difference("standard error", stored.error, error)
    return found if status == stored.status else [*found, f"status {status}, wanted {stored.status}"]


def run_exactly(program, stored):
    """What is wrong with a run with just these words, which is one run, and nothing of it is judged."""
    output, error, status = run(program, stored.words, stored.given)
    found = first_difference("output", stored.output, output) + wrong_end(stored, error, status)
    return [f"{stored.name}: {it}" for it in found], 1, 0


def is_exact(wanted, given):
    """Where the number of operations stands alone in a stored reply, any schedule will do."""
    return wanted in (given, SCHEDULE.sub(rb"\1", given))


def is_lawful(wanted, given):
    """Beside workers another schedule may be found, or none within the budget; the model judges which of these may be."""
    return OPEN_VERDICT.sub(b"", wanted) == OPEN_VERDICT.sub(b"", given)


def stand_apart(asked):
    """Whether no reply depends on what another session asks: each trace that is opened is named by one session, and where
    they are listed one session opens and lists."""
    calls = [(session, call) for session, call in asked if call]
    opened = {call[1] for _, call in calls if call[0] == "open"}
    named = {(call[1], session) for session, call in calls if call[1:2] and call[1] in opened}
    opening, listing = ({session for session, call in calls if call[0] == kind} for kind in ("open", "list"))
    return len(named) == len(opened) and (not opening or not listing or len(opening | listing) == 1)


def grouped(asked, replies):
    """These replies by session."""
    pairs = [(session, reply) for (session, _), reply in zip(asked, replies.split(b"\n"))]
    return b"".join(reply + b"\n" for _, reply in in_groups(pairs))


def replies_of(output):
    journal = JOURNAL.search(output)
    return output[:journal.start()] if journal else output


def ways(stored, asked, is_settled):
    """The words of each way to run a script, what is wanted of its output, or None where the model alone can say, and how
    the lines of both are compared."""
    for workers in range(MOST_WORKERS + 1):
        yield [*stored.words, "--workers", str(workers)], stored.output, is_lawful if workers and not is_settled else is_exact
    if "--each" not in stored.words:
        wanted = grouped(asked, replies_of(stored.output)) if stand_apart(asked) else None
        yield [*stored.words, "--each"], wanted, is_lawful


def judge(stored, output, words):
    """What is wrong by the model."""
    try:
        compare(stored.given, output, words, MOST_LISTED)
    except (Wrong, ValueError) as fault:
        return [f"by the model: {fault}"]
    return []


def run_in_all_ways(program, stored, is_settled):
    """What is wrong with the runs over a script, how many there were, and how many schedules and refutations were judged.
    A script that is settled has one right reply to each line."""
    asked = [one for one in map(asked_by, lines_of(stored.given)) if one is not None]
    is_alone = len({session for session, _ in asked}) == 1  # then groups change nothing
    wrong, judged, runs, evidence = [], set(), 0, 0
    for words, wanted, is_same in ways(stored, asked, is_settled):
        output, error, status = run(program, words if "--journal" in words else [*words, "--journal"], stored.given)
        found = []
        if wanted is not None:
            shown = output if JOURNAL.search(wanted) else replies_of(output)
            found += first_difference("output", wanted, shown, is_same) + wrong_end(stored, error, status)
        kind = output, is_alone or "--each" in words
        if kind not in judged:
            found += judge(stored, output, words)
            judged.add(kind)
        wrong += [f"{stored.name} {' '.join(words)}: {it}" for it in found]
        runs += 1
        evidence += len(EVIDENCE.findall(replies_of(output)))
    return wrong, runs, evidence


def check(folder, program, scripts, single_runs, settled=()):
    """Whether there are verdicts and nothing is wrong with the scripts, in all ways, and with the single runs; tells so. The
    scripts of these names, all of which are there, are settled."""
    with ProcessPoolExecutor(len(os.sched_getaffinity(0))) as pool:
        running = [pool.submit(run_exactly, program, it) for it in single_runs]
        running += [pool.submit(run_in_all_ways, program, it, it.name in settled) for it in scripts]
        parts = [it.result() for it in running]
    wrong = [f"{name}: there is no such script" for name in set(settled).difference(it.name for it in scripts)]
    wrong += [it for found, _, _ in parts for it in found]
    runs, judged = (sum(part[at] for part in parts) for at in (1, 2))
    for it in wrong:
        print(it)
    told = f", {len(settled)} of them worked examples" if settled else ""
    told += f", {len(wrong)} wrong" if wrong else ""
    print(f"{folder}: {len(parts)} scripts, {runs} runs, {judged} schedules and refutations judged{told}")
    return judged > 0 and not wrong


def program_named(doc):
    """The program on the command line, or the one that ./monitor builds."""
    parser = argparse.ArgumentParser(description=doc.split("\n", maxsplit=1)[0])
    parser.add_argument("program", nargs="?", metavar="PROGRAM", help="without it: the one that ./monitor builds")
    program = parser.parse_args().program
    if program is None:
        built = subprocess.run([f"{TOP}/tools/program/build"], stdout=subprocess.PIPE, check=False, text=True)
        if built.returncode:
            sys.exit(1)
        return built.stdout.rstrip("\n")
    if not os.access(program, os.X_OK) or os.path.isdir(program):
        parser.error(f"{program} is no program")
    return os.path.abspath(program)
