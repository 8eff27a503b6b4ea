"""Scripts whose calls are made again: tests that run a script alone, beside workers, with pauses before its questions, and with
a thread for each session, and hand the calls of each journal to run_events. Each line that asks has one reply, whatever the
way. The audits of the worked examples agree beside 1 to 4 workers, and their replies are the stored ones."""
import importlib.machinery
import importlib.util
import os
import sys
from concurrent.futures import ThreadPoolExecutor

from unproved import processors

TOP = os.path.join(os.path.dirname(os.path.abspath(__file__)), "../..")
MODEL = f"{TOP}/tools/model"
sys.path += [MODEL, f"{TOP}/rows", f"{TOP}/tools"]
from machine import asked_by, lines_of  # noqa: E402
from scripts import Writer  # noqa: E402
from stored import replies_of, stored_at  # noqa: E402
from worked import NAMES  # noqa: E402

WAYS = {"replayed::replayed": ["alone", "beside", "each"], "replayed::paused": ["paused"], "replayed::worked": ["worked"] * 4}
PAUSED, LINES = 12, 200  # so many scripts with so many lines that are no more hostile than a caller may be


def model_hostile():
    """The generator of hostile scripts, which stands in a program."""
    loader = importlib.machinery.SourceFileLoader("hostile", f"{MODEL}/hostile")
    module = importlib.util.module_from_spec(importlib.util.spec_from_loader("hostile", loader))
    loader.exec_module(module)
    return module


def judge(program, test, script):
    """How many replies and entries each way to run the script had, and what is wrong, or None; and what was written."""
    output, error, status = program.run([test], script, 0)
    told = [line.split()[1:] for line in output.decode().splitlines() if line.startswith("replayed ")]
    wanted = str(sum(asked_by(line) is not None for line in lines_of(script)))
    if status != 0 or [way for way, _, _ in told] != WAYS[test] or any(replies != wanted for _, replies, _ in told):
        return 0, 0, f"{test}: status {status}, {told} of {wanted} lines, {error!r}", output
    return sum(int(replies) for _, replies, _ in told), sum(int(entries) for _, _, entries in told), None, output


def judge_worked(program, name):
    """The same of a worked example, with what is written beside each number of workers."""
    stored = stored_at(f"{TOP}/rows/{name}", ".scm", ".replies")
    replies, entries, fault, output = judge(program, "replayed::worked", stored.given)
    wanted = [b"beside %d\n%s\n" % (workers, replies_of(stored.output)) for workers in range(1, 5)]
    if fault is None and not all(it in output for it in wanted):
        fault = f"another reply beside workers: {output!r}"
    return replies, entries, fault


def scripts_for(lines, seed):
    """Each test with a script, by what it is called."""
    hostile = model_hostile()
    seeds = range(seed, seed + lines // hostile.LINES_OF_A_SCRIPT)
    scripts = {f"seed {it}": hostile.Hostile(it, 3).script(hostile.LINES_OF_A_SCRIPT) for it in seeds}
    yield from (("replayed::replayed", name, script) for name, script in scripts.items())
    yield from (("replayed::paused", name, scripts[name]) for name in list(scripts)[:PAUSED])
    yield from (("replayed::paused", f"line by line, seed {it}", Writer(it, 3).script(LINES)) for it in range(seed, seed + PAUSED))


def replay_all(program, lines, seed):
    """Whether nothing was wrong, in about so many lines."""
    with ThreadPoolExecutor(processors()) as pool:
        running = [(name, pool.submit(judge, program, test, script)) for test, name, script in scripts_for(lines, seed)]
        running += [(name, pool.submit(judge_worked, program, name)) for name in NAMES]
        judged = [(name, *it.result()[:3]) for name, it in running]
    wrong = [f"{name}: {fault}" for name, _, _, fault in judged if fault]
    replies, entries = sum(it[1] for it in judged), sum(it[2] for it in judged)
    print(f"made again: {len(judged)} scripts, {len(NAMES)} of them worked examples beside 1 to 4 workers, {2 * PAUSED} with pauses: "
          f"{replies} replies, {entries} entries, {len(wrong)} scripts wrong")
    for fault in wrong:
        print(fault)
    return entries > 0 and not wrong
