"""Single calls of which each allocation is refused in turn: the tests that tell which call was refused.
Those of refused_rows call the lines of a row, on a book and through passes, and write its replies.

A test that was refused what it needs for itself ends and says that it is memory. Every other end but the good one is wrong,
and so is each that comes after a call told that it was refused: the same call had the memory then."""
import collections
import os
import re
import sys
from concurrent.futures import ThreadPoolExecutor

from refused_scripts import IN_VAIN, counts
from unproved import processors

ROWS = os.path.join(os.path.dirname(os.path.abspath(__file__)), "../../rows")
sys.path.append(f"{ROWS}/../tools")
from stored import stored_at  # noqa: E402

TESTS = ("refused::", "refused_books::", "refused_forms::", "refused_lines::", "refused_words::")
AS_THEY_ARE = ("faults::", "refused_forms::sizes")  # of which nothing is refused
ON_ROWS = {
    "refused_rows::by_book": [
        "message-passing-out-of-order", "store-buffering", "a-mark-within-a-budget-that-is-too-small",
        "an-inconsistent-mark-within-its-budget", "a-return-changes-what-can-be-read", "numbers-of-marks-after-a-return",
        "declarations-leave-the-name-free", "claims-and-releases",
    ],
    "refused_rows::by_passes": ["message-passing-out-of-order", "a-return-changes-what-can-be-read", "claims-and-releases"],
}
# Pairs of tests, of which the second makes one call more that takes no memory: both ask for it as often.
TAKE_NONE = (("refused::held_without_a_cut", "refused::held_with_a_cut"),)
NO_CALL, PREPARING = "no call", "a test's own preparing"
WANTS_MEMORY = re.compile(rb"memory|NoMemory|AllocError|AllocFailed")


def told(output):
    return [line.removeprefix("refused ") for line in output.decode().splitlines() if line.startswith("refused ")]


class Calls:
    """The runs of one test, on a row where it needs one: what it writes has that one's replies."""

    def __init__(self, program, test, row=None):
        stored = stored_at(f"{ROWS}/{row}", ".scm", ".replies") if row else None
        self.program, self.test, self.name = program, test, f"{test} on {row}" if row else test
        self.given = without_comments(stored.given) if row else b""
        self.wanted = stored.output if row else b""
        self.shown = collections.Counter()
        self.wrong = []

    def refuse(self, number):
        """In which call the refusal of this allocation showed."""
        output, error, status = self.program.run([self.test], self.given, number)
        calls = told(output)
        if status == 0 and len(calls) < 2 and self.wanted in output:
            return calls[0] if calls else NO_CALL
        if status is not None and not calls and WANTS_MEMORY.search(error):
            return PREPARING
        self.wrong.append(f"{self.name}, allocation {number}: status {status}, {calls}, {(output + error)!r}")
        return "a wrong end"

    def numbers(self):
        """The allocations to refuse."""
        return range(1, self.program.allocations([self.test], self.given) + IN_VAIN)

    def pass_without_refusals(self):
        if self.refuse(0) != NO_CALL:
            self.wrong.append(f"{self.name} fails where nothing is refused")

    def run(self, pool):
        self.pass_without_refusals()
        refused = self.numbers()
        self.shown.update(pool.map(self.refuse, refused))
        return len(refused)


def without_comments(script):
    return b"".join(line for line in script.splitlines(keepends=True) if not line.startswith(b"#"))


def tests_of(program):
    listed, _, _ = program.run(["--list"], b"", 0)
    names = [line.partition(": ")[0] for line in listed.decode().splitlines()]
    return [Calls(program, name) for name in names if name.startswith(TESTS + AS_THEY_ARE)]


def asked_in_vain(program):
    """What is wrong with calls that are to take no memory."""
    counted = [[program.allocations([test], b"") for test in pair] for pair in TAKE_NONE]
    return [f"{pair}: {made} allocations, not as many" for pair, made in zip(TAKE_NONE, counted) if made[0] != made[1]]


def refuse_all(program):
    """Whether nothing was wrong. Prints how many allocations were refused in which call."""
    shown, made, wrong = collections.Counter(), 0, []
    tests = tests_of(program) + [Calls(program, test, row) for test, rows in ON_ROWS.items() for row in rows]
    with ThreadPoolExecutor(processors()) as pool:
        for calls in tests:
            if calls.test.startswith(AS_THEY_ARE):
                calls.pass_without_refusals()
            else:
                made += calls.run(pool)
            shown += calls.shown
            wrong += calls.wrong
    wrong += asked_in_vain(program)
    print(f"refused, single calls: {made} allocations of {len(tests)} tests, {len(wrong)} wrong: " + counts(shown))
    for fault in wrong:
        print(fault)
    return made > 0 and set(shown) - {NO_CALL, PREPARING} != set() and not wrong
