"""Runs of scripts of which each allocation is refused in turn.

A refusal shows in one of three ways: the fault `no memory` before any reply; one line that is answered 18, and then the
others' replies are those of the script without this line, run afresh; or in no reply at all, where the program goes on
without what it wanted the memory for. Of several legal schedules any may be given, and `cycle` may answer `unknown`, so the
model judges each reply too."""
import collections
import os
import re
import sys
from concurrent.futures import ThreadPoolExecutor

from unproved import processors

sys.path.append(os.path.join(os.path.dirname(os.path.abspath(__file__)), "../model"))
from judging import Wrong, compare, split_output  # noqa: E402
from machine import lines_of, refused  # noqa: E402

NO_MEMORY = (b"", b"scm_monitor: no memory\n", 3)
REFUSED = " " + refused(18)
IN_VAIN = 3  # beside workers, so many runs in a row that don't come to an allocation


def words_for(workers):
    return ["--journal", "--check", "--workers", str(workers)]


def read_script(file):
    """The script's lines that ask, so that a reply has the number of its line."""
    with open(file, "rb") as script:
        return b"".join(line for line in script if line.strip() and not line.startswith(b"#"))


def end_for(replies):
    """What --check says of these replies: standard error and the status."""
    for number, reply in enumerate(replies, 1):
        if " refused " in reply:
            return f"scm_monitor: line {number}: {reply.partition(' ')[2]}\n".encode(), 4
    verdicts = {reply.split(" ")[1] for reply in replies}
    return b"", 5 if verdicts & {"inconsistent", "because"} else 6 if "undecided" in verdicts else 0


def without_schedule(reply):
    return re.sub(r"^(\S+ consistent \d+).*", r"\1", reply)


def is_as(reply, afresh):
    """Whether the reply is what the script without the refused line gives, or says no more."""
    is_unknown = reply.endswith(" unknown") and afresh.split(" ")[1] == "cycle"
    return is_unknown or without_schedule(reply) == without_schedule(afresh)


class Refusals:
    """The runs of one script in one way."""

    def __init__(self, program, script, workers):
        self.program, self.script, self.workers = program, script, workers
        self.words = words_for(workers)
        self.lines = lines_of(script)
        self.afresh = {}
        self.judged = {}
        self.shown = collections.Counter()  # in which call so many refusals showed
        self.wrong = []

    def replies_afresh(self, left_out):
        """The replies of a run that is refused nothing, without this line."""
        if left_out not in self.afresh:
            script = b"".join(line + b"\n" for at, line in enumerate(self.lines) if at != left_out)
            output, _, _ = self.program.run(self.words, script, 0)
            self.afresh[left_out] = split_output(output)[0]
        return self.afresh[left_out]

    def judge(self, output, error, status):
        """Where the refusal showed."""
        if (output, error, status) == NO_MEMORY:
            return "the start"
        replies, _ = split_output(output)
        if (error, status) != end_for(replies):
            raise Wrong(f"status {status}, {error!r} after {replies}")
        compare(self.script, output, self.words)
        answered = [at for at, reply in enumerate(replies) if reply.endswith(REFUSED)]
        if len(answered) > 1:
            raise Wrong(f"{len(answered)} lines are answered 18")
        left_out = answered[0] if answered else None
        others = [reply for at, reply in enumerate(replies) if at != left_out]
        for reply, afresh in zip(others, self.replies_afresh(left_out), strict=True):
            if not is_as(reply, afresh):
                raise Wrong(f"{reply!r}, and {afresh!r} afresh")
        return self.lines[left_out].split()[1].decode() if answered else "no reply"

    def refuse(self, number):
        """Where the refusal of this allocation showed."""
        ran = self.program.run(self.words, self.script, number)
        try:
            if ran not in self.judged:
                self.judged[ran] = self.judge(*ran)
            return self.judged[ran]
        except Wrong as fault:
            self.wrong.append(f"allocation {number}, {self.workers} workers: {fault}")
            return "a wrong reply"

    def are_over(self, number):
        return not any(self.program.makes(self.words, self.script, number + more) for more in range(IN_VAIN))

    def run(self, pool):
        """Refuses allocation 1, 2, 3 and so on, until a run has none of this number."""
        made = self.program.allocations(self.words, self.script)
        self.shown.update(pool.map(self.refuse, range(1, made + 1)))
        while self.workers and not self.are_over(made + 1):
            self.shown.update(pool.map(self.refuse, range(made + 1, made + IN_VAIN + 1)))
            made += IN_VAIN
        return made


def refuse_all(program, files, workers):
    """Whether nothing was wrong. Prints how many allocations were refused in which call."""
    shown, made, wrong = collections.Counter(), 0, []
    with ThreadPoolExecutor(processors()) as pool:
        for file in files:
            refusals = Refusals(program, read_script(file), workers)
            made += refusals.run(pool)
            shown += refusals.shown
            wrong += [f"{os.path.basename(file)}, {fault}" for fault in refusals.wrong]
    print(f"refused, {workers} workers: {made} allocations of {len(files)} scripts, {len(wrong)} replies wrong: " + counts(shown))
    for fault in wrong:
        print(fault)
    return made > 0 and not wrong


def counts(shown):
    return ", ".join(f"{name} {count}" for name, count in shown.most_common())
