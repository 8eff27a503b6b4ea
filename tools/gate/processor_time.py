"""The processor time that the prover takes for each crate: for its proof, its tests and its must-fail edits."""
import contextlib
import os
import threading
from collections import defaultdict

TICKS = os.sysconf("SC_CLK_TCK")
EACH = 0.5  # seconds between two looks
KINDS = ("proof", "tests", "edits")


def words_of(process):
    with open(f"/proc/{process}/cmdline", encoding="utf-8", errors="replace") as it:
        return it.read().split("\0")


def about(process):
    """The process's parent, when it began, and the processor time that it took, its ended children's with it, in seconds."""
    with open(f"/proc/{process}/stat", encoding="utf-8", errors="replace") as it:
        fields = it.read().rpartition(")")[2].split()
    return int(fields[1]), fields[19], sum(map(int, fields[11:15])) / TICKS


class ProcessorTime:
    """Looks at the provers that this process started, again and again, until it is told to stop."""

    def __init__(self):
        self.taken, self.parents, self.is_over = {}, {}, threading.Event()
        self.looking = threading.Thread(target=self.look_on, daemon=True)
        self.looking.start()

    def look_on(self):
        while not self.is_over.wait(EACH):
            self.look()

    def look(self):
        found = {}
        for process in filter(str.isdigit, os.listdir("/proc")):
            with contextlib.suppress(OSError, IndexError):  # it may have ended
                found[int(process)] = about(process)
        parents = {process: it[0] for process, it in found.items()}
        for process, (parent, began, seconds) in found.items():
            with contextlib.suppress(OSError):
                what = self.is_ours(process, parents) and told_by(process)
                # a copy of a prover counts with the prover that it is a copy of, once it has ended
                if what and not told_by(parent):
                    self.taken[process, began] = what, seconds

    def is_ours(self, process, parents):
        while process > 1 and process != os.getpid():
            process = parents.get(process, 0)
        return process == os.getpid()

    def stop(self):
        """The minutes of a processor, by crate and kind."""
        self.is_over.set()
        self.looking.join()
        minutes = defaultdict(lambda: dict.fromkeys(KINDS, 0.0))
        for (crate, kind), seconds in self.taken.values():
            minutes[crate][kind] += seconds / 60
        return minutes


def told_by(process):
    """The crate and the kind of what a prover proves; None where the process is no prover."""
    words = words_of(process)
    if not words[0].endswith("/rattle") or "--crate-name" not in words or words[1] not in ("build", "check"):
        return None
    is_edit = os.path.basename(os.readlink(f"/proc/{process}/cwd")).startswith("rt-edit-")
    return words[words.index("--crate-name") + 1], "edits" if is_edit else "tests" if "--test" in words else "proof"


def table(minutes, order):
    """The minutes as a table, crates in this order, with the sum of each kind."""
    rows = [(crate, *(minutes[crate][kind] for kind in KINDS)) for crate in order if crate in minutes]
    rows.append(("all", *(sum(row[at] for row in rows) for at in range(1, len(KINDS) + 1))))
    lines = ["| Crate | Proof | Tests | Edits |", "|---|---|---|---|"]
    return "\n".join([*lines, *(f"| {row[0]} | {' | '.join(f'{it:.1f}' for it in row[1:])} |" for row in rows)])
