"""How far a tool is, on standard error."""
import sys
import time

WIDTH = 30
EVERY = 0.1  # seconds, on a terminal
SELDOM = 10


class Progress:
    """A line that moves where standard error is a terminal, with a bar where the total is known; else a line now and then."""

    def __init__(self, name, total=None):
        self.name, self.total = name, total
        self.moves = sys.stderr.isatty()
        self.every = EVERY if self.moves else SELDOM
        self.last = time.monotonic() - (EVERY if self.moves else 0)

    def show(self, done, words):
        now = time.monotonic()
        if now - self.last < self.every:
            return
        self.last = now
        text = f"{self.name}: {self.bar(done)}{words}"
        sys.stderr.write(f"\r\033[K{text}" if self.moves else f"{text}\n")
        sys.stderr.flush()

    def bar(self, done):
        if not self.total:
            return ""
        full = WIDTH * done // self.total
        drawn = f"[{'#' * full}{'.' * (WIDTH - full)}] " if self.moves else ""
        return f"{drawn}{done} of {self.total}, "

    def end(self):
        if self.moves:
            sys.stderr.write("\r\033[K")
