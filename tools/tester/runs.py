"""The traces of a script, by its lines and their replies."""
from dataclasses import dataclass, field
from functools import cached_property
from sys import intern

from model.machine import LONGEST_LINE, lines_of
from tester.monitor import Stop

QUESTIONS = ("ask", "why", "cycle")
VERDICTS = {"consistent": "consistent", "inconsistent": "inconsistent", "because": "inconsistent", "cycle": "inconsistent", "undecided": "undecided", "unknown": "unknown"}


class Line:
    """A line of the script that has a reply, which stands here without the session's name."""

    __slots__ = ("number", "text", "words", "reply")

    def __init__(self, number, text, reply):
        self.number, self.text, self.reply = number, text, reply
        words = text.removesuffix(b"\r").decode("latin-1").replace("\t", " ").split(" ")
        self.words = tuple(map(intern, filter(None, words)))  # they are few, and lines are many

    @property
    def is_refused(self):
        return self.reply.startswith("refused ")


@dataclass
class Run:
    """A trace from its opening to its closing, or to the script's end."""

    name: str
    lines: list = field(default_factory=list)

    @cached_property
    def questions(self):
        return [line for line in self.lines if line.words[1] in QUESTIONS and not line.is_refused]

    @cached_property
    def refused(self):
        return [line for line in self.lines if line.is_refused]

    @property
    def operations(self):
        """How many it has at the end of its lines."""
        count, marks = 0, []
        for line in self.lines:
            verb = line.words[1]
            if verb == "do":
                count += line.reply == "ok"
            elif verb == "mark" and not line.is_refused:
                marks.append(count)
            elif verb == "back" and not line.is_refused:
                mark = int(line.words[3])
                count = marks[mark]
                del marks[mark + 1:]
        return count

    @cached_property
    def verdict(self):
        """The last answer to a question about the trace; `unknown` counts where there is no other, and where nothing was asked it is `none`."""
        verdicts = [verdict_of(line) for line in self.questions]
        asked = [it for it in verdicts if it != "unknown"] or verdicts
        return asked[-1] if asked else "none"


def verdict_of(line):
    return VERDICTS[line.reply.partition(" ")[0]]


def has_reply(text):
    return len(text) > LONGEST_LINE or not text.startswith(b"#") and text.removesuffix(b"\r").strip(b" \t") != b""


def lines_with_replies(script, replies):
    texts = [(number, text) for number, text in enumerate(lines_of(script), 1) if has_reply(text)]
    if len(texts) != len(replies):
        raise Stop(f"the monitor gave {len(replies)} replies to {len(texts)} lines", 70)
    return [Line(number, text, reply.partition(" ")[2]) for (number, text), reply in zip(texts, replies)]


def runs_of(lines):
    """Each trace that was opened, in the order of their opening, with the lines about it."""
    runs, is_open = [], {}
    for line in lines:
        words = line.words
        name = words[2] if len(words) > 2 else None
        if words[1:2] == ("open",) and line.reply == "ok":
            is_open[name] = Run(name)
            runs.append(is_open[name])
        if name in is_open:
            is_open[name].lines.append(line)
        if words[1:2] == ("close",) and line.reply == "ok":
            del is_open[name]
    return runs


def chosen(runs, name):
    """The run of this name, or of any: the first inconsistent one, else the first undecided one, else the last one that was asked about."""
    if not runs:
        raise Stop("no script of the monitor: no line opens a trace")
    named = [run for run in runs if name in (None, run.name)]
    if not named:
        raise Stop(f"no trace {name} is opened; there is {', '.join(dict.fromkeys(run.name for run in runs[:9]))}")
    for verdict in ("inconsistent", "undecided"):
        for run in named:
            if run.verdict == verdict:
                return run
    return next((run for run in reversed(named) if run.questions), named[-1])
