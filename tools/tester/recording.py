"""A trace as it stood when a question was asked, with the lines that reported its operations."""
from dataclasses import dataclass, replace

from model.machine import OPEN, Machine, Trace, asked_by
from tester.monitor import Stop, replies_to
from tester.runs import QUESTIONS, chosen, lines_with_replies, runs_of, verdict_of


@dataclass
class Recording:
    name: str
    trace: Trace
    lines: list  # of each process, the line of each operation
    question: object  # the line that asks, or None
    refused: list  # the lines about the trace that were refused before it

    @property
    def cells(self):
        return [name.decode() for name in self.trace.names]

    @property
    def lengths(self):
        return tuple(map(len, self.trace.sequences))

    @property
    def operations(self):
        """All operations, each by process and place, in the order of their reports."""
        places = [(line.number, process, place) for process, lines in enumerate(self.lines) for place, line in enumerate(lines)]
        return [(process, place) for _, process, place in sorted(places)]

    def operation(self, at):
        return self.trace.sequences[at[0]][at[1]]

    def text(self, at):
        """An operation as `show` prints it."""
        kind, cell, old, new = self.operation(at)
        return f"{kind} {self.cells[cell]} {({'R': old, 'W': new}).get(kind, f'{old} {new}')}"

    def only(self, kept):
        """The same trace with these operations alone."""
        kept = set(kept)
        stay = [[k for k in range(length) if (p, k) in kept] for p, length in enumerate(self.lengths)]
        sequences = [[self.trace.sequences[p][k] for k in places] for p, places in enumerate(stay)]
        lines = [[self.lines[p][k] for k in places] for p, places in enumerate(stay)]
        return replace(self, trace=replace(self.trace, sequences=sequences), lines=lines)

    def script(self, name="t", budget=None, session="a"):
        """The calls that open this trace and report it, in the order of its reports."""
        trace = self.trace
        declared = (f"{cell}:{'w' if width == 32 else 'd'}={'?' if first is OPEN else first}" for cell, width, first in zip(self.cells, trace.widths, trace.first))
        yield f"{session} open {name} {len(trace.sequences)} {budget or trace.budget} {' '.join(declared)}"
        for process in range(len(trace.sequences)):
            yield f"{session} claim {name} {process}"
        for process, place in self.operations:
            yield f"{session} do {name} {process} {self.access((process, place))}"

    def access(self, at):
        kind, cell, old, new = self.operation(at)
        letter, name = "w" if self.trace.widths[cell] == 32 else "d", self.cells[cell]
        return {"R": f"l{letter} {name} {old}", "W": f"s{letter} {name} {new}", "RW": f"rw {name} {old} {new}"}[kind]

    def ask(self, monitor, *questions, budget=None):
        """What the monitor answers to these questions about the trace."""
        calls = [*self.script(budget=budget), *(f"a {question} t" for question in questions), "a close t"]
        return monitor.replies(calls)[-1 - len(questions):-1]


def recorded(run, question):
    """The run's trace as the question finds it, or as it stands at the end of the run's lines."""
    machine, lines = Machine(), []
    for line in run.lines:
        session, call = asked_by(line.text)
        if line is question:
            break
        if line.is_refused or call[0] in (*QUESTIONS, "close"):
            continue
        fault = machine.answers(session, call, line.reply)
        if fault:
            raise Stop(f"line {line.number}: the monitor replied {line.reply!r}: {fault}", 70)
        trace = machine.traces[run.name.encode()]
        if call[0] == "open":
            lines = [[] for _ in trace.sequences]
        elif call[0] == "do":
            lines[call[2]].append(line)
        elif call[0] == "back":
            for own, sequence in zip(lines, trace.sequences):
                del own[len(sequence):]
    number = question.number if question else run.lines[-1].number
    refused = [line for line in run.refused if line.number < number]
    whole = Recording(run.name, trace, lines, question, refused)
    mark = asked_by(question.text)[1][2] if question else None
    lengths = trace.lengths(mark)
    return whole.only((p, k) for p, length in enumerate(lengths) for k in range(length))


def question_of(program, script, name=None, number=None):
    """The trace of a script that is asked about: by the question on this line, or by the last one that was answered."""
    runs = runs_of(lines_with_replies(script, replies_to(program, script)))
    if number is not None:
        asked = [(run, line) for run in runs for line in run.questions if line.number == number and name in (None, run.name)]
        if not asked:
            raise Stop(f"no question{f' about {name}' if name else ''} was answered on line {number}")
        recording = recorded(*asked[0])
    else:
        run = chosen(runs, name)
        answered = [line for line in run.questions if verdict_of(line) != "unknown"]
        recording = recorded(run, (answered or run.questions or [None])[-1])
    if not recording.operations:
        raise Stop(f"trace {recording.name} has no operations")
    return recording
