"""The lines of a short refutation in words, as docs/LANGUAGE.md reads them, and what each of them rests on: orders, for a
picture, that count up to the orders of processes."""
from dataclasses import dataclass

from model.machine import FIRST, OPEN, Derivation, is_earlier, is_up_to, line_of
from tester.monitor import Stop


@dataclass
class Order:
    """An operation stands before another one; or a read, which is both, sees first contents."""

    number: int
    start: tuple
    end: tuple
    rule: str
    head: str  # as the line begins
    says: str
    words: str
    rests: list  # the numbers of the earlier orders that the rule goes by
    between: tuple | None  # what hides the one from the other
    is_contradiction: bool

    @property
    def is_derived(self):
        """Whether it only joins others, or says that something isn't seen."""
        return self.rule in ("joined", "hidden") or "!" in self.head

    @property
    def named(self):
        return {self.start, self.end} | ({self.between} if self.between else set())


def orders_of(recording, reply):
    """The orders of a reply to `cycle`, or None where there is none."""
    words = reply.split(" ")
    if words[0] != "cycle":
        return None
    reasons = Reasons(recording)
    return [reasons.order(number, word) for number, word in enumerate(words[2:])]


def within_cases(orders):
    """What is to be said beside 'in every legal schedule' where the orders go by cases."""
    return " (within a case: in each where what it supposes is so)" if any(order.rule == "assumed" for order in orders) else ""


def place(at):
    return f"{at[0]}.{at[1]}"


def listed(parts):
    *others, last = parts
    return f"{', '.join(others)} and {last}" if others else last


class Reasons(Derivation):
    """Reads a refutation from its first line on."""

    def __init__(self, recording):
        super().__init__(recording.trace, recording.lengths)
        self.recording = recording

    def order(self, number, word):
        line = line_of(word)
        if not line or not self.takes(line):
            raise Stop(f"line {number} of the refutation doesn't follow by docs/LANGUAGE.md: an error of the monitor", 70)
        start = line.end if line.start is FIRST else line.start
        words = getattr(self, f"{line.rule.replace('-', '_')}_words")(line)
        if line.is_contradiction and line.start != line.end:
            words += f": but it stands behind {place(line.end)}"
        elif line.is_contradiction and line.rule != "after-all":
            words += ": it would stand before itself"
        if line.is_contradiction and self.blocks[-1] is not None:
            words += f". So what is supposed from order {self.blocks[-1]} on isn't all so"
        rests = list(line.hints) if line.lemma is None else [line.lemma, *line.hints]
        return Order(number, start, line.end, line.rule, word.split(":")[0], self.says(line), f"{words}.", rests, line.by, line.is_contradiction)

    def says(self, line):
        one, other = "first contents" if line.start is FIRST else place(line.start), place(line.end)
        return {"<": f"{one} before {other}", "~": f"{other} sees {one}", "/": f"{other} doesn't see {one}", "!": f"{other} doesn't see {one}"}[line.sign]

    def assumed_words(self, line):
        return f"Suppose that it is so: {self.says(line)}"

    def lemma_words(self, line):
        first = self.blocks[line.lemma]
        assumed = [f"order {first + k}" for k in range(len(line.hints) + 1)]
        others = f", and the rest of it is so, by {listed([f'order {number}' for number in line.hints])}" if line.hints else ""
        return f"Not all is so that {listed(assumed)} suppose{'' if line.hints else 's'}, by order {line.lemma}{others}"

    def named(self, at):
        return f"{place(at)} ({self.recording.text(at)})"

    def cell_of(self, at):
        return self.recording.cells[self.operations[at][1]]

    def joined_words(self, line):
        at, steps = line.start, []
        for number in line.hints:
            hint = self.earlier[number]
            steps += [] if at == hint.start else [f"{place(hint.start)} in process {at[0]}"]
            steps.append(f"{place(hint.end)} by order {number}")
            at = hint.end
        steps += [] if at == line.end else [f"{place(line.end)} in process {at[0]}"]
        if not line.hints:
            return f"Process {at[0]} did {self.named(line.start)} before {self.named(line.end)}"
        return f"{self.named(line.start)} comes before {self.named(line.end)}: after it {listed(steps)}"

    def hidden_words(self, line):
        by = f", by {listed([f'order {number}' for number in line.hints])}" if line.hints else ""
        return f"{self.named(line.by)} writes {self.cell_of(line.end)} between {self.named(line.start)} and {self.named(line.end)}{by}: so {place(line.end)} sees neither {place(line.start)} nor an earlier write of process {line.start[0]}"

    def source_words(self, line):
        others = self.candidates_words(line, line.end, lambda candidate, hint: None)
        seen = f"what {self.cell_of(line.end)} held at first" if line.start is FIRST else self.named(line.start)
        return f"{self.named(line.end)} saw {seen}: {others}"

    def after_all_words(self, line):
        if line.start == line.end:
            return f"{self.named(line.end)} can see nothing: {self.candidates_words(line, line.end, lambda candidate, hint: None)}"

        def left(candidate, hint):
            return f"after {place(line.start)}" if candidate is not FIRST and self.is_after(line.start, candidate, hint) else None
        return f"{self.named(line.end)} comes after {self.named(line.start)}, since what it saw does: {self.candidates_words(line, line.end, left)}"

    def before_all_words(self, line):
        def left(candidate, hint):
            return f"before {place(line.end)}" if candidate is FIRST or self.is_after(candidate, line.end, hint) and candidate != line.end else None
        return f"{self.named(line.start)} comes before {self.named(line.end)}, which writes {self.cell_of(line.start)} too, since what it saw does: {self.candidates_words(line, line.start, left)}"

    def after_source_words(self, line):
        number = next(number for number in line.hints if self.earlier[number].sign == "~" and self.earlier[number].start == line.end)
        read = self.earlier[number].end
        by = "".join(f" by order {other}" for other in line.hints if other != number)
        return f"{place(read)} saw {self.named(line.end)}, by order {number}. {self.named(line.start)} writes {self.cell_of(read)} too, before that read{by}: so before {place(line.end)}, or it would be seen"

    def is_after(self, one, other, hint):
        """Whether the other operation is the one or comes after it, by their process or by this hint."""
        return is_up_to(one, other) if hint is None else self.shows(hint, one, other)

    def candidates_words(self, line, read, left):
        """What is known of each write that the read might see by its value, and of first contents."""
        cell, value = self.read(read)
        what, found = f"{value} to {self.recording.cells[cell]}", {}
        others = [at for at in self.candidates(read) if at not in (FIRST, line.start if line.sign == "~" else FIRST)]
        for candidate in others:
            found.setdefault(self.known_of(candidate, line, read, left), []).append(candidate)
        other = "other " if line.sign == "~" and line.start is not FIRST or self.operations[read][0] == "RW" else ""
        writes = "; ".join(f"{listed([place(at) for at in places])} {known}" for known, places in found.items())
        said = f"of the {other}writes of {what} {writes}" if others else f"no {other}operation writes {what}"
        if line.start is FIRST:
            return said
        return f"{said}, and {self.first_words(line, read, left)}"

    def known_of(self, candidate, line, read, left):
        """Why the read doesn't see the write, or how it is what is left."""
        if is_earlier(read, candidate):
            return "later"
        if left(candidate, None):
            return left(candidate, None)
        for number in line.hints:
            hint = self.earlier[number]
            if self.rules_out(hint, candidate, read):
                return f"{self.ruled_out_words(hint, candidate, read)} by order {number}"
            if left(candidate, hint):
                return f"{left(candidate, hint)} by order {number}"
        return "unknown"

    def ruled_out_words(self, hint, candidate, read):
        if hint.sign in "~!" and hint.end == read:
            return "not what is seen"
        return "later" if self.shows(hint, read, candidate) else "overwritten before"

    def first_words(self, line, read, left):
        cell, value = self.read(read)
        name, first = self.recording.cells[cell], self.recording.trace.first[cell]
        if first is not OPEN and first != value:
            return f"{name} held {first} at first"
        for number in line.hints:
            hint = self.earlier[number]
            if self.rules_out(hint, FIRST, read) and hint.sign == "!":
                return f"what it held at first isn't what is seen, by order {number}"
            if self.rules_out(hint, FIRST, read):
                return f"it held another value at first, by order {number}" if hint.start is FIRST else f"what it held at first is gone, since {place(hint.start)} writes it before, by order {number}"
        return f"{name} held {'something' if first is OPEN else first} at first"
