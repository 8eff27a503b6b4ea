"""Judges what the program wrote for a script, by the model."""
from machine import Machine, asked_by, lines_of, refused

NO_ENTRY = {refused(17), refused(18), refused(19)}


class Wrong(Exception):
    """What the program wrote can't be right."""


def split_output(output):
    lines = output.decode("latin-1").split("\n")
    if lines.pop() != "":
        raise Wrong("the output doesn't end with a line feed")
    at = max((i for i, line in enumerate(lines) if line.startswith("journal ")), default=None)
    if at is None:
        raise Wrong("no journal was written")
    entries = [line.split(" ", 3) for line in lines[at + 1:]]
    if lines[at] != f"journal {len(entries)}":
        raise Wrong(f"{lines[at]!r} stands before {len(entries)} entries")
    return lines[:at], entries


def in_groups(asked):
    """The lines' questions by session, in the order in which the sessions are first mentioned."""
    groups = {}
    for session, call in asked:
        groups.setdefault(session, []).append((session, call))
    return [one for group in groups.values() for one in group]


def answered(asked, replies):
    """Each good line's session, call and reply."""
    if len(asked) != len(replies):
        raise Wrong(f"{len(replies)} replies to {len(asked)} lines")
    good = []
    for (session, call), line in zip(asked, replies):
        name, _, reply = line.partition(" ")
        if name != (session.decode() if session else "?"):
            raise Wrong(f"{line!r} is under another name than {session!r}")
        if call is None and reply not in (refused(1), refused(18)):
            raise Wrong(f"{line!r} to a bad line")
        if call is not None:
            good.append((session.decode(), call, reply))
    return good


def replay(good, entries, machine):
    """Makes the journal's entries in their order, each with the next call of its session."""
    waiting, numbers = {}, {}
    for session, call, reply in good:
        if reply not in NO_ENTRY:
            waiting.setdefault(session, []).append((call, reply))
    for place, (index, session, number, reply) in enumerate(entries):
        own = numbers.get(session, 0)
        if int(index) != place or int(number) != own or own >= len(waiting.get(session, [])):
            raise Wrong(f"entry {place}: {index} {session} {number}")
        call, given = waiting[session][own]
        numbers[session] = own + 1
        if given != reply:
            raise Wrong(f"entry {place}: {reply!r} stands against {given!r}")
        fault = machine.answers(session.encode(), call, reply)
        if fault:
            raise Wrong(f"entry {place}, {session} {call}: {reply!r}: {fault}")
    if sum(map(len, waiting.values())) != len(entries):
        raise Wrong("calls without an entry")


def compare(script, output, words, most_listed=20_000):
    """How many replies were compared, verdicts by at most so many situations."""
    replies, entries = split_output(output)
    asked = [one for one in map(asked_by, lines_of(script)) if one is not None]
    good = answered(in_groups(asked) if "--each" in words else asked, replies)
    if "--each" not in words and [f"{s} {r}" for s, _, r in good if r not in NO_ENTRY] != [f"{e[1]} {e[3]}" for e in entries]:
        raise Wrong("the journal isn't in the order of the lines")
    replay(good, entries, Machine(most_listed))
    return len(replies)
