"""Programs that testers run, each by all processes: generators that ask for one access after another, are sent what its cell held, and
never end. An access is a kind, a cell, and operands: `lw`, `sw` with a value, `cas` with what is expected and a value, or an AMO."""

import random
from typing import NamedTuple


class Process(NamedTuple):
    """What a program knows of itself."""

    rng: random.Random
    number: int
    procs: int
    shared: dict  # by all, and no part of the trace


def until(cell, wanted):
    """Loads the cell until it holds something wanted."""
    while not wanted((yield "lw", cell)):
        pass


def random_program(me, value):
    """A loop of 40 random instructions about six cells of two lines."""
    kinds = me.rng.choices(("lw", "sw", "amoswap", "amoadd"), (5, 5, 1, 1), k=40)
    body = [(kind, me.rng.randrange(6)) for kind in kinds]
    count = 0
    while True:
        for kind, cell in body:
            count += 1
            yield (kind, cell) if kind == "lw" else (kind, cell, 1 if kind == "amoadd" else value(me, count))


def own_values(me):
    return random_program(me, lambda me, count: me.number << 16 | count)


def bytes_(me):
    return random_program(me, lambda me, _: me.rng.randrange(256))


def walking_ones(me):
    return random_program(me, lambda _, count: 1 << count % 8)


def march(me):
    """Each marches over the cells up and down, and turns the pattern it finds into the other one."""
    while True:
        for cell in (*range(8), *reversed(range(8))):
            found = yield "lw", cell
            yield "sw", cell, 0xAA if found == 0x55 else 0x55


def checker(me):
    """Anybody stores a cell's next byte, and then anybody checks it."""
    while True:
        cell = me.rng.randrange(16)
        value, is_checked = me.shared.get(cell, (0, True))
        if is_checked:
            value = (value + 1) % 256
        me.shared[cell] = value, not is_checked
        yield ("sw", cell, value) if is_checked else ("lw", cell)


def deque(me):
    """Process 0 pushes and takes at the bottom, the others steal at the top."""
    top, bottom, slots = 0, 1, 4
    while True:
        first = yield "lw", top
        end = yield "lw", bottom
        if me.number == 0 and end - first < 8 and me.rng.random() < 0.6:
            yield "sw", slots + end % 8, me.rng.randrange(1, 256)
            yield "sw", bottom, end + 1
        elif me.number == 0 and end > 0:
            yield "sw", bottom, end - 1
            first = yield "lw", top
            if first < end - 1:
                yield "lw", slots + (end - 1) % 8
            else:
                yield "cas", top, first, end
                yield "sw", bottom, end
        elif me.number > 0 and first < end:
            yield "lw", slots + first % 8
            yield "cas", top, first, first + 1


def rings(me):
    """Each passes bytes on to the next through a ring of two slots, with counts modulo 16."""
    before, after = 4 * (me.number - 1) % (4 * me.procs), 4 * me.number
    count = 0
    while True:
        byte = me.rng.randrange(256)
        if me.number > 0:
            yield from until(before, lambda head: head != count)
            byte = yield "lw", before + 2 + count % 2
            yield "sw", before + 1, (count + 1) % 16
        if me.number < me.procs - 1:
            yield from until(after + 1, lambda tail: (count - tail) % 16 < 2)
            yield "sw", after + 2 + count % 2, byte
            yield "sw", after, (count + 1) % 16
        count = (count + 1) % 16


def publication(me):
    """Process 0 fills one of four records, publishes it, and waits until nobody reads an earlier one."""
    record, readers = 0, 12
    while True:
        if me.number > 0:
            yield "sw", readers + me.number, 1
            here = yield "lw", 0
            for field in (0, 1):
                yield "lw", 4 + 2 * here + field
            yield "sw", readers + me.number, 0
            continue
        record = (record + 1) % 4
        for field in (0, 1):
            yield "sw", 4 + 2 * record + field, me.rng.randrange(256)
        yield "sw", 0, record
        for other in range(1, me.procs):
            yield from until(readers + other, lambda flag: flag == 0)


def sequence_lock(me):
    """Anybody writes two bytes under a sequence modulo 16, anybody reads them."""
    while True:
        sequence = yield "lw", 0
        if sequence % 2:
            continue
        if me.rng.random() < 0.7:
            for cell in (1, 2, 0):
                yield "lw", cell
        elif (yield "cas", 0, sequence, sequence + 1) == sequence:
            for cell in (1, 2):
                yield "sw", cell, me.rng.randrange(256)
            yield "sw", 0, (sequence + 2) % 16


def queued_lock(me):
    """A lock whose waiters each spin on a flag of their own; a byte is counted under it."""
    mine, flags = me.number + 1, 1 + me.procs
    while True:
        yield "sw", mine, 0
        yield "sw", flags + mine, 1
        before = yield "amoswap", 0, mine
        if before:
            yield "sw", before, mine
            yield from until(flags + mine, lambda flag: flag == 0)
        count = yield "lw", 1 + 2 * me.procs + 1
        yield "sw", 1 + 2 * me.procs + 1, (count + 1) % 256
        after = yield "lw", mine
        if not after and (yield "cas", 0, mine, 0) == mine:
            continue
        if not after:
            yield from until(mine, lambda other: other)
            after = yield "lw", mine
        yield "sw", flags + after, 0


def bakery(me):
    """Each draws a number greater than all others, and waits for who has a lesser one."""
    choosing, numbers = 0, me.procs
    while True:
        yield "sw", choosing + me.number, 1
        most = 0
        for other in range(me.procs):
            most = max(most, (yield "lw", numbers + other))
        mine = most + 1
        yield "sw", numbers + me.number, mine
        yield "sw", choosing + me.number, 0
        for other in range(me.procs):
            rank = mine, me.number
            yield from until(choosing + other, lambda flag: flag == 0)
            yield from until(numbers + other, lambda number, other=other, rank=rank: number == 0 or (number, other) >= rank)
        count = yield "lw", 2 * me.procs
        yield "sw", 2 * me.procs, (count + 1) % 16
        yield "sw", numbers + me.number, 0


def barrier(me):
    """All store to a cell of their own, meet at a barrier with sense reversal, and load their neighbours' cells."""
    count, sense, own, turn = 0, 1, 4, 0
    while True:
        turn = (turn + 1) % 16
        yield "sw", own + me.number, turn
        if (yield "amoadd", count, 1) == me.procs - 1:
            yield "sw", count, 0
            yield "sw", sense, turn % 2
        else:
            yield from until(sense, lambda flag, turn=turn: flag == turn % 2)
        for step in (1, 2, 3):
            yield "lw", own + (me.number + step) % me.procs


def clocks(me):
    """Logical clocks: messages carry the sender's time modulo 256 through four cells."""
    now = 0
    while True:
        cell = me.rng.randrange(4)
        if me.rng.random() < 0.5:
            now = max(now, (yield "lw", cell))
        else:
            yield me.rng.choice(("sw", "amomax")), cell, now
        now = (now + 1) % 256


def token_ring(me):
    """A ring that stabilizes itself, with 16 states."""
    while True:
        before = yield "lw", (me.number - 1) % me.procs
        own = yield "lw", me.number
        if me.number == 0 and own == before:
            yield "sw", 0, (own + 1) % 16
        elif me.number > 0 and own != before:
            yield "sw", me.number, before


def stack(me):
    """A stack of nodes that are used again, whose top has a tag of four bits."""
    mine = 1 + me.number
    while True:
        while mine:
            top = yield "lw", 0
            yield "sw", mine, top % 64
            mine = mine if (yield "cas", 0, top, top // 64 * 64 + mine) != top else 0
        top = yield "lw", 0
        if top % 64:
            after = yield "lw", top % 64
            mine = top % 64 if (yield "cas", 0, top, (top // 64 + 1) % 16 * 64 + after) == top else 0


def bitmap(me):
    """Each takes and frees bits of two words."""
    while True:
        cell, bit = me.rng.randrange(2), 1 << me.rng.randrange(8)
        if not (yield "amoor", cell, bit) & bit:
            yield "lw", 1 - cell
            yield "amoand", cell, 2**32 - 1 - bit


def false_sharing(me):
    """Each counts modulo 16 in a cell of its own beside the others', and sums up some."""
    count = 0
    while True:
        count = (count + 1) % 16
        yield "sw", me.number, count
        if me.rng.random() < 0.2:
            for other in range(me.procs):
                yield "lw", other


KINDS = {
    "random program, own values": own_values,
    "random program, bytes": bytes_,
    "random program, walking ones": walking_ones,
    "march over 8 cells, two patterns": march,
    "store and check, bytes": checker,
    "work-stealing deque": deque,
    "rings of two slots, bytes": rings,
    "publication of records": publication,
    "sequence lock modulo 16": sequence_lock,
    "queued lock": queued_lock,
    "bakery": bakery,
    "barrier, sense reversal": barrier,
    "logical clocks modulo 256": clocks,
    "token ring of 16 states": token_ring,
    "stack with tags": stack,
    "bitmaps by amoor, amoand": bitmap,
    "false sharing, counts modulo 16": false_sharing,
}
