"""Rows whose scripts are too long to be written down: each function gives a script's lines and their replies."""
import random

from stored import Stored

SESSION = "session_of_thirty_two_bytes_long"
TRACE = "trace_which_has_thirty_two_bytes"
CELL = "cell_that_keeps_thirty_two_bytes"
OTHER = "other_cell_that_has_32_bytes_too"


def stores(process, cell, first, last, session="a", trace="t"):
    """Stores of these numbers, in order."""
    return [(f"{session} do {trace} {process} sw {cell} {value}", f"{session} ok") for value in range(first, last + 1)]


def opened(processes, budget, cells, session="a", trace="t"):
    """A trace of cells that hold 0 at first, and its claims."""
    declared = " ".join(f"{cell}:w=0" for cell in cells)
    claims = [f"{session} claim {trace} {process}" for process in range(processes)]
    return [(line, f"{session} ok") for line in (f"{session} open {trace} {processes} {budget} {declared}", *claims)]


def grid(first, second):
    """The reason where two processes made so many stores, each in a cell of its own: every pair can be reached."""
    listed = [f" {x},{y}/{x},{y}" for x in range(first + 1) for y in range(second + 1)]
    return f"because {len(listed)}{''.join(listed)}"


def a_long_process():
    """One process of 66,000 operations, more than 16 bits can count: its schedule, and its operations as they are shown."""
    yield from opened(1, 1_000_000, ["x"])
    yield from stores(0, "x", 1, 66_000)
    yield "a ask t", "a consistent 66000" + 66_000 * " 0"
    yield "a show t 0", "a ops 66000" + "".join(f" W x {value}" for value in range(1, 66_001))


def thousands_of_situations():
    """Two processes make 70 stores each, and then one loads what was never stored: all 71 times 71 situations are reached,
    and none is whole. The names have 32 bytes."""
    yield from opened(2, 10_000, [CELL, OTHER], SESSION, TRACE)
    yield from stores(0, CELL, 1, 70, SESSION, TRACE)
    yield from stores(1, OTHER, 1, 70, SESSION, TRACE)
    yield f"{SESSION} do {TRACE} 1 lw {CELL} 99", f"{SESSION} ok"
    yield f"{SESSION} ask {TRACE}", f"{SESSION} inconsistent"
    yield f"{SESSION} why {TRACE}", f"{SESSION} {grid(70, 70)}"
    yield f"{SESSION} list", f"{SESSION} traces 1 {TRACE}"
    yield f"{SESSION} show {TRACE} 0", f"{SESSION} ops 70" + "".join(f" W {CELL} {value}" for value in range(1, 71))


def seventy_thousand_situations():
    """More situations than 16 bits can count: 265 times 265, none of them whole."""
    yield from opened(3, 100_000, ["x", "y"])
    yield "a do t 2 lw x 999", "a ok"
    yield from stores(0, "x", 1, 264)
    yield from stores(1, "y", 1, 264)
    yield "a ask t", "a inconsistent"
    yield "a why t", "a " + grid(264, 264).replace("/", ",0/")


def situations_that_need_more_room():
    """Counts and contents outgrow what room they had while two thousand situations are held."""
    yield from opened(3, 100_000, ["x", "y"])
    yield "a do t 2 lw x 999", "a ok"
    yield from stores(0, "x", 1, 45)
    yield from stores(1, "y", 1, 45)
    yield "a ask t", "a inconsistent"
    yield from stores(0, "x", 46, 100)
    yield "a ask t", "a inconsistent"
    yield from stores(1, "y", 46, 80)
    yield "a why t", "a " + grid(100, 80).replace("/", ",0/")


def situations_that_outgrow_words():
    """Two thousand situations are held in words, and then cells with many values are reported, so that no word has room."""
    many = [f"z{cell}" for cell in range(30)]
    yield from opened(3, 100_000, ["x", "y", *many])
    yield "a do t 2 lw x 999", "a ok"
    yield from stores(0, "x", 1, 45)
    yield from stores(1, "y", 1, 45)
    yield "a ask t", "a inconsistent"
    for last, cells in ((46, many[:10]), (47, many[10:])):
        for cell in cells:
            yield from stores(2, cell, 1, 15)
        yield from stores(0, "x", last, last)
        yield "a ask t", "a inconsistent"
    listed = [f" {x},{y},0/{x},{y}{30 * ',0'}" for x in range(48) for y in range(46)]
    yield "a why t", f"a because {len(listed)}{''.join(listed)}"


def what_a_memory_did(processes, operations, cells, value_of):
    """Loads and stores that a memory made in some order, reported process by process: no budget of situations settles the
    question, and a schedule is proposed."""
    draws, memory, reports = random.Random(2_026), [0] * cells, [[] for _ in range(processes)]
    for number in range(1, operations + 1):
        process, cell = draws.randrange(processes), draws.randrange(cells)
        is_store = draws.random() < 0.5
        memory[cell] = value_of(draws, number) if is_store else memory[cell]
        reports[process].append((f"a do t {process} {'sw' if is_store else 'lw'} x{cell} {memory[cell]}", "a ok"))
    yield from opened(processes, 1_000_000, [f"x{cell}" for cell in range(cells)])
    yield from (report for process in reports for report in process)
    yield "a ask t", f"a consistent {operations}"


def eight_processes_of_a_thousand_operations():
    """Each store has a value of its own."""
    return what_a_memory_did(8, 8_000, 8, lambda _, number: number)


def three_values_in_four_thousand_operations():
    """A read may see one of hundreds of stores: the schedule is made window by window."""
    return what_a_memory_did(4, 4_000, 8, lambda draws, _: draws.randrange(3))


def six_values_under_eight_processes():
    """The times of operations are aligned: by even ones nothing is found."""
    return what_a_memory_did(8, 1_600, 8, lambda draws, _: draws.randrange(6))


def two_processes_by_turns():
    """Two processes store and load by turns, which has more situations than any budget; reported one after the other."""
    yield from opened(2, 1, ["x"])
    for process in range(2):
        for value in range(1, 3_001):
            yield f"a do t {process} {'lw' if (value + process) % 2 == 0 else 'sw'} x {value}", "a ok"
    yield "a ask t", "a consistent 6000" + 1_500 * " 0 1 1 0"


ROWS = [
    a_long_process, thousands_of_situations, seventy_thousand_situations, situations_that_need_more_room,
    situations_that_outgrow_words,
    eight_processes_of_a_thousand_operations, three_values_in_four_thousand_operations,
    six_values_under_eight_processes, two_processes_by_turns,
]


def rows():
    for row in ROWS:
        script, replies = zip(*row())
        yield Stored(row.__name__.replace("_", "-"), bytes_of(script), [], bytes_of(replies))


def full_sequence():
    """A process with as many operations as it can have refuses one more, and another process takes its own."""
    script = ["a open t 2 1 x:w=0", "a claim t 0", "a claim t 1", "a do t 0 lw x 9", *999_999 * ["a do t 0 sw x 1"]]
    replies = len(script) * ["a ok"]
    script += ["a do t 0 sw x 1", "a do t 0 sw x 4294967296", "a ask t", "a do t 1 sw x 1"]
    replies += ["a refused 13 sequence-full", "a refused 12 value-out-of-range", "a inconsistent", "a ok"]
    return bytes_of(script), bytes_of(replies)


def full_journal():
    """A journal takes 1,048,576 entries and no more; sessions enter still, and the 257th is turned away."""
    calls = 1_048_576
    script = [*calls * ["s0 list"], *(f"s{number} list" for number in range(1, 257)), "s0 list"]
    full = [f"s{number} refused 17 journal-full" for number in range(1, 256)]
    replies = [*calls * ["s0 traces 0"], *full, "s256 refused 19 too-many-sessions", "s0 refused 17 journal-full"]
    journal = [f"journal {calls}", *(f"{place} s0 {place} traces 0" for place in range(calls))]
    return bytes_of(script), bytes_of(replies + journal)


ALONE, BESIDE = ["--workers", "0"], ["--workers", "2"]


def single_runs():
    """A million lines would take the model minutes."""
    script, output = full_sequence()
    for words in (ALONE, BESIDE, ["--each"]):
        yield Stored(f"full-sequence {' '.join(words)}", script, words, output)
    script, output = full_journal()
    for words in (ALONE, BESIDE):
        yield Stored(f"full-journal {' '.join(words)}", script, [*words, "--journal"], output)


def bytes_of(lines):
    return "".join(f"{line}\n" for line in lines).encode()
