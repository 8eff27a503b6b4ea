"""What a page shows of a verdict: a figure, and beside it a panel that explains it."""
from dataclasses import dataclass, field
import heapq
from html import escape
import re

from tester.drawing import Colours, Drawing, element, first_contents, label
from tester.layout import lanes_of, lanes_with, place_by_orders, place_by_schedule, whole_lanes
from tester.progress import Progress
from tester.reasons import orders_of, place, within_cases

SMALL = 60  # operations that are drawn at once
AROUND = 1  # operations beside one that a list names
WINDOW = 400  # operations of a schedule that are drawn at first
MOST_DRAWN = 20_000  # operations that a page has at all
MOST_STUCK = 12  # situations that a page tells of
MOST_BUDGET = 1_000_000
ROOMY, CLOSE = (56, 66), (34, 26)  # from row to row, from lane to lane


@dataclass
class View:
    verdict: str
    words: str
    colours: Colours
    figure: Drawing
    whole: Drawing | None
    panel: str
    data: dict = field(default_factory=dict)
    derived: int = 0  # orders that only join others


def view_of(recording, monitor):
    """What the monitor answers about the trace, as it is drawn."""
    said = recording.question.reply if recording.question else ""  # found with earlier questions, it may not be found without them
    answer = said if said.startswith("consistent") else recording.ask(monitor, "ask")[0]
    if answer.startswith("consistent"):
        return consistent(recording, answer)
    cycle, = recording.ask(monitor, "cycle")
    orders = orders_of(recording, cycle)
    if orders:
        return refuted(recording, orders, answer)
    if answer == "inconsistent":
        return stuck(recording, *recording.ask(monitor, "why"))
    return undecided(recording, monitor)


def listed(items, **attributes):
    return element("ol", *items, **attributes)


def linked(words):
    """Words in which operations and orders that are named can be pointed at."""
    words = re.sub(r"\b(\d+\.\d+)\b", r'<b class="at" data-at="\1">\1</b>', escape(words))
    return re.sub(r"\border (\d+)", r'<b class="by" data-by="\1">order \1</b>', words)


def figures(recording, colours, named, shape, arrange, **how):
    """The picture that is drawn at first and, where that isn't all, the whole one."""
    is_small = len(recording.operations) <= SMALL
    drawn = []
    for lanes in [whole_lanes(recording.lengths)] if is_small else [lanes_with(lanes_of(recording.lengths, named, AROUND), named), whole_lanes(recording.lengths)]:
        if drawn and len(recording.operations) > MOST_DRAWN:
            break
        arrange(lanes)
        drawn.append(Drawing(recording, lanes, colours, *shape, **how))
    return drawn[0], drawn[1] if len(drawn) > 1 else None


# ---- a short refutation

def refuted(recording, orders, answer):
    named = {at for order in orders for at in order.named}
    colours = Colours(recording, sorted(named))
    pairs = [(order.start, order.end) for order in orders]
    figure, whole = figures(recording, colours, named, ROOMY, lambda lanes: place_by_orders(lanes, pairs), orders=orders, pale=lambda at: at not in named)
    words = f"No interleaving explains it: each order of the list holds in every legal schedule{within_cases(orders)}, with those of the processes, and the last one can't."
    if answer == "undecided":
        words += " (By its situations alone the question is undecided within the budget.)"
    panel = listed((order_line(order) for order in orders), class_="orders", start=0)
    data = {"orders": [{"ops": [place(at) for at in (order.start, order.end, *order.named - {order.start, order.end})], "rests": order.rests} for order in orders]}
    return View("inconsistent", words, colours, figure, whole, panel, data, sum(order.is_derived and not order.is_contradiction for order in orders))


def order_line(order):
    head = "a contradiction" if order.is_contradiction else order.says
    return element(
        "li",
        element(
            "div",
            element("span", str(order.number), class_="number"),
            element("span", element("strong", head), f' <span class="reason">{order.rule}</span><br/>{linked(order.words)}'),
            class_=f"choice {'wrong' if order.is_contradiction else ''}", role="button", tabindex=0, aria_pressed="false", data_order=order.number,
        ),
        value=order.number,
    )


# ---- a schedule

def consistent(recording, answer):
    words = answer.split(" ")
    schedule = [int(word) for word in words[2:2 + int(words[1])]]
    fixed = dict(word.split("=") for word in words[2 + len(schedule):] if "=" in word)
    steps = steps_of(schedule)
    colours = Colours(recording, steps)
    said = f"The {len(steps)} operations stand in the order of a legal schedule: each read finds what was written last."
    if fixed:
        said += f" What wasn't known at first must have been {', '.join(f'{cell} = {value}' for cell, value in fixed.items())}."
    figure, whole = scheduled(recording, colours, schedule, steps)
    data = {"steps": steps_data(recording, steps), "first": [fixed.get(name, first_contents(recording, cell)) for cell, name in enumerate(recording.cells)]}
    return View("consistent", said, colours, figure, whole, walk(len(steps), recording, colours, data["first"]), data)


def steps_of(schedule):
    counts, steps = {}, []
    for process in schedule:
        counts[process] = counts.get(process, -1) + 1
        steps.append((process, counts[process]))
    return steps


def scheduled(recording, colours, schedule, steps):
    """The first operations of a schedule, and all of them."""
    def drawing(count):
        drawn = set(steps[:count])
        lanes = lanes_of(recording.lengths, drawn, 0)
        place_by_schedule(lanes, schedule[:count])
        return Drawing(recording, lanes, colours, *CLOSE, pale=lambda at: at not in drawn, is_numbered=True)
    if len(steps) <= WINDOW:
        return drawing(len(steps)), None
    return drawing(WINDOW), drawing(len(steps)) if len(steps) <= MOST_DRAWN else None


def steps_data(recording, steps):
    """Each operation of a schedule: where it is, its cell, what it leaves there, and which one it saw."""
    last, data = {}, []
    for at in steps:
        kind, cell, _, new = recording.operation(at)
        data.append([place(at), cell, str(new), "" if kind == "W" else last.get(cell, "first")])
        if kind != "R":
            last[cell] = place(at)
    return data


def walk(count, recording, colours, first):
    """A slider over a schedule, and what the cells hold."""
    rows = (
        element("tr", element("th", swatch(colours.of(cell)), recording.cells[cell], scope="row"), element("td", first[cell], data_cell=cell))
        for cell in colours.cells
    )
    return element(
        "div",
        element("label", 'After <output id="step">0</output> of ', str(count), " operations", for_="walk"),
        element("input", type="range", id="walk", min=0, max=count, value=0, step=1),
        element("p", "Nothing is done yet.", id="done", aria_live="polite"),
        element("table", element("caption", "What the cells hold"), element("tbody", *rows)),
    )


def swatch(colour):
    return element("svg", element("line", x1=4, x2=4, y1=1, y2=15, class_=f"bar {colour}"), width=8, height=16, class_="swatch", aria_hidden="true")


# ---- all situations

def stuck(recording, why):
    most, ends = ends_of(recording, why)
    near = {(p, k) for counts, _ in [*ends, (most, None)] for p, count in enumerate(counts) for k in (count - 1, count) if 0 <= k < recording.lengths[p]}
    colours = Colours(recording, sorted(near))
    done = ends[0][0]
    figure, whole = figures(recording, colours, near, CLOSE, rows_by_place, pale=lambda at: at[1] > done[at[0]])
    count = why.split(" ", 2)[1]
    words = f"No interleaving explains it: {count} situations can be reached, and in none of them all {len(recording.operations)} operations are done."
    beyond = element("p", escape("At most: " + "; ".join(f"process {p} does {count} of {recording.lengths[p]}" for p, count in enumerate(most)) + "."))
    panel = element("div", beyond, element("p", "Where all are stuck, the furthest first:"), listed((stuck_line(recording, number, *it) for number, it in enumerate(ends)), class_="orders"))
    return View("inconsistent", words, colours, figure, whole, panel, {"stuck": [list(counts) for counts, _ in ends]})


def rows_by_place(lanes):
    for items in lanes:
        for row, item in enumerate(items):
            item.row = row


def ends_of(recording, why):
    """How far each process gets at most, and the situations in which all are stuck, the furthest ones. There may be a million of all."""
    most, ends = [0] * len(recording.lengths), []
    for word in re.finditer(r"([\d,]+)/([\d,?]+)", why):
        counts, contents = tuple(map(int, word[1].split(","))), word[2].split(",")
        most = list(map(max, most, counts))
        if not goes_on(recording, counts, contents):
            ends.append((counts, contents))
    return most, heapq.nlargest(MOST_STUCK, ends, key=lambda it: sum(it[0]))


def blocked(recording, counts, contents):
    """The next operation of each process that has one, and whether it may be made."""
    for process, count in enumerate(counts):
        if count < recording.lengths[process]:
            kind, cell, old, _ = recording.operation((process, count))
            yield (process, count), kind == "W" or contents[cell] in ("?", str(old))


def goes_on(recording, counts, contents):
    return any(is_legal for _, is_legal in blocked(recording, counts, contents))


def stuck_line(recording, number, counts, contents):
    reasons = []
    for at, _ in blocked(recording, counts, contents):
        cell = recording.operation(at)[1]
        reasons.append(f"{place(at)} ({label(recording, at)}) can't, since {recording.cells[cell]} holds {contents[cell]}")
    return element(
        "li",
        element(
            "div",
            element("span", str(number + 1), class_="number"),
            element("span", element("strong", f"After {sum(counts)} of {len(recording.operations)} operations"), f"<br/>{linked('; '.join(reasons))}."),
            class_="choice", role="button", tabindex=0, aria_pressed="false", data_stuck=number,
        ),
    )


# ---- nothing known

def undecided(recording, monitor):
    count, next_answer = furthest(recording, monitor)
    operations = recording.operations
    steps = set(operations[:count])
    near = frontier(recording, operations[:count])
    colours = Colours(recording, sorted(near))
    figure, whole = figures(recording, colours, near, CLOSE, rows_by_place, pale=lambda at: at not in steps)
    budget = recording.trace.budget
    said = f"Nothing is known of the whole, and nothing is wrong with the trace: more than {budget} situations can be reached, no legal schedule was proposed, and no short refutation was found."
    panel = element("div", *undecided_words(recording, count, next_answer))
    return View("undecided", said, colours, figure, whole, panel)


def furthest(recording, monitor):
    """A number of first reports that make a consistent trace, where one more makes none that is known to be, and the answer about that."""
    operations, progress = recording.operations, Progress("picture")
    good, bad, next_answer = 0, len(operations), "undecided"
    while bad - good > 1:
        half = (good + bad) // 2
        progress.show(0, f"between {good} and {bad} reports it is no longer known to be consistent")
        tried, = recording.only(operations[:half]).ask(monitor, "ask")
        if tried.startswith("consistent"):
            good = half
        else:
            bad, next_answer = half, tried
    progress.end()
    return good, next_answer


def frontier(recording, done):
    """The last operation of each process that is done, and the next one."""
    counts = [0] * len(recording.lengths)
    for process, _ in done:
        counts[process] += 1
    return {(p, k) for p, count in enumerate(counts) for k in (count - 1, count) if 0 <= k < recording.lengths[p]}


def undecided_words(recording, count, next_answer):
    process, place_of_next = recording.operations[count]
    line, budget = recording.lines[process][place_of_next], recording.trace.budget
    yield element("p", f"The first {count} of {len(recording.operations)} reports are consistent. With one more, line {line.number}, they are {next_answer}: look there first. In the figure that one and what comes later is pale.")
    yield element("p", element("strong", "What to try next"))
    tries = []
    if budget < MOST_BUDGET:
        tries.append(f"<code>raise {escape(recording.name)} {MOST_BUDGET}</code>, and ask again: the budget is {budget}")
    tries.append("report in the order of happening, which is the first schedule that is tried")
    tries.append("let each store have a value of its own: a schedule is found nearly always then, or a short refutation")
    tries.append("leave out cells, with all their accesses: what is inconsistent on some of the cells is so on all")
    tries.append("record fewer processes at a time, or end a trace where all stand at a barrier")
    yield element("ul", *(element("li", it) for it in tries))
