"""Draws operations in lanes, and arrows between them, as SVG."""
from html import escape

from model.machine import OPEN
from tester.arrows import BADGE, Arrow, Box, Router
from tester.reasons import place

CHARACTER, SMALL = 7.6, 6.3  # widths
HEIGHT, HEAD = 28, 38  # of a box, and of the lanes' names
LONGEST = 34  # characters of a label
COLOURS, STYLES, ALIKE = 8, 3, 4  # of cells; and how many stand in a row with one style of line
KINDS = {"R": "read", "W": "write", "RW": "both"}


def element(name, /, *children, **attributes):
    """An element of XML. An attribute of None is left out; a last underscore is for names that Python has, others are hyphens."""
    written = "".join(f' {key.rstrip("_").replace("_", "-")}="{escape(str(value))}"' for key, value in attributes.items() if value is not None)
    return f"<{name}{written}>{''.join(children)}</{name}>" if children else f"<{name}{written}/>"


def shortened(text, most):
    half = (most - 1) // 2
    return text if len(text) <= most else f"{text[:half]}\u2026{text[-half:]}"


def label(recording, at):
    """An operation as a box shows it."""
    kind, cell, old, new = recording.operation(at)
    values = {"R": f"{old}", "W": f"{new}"}.get(kind, f"{old}\u2192{new}")
    return f"{kind} {shortened(recording.cells[cell], LONGEST - 4 - min(len(values), 20))} {shortened(values, 20)}"


def told(recording, at):
    """An operation in words, for who points at it or hears the page."""
    kind, cell, old, new = recording.operation(at)
    what = {"R": f"read of {recording.cells[cell]} gave {old}", "W": f"write of {new} to {recording.cells[cell]}"}
    line = recording.lines[at[0]][at[1]]
    return f"{place(at)}: {what.get(kind, f'read of {recording.cells[cell]} gave {old}, and {new} was written in one step')} (line {line.number})"


class Colours:
    """A colour and a style of line for each cell, so that no two are told apart by likely confusions of colours alone: first for those that are named."""

    def __init__(self, recording, named):
        used = dict.fromkeys(recording.operation(at)[1] for at in [*named, *recording.operations])
        self.cells = [*used, *(cell for cell in range(len(recording.cells)) if cell not in used)]
        self.numbers = {cell: number for number, cell in enumerate(self.cells)}

    def of(self, cell):
        number = self.numbers[cell]
        return f"c{number % COLOURS} s{number // ALIKE % STYLES}" if number < COLOURS * STYLES else "c-other"


class Drawing:
    """Boxes in lanes, with their arrows."""

    def __init__(self, recording, lanes, colours, pitch, gap, orders=(), pale=lambda at: False, is_numbered=False):
        self.recording, self.lanes, self.colours, self.pale = recording, lanes, colours, pale
        self.orders, self.pitch, self.is_numbered = orders, pitch, is_numbered
        drawn = [item for items in lanes for item in items]
        self.places = max((len(place(item.at)) for item in drawn), default=3) * SMALL
        widest = max((len(label(recording, item.at)) for item in drawn if not item.is_fold), default=0)
        self.width, self.gap = max(32 + self.places + widest * CHARACTER, 110), gap
        self.columns = {lane: column for column, lane in enumerate(it for it, items in enumerate(lanes) if items)}
        self.boxes = {item.at: self.box(item, index) for items in lanes for index, item in enumerate(items)}
        self.height = (max((item.row for item in drawn), default=0) + 1) * pitch + 4
        router = Router(self.boxes, [Arrow(order.number, order.start, order.end) for order in orders])
        self.arrows = router.run()
        left, right = router.reach()
        self.left = min(left, -44 if is_numbered else -4)
        self.right = max(right, len(self.columns) * (self.width + gap) - gap + 4)

    def x(self, lane):
        return self.columns[lane] * (self.width + self.gap)

    def box(self, item, index):
        return Box(self.x(item.process), 4 + item.row * self.pitch, self.width, HEIGHT, self.columns[item.process], index)

    def heads(self):
        """The lanes' names, in a picture of their own that stays in sight."""
        texts = []
        for lane in self.columns:
            x = self.x(lane) + self.width / 2
            sessions = {line.words[0] for line in self.recording.lines[lane]}
            texts.append(element("text", f"process {lane}", x=x, y=16, class_="head"))
            texts.append(element("text", shortened(" ".join(sorted(sessions)), int(self.width / SMALL)), x=x, y=31, class_="session"))
        return self.picture(HEAD, *texts, class_="heads", aria_hidden="true")

    def picture(self, height, *children, **attributes):
        return element("svg", *children, xmlns="http://www.w3.org/2000/svg", width=round(self.whole_width), height=height, viewBox=f"{self.left:.1f} 0 {self.whole_width:.1f} {height}", **attributes)

    @property
    def whole_width(self):
        return self.right - self.left

    def body(self, name):
        return self.picture(self.height, *self.parts(), class_="body", role="group", aria_label=name)

    def parts(self):
        yield self.markers()
        for lane, items in enumerate(self.lanes):
            if items:
                x = self.x(lane) + self.width / 2
                yield element("line", x1=x, x2=x, y1=0, y2=self.boxes[items[-1].at].middle, class_="lane")
        for arrow, order in zip(self.arrows, self.orders):
            yield element("path", d=arrow.path, class_=f"order {kind_of(order)}", data_order=order.number)
        for items in self.lanes:
            yield from (self.fold(item) if item.is_fold else self.operation(item) for item in items)
        if self.is_numbered:
            yield from (element("text", str(item.row + 1), x=-12, y=self.boxes[item.at].middle + 4, class_="row") for items in self.lanes for item in items if not item.is_fold and not self.pale(item.at))
        yield from (self.badge(arrow, order) for arrow, order in zip(self.arrows, self.orders))
        yield element("path", d="M0 0", class_="seen")

    @staticmethod
    def markers():
        kinds = ("order", "joined", "wrong", "chosen", "rest", "seen")
        tip = "M0 0L8 4L0 8z"
        return element("defs", *(element("marker", element("path", d=tip, class_=f"tip {kind}"), id=f"tip-{kind}", viewBox="0 0 8 8", refX=7, refY=4, markerWidth=8, markerHeight=8, markerUnits="userSpaceOnUse", orient="auto") for kind in kinds))

    def operation(self, item):
        box, at = self.boxes[item.at], item.at
        kind, cell, _, _ = self.recording.operation(at)
        colour = self.colours.of(cell)
        bars = [box.x + 4] + ([box.x + box.width - 4] if kind == "RW" else [])
        return element(
            "g",
            element("title", escape(told(self.recording, at))),
            element("rect", x=box.x, y=box.y, width=box.width, height=box.height, rx=5, class_="paper"),
            element("rect", x=box.x, y=box.y, width=box.width, height=box.height, rx=5, class_=f"face {colour}"),
            *(element("line", x1=x, x2=x, y1=box.y + 4, y2=box.y + box.height - 4, class_=f"bar {colour}") for x in bars),
            element("text", place(at), x=box.x + 12, y=box.middle + 4, class_="place"),
            element("text", escape(label(self.recording, at)), x=box.x + 16 + self.places, y=box.middle + 4.5, class_="label"),
            class_=f"op {KINDS[kind]}{' pale' if self.pale(at) else ''}", data_op=place(at), role="img", tabindex=-1,
        )

    def fold(self, item):
        box, last = self.boxes[item.at], item.first + item.count - 1
        words = f"{item.count} more"
        return element(
            "g",
            element("title", f"{place(item.at)} to {item.process}.{last} aren't drawn here"),
            element("rect", x=box.x + 10, y=box.y + 3, width=box.width - 20, height=box.height - 6, rx=11, class_="paper"),
            element("text", f"\u22ee {words}", x=box.x + box.width / 2, y=box.middle + 4, class_="folded"),
            class_="fold", role="img",
        )

    def badge(self, arrow, order):
        x, y = arrow.label
        return element(
            "g",
            element("title", escape(f"order {order.number}: {order.words}")),
            element("rect", x=f"{x - arrow.half:.1f}", y=f"{y - BADGE:.1f}", width=2 * arrow.half, height=2 * BADGE, rx=BADGE),
            element("text", str(order.number), x=f"{x:.1f}", y=f"{y + 4:.1f}"),
            class_=f"badge {kind_of(order)}", data_order=order.number,
        )


def kind_of(order):
    return "wrong" if order.is_contradiction else "joined" if order.is_derived else "plain"


def first_contents(recording, cell):
    first = recording.trace.first[cell]
    return "?" if first is OPEN else str(first)
