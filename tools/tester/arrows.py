"""How arrows run between boxes, and where their numbers stand so that they cover neither a box nor one another."""
from dataclasses import dataclass

BADGE = 9  # half of a number's height
BESIDE = 15  # from an arrow straight down to its number
TIP = 3  # from an arrow's end to its box
PLACES = sorted((n / 40 for n in range(3, 38)), key=lambda t: abs(t - 0.5))


@dataclass
class Box:
    x: float
    y: float
    width: float
    height: float
    lane: int
    index: int  # in its lane

    @property
    def middle(self):
        return self.y + self.height / 2

    def side(self, towards):
        return self.x + self.width if towards > 0 else self.x

    def is_near(self, x, y, across):
        """Whether a number so wide, with its middle here, would touch the box."""
        return self.x - across < x < self.x + self.width + across and self.y - BADGE - 2 < y < self.y + self.height + BADGE + 2


@dataclass
class Arrow:
    number: int
    start: tuple
    end: tuple
    points: tuple = ()  # of a cubic curve
    label: tuple = ()
    beside: float = 0  # how far right of its curve the number stands

    @property
    def half(self):
        """Half of its number's width."""
        return max(BADGE, len(str(self.number)) * 4 + 4)

    @property
    def path(self):
        (a, b), *others = self.points
        return f"M{a:.1f} {b:.1f}C" + " ".join(f"{x:.1f} {y:.1f}" for x, y in others)

    def at(self, t):
        weights = (1 - t) ** 3, 3 * t * (1 - t) ** 2, 3 * t * t * (1 - t), t ** 3
        x, y = (sum(w * point[axis] for w, point in zip(weights, self.points)) for axis in (0, 1))
        return x + self.beside, y


class Router:
    def __init__(self, boxes, arrows):
        self.boxes, self.arrows = boxes, arrows
        self.ends = {}  # a box and its side: the arrows there
        for arrow in arrows:
            for at, other in ((arrow.start, arrow.end), (arrow.end, arrow.start)):
                self.ends.setdefault((at, self.side_of(at, other)), []).append(arrow)
        for (at, _), there in self.ends.items():
            there.sort(key=lambda arrow, at=at: (self.other_end(arrow, at).middle, arrow.number))  # one to itself stands there twice

    def other_end(self, arrow, at):
        return self.boxes[arrow.end if arrow.start == at else arrow.start]

    def side_of(self, at, other):
        """1 for right, -1 for left, 0 for above or below."""
        a, b = self.boxes[at], self.boxes[other]
        if a.lane != b.lane:
            return 1 if b.lane > a.lane else -1
        if abs(a.index - b.index) == 1:
            return 0
        return -1 if a.lane == 0 and at != other else 1

    def run(self):
        bulges = []
        for arrow in sorted(self.arrows, key=lambda it: abs(self.boxes[it.start].y - self.boxes[it.end].y)):
            arrow.points = self.points(arrow, bulges)
        taken = []
        for arrow in self.arrows:
            arrow.label = self.free_place(arrow, taken)
            taken.append(arrow.label)
        return self.arrows

    def port(self, arrow, at, side):
        """Where on this side of the box the arrow ends."""
        box, there = self.boxes[at], self.ends[at, side]
        room = min(11, (box.height - 6) / max(len(there) - 1, 1))
        return box.middle + (there.index(arrow) - (len(there) - 1) / 2) * room

    def points(self, arrow, bulges):
        start, end = self.boxes[arrow.start], self.boxes[arrow.end]
        side = self.side_of(arrow.start, arrow.end)
        if arrow.start == arrow.end:
            x, y = start.side(side), self.port(arrow, arrow.start, side)
            return (x, y), (x + 52, y - 22), (x + 52, y + 34), (x + TIP, y + 11)
        if side == 0:
            return self.straight(arrow, start, end)
        back = self.side_of(arrow.end, arrow.start)
        x0, y0 = start.side(side), self.port(arrow, arrow.start, side)
        x1, y1 = end.side(back) + back * TIP, self.port(arrow, arrow.end, back)
        if start.lane == end.lane:
            bulge = side * self.bulge(start.lane, side, min(y0, y1), max(y0, y1), bulges)
            return (x0, y0), (x0 + bulge, y0), (x1 + bulge, y1), (x1, y1)
        bend = side * max(abs(x1 - x0) * 0.5, 24)
        return (x0, y0), (x0 + bend, y0), (x1 - bend, y1), (x1, y1)

    def straight(self, arrow, start, end):
        beside = [it for it in self.arrows if {it.start, it.end} == {arrow.start, arrow.end}]
        x = start.x + start.width / 2 + (beside.index(arrow) - (len(beside) - 1) / 2) * 26
        down = end.y > start.y
        y0, y1 = (start.y + start.height, end.y - TIP) if down else (start.y, end.y + end.height + TIP)
        third, arrow.beside = (y1 - y0) / 3, BESIDE
        return (x, y0), (x, y0 + third), (x, y1 - third), (x, y1)

    @staticmethod
    def bulge(lane, side, top, bottom, bulges):
        """How far an arrow goes out beside its lane: further than those within its reach."""
        level = 1 + max((it[-1] for it in bulges if it[:2] == (lane, side) and it[2] < bottom and it[3] > top), default=0)
        bulges.append((lane, side, top, bottom, level))
        return 16 + 20 * level

    def reach(self):
        """From where to where arrows and numbers go, from side to side."""
        across = [x for arrow in self.arrows for x, _ in (*map(arrow.at, (0.25, 0.5, 0.75)), arrow.label)]
        return min(across, default=0) - 2 * BADGE, max(across, default=0) + 2 * BADGE

    def free_place(self, arrow, taken):
        """The place of the arrow's number: on its curve, off the boxes and the other numbers where that can be."""
        top, *_, bottom = sorted(y for _, y in arrow.points)
        near = [box for box in self.boxes.values() if box.y < bottom + 2 * BADGE and box.y + box.height > top - 2 * BADGE]

        def crowd(t):
            x, y = arrow.at(t)
            hidden = sum(box.is_near(x, y, arrow.half + 2) for box in near)
            close = sum(max(0, 2 * BADGE + 2 - max(abs(x - a), abs(y - b))) for a, b in taken)
            return hidden * 100 + close
        return arrow.at(min(PLACES, key=crowd))
