"""Scripts at random: calls of a few sessions on a few traces, some of them turned into hostile lines."""
import random

NAMES = ["x", "y", "z", "longest-name_of_32_bytes-0123456"]
AMOS = ["swap", "add", "and", "or", "xor", "max", "min", "maxu", "minu"]
EDGES = ["-1", "-2147483648", "-2147483649", "0xffffffff", "4294967296", "18446744073709551615", "18446744073709551616", "007", "-0", "0x", "+1", "?"]


class Writer:
    def __init__(self, seed, most_processes):
        self.random = random.Random(seed)
        self.most_processes = most_processes
        self.traces = {}

    def script(self, lines):
        """So many lines, each with its line feed but for the last one at times."""
        text = b"".join(self.line() + self.random.choice([b"\n"] * 9 + [b"\r\n"]) for _ in range(lines))
        return text if self.random.random() < 0.9 else text[:-1]

    def line(self):
        line = self.call()
        if self.random.random() < 0.04:
            line = self.mutated(line)
        return line

    def number(self):
        return self.random.choice(EDGES) if self.random.random() < 0.03 else str(self.random.randrange(3))

    def opened(self, name):
        processes, cells = self.random.randint(1, self.most_processes), self.random.randint(1, 3)
        budget = self.random.choice([1, 2, 5, 30, 300, 5000])
        self.traces[name] = (processes, self.random.sample(NAMES, cells))
        self.widths = {cell: self.random.choice("wwd") for cell in NAMES}
        first = [f"{cell}:{self.widths[cell]}={self.random.choice(['0', '0', '1', '?'])}" for cell in self.traces[name][1]]
        return f"open {name} {processes} {budget} {' '.join(first)}"

    def access(self, cells):
        cell = self.random.choice(cells if self.random.random() < 0.98 else NAMES)
        width = self.widths.get(cell, "w") if self.random.random() < 0.98 else self.random.choice("wd")
        kind = self.random.randrange(10)
        if kind < 4:
            return f"s{width} {cell} {self.number()}"
        if kind < 8:
            return f"l{width} {cell} {self.number()}"
        if kind == 8:
            return f"rw {cell} {self.number()} {self.number()}"
        suffix = self.random.choice(["", "", ".aq", ".rl", ".aqrl"])
        return f"amo{self.random.choice(AMOS)}.{width}{suffix} {cell} {self.number()} {self.number()}"

    def call(self):
        session = self.random.choice("aaab")
        if not self.traces or self.random.random() < 0.02:
            return f"{session} {self.opened(self.random.choice('tu'))}".encode()
        name = self.random.choice(list(self.traces))
        processes, cells = self.traces[name]
        process = self.random.randrange(processes if self.random.random() < 0.98 else processes + 1)
        kind = self.random.randrange(100)
        mark = self.random.choice(["", " 0", " 1"])
        if kind < 55:
            return f"{session} do {name} {process} {self.access(cells)}".encode()
        if kind < 70:
            return f"{session} claim {name} {process}".encode()
        others = {
            70: f"release {name} {process}", 71: "list", 72: f"show {name} {process}", 73: f"mark {name}", 74: f"mark {name}",
            75: f"back {name} {self.random.randrange(3)}", 76: f"raise {name} {self.random.choice([10, 100, 1000, 1000001])}",
            77: f"close {name}" if self.random.random() < 0.3 else "list",
        }
        question = f"{self.random.choice(['ask', 'ask', 'why', 'cycle'])} {name}{mark}"
        return f"{session} {others.get(kind, question)}".encode()

    def mutated(self, line):
        """A line that is like this one and may be no call."""
        words = line.split(b" ")
        at = self.random.randrange(len(words))
        turned = bytearray(line)
        turned[self.random.randrange(len(line))] ^= 1 << self.random.randrange(8)
        return self.random.choice([
            lambda: b" ".join(words[:at] + words[at + 1:]),
            lambda: b" ".join(words[:at] + words[at:at + 1] * 2 + words[at + 1:]),
            lambda: bytes(turned).replace(b"\n", b"\0"),
            lambda: b"\t" + line.replace(b" ", b" \t ") + b"  ",
            lambda: line + b" " * (4096 - len(line) + self.random.randrange(2)),
            lambda: b"#" + line,
            lambda: b" ",
            lambda: line + b"\r",
            lambda: bytes(self.random.randrange(256) for _ in range(9)).replace(b"\n", b"\0"),
        ])()
