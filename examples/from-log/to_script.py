"""Makes a script for the monitor of a simulator's log: python3 to_script.py < LOG > SCRIPT. See README.md here."""

import re
import sys

MOST_CELLS, MOST_HARTS = 64, 32  # of a trace

# An access has an address, what was stored or given ('data='), and what came back ('->').
ACCESS = re.compile(r"hart (\d+): (\S+) .*addr=(\S+)(?: data=(\S+))?(?: -> (\S+))?")

SIZES = {"w": 4, "d": 8}  # in bytes

accesses = []  # a hart, its access in the monitor's words
cells = {}  # a cell's name, and its width
harts_of = {}  # a cell's name, and the harts that accessed it
reserved = {}  # a hart, its lr's width and cell, what the lr saw, and its place among the accesses


def add(hart, words, line):
    if "None" in words.split():
        sys.exit(f"to_script: a value is missing: {line}")
    accesses.append((int(hart), words))


def declare(address, width, line):
    """The cell of an access. Cells stand beside one another: the monitor knows their names, and not where they lie."""
    at = int(address, 16)
    if at % SIZES[width] != 0:
        sys.exit(f"to_script: not aligned: {line}")
    cell = f"m{at:x}"
    if cells.setdefault(cell, width) != width:
        sys.exit(f"to_script: {cell} is accessed in both widths: {line}")
    other = f"m{at - at % 8 if width == 'w' else at + 4:x}"
    if other != cell and (width, cells.get(other)) in (("w", "d"), ("d", "w")):
        sys.exit(f"to_script: {cell} overlaps {other}: {line}")
    return cell


sys.stdin.reconfigure(errors="replace")  # what isn't an access may have any bytes
for line in sys.stdin:
    found = ACCESS.search(line)
    if not found:
        continue  # other instructions, fences among them
    hart, name, address, data, back = found.groups()
    if not all(re.fullmatch("[0-9a-f]+", number) for number in (address, data, back) if number):
        sys.exit(f"to_script: not in hexadecimal digits alone: {line}")
    data, back = data and "0x" + data, back and "0x" + back
    width = "d" if name in ("ld", "sd") or ".d" in name else "w"
    if not re.fullmatch(r"[ls][wd]|(lr|sc|amo[a-z]+)\.[wd](\.aq|\.rl|\.aqrl)?", name):
        sys.exit(f"to_script: not an access of 32 or 64 bits: {line}")
    cell = declare(address, width, line)
    harts_of.setdefault(cell, set()).add(hart)

    if name.startswith("lr."):
        reserved[hart] = (width, cell, back, len(accesses))
        add(hart, f"l{width} {cell} {back}", line)
    elif name.startswith("sc."):
        pair = reserved.pop(hart, None)
        if back is None:
            sys.exit(f"to_script: an sc without its result: {line}")
        if int(back, 16) != 0:
            continue  # nothing was stored, and the lr was a load
        if not pair or pair[:2] != (width, cell):
            sys.exit(f"to_script: an sc that succeeded without its lr: {line}")
        accesses[pair[3]] = None  # one step, where the sc stands
        add(hart, f"rw {cell} {pair[2]} {data}", line)
    elif name.startswith("amo"):
        add(hart, f"{name} {cell} {data} {back}", line)  # what was given, then what came back
    elif name.startswith("s"):
        add(hart, f"{name} {cell} {data}", line)
    else:
        add(hart, f"{name} {cell} {back}", line)

accesses = [access for access in accesses if access]
if not accesses:
    sys.exit("to_script: the log has no access in this format")
if len(cells) > MOST_CELLS:
    cells = {cell: width for cell, width in cells.items() if len(harts_of[cell]) > 1}
    accesses = [(hart, words) for hart, words in accesses if words.split()[1] in cells]
if len(cells) > MOST_CELLS:
    sys.exit(f"to_script: {len(cells)} cells are accessed by several harts: choose {MOST_CELLS} of them")
if not accesses:
    sys.exit(f"to_script: more than {MOST_CELLS} cells are accessed, each by one hart alone")
harts = max(hart for hart, _ in accesses) + 1
if harts > MOST_HARTS:
    sys.exit(f"to_script: hart {harts - 1}: a trace has processes 0 to {MOST_HARTS - 1}, so number your harts so")
print(f"log open sim {harts} 1000000", *(f"{cell}:{width}=0" for cell, width in sorted(cells.items())))
for hart in range(harts):
    print(f"h{hart} claim sim {hart}")
for hart, words in accesses:
    print(f"h{hart} do sim {hart} {words}")
print("log ask sim")
