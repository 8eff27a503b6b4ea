"""A page for a view: one file, which fetches nothing."""
from html import escape
import json
import os
import textwrap

from tester.drawing import HEAD, SMALL, element, first_contents
from tester.views import swatch

HERE = os.path.dirname(os.path.abspath(__file__))
MOST_DERIVED = 6  # joined orders that are drawn at first
MARGIN, LINE, WORDS, BESIDE = 12, 16, 84, 420  # of a picture of its own: pixels, characters of a line, and up to which width words stand beside it
PAPER = 680, 700  # how wide and high a figure is printed
SIGNS = {"consistent": "\u2713", "inconsistent": "\u2717", "undecided": "?"}


def file(name):
    with open(f"{HERE}/{name}", encoding="utf-8") as text:
        return text.read()


def script(*texts, **attributes):
    """A script that may have any character, read as HTML and as XML."""
    return element("script", "//<![CDATA[\n", *texts, "//]]>", **attributes)


def page(recording, view, source):
    title = f"{recording.name} is {view.verdict}"
    data = json.dumps(view.data, separators=(",", ":"))
    return "<!DOCTYPE html>\n" + element(
        "html",
        element(
            "head",
            element("meta", charset="utf-8"),
            element("meta", name="viewport", content="width=device-width, initial-scale=1"),
            element("title", escape(title)),
            element("style", file("figure.css"), file("page.css")),
        ),
        element(
            "body",
            element("header", *head(recording, view, source)),
            element("main", figure(view, title), element("section", view.panel, class_="panel", aria_label="Why"), class_="walk" if "steps" in view.data else None),
            element("script", data, type="application/json", id="data"),
            script(file("page.js"), 'enliven(JSON.parse(document.getElementById("data").textContent));\n'),
        ),
        lang="en",
    ) + "\n"


def head(recording, view, source):
    trace = recording.trace
    sign = element("span", SIGNS[view.verdict], class_="sign", aria_hidden="true")
    yield element("h1", sign, f"Trace <code>{escape(recording.name)}</code> is {view.verdict}", class_=view.verdict)
    yield element("p", escape(view.words), class_="words")
    asked = f", as line {recording.question.number} asks: {recording.question.text.decode().strip()}" if recording.question else ""
    size = ", ".join(f"{name}: {count}" for name, count in (("operations", len(recording.operations)), ("processes", len(trace.sequences)), ("cells", len(trace.names)), ("budget", trace.budget)))
    yield element("p", escape(f"{size}. {source}{asked}"), class_="facts")
    if recording.refused:
        line = recording.refused[0]
        yield element("p", escape(f"Lines about this trace were refused, the first one on line {line.number} ({line.reply}): it is the trace without these."), class_="warning")


def figure(view, title):
    drawn, whole = view.figure, view.whole
    notes = [legend(view)]
    if view.derived:
        checked = "checked" if view.derived <= MOST_DERIVED else None
        notes.append(element("label", element("input", type="checkbox", id="derived", checked=checked), f" joined orders too ({view.derived})"))
    if whole:
        notes.append(element("button", f"Draw all {len(whole.boxes)} operations", type="button", id="whole"))
        notes.append(element("template", whole.heads(), whole.body(title), id="all"))
    elif any(item.is_fold for items in drawn.lanes for item in items):
        notes.append(element("p", "More operations than a page draws: those that aren't drawn here are in the script."))
    return element("figure", element("figcaption", *notes), element("div", drawn.heads(), drawn.body(title), class_="lanes", tabindex=0, role="region", aria_label="Lanes", style=f"--print: {printed(drawn):.2f}"))


def printed(drawn):
    """By how much a figure is made smaller so that it fits on paper."""
    return max(0.4, min(1, PAPER[0] / drawn.whole_width, PAPER[1] / drawn.height))


def legend(view):
    """The cells that are drawn, by colour, and what the boxes are."""
    recording, shown = view.figure.recording, {}
    for items in view.figure.lanes:
        for item in items:
            if not item.is_fold:
                shown[recording.operation(item.at)[1]] = True
    cells = (element("li", swatch(view.colours.of(cell)), element("code", recording.cells[cell]), f" held {first_contents(recording, cell)}") for cell in view.colours.cells if cell in shown)
    kinds = element("li", "<code>R</code> read, <code>W</code> write, <code>RW</code> both in one step")
    return element("ul", *cells, kinds, class_="legend")


def alone(view, title):
    """The figure as a picture of its own, with the orders in words below it."""
    drawn = view.figure
    lines = [line for order in drawn.orders for line in wrapped(order)]
    is_beside = drawn.whole_width < BESIDE
    left, top = (drawn.whole_width + 3 * MARGIN, HEAD + MARGIN) if is_beside else (MARGIN, HEAD + drawn.height + 2 * MARGIN)
    width = round(max(drawn.whole_width + MARGIN, left + max(map(len, lines), default=0) * SMALL) + MARGIN)
    height = round(max(HEAD + drawn.height + 2 * MARGIN, top + len(lines) * LINE + MARGIN))
    texts = (element("text", escape(line), x=f"{left:.0f}", y=top + number * LINE + 12, class_="said") for number, line in enumerate(lines))
    return element(
        "svg",
        element("title", escape(title)),
        element("style", file("figure.css")),
        element("rect", width=width, height=height, rx=8, class_="paper"),
        element("g", drawn.heads(), transform=f"translate({MARGIN} {MARGIN})"),
        element("g", drawn.body(title), transform=f"translate({MARGIN} {MARGIN + HEAD})"),
        *texts,
        xmlns="http://www.w3.org/2000/svg", width=width, height=height, viewBox=f"0 0 {width} {height}", role="img",
    ) + "\n"


def wrapped(order):
    head = f"{order.number:>3}  {order.head}  "
    return textwrap.wrap(order.words, WORDS, initial_indent=head, subsequent_indent=" " * len(head))
