"use strict";
// Draws a question's answer with the shapes and the sizes of tools/picture, whose style sheets and marks it uses.
const sizes = JSON.parse(document.getElementById("sizes").textContent);
const MOST_DRAWN = 400;
const TRIED_PLACES = [0.5, 0.4, 0.6, 0.3, 0.7, 0.2, 0.8, 0.1, 0.9];
const RULES = {
  source: "nothing else is left that it can have read",
  "after-all": "whatever it read was written there or later",
  "before-all": "whatever it read was written before the other one wrote",
  joined: "one order after the other, along processes between them",
  hidden: "what stands between them writes what is read",
  "after-source": "the read saw the second write, and the first one stands before that read",
  assumed: "this is supposed, until a contradiction follows",
  lemma: "not all that was supposed there is so, and all else of it is",
};
const SAID = { "<": ["", " before "], "~": ["", " is seen by "], "/": ["", " is hidden from "], "!": ["", " isn't seen by "], "-~": ["first contents are seen by ", ""], "-!": ["first contents aren't seen by ", ""] };
const NOTHING_LEFT = "there is nothing left that it can have read";
const SIGNS = { consistent: "\u2713", inconsistent: "\u2717", undecided: "?" };

const escaped = (text) => String(text).replace(/[&<>"]/g, (it) => `&#${it.charCodeAt(0)};`);
const element = (name, attributes, ...children) => {
  const written = Object.entries(attributes).map(([key, value]) => ` ${key}="${escaped(value)}"`).join("");
  return `<${name}${written}>${children.join("")}</${name}>`;
};
const text = (words, attributes) => element("text", attributes, escaped(words));
const valuesOf = ({ kind, old, fresh }) => ({ R: old, W: fresh })[kind] ?? `${old}\u2192${fresh}`;
const labelOf = (operation) => `${operation.kind} ${operation.cell} ${valuesOf(operation)}`;

function told(at, { kind, cell, old, fresh }) {
  const what = { R: `read of ${cell} gave ${old}`, W: `write of ${fresh} to ${cell}` };
  return `${at}: ${what[kind] ?? `read of ${cell} gave ${old}, and ${fresh} was written in one step`}`;
}

// Each operation by its name, in the rows that the verdict asks for.
function placed(picture) {
  const boxes = new Map();
  picture.lanes.forEach((operations, lane) => operations.forEach((operation, index) => boxes.set(`${lane}.${index}`, { operation, lane, index, row: index })));
  if (picture.schedule) stepsOf(picture.schedule).forEach((at, row) => (boxes.get(at).row = row));
  if (picture.orders && boxes.size <= MOST_DRAWN) rowsByOrders(boxes, picture.orders);
  return boxes;
}

function stepsOf(schedule) {
  const counts = {};
  return schedule.map((process) => `${process}.${(counts[process] = (counts[process] ?? -1) + 1)}`);
}

// Each operation stands below those that come before it. Orders that would close a circle are left to go up.
function rowsByOrders(boxes, orders) {
  const before = new Map([...boxes].map(([at, { lane, index }]) => [at, new Set(index > 0 ? [`${lane}.${index - 1}`] : [])]));
  const reaches = (at, start, seen = new Set()) => at === start || (!seen.has(at) && (seen.add(at), [...before.get(at)].some((it) => reaches(it, start, seen))));
  for (const { start, end } of orders) if (!reaches(start, end)) before.get(end).add(start);
  const rows = new Map();
  const row = (at) => {
    if (!rows.has(at)) rows.set(at, Math.max(-1, ...[...before.get(at)].map(row)) + 1);
    return rows.get(at);
  };
  for (const [at, box] of boxes) box.row = row(at);
}

// Gives boxes their corners, and tells how wide they are.
function measure(picture, boxes) {
  const widest = Math.max(...[...boxes.values()].map(({ operation }) => labelOf(operation).length));
  const places = Math.max(...[...boxes.keys()].map((at) => at.length)) * sizes.small;
  const [pitch, gap] = picture.orders ? sizes.roomy : sizes.close;
  const width = Math.max(32 + places + widest * sizes.character, 100);
  const columns = picture.lanes.map((_, lane) => lane).filter((lane) => picture.lanes[lane].length > 0);
  for (const box of boxes.values()) {
    box.column = columns.indexOf(box.lane);
    box.x = box.column * (width + gap);
    box.y = 4 + box.row * pitch;
    box.middle = box.y + sizes.height / 2;
    box.width = width;
  }
  return { width, places, columns, right: columns.length * (width + gap) - gap + 4, height: (Math.max(...[...boxes.values()].map((box) => box.row)) + 1) * pitch + 4 };
}

// 1 for right, -1 for left, 0 for above or below.
function sideOf(a, b) {
  if (a.column !== b.column) return b.column > a.column ? 1 : -1;
  if (Math.abs(a.index - b.index) === 1) return 0;
  return a.column === 0 && a !== b ? -1 : 1;
}

// The points of each order's curve, whose ends share the sides of the boxes.
function routed(orders, boxes) {
  const ends = new Map();
  const joinSide = (order, box, other) => {
    const key = `${box.lane}.${box.index}/${sideOf(box, other)}`;
    ends.set(key, [...(ends.get(key) ?? []), { order, towards: other.middle }].sort((one, two) => one.towards - two.towards || one.order.number - two.order.number));
  };
  for (const order of orders) {
    const [a, b] = [boxes.get(order.start), boxes.get(order.end)];
    joinSide(order, a, b);
    joinSide(order, b, a);
  }
  const port = (order, box, side) => {
    const there = ends.get(`${box.lane}.${box.index}/${side}`).map((it) => it.order);
    const room = Math.min(11, (sizes.height - 6) / Math.max(there.length - 1, 1));
    return box.middle + (there.indexOf(order) - (there.length - 1) / 2) * room;
  };
  const bulges = [];
  const far = (order) => Math.abs(boxes.get(order.start).y - boxes.get(order.end).y);
  for (const order of [...orders].sort((one, two) => far(one) - far(two))) order.points = curve(order, boxes.get(order.start), boxes.get(order.end), port, orders, bulges);
}

function curve(order, a, b, port, orders, bulges) {
  const side = sideOf(a, b);
  const edge = (box, towards) => (towards > 0 ? box.x + box.width : box.x);
  if (a === b) {
    const [x, y] = [edge(a, side), port(order, a, side)];
    return [[x, y], [x + 52, y - 22], [x + 52, y + 34], [x + sizes.tip, y + 11]];
  }
  if (side === 0) return straight(order, a, b, orders);
  const back = sideOf(b, a);
  const [x0, y0, x1, y1] = [edge(a, side), port(order, a, side), edge(b, back) + back * sizes.tip, port(order, b, back)];
  if (a.column === b.column) {
    const out = side * bulge(bulges, a.column, side, Math.min(y0, y1), Math.max(y0, y1));
    return [[x0, y0], [x0 + out, y0], [x1 + out, y1], [x1, y1]];
  }
  const bend = side * Math.max(Math.abs(x1 - x0) * 0.5, 24);
  return [[x0, y0], [x0 + bend, y0], [x1 - bend, y1], [x1, y1]];
}

function straight(order, a, b, orders) {
  const ends = [order.start, order.end];
  const beside = orders.filter((it) => ends.includes(it.start) && ends.includes(it.end) && it.start !== it.end);
  const x = a.x + a.width / 2 + (beside.indexOf(order) - (beside.length - 1) / 2) * 26;
  const [y0, y1] = b.y > a.y ? [a.y + sizes.height, b.y - sizes.tip] : [a.y, b.y + sizes.height + sizes.tip];
  order.beside = sizes.beside;
  return [0, 1, 2, 3].map((third) => [x, y0 + ((y1 - y0) * third) / 3]);
}

// How far an arrow goes out beside its lane: further than those within its reach.
function bulge(bulges, column, side, top, bottom) {
  const within = bulges.filter((it) => it.column === column && it.side === side && it.top < bottom && it.bottom > top);
  const level = 1 + Math.max(0, ...within.map((it) => it.level));
  bulges.push({ column, side, top, bottom, level });
  return 16 + 20 * level;
}

function onCurve({ points, beside = 0 }, t) {
  const weights = [(1 - t) ** 3, 3 * t * (1 - t) ** 2, 3 * t * t * (1 - t), t ** 3];
  const [x, y] = [0, 1].map((axis) => points.reduce((sum, point, at) => sum + weights[at] * point[axis], 0));
  return [x + beside, y];
}

const halfOf = ({ number }) => Math.max(sizes.badge, String(number).length * 4 + 4);

// Puts each order's number on its curve, off the boxes and the other numbers where that can be.
function number(orders, boxes) {
  const taken = [];
  for (const order of orders) {
    const crowd = (t) => {
      const [x, y] = onCurve(order, t);
      const across = halfOf(order) + 2;
      const hidden = [...boxes.values()].filter((it) => it.x - across < x && x < it.x + it.width + across && it.y - sizes.badge - 2 < y && y < it.y + sizes.height + sizes.badge + 2);
      const close = taken.map(([a, b]) => Math.max(0, 2 * sizes.badge + 2 - Math.max(Math.abs(x - a), Math.abs(y - b))));
      return hidden.length * 100 + close.reduce((one, other) => one + other, 0);
    };
    order.label = onCurve(order, TRIED_PLACES.reduce((best, t) => (crowd(t) < crowd(best) ? t : best)));
    taken.push(order.label);
  }
}

const namedBy = ({ start, end, by }) => [start, end, ...(by ? [by] : [])];
const kindOf = ({ isWrong, rule, sign }) => (isWrong ? "wrong" : ["joined", "hidden"].includes(rule) || sign.endsWith("!") ? "joined" : "plain");

function drawnOrder(order) {
  const [[a, b], ...others] = order.points;
  const path = `M${a} ${b}C${others.map((it) => it.join(" ")).join(" ")}`;
  return element("path", { d: path, class: `order ${kindOf(order)}`, "data-order": order.number });
}

function drawnNumber(order) {
  const [[x, y], half, badge] = [order.label, halfOf(order), sizes.badge];
  const frame = element("rect", { x: x - half, y: y - badge, width: 2 * half, height: 2 * badge, rx: badge });
  return element("g", { class: `badge ${kindOf(order)}`, "data-order": order.number }, frame, text(order.number, { x, y: y + 4 }));
}

function drawnOperation(at, box, colour, places, isPale) {
  const { operation, x, y, width, middle } = box;
  const frame = { x, y, width, height: sizes.height, rx: 5 };
  const bars = operation.kind === "RW" ? [x + 4, x + width - 4] : [x + 4];
  return element(
    "g", { class: `op ${{ R: "read", W: "write", RW: "both" }[operation.kind]}${isPale ? " pale" : ""}`, "data-op": at, role: "img", tabindex: -1 },
    element("title", {}, escaped(told(at, operation))),
    element("rect", { ...frame, class: "paper" }), element("rect", { ...frame, class: `face ${colour}` }),
    ...bars.map((it) => element("line", { x1: it, x2: it, y1: y + 4, y2: y + sizes.height - 4, class: `bar ${colour}` })),
    text(at, { x: x + 12, y: middle + 4, class: "place" }), text(labelOf(operation), { x: x + 16 + places, y: middle + 4.5, class: "label" }),
  );
}

function markers() {
  const tip = (kind) => element("marker", { id: `tip-${kind}`, viewBox: "0 0 8 8", refX: 7, refY: 4, markerWidth: 8, markerHeight: 8, markerUnits: "userSpaceOnUse", orient: "auto" }, element("path", { d: "M0 0L8 4L0 8z", class: `tip ${kind}` }));
  return element("defs", {}, ...["order", "joined", "wrong", "chosen", "rest", "seen"].map(tip));
}

// The lanes' names, which stay in sight, and the lanes.
function figureOf(picture, boxes, colours) {
  const { width, places, columns, right, height } = measure(picture, boxes);
  const orders = picture.orders ?? [];
  routed(orders, boxes);
  number(orders, boxes);
  const across = orders.flatMap((order) => [0.25, 0.5, 0.75].map((t) => onCurve(order, t)[0]).concat(order.label[0]));
  const left = Math.min(picture.schedule ? -44 : -4, ...across.map((x) => x - 2 * sizes.badge));
  const whole = Math.max(right, ...across.map((x) => x + 2 * sizes.badge)) - left;
  const svg = (kind, high, ...children) => element("svg", { width: whole, height: high, viewBox: `${left} 0 ${whole} ${high}`, class: kind }, ...children);
  const middles = columns.map((lane, column) => [lane, (width + (picture.orders ? sizes.roomy : sizes.close)[1]) * column + width / 2]);
  const named = new Set(orders.flatMap(namedBy));
  const isPale = (at, box) => (picture.orders ? !named.has(at) : picture.stuck ? box.index > picture.stuck[0].counts[box.lane] : false);
  return element(
    "div", { class: "lanes", tabindex: 0, role: "region", "aria-label": "Lanes" },
    svg("heads", sizes.head, ...middles.map(([lane, x]) => text(`process ${lane}`, { x, y: 20, class: "head" }))),
    svg("body", height, markers(),
      ...middles.map(([lane, x]) => element("line", { x1: x, x2: x, y1: 0, y2: boxes.get(`${lane}.${picture.lanes[lane].length - 1}`).middle, class: "lane" })),
      ...orders.map(drawnOrder),
      ...[...boxes].map(([at, box]) => drawnOperation(at, box, colours(box.operation.cell), places, isPale(at, box))),
      ...(picture.schedule ? [...boxes.values()].map((box) => text(box.row + 1, { x: -12, y: box.middle + 4, class: "row" })) : []),
      ...orders.map(drawnNumber), element("path", { d: "M0 0", class: "seen" })),
  );
}

// The cells' colours, first those of the operations that are named.
function coloursOf(picture, boxes) {
  const named = (picture.orders ?? []).flatMap(namedBy);
  const cells = [...new Set([...[...named, ...boxes.keys()].map((at) => boxes.get(at).operation.cell)])];
  return (cell) => (cells.indexOf(cell) < 24 ? `c${cells.indexOf(cell) % 8} s${Math.floor(cells.indexOf(cell) / 4) % 3}` : "c-other");
}

const swatch = (colour) => element("svg", { width: 8, height: 16, class: "swatch", "aria-hidden": true }, element("line", { x1: 4, x2: 4, y1: 1, y2: 15, class: `bar ${colour}` }));
const choice = (number, key, kind, ...children) => element("li", {}, element("div", { class: `choice ${kind}`, role: "button", tabindex: 0, "aria-pressed": false, [key]: number }, ...children));
const code = (words) => element("code", {}, escaped(words));

function orderLine(order) {
  const [before, between] = SAID[order.sign];
  const said = `${before}${order.sign.startsWith("-") ? "" : order.start}${between}${order.end}`;
  const head = order.isWrong ? `a contradiction: ${said}` : said;
  const rests = order.rests.length > 0 ? `, by order ${order.rests.join(", ")}` : "";
  const why = order.rule === "after-all" && order.start === order.end ? NOTHING_LEFT : RULES[order.rule];
  const by = order.by ? ` (${order.by})` : "";
  const words = [element("strong", {}, head), "<br/>", `${why}${by}${rests} `, element("span", { class: "reason" }, order.rule)];
  return choice(order.number, "data-order", kindOf(order), element("span", { class: "number" }, order.number), element("span", {}, ...words));
}

function stuckLine({ counts, held }, number, picture) {
  const next = counts.flatMap((count, process) => (count < picture.lanes[process].length ? [[`${process}.${count}`, picture.lanes[process][count]]] : []));
  const cells = picture.cells.map(({ name }) => name);
  const reasons = next.map(([at, operation]) => `${at} (${labelOf(operation)}) can't, since ${operation.cell} holds ${held[cells.indexOf(operation.cell)]}`);
  const done = counts.reduce((one, other) => one + other, 0);
  const words = [element("strong", {}, `After ${done} operations`), "<br/>", escaped(`${reasons.join("; ")}.`)];
  return choice(number, "data-stuck", "", element("span", { class: "number" }, number + 1), element("span", {}, ...words));
}

function walkPanel(picture, steps, first, colours) {
  const rows = picture.cells.map(({ name }, at) => element("tr", {}, element("th", { scope: "row" }, swatch(colours(name)), escaped(name)), element("td", { "data-cell": at }, escaped(first[at]))));
  return [
    element("label", { for: "walk" }, 'After <output id="step">0</output> of ', steps.length, " operations"),
    `<input type="range" id="walk" min="0" max="${steps.length}" value="0" step="1"/>`,
    element("p", { id: "done", "aria-live": "polite" }, "Nothing is done yet."),
    element("table", {}, element("caption", {}, "What the cells hold"), element("tbody", {}, ...rows)),
  ].join("");
}

// Each operation of a schedule: where it is, its cell, what it leaves there, and which one it saw.
function stepsData(picture, boxes) {
  const last = new Map(); // a cell may be named as what each object has
  const cells = picture.cells.map(({ name }) => name);
  return stepsOf(picture.schedule).map((at) => {
    const { kind, cell, old, fresh } = boxes.get(at).operation;
    const saw = kind === "W" ? "" : (last.get(cell) ?? "first");
    if (kind !== "R") last.set(cell, at);
    return [at, cells.indexOf(cell), fresh ?? old, saw];
  });
}

function explained(picture, boxes, colours) {
  if (picture.orders) {
    const cases = picture.orders.some(({ rule }) => rule === "assumed") ? " (within a case: in each where what it supposes is so)" : "";
    const orders = picture.orders.map((order) => ({ ops: namedBy(order), rests: order.rests }));
    return { data: { orders }, words: `No interleaving explains it: each order of the list holds in every legal schedule${cases}, with those of the processes, and the last one can't.`, panel: element("ol", { class: "orders", start: 0 }, ...picture.orders.map(orderLine)) };
  }
  if (picture.stuck) {
    const list = element("ol", { class: "orders" }, ...picture.stuck.map((it, at) => stuckLine(it, at, picture)));
    return { data: { stuck: picture.stuck.map(({ counts }) => counts) }, words: `No interleaving explains it: ${picture.situations} situations can be reached, and in none of them all operations are done.`, panel: `<p>As far as one gets:</p>${list}` };
  }
  if (!picture.schedule) return { data: {}, words: "Nothing is known of it within its budget: no schedule was proposed, and no short refutation was found.", panel: "" };
  const steps = stepsData(picture, boxes);
  const first = picture.cells.map(({ name, first: held }) => (Object.hasOwn(picture.fixed, name) ? picture.fixed[name] : held));
  const fixed = Object.entries(picture.fixed).map(([cell, value]) => `${cell} = ${value}`);
  const unset = fixed.length > 0 ? ` What wasn't known at first must have been ${fixed.join(", ")}.` : "";
  return { data: { steps, first }, words: `The ${steps.length} operations stand in the order of a legal schedule: each read finds what was written last.${unset}`, panel: walkPanel(picture, steps, first, colours) };
}

function legendOf(picture, boxes, colours) {
  const used = new Set([...boxes.values()].map((box) => box.operation.cell));
  const cells = picture.cells.filter(({ name }) => used.has(name)).map(({ name, first }) => element("li", {}, swatch(colours(name)), code(name), ` held ${escaped(first)}`));
  const joined = (picture.orders ?? []).filter((it) => kindOf(it) === "joined").length;
  const isChecked = joined <= sizes.joined ? ' checked="checked"' : "";
  const kinds = "<li><code>R</code> read, <code>W</code> write, <code>RW</code> both in one step</li>";
  return element("figcaption", {}, element("ul", { class: "legend" }, ...cells, kinds), joined > 0 ? `<label><input type="checkbox" id="derived"${isChecked}/> joined orders too (${joined})</label>` : "");
}

// The picture as markup, and what it is pointed at and walked through by; no figure where there is nothing, or too much, to draw.
function drawn(picture) {
  const boxes = placed(picture);
  const colours = coloursOf(picture, boxes);
  const { data, words, panel } = explained(picture, boxes, colours);
  const head = [
    element("h2", { class: picture.verdict }, element("span", { class: "sign", "aria-hidden": true }, SIGNS[picture.verdict]), element("span", {}, "Trace ", code(picture.trace), ` is ${picture.verdict}`)),
    element("p", { class: "words" }, escaped(words)),
    element("p", { class: "facts" }, `As line ${picture.line} asks: `, code(picture.text)),
  ].join("");
  if (boxes.size === 0) return { html: head };
  if (boxes.size > MOST_DRAWN) return { html: head + element("p", {}, `It has ${boxes.size} operations. This page draws ${MOST_DRAWN}; tools/picture draws more.`) };
  const figure = element("figure", {}, legendOf(picture, boxes, colours), figureOf(picture, boxes, colours));
  return { html: head + element("main", { class: data.steps ? "walk" : "" }, figure, element("section", { class: "panel", "aria-label": "Why" }, panel)), data };
}

function draw(root, picture) {
  const { html, data } = drawn(picture);
  root.innerHTML = html;
  if (data) enliven(data);
}
