"use strict";
// Lets the figure on the page be pointed at and walked through, by what it was drawn from.
function enliven(data) {
  const lanes = document.querySelector(".lanes");
  const choices = [...document.querySelectorAll(".choice")];
  const all = (query, root = lanes) => [...root.querySelectorAll(query)];
  const op = (at) => lanes.querySelector(`[data-op="${at}"]`);
  let pinned = null;

  // Moves the lanes, and nothing else of the page, so that an operation is in sight.
  function reveal(at) {
    const it = op(at)?.getBoundingClientRect();
    if (!it) return;
    const frame = lanes.getBoundingClientRect();
    const top = frame.top + lanes.querySelector(".heads").getBoundingClientRect().height;
    const by = (low, high, from, to) => (low < from ? low - from - 12 : high > to ? high - to + 24 : 0);
    lanes.scrollBy(by(it.left, it.right, frame.left, frame.right), by(it.top, it.bottom, top, frame.bottom));
  }

  // Marks an order and what it rests on, in the figure and in the list.
  function showOrder(number) {
    const order = data.orders[number];
    lanes.classList.toggle("choosing", Boolean(order));
    for (const it of [...all("[data-order]"), ...choices]) {
      it.classList.toggle("chosen", Boolean(order) && Number(it.dataset.order) === number);
      it.classList.toggle("rest", Boolean(order) && order.rests.includes(Number(it.dataset.order)));
    }
    for (const it of all(".op")) it.classList.toggle("on", Boolean(order) && order.ops.includes(it.dataset.op));
  }

  // Marks what is done in a situation where all are stuck, and what can't be done next.
  function showStuck(number) {
    const counts = data.stuck[number ?? 0];
    for (const it of all(".op")) {
      const [process, place] = it.dataset.op.split(".").map(Number);
      it.classList.toggle("pale", place > counts[process]);
      it.classList.toggle("stuck", place === counts[process]);
    }
  }

  const show = (choice) => {
    if (data.orders) showOrder(choice ? Number(choice.dataset.order) : null);
    if (data.stuck) showStuck(choice ? Number(choice.dataset.stuck) : null);
  };

  function pin(choice) {
    pinned = choice === pinned ? null : choice;
    for (const it of choices) it.setAttribute("aria-pressed", String(it === pinned));
    show(pinned);
    if (pinned && data.orders) data.orders[Number(pinned.dataset.order)].ops.slice().reverse().forEach(reveal);
  }

  choices.forEach((choice, number) => {
    choice.addEventListener("mouseenter", () => show(choice));
    choice.addEventListener("mouseleave", () => show(pinned));
    choice.addEventListener("focus", () => show(choice));
    choice.addEventListener("blur", () => show(pinned));
    choice.addEventListener("click", () => pin(choice));
    choice.addEventListener("keydown", (event) => {
      const step = { ArrowDown: 1, ArrowUp: -1 }[event.key];
      if (step) choices[number + step]?.focus();
      if (event.key === "Enter" || event.key === " ") pin(choice);
      if (step || event.key === " ") event.preventDefault();
    });
  });
  document.onkeydown = (event) => {
    if (event.key === "Escape" && pinned) pin(pinned);
  };

  // An arrow to a read from the write that it saw.
  const seenBy = new Map((data.steps ?? []).map(([at, , , from]) => [at, from]));
  function showSeen(at) {
    const path = lanes.querySelector(".seen:not(.tip)");
    const from = seenBy.get(at);
    const [a, b] = [from, at].map((it) => (it ? op(it)?.querySelector(".face") : null));
    path.classList.toggle("shown", Boolean(a && b));
    if (!a || !b) return;
    const [x, y, width, height] = ["x", "y", "width", "height"].map((name) => [a, b].map((it) => Number(it.getAttribute(name))));
    const right = x[1] > x[0] ? 1 : 0;
    const left = x[1] < x[0] ? 1 : 0;
    const start = x[0] + (left ? 0 : width[0]);
    const end = right ? x[1] - 3 : x[1] + width[1] + 3;
    const bend = right || left ? (end - start) / 2 : 36;
    path.setAttribute("d", `M${start} ${y[0] + height[0] / 2}C${start + bend} ${y[0] + height[0] / 2} ${right || left ? end - bend : end + bend} ${y[1] + height[1] / 2} ${end} ${y[1] + height[1] / 2}`);
  }

  // Walks through a schedule: what is done so far, and what the cells hold then.
  const walk = document.getElementById("walk");
  function step() {
    const count = Number(walk.value);
    const last = data.steps[count - 1];
    if (last && !op(last[0])) drawAll();
    const held = [...data.first];
    for (const [, cell, value] of data.steps.slice(0, count)) held[cell] = value;
    document.getElementById("step").value = count;
    document.getElementById("done").textContent = last ? told(last) : "Nothing is done yet.";
    for (const it of all("[data-cell]", document)) {
      it.textContent = held[it.dataset.cell];
      it.classList.toggle("fresh", Boolean(last) && Number(it.dataset.cell) === last[1]);
    }
    const done = new Set(data.steps.slice(0, count).map(([at]) => at));
    for (const it of all(".op")) {
      it.classList.toggle("pale", count > 0 && !done.has(it.dataset.op));
      it.classList.toggle("now", Boolean(last) && it.dataset.op === last[0]);
    }
    if (last) reveal(last[0]);
    showSeen(last?.[0]);
  }

  function told([at, , , from]) {
    const what = op(at)?.querySelector("title").textContent ?? at;
    if (from === "") return `${what}.`;
    return from === "first" ? `${what}: what was there at first.` : `${what}: written by ${from}.`;
  }

  // Lets one operation at a time be reached by Tab, and the others by the arrow keys.
  function rove() {
    const ops = all(".op");
    const corner = (it) => ["x", "y"].map((name) => Number(it.querySelector(".face").getAttribute(name)));
    const go = (it, key) => {
      const [x, y] = corner(it);
      const beside = ops.filter((other) => {
        const [a, b] = corner(other);
        return { ArrowUp: a === x && b < y, ArrowDown: a === x && b > y, ArrowLeft: a < x, ArrowRight: a > x }[key];
      });
      const far = (other) => Math.abs(corner(other)[0] - x) * 100 + Math.abs(corner(other)[1] - y);
      beside.sort((one, other) => far(one) - far(other))[0]?.focus();
    };
    ops.forEach((it, number) => {
      it.tabIndex = number === 0 ? 0 : -1;
      const near = (on) => choices.forEach((choice) => choice.classList.toggle("near", on && Boolean(data.orders?.[choice.dataset.order]?.ops.includes(it.dataset.op))));
      const enter = () => (near(true), showSeen(it.dataset.op));
      const leave = () => (near(false), showSeen(walk ? data.steps[walk.value - 1]?.[0] : null));
      it.addEventListener("mouseenter", enter);
      it.addEventListener("mouseleave", leave);
      it.addEventListener("focus", () => (all('.op[tabindex="0"]').forEach((other) => (other.tabIndex = -1)), (it.tabIndex = 0), enter()));
      it.addEventListener("blur", leave);
      it.addEventListener("keydown", (event) => {
        if (!event.key.startsWith("Arrow")) return;
        event.preventDefault();
        go(it, event.key);
      });
    });
  }

  const whole = document.getElementById("whole");
  function drawAll() {
    if (!whole?.isConnected) return;
    lanes.replaceChildren(document.getElementById("all").content);
    whole.remove();
    rove();
    show(pinned);
  }
  whole?.addEventListener("click", drawAll);
  walk?.addEventListener("input", step);
  rove();
  show(null);
}
