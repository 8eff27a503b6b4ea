"use strict";
const find = (id) => document.getElementById(id);
const examples = JSON.parse(find("examples").textContent);
const engine = URL.createObjectURL(new Blob([find("engine").textContent], { type: "text/javascript" }));
const PAUSE = 120; // milliseconds without a key before a script is run
const LONGEST = 1000; // characters of a reply that are shown
let monitor = null; // the compiled module
let worker = null;
let waiting = null;
let chosen = null; // the line of the question that is drawn, or none for the last one

function say(words) {
  find("said").textContent = words;
}

// Runs the script from its first line. A run that isn't done when another one is asked for is ended.
function run() {
  clearTimeout(waiting);
  if (!monitor) return;
  worker?.terminate();
  worker = new Worker(engine);
  say("running ..");
  worker.onmessage = ({ data }) => {
    worker.terminate();
    worker = null;
    if (data.fault) return say(data.fault);
    say("");
    show(data);
  };
  worker.postMessage({ module: monitor, script: find("script").value, chosen });
}

function show({ replies, asked, picture }) {
  const rows = replies.map((reply, at) => {
    const said = reply.slice(reply.indexOf(" ") + 1).split(" ")[0];
    const row = document.createElement("li");
    row.dataset.line = at + 1;
    row.className = [reply === "" ? "blank" : said, picture?.line === at + 1 ? "drawn" : ""].join(" ");
    const inside = document.createElement(asked.includes(at) ? "button" : "span");
    inside.textContent = inside.title = reply.slice(0, LONGEST);
    inside.onclick = asked.includes(at) ? () => ((chosen = at), run()) : null;
    row.append(inside);
    return row;
  });
  find("replies").replaceChildren(...rows);
  follow();
  if (picture) draw(find("picture"), picture);
  else find("picture").textContent = "No question was answered: write a line as “a ask t”.";
}

// Keeps the replies beside their lines; where they stand below the script, the answer that is drawn is in sight.
function follow() {
  const [script, replies] = [find("script"), find("replies")];
  const drawn = replies.querySelector(".drawn");
  const isBeside = script.offsetTop === replies.offsetTop;
  replies.scrollTop = isBeside ? script.scrollTop : drawn ? drawn.offsetTop - replies.offsetTop - replies.clientHeight / 2 : 0;
}

function take(name) {
  find("example").value = name;
  find("script").value = examples[name];
  find("script").scrollTop = 0;
  chosen = null;
  run();
}

find("script").addEventListener("scroll", follow);
find("script").addEventListener("input", () => {
  chosen = null;
  clearTimeout(waiting);
  waiting = setTimeout(run, PAUSE);
});
find("example").addEventListener("change", () => take(find("example").value));

async function begin() {
  const bytes = Uint8Array.from(atob(find("module").textContent.trim()), (it) => it.charCodeAt(0));
  try {
    monitor = await WebAssembly.compile(bytes);
  } catch (fault) {
    return say(`This browser doesn't run WebAssembly with a memory of 64 bits, as Chromium does from 133 on: ${fault}`);
  }
  take(Object.hasOwn(examples, location.hash.slice(1)) ? location.hash.slice(1) : find("example").value);
}
begin();
