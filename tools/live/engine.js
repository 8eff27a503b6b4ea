"use strict";
// The monitor in a page: a script goes in, the replies come out, and what a picture of one question shows.
const QUESTIONS = ["ask", "why", "cycle"];
const NO_ROOM = 1;
const MOST_STUCK = 12;
const words = (text) => text.trim().split(/[ \t]+/);

class Monitor {
  constructor(module) {
    this.made = new WebAssembly.Instance(module, {}).exports;
    this.handle = this.made.page_alloc(16n);
    this.needed = this.made.page_alloc(8n);
    this.bytes(this.handle, 16).fill(0);
    this.grow(256);
    if (this.made.scm_make(this.handle) !== 0) throw new Error("no memory for a monitor");
  }

  bytes(at, length) {
    return new Uint8Array(this.made.memory.buffer, Number(at), length);
  }

  grow(room) {
    this.room = room;
    this.out = this.made.page_alloc(BigInt(room));
    if (this.out === 0n) throw new Error("no memory for the reply");
  }

  length() {
    return Number(new DataView(this.made.memory.buffer).getBigUint64(Number(this.needed), true));
  }

  // Its memory ends with it, and it is made anew for each script: so what it is passed is never freed.
  reply(line) {
    const bytes = new TextEncoder().encode(line);
    const at = this.made.page_alloc(BigInt(bytes.length));
    if (at === 0n) throw new Error("no memory for the line");
    this.bytes(at, bytes.length).set(bytes);
    let code = this.made.scm_line(this.handle, at, BigInt(bytes.length), this.out, BigInt(this.room), this.needed);
    if (code === NO_ROOM) {
      this.grow(this.length());
      code = this.made.scm_text(this.handle, this.out, BigInt(this.room), this.needed);
    }
    if (code !== 0) throw new Error("no memory for the reply");
    return new TextDecoder().decode(this.bytes(this.out, this.length())).trimEnd();
  }

  run(lines) {
    return lines.map((line) => this.reply(line));
  }
}

function linesOf(script) {
  const lines = script.split("\n");
  if (lines.at(-1) === "") lines.pop();
  return lines;
}

const said = (reply) => reply.slice(reply.indexOf(" ") + 1);
const isQuestion = (line, reply) => reply !== "" && QUESTIONS.includes(words(line)[1]) && !said(reply).startsWith("refused");

// The replies to a script, one a line, and its question on this line, or else its last one, as a picture shows it.
function answers(module, script, chosen) {
  const lines = linesOf(script);
  const replies = new Monitor(module).run(lines);
  const asked = [...lines.keys()].filter((at) => isQuestion(lines[at], replies[at]));
  const at = asked.includes(chosen) ? chosen : asked.at(-1);
  return { replies, asked, picture: at === undefined ? null : pictureOf(module, lines, replies, at) };
}

// The last line before this one that makes this call about the trace and has this reply.
function lastCall(lines, replies, before, trace, verb, reply) {
  for (let at = before - 1; at >= 0; at--) {
    const [, call, name] = words(lines[at]);
    if (call === verb && name === trace && said(replies[at]) === reply) return at;
  }
  throw new Error(`no line makes the call ${verb} ${trace}`);
}

// A number, or `?`, as a cell of this width has it.
function stored(text, width) {
  if (text === "?") return text;
  const size = BigInt(text.replace("-", ""));
  return String(BigInt.asUintN(width === "d" ? 64 : 32, text.startsWith("-") ? -size : size));
}

function operationsOf(reply) {
  const found = words(reply);
  const operations = [];
  for (let at = 3; at < found.length; at += operations.at(-1).kind === "RW" ? 4 : 3) {
    const [kind, cell, one, two] = found.slice(at, at + 4);
    operations.push({ kind, cell, old: kind === "W" ? undefined : one, fresh: { W: one, RW: two }[kind] });
  }
  return operations;
}

function pictureOf(module, lines, replies, at) {
  const [session, , trace, mark] = words(lines[at]);
  const opened = lastCall(lines, replies, at, trace, "open", "ok");
  const [, , , processes, , ...declared] = words(lines[opened]);
  const marked = mark === undefined ? at : lastCall(lines, replies, at, trace, "mark", `ok ${Number(mark)}`) + 1;
  const then = new Monitor(module);
  then.run(lines.slice(0, marked));
  const shown = [...Array(Number(processes)).keys()].map((process) => operationsOf(then.reply(`${session} show ${trace} ${process}`)));
  const now = new Monitor(module);
  now.run(lines.slice(0, at));
  const ask = (verb) => said(now.reply([session, verb, trace, mark].filter((it) => it !== undefined).join(" ")));
  const cells = declared.map((it) => {
    const [name, width, first] = it.split(/[:=]/);
    return { name, first: stored(first, width) };
  });
  return { trace, line: at + 1, text: lines[at].trim(), cells, lanes: shown, ...verdictOf(ask) };
}

// The verdict with what explains it: a schedule, the orders of a short refutation, or the situations that all are stuck in.
function verdictOf(ask) {
  const answer = ask("ask");
  if (answer.startsWith("consistent")) return { verdict: "consistent", ...scheduleOf(words(answer)) };
  const cycle = ask("cycle");
  if (cycle.startsWith("cycle")) return { verdict: "inconsistent", orders: words(cycle).slice(2).map(orderOf) };
  return answer === "inconsistent" ? { verdict: "inconsistent", ...stuckOf(ask("why")) } : { verdict: "undecided" };
}

function scheduleOf([, count, ...found]) {
  return { schedule: found.slice(0, Number(count)).map(Number), fixed: Object.fromEntries(found.slice(Number(count) + 1).map((it) => it.split("="))) };
}

function orderOf(word, number) {
  const [, from, sign, end, rule, by, hints] = word.match(/^(\d+\.\d+|-)([<~/!])(\d+\.\d+):([a-z-]+)(?::(\d+\.\d+))?((?::\d+)*)$/);
  const isFirst = from === "-";
  const rests = hints.split(":").slice(1).map(Number);
  return { number, start: isFirst ? end : from, end, sign: isFirst ? `-${sign}` : sign, rule, by, rests, isWrong: !isFirst && sign !== "!" && isUpTo(end, from) };
}

// Whether both are of one process, and the one is the other or stands before it.
function isUpTo(one, other) {
  const [[process, place], [otherProcess, otherPlace]] = [one, other].map((at) => at.split(".").map(Number));
  return process === otherProcess && place <= otherPlace;
}

// The situations with the most operations: none leads on, since a longer one would be in the list.
function stuckOf(why) {
  const situations = words(why).slice(2).map((it) => {
    const [counts, held] = it.split("/");
    return { counts: counts.split(",").map(Number), held: held.split(",") };
  });
  const sum = ({ counts }) => counts.reduce((one, other) => one + other, 0);
  const most = situations.reduce((best, it) => Math.max(best, sum(it)), 0);
  return { situations: situations.length, stuck: situations.filter((it) => sum(it) === most).slice(0, MOST_STUCK) };
}

if (typeof self !== "undefined" && typeof document === "undefined") {
  self.onmessage = ({ data: { module, script, chosen } }) => {
    try {
      self.postMessage(answers(module, script, chosen));
    } catch (fault) {
      self.postMessage({ fault: String(fault) });
    }
  };
}
