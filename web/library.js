"use strict";
// The library in JavaScript: calls of the module, reports as objects, game files, and workers. The page
// and council.mjs have this file.

/** The columns of a member's line after its weight: all that knows where they are. */
const GROUPS = [
  {line: "minimal", column: "coalitions", title: "Coalitions", what: "minimal winning coalitions", indices: [
    {name: "deegan_packel", title: "Deegan-Packel", legend: "Deegan-Packel index", light: "#33557f", dark: "#6f9fe0"},
    {name: "public_good", title: "Public good", legend: "public good index", light: "#c06a2b", dark: "#ee9a57"},
  ]},
  {line: "winning", column: "swings", title: "Swings", what: "winning coalitions", indices: [
    {name: "banzhaf", title: "Banzhaf", legend: "Banzhaf index", light: "#a8264d", dark: "#f0577f"},
    {name: "penrose", title: "Penrose", legend: "Penrose's measure (not a share)", light: "#3b3bc0", dark: "#7a7aff"},
    {name: "shapley_shubik", title: "Shapley-Shubik", legend: "Shapley-Shubik index", light: "#1a7f94", dark: "#45c4d8"},
    {name: "power_to_prevent", title: "Coleman, to prevent", legend: "Coleman's power to prevent (not a share)", light: "#6b7a1f", dark: "#a9b83e"},
    {name: "power_to_initiate", title: "Coleman, to initiate", legend: "Coleman's power to initiate (not a share)", light: "#7a4a2a", dark: "#c08a60"},
  ]},
];
const INDICES = GROUPS.flatMap(it => it.indices);
const LIMITS = {members: 40, rules: 4, ways: 6, weight: 10n ** 12n, name: 64, title: 200, file: 65536, coalitions: 4000000};

/** A pattern of a fault, and what it means. */
const EXPLANATIONS = [
  [/longer than/, "A game file has at most 65,536 bytes."],
  [/not TOML/, "A game file is TOML, or one line such as [51; 50, 49, 1]. Weights have no thousands separators."],
  [/unknown key/, "The keys are title, quota, quotas, ways and member, and for a member name, weight and weights."],
  [/bad rules/, "Give one quota and a weight for each member, or quotas and weights of 1 to 4 rules."],
  [/bad ways/, "Give 1 to 6 ways. Each names rules, once each; each rule is in some way, and no way has all rules of another."],
  [/bad member list/, "A game has 1 to 40 members. For a parliament, take parties instead of persons."],
  [/bad (title|name)/, "A name has 1 to 64 bytes, a title at most 200, and neither has line breaks."],
  [/repeats a name/, "Each member has a name of its own."],
  [/bad weight/, "A weight is a whole number from 0 to 1,000,000,000,000."],
  [/bad quota|quota out of range/, "A quota is a whole number, at least 1, and at most the total of the weights."],
  [/bad bracket text/, "Write the quota, a semicolon, and the weights with commas between them: [51; 50, 49, 1]."],
  [/too many states/, "Members with many different weights under several rules make too many states. Ask for fewer indices, or merge members that vote alike."],
  [/too many minimal/, "There are more minimal winning coalitions than may be listed, or too many states to count them."],
  [/out of memory/, "This game takes more memory than a browser gives."],
];

/** A game that was refused: the fault in words, the member and the rule that it is of, and what would be right. */
class Refused extends Error {
  constructor(status, fault, rule = null) {
    const member = /member (\d+)/.exec(fault);
    const explanation = EXPLANATIONS.find(([pattern]) => pattern.test(fault))?.[1] ?? "";
    super(`${fault}${explanation && `. ${explanation}`}`);
    Object.assign(this, {name: "Refused", status, fault, rule, member: member && Number(member[1]), explanation});
  }
}

/** An instance of the module, whose memory holds what a call reads and writes. */
class Instance {
  constructor(module) {
    this.calls = new WebAssembly.Instance(module).exports;
  }

  get version() {
    return [10000, 100, 1].map(it => Math.floor(this.calls.council_version() / it) % 100).join(".");
  }

  /** Returns the status and the text of a report, of which it keeps as much as fits. */
  call(game, options, room) {
    // the words of struct council_options of council.h from size to only_swings, the length of the text, the text, and the game
    const flags = ["tally", "list", "sizes", "notation", "swings", "only_swings"].map(it => options[it] ? 1n : 0n);
    const words = BigUint64Array.of(80n, BigInt(options.most ?? 0), 0n, 0n, ...flags, 0n), text = words.byteLength;
    const place = this.calls.malloc(BigInt(text + room + game.length)), at = number => place + BigInt(number);
    if (!place) return {status: 5, text: "out of memory", length: 0};
    try {
      const write = (where, bytes) => new Uint8Array(this.calls.memory.buffer).set(bytes, Number(at(where)));
      write(0, new Uint8Array(words.buffer));
      write(text + room, game);
      const status = this.calls.council_report_raw(at(text + room), BigInt(game.length), place, 10n, at(text), BigInt(room), at(80));
      const length = Number(new DataView(this.calls.memory.buffer).getBigUint64(Number(at(80)), true));
      const bytes = new Uint8Array(this.calls.memory.buffer, Number(at(text)), Math.min(length, room));
      return {status, length, text: new TextDecoder("utf-8", {ignoreBOM: true}).decode(bytes)};
    } finally {
      this.calls.free(place);
    }
  }

  /** Returns the status and the text of a report of the bytes or the text of a game file; of at most `room` bytes, if that is given. */
  report(game, options = {}, room = 0) {
    const bytes = typeof game === "string" ? new TextEncoder().encode(game) : game;
    const first = this.call(bytes, options, room || 1 << 17);
    return room || first.length <= 1 << 17 ? first : this.call(bytes, options, first.length);
  }
}

/** A fraction: its top and bottom as BigInt. It prints as `top/bottom`. */
class Fraction {
  constructor(top, bottom) {
    Object.assign(this, {top: BigInt(top), bottom: BigInt(bottom)});
  }

  toString() { return `${this.top}/${this.bottom}`; }

  /** Returns the nearest double. */
  valueOf() {
    if (!this.top || !this.bottom) return this.bottom ? 0 : NaN;
    const shift = Math.max(0, this.bottom.toString(2).length - this.top.toString(2).length + 66), top = this.top << BigInt(shift);
    return Number(top / this.bottom | (top % this.bottom ? 1n : 0n)) / 2 ** shift;
  }

  /** Returns decimals, rounded half up. */
  toFixed(places) {
    const power = 10n ** BigInt(places), digits = String((2n * this.top * power + this.bottom) / (2n * this.bottom)).padStart(places + 1, "0");
    return places ? `${digits.slice(0, -places)}.${digits.slice(-places)}` : digits;
  }
}

/** Returns the coalition of the fields of a line. */
const readCoalition = ([size, weight, ...names]) => ({size: Number(size), weights: weight.split("/").map(Number), members: names});

/** Returns the report in a text: an object with the columns that the Python package has too. */
function readReport(text) {
  const report = {title: "", quotas: [], totals: [], ways: [], members: [], text}, lines = new Set();
  for (const line of text.split("\n")) {
    const [kind, ...fields] = line.split("\t");
    lines.add(kind);
    if (kind === "title") report.title = fields[0];
    else if (kind === "quota" || kind === "total") report[`${kind}s`] = fields[0].split("/").map(Number);
    else if (kind === "ways") report.ways = fields[0].split(" ").map(it => it.split(",").map(Number));
    else if (kind === "minimal" || kind === "winning") report[kind] = Number(fields[0]);
    else if (kind === "act") report.power_to_act = Number(report.power_to_act_exact = new Fraction(...fields[0].split("/")));
    else if (kind === "coalition") (report.coalitions ??= []).push(readCoalition(fields));
    else if (kind === "size") (report.sizes ??= []).push(fields.map(Number));
    else if (kind === "member") report.members.push(readMember(fields, lines));
  }
  if (!report.ways.length) report.ways = [report.quotas.map((_, rule) => rule + 1)];
  return report;
}

function readMember([name, weight, ...fields], lines) {
  const member = {name, weights: weight.split("/").map(Number)};
  for (const group of GROUPS.filter(it => lines.has(it.line))) {
    member[group.column] = Number(fields.shift());
    for (const {name: index} of group.indices) {
      member[index] = Number(member[`${index}_exact`] = new Fraction(...fields.shift().split("/")));
      fields.shift();
    }
  }
  return member;
}

/** Returns the text of a game file. It checks nothing: that is for the library. */
function writeGame({title = "", quotas, weights, ways, names, comments = []}) {
  const quote = text => JSON.stringify(String(text)).replaceAll("\x7f", "\\u007f");
  const rules = quotas.length > 1 || ways?.length > 1, lines = comments.map(it => `# ${it}`);
  if (title) lines.push(`title = ${quote(title)}`);
  lines.push(rules ? `quotas = [${quotas.join(", ")}]` : `quota = ${quotas[0]}`);
  if (ways?.length > 1) lines.push(`ways = [${ways.map(it => `[${it.join(", ")}]`).join(", ")}]`);
  names.forEach((name, member) => {
    const its = weights.map(it => it[member]);
    lines.push("", "[[member]]", `name = ${quote(name)}`, rules ? `weights = [${its.join(", ")}]` : `weight = ${its[0]}`);
  });
  return lines.join("\n") + "\n";
}

/** Answers the requests of another thread: `post` sends it a message. */
function answer(post) {
  let module, instance;
  return message => {
    if (message.module) return void (module = message.module);
    try {
      instance ??= new Instance(module);
      post({...instance.report(message.game, message.options, message.room), version: instance.version});
      // (memory of a module is never given back but with the module)
      if (instance.calls.memory.buffer.byteLength > 1 << 28) instance = null;
    } catch (error) {
      instance = null;
      post({status: 5, text: error instanceof RangeError ? "out of memory" : `the module stopped: ${error.message}`, length: 0});
    }
  };
}

/** Starts a worker for a module, of this script's own text, which calls `hear` with each reply; in Node by its threads. */
function startWorker(module, hear, threads) {
  const source = `"use strict"; ${Instance} ${answer} const port = ${threads ? 'require("node:worker_threads").parentPort' : "self"};
    const hear = answer(reply => port.postMessage(reply)); port.${threads ? 'on("message", hear)' : "onmessage = it => hear(it.data)"};`;
  const url = threads ? "" : URL.createObjectURL(new Blob([source], {type: "text/javascript"}));
  const worker = threads ? new threads.Worker(source, {eval: true}) : new Worker(url);
  if (threads) worker.on("message", hear);
  else worker.onmessage = it => hear(it.data);
  worker.postMessage({module});
  return {worker, end: () => (worker.terminate(), url && URL.revokeObjectURL(url))};
}

/** Calls in a worker, one after the other. `start` makes a worker that calls a function with each reply. */
class Calls {
  constructor(start) {
    Object.assign(this, {start, worker: null, waiting: []});
  }

  /** Returns a promise of the reply to a request, until a signal stops it. */
  async ask(request, signal) {
    signal?.throwIfAborted();
    const call = {request}, stop = () => this.stop(call, signal.reason);
    const reply = new Promise((resolve, reject) => Object.assign(call, {resolve, reject}));
    signal?.addEventListener("abort", stop);
    if (this.waiting.push(call) === 1) this.next();
    return reply.finally(() => signal?.removeEventListener("abort", stop));
  }

  /** Sends the first request, if there is one. */
  next() {
    const its = this.worker ??= this.start(reply => {
      if (its !== this.worker) return;
      this.waiting.shift().resolve(reply);
      this.next();
    });
    // (a worker that rests keeps no process of Node)
    its.worker[this.waiting.length ? "ref" : "unref"]?.();
    if (this.waiting.length) its.worker.postMessage(this.waiting[0].request);
  }

  /** Stops a call that waits; the worker ends if it is the first one. */
  stop(call, reason) {
    const at = this.waiting.indexOf(call);
    if (at < 0) return;
    this.waiting.splice(at, 1);
    call.reject(reason);
    if (at) return;
    this.worker.end();
    this.worker = null;
    this.next();
  }
}
