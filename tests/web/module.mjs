// The module in Node, beside the program:
//
//     node module.mjs FOLDER PROGRAM GAMES FILE..
//
// FOLDER has council.mjs. It prints `ok NAME` or `FAILED NAME: why` for each test.
import {spawnSync} from "node:child_process";
import {readFileSync} from "node:fs";
const [folder, program, games, ...files] = process.argv.slice(2);
const council = await import(`${folder}/council.mjs`);
// what the module does not export: an instance, whose memory a test can refuse
const source = readFileSync(`${folder}/council.mjs`, "utf8");
const {MODULE, Instance} = new Function(`${source.split("\n// The module for Node")[0].replace('"use strict";', "")}; return {MODULE, Instance};`)();
const compiled = await WebAssembly.compile(Buffer.from(MODULE, "base64"));

const check = (name, why) => console.log(why ? `FAILED the module: ${name}: ${String(why).slice(0, 300)}` : `ok the module: ${name}`);
const throws = async promise => promise.then(() => null, error => error);
let seed = 7;
const below = number => (seed = (seed * 1103515245 + 12345) % 2 ** 31) % 65536 % number;
const WAYS = [[], [[1], [2]], [[1, 2], [2, 3]], [[1, 2], [3, 4], [2, 3]]];
const NAMES = ["A", "B'", 'the "C"', "Åland", "日本", "<script>", "a\\b", "x=1", "#", "[q]", "\u202e", "\x80"];

/** A game file of up to 14 members under 1 to 4 rules, at times with ways; some have a fault. */
function randomGame() {
  const rules = 1 + below(4), members = 1 + below(14), most = [1, 4, 100, 10 ** 12][below(4)];
  const weights = Array.from({length: rules}, () => Array.from({length: members}, () => most > 1000 && below(3) ? most - below(3) : below(Math.min(most, 65535) + 1)));
  const quotas = weights.map(its => {
    const total = its.reduce((sum, it) => sum + it, 0);
    return [Math.max(1, total), Math.floor(total / 2) + 1, 1 + below(Math.min(total, 60000) + 1), Math.ceil(total * 2 / 3) || 1][below(4)];
  });
  const names = Array.from({length: members}, (_, at) => at < NAMES.length ? NAMES[at] : `m ${at}`);
  return council.writeGame({title: below(2) ? 'a "title"' : "", quotas, weights, names, ways: below(2) ? WAYS[rules - 1] : undefined});
}

const OPTIONS = [{}, {swings: true}, {only_swings: true}, {tally: true}, {tally: true, swings: true, sizes: true}, {list: true}, {list: true, swings: true, notation: true, sizes: true}, {most: 5}, {only_swings: true, notation: true}];
const instance = new Instance(compiled), bytes = its => its.calls.memory.buffer.byteLength;

/** What differs between a report of the module and of the program. */
function compare(game, options) {
  const words = Object.entries(options).flatMap(([name, value]) => value === true ? [`--${name.replace("_", "-")}`] : [`--${name}`, String(value)]);
  const wanted = spawnSync(program, [...words, "-"], {input: game, encoding: "utf8", maxBuffer: 1 << 28});
  const {status, text} = instance.report(game, options), told = wanted.status ? wanted.stderr.split("\n")[0].replace("council: ", "") : wanted.stdout;
  return status === wanted.status && text === told ? null : `${words.join(" ")}: status ${status} for ${wanted.status}, ${text.slice(0, 60)} for ${told.slice(0, 60)}`;
}

// (a call says whether a game of many coalitions is counted)
const FILES = [{tally: true, swings: true}, {only_swings: true, notation: true}, {tally: true, sizes: true}, {list: true, most: 5000}];
check(`reports of ${files.length} files`, files.flatMap(file => FILES.map(it => compare(readFileSync(file), it))).find(Boolean));
const random = Array.from({length: Number(games)}, (_, at) => [randomGame(), OPTIONS[at % OPTIONS.length]]);
check(`${games} random games`, random.map(([game, options]) => (why => why && `${why} ${game}`)(compare(game, options))).find(Boolean));
const TEXTS = ["", "[51; 50, 49,, 1]", "[51; 50, 49, 1]", "[4; 2, 2, 2]x", "quota = 3", "quota = 1.5\n", "x = 1", "\ufeffquota = 1\n[[member]]\nname = \"A\"\nweight = 1\n", "a\tb\n", " ".repeat(65537), `[3; ${"1, ".repeat(40)}1]`];
check("texts that are no games", TEXTS.map(it => compare(it, {})).find(Boolean));
const simple = {quotas: 51, weights: [50, 49, 1], swings: true};
const it = await council.report({...simple, names: ["A", "B", "C"], coalitions: true, title: "T"});
check("a report is an object", JSON.stringify([it.title, it.quotas, it.totals, it.ways, it.minimal, it.members[0].weights, it.coalitions.map(it => it.members), String(it.members[0].deegan_packel_exact), it.members[0].public_good, it.members[2].swings])
  === JSON.stringify(["T", [51], [100], [[1]], 2, [50], [["A", "B"], ["A", "C"]], "1/2", 0.5, 1]) ? null : JSON.stringify(it.text));
const exact = it.members[0].shapley_shubik_exact;
check("fractions", typeof exact.top === "bigint" && it.members[0].shapley_shubik === 2 / 3 && exact.toFixed(3) === "0.667" && new council.Fraction(1, 3).valueOf() === 1 / 3 && new council.Fraction(2n ** 90n - 1n, 2n ** 100n).valueOf() === 2 ** -10 ? null : `${exact}`);
check("ways", (await council.report({quotas: [2, 1], weights: [[1, 1, 1], [1, 0, 0]], ways: [[1], [2]]})).minimal === 2 ? null : "their number");
check("a game file", (await council.reportOf(readFileSync(files[0]), {only_swings: true})).text === spawnSync(program, ["--only-swings", files[0]], {encoding: "utf8"}).stdout ? null : "it differs");

const REFUSALS = [[{quotas: 51, weights: [50, 49.5, 1]}, "bad weight of member 2", 2, 1], [{quotas: [1, 1], weights: [[1, 1], [1, 1e13]]}, "bad weight of member 2", 2, 2],
  [{quotas: [1, 9], weights: [[1, 1], [1, 1]]}, "quota out of range", null, 2], [{quotas: 1.5, weights: [1, 1]}, "bad quota", null, 1],
  [{quotas: 1, weights: [1, 1], names: ["A", "A"]}, "member 2 repeats a name", 2], [{quotas: 1, weights: [1, 1], names: ["A"]}, "bad member list"], [{quotas: [1, 1], weights: [1, 1]}, "bad rules"],
  [{quotas: 21, weights: Array(41).fill(1)}, "bad member list"], [{quotas: 12, weights: Array(24).fill(1), most: 1000}, "too many minimal winning coalitions"]];
for (const [game, fault, member = null, rule = null] of REFUSALS) {
  const it = await throws(council.report(game)), status = game.most ? 4 : 3;
  const isSo = it instanceof council.Refused && it.status === status && it.fault === fault && it.member === member && it.rule === rule && it.explanation;
  check(`refused: ${fault}, rule ${rule}`, isSo ? null : JSON.stringify(it) ?? "it was not");
}
// each request for memory refused in turn, and then all is as before
const large = readFileSync(files.find(it => it.endsWith("eu-1995.toml"))), wanted = instance.report(large, {tally: true, swings: true}), its = new Instance(compiled);
const left = its.calls.requests_left.value, view = () => new DataView(its.calls.memory.buffer);
let number = 0, why = null;
for (let status = 5; status && !why; number++) {
  view().setBigUint64(Number(left), BigInt(number), true);
  const reply = its.report(large, {tally: true, swings: true});
  status = reply.status;
  if (status ? status !== 5 || reply.text !== "out of memory" : reply.text !== wanted.text) why = `request ${number}: status ${status}, ${reply.text}`;
}
check("each request for memory refused", why ?? (number < 50 ? `${number} requests` : null));
view().setBigUint64(Number(left), 2n ** 64n - 1n, true);
its.report(large, {tally: true});
const size = bytes(its);
for (let call = 0; call < 1000; call++) its.report("[51; 50, 49, 1]", {swings: true, list: true});
its.report(large, {tally: true});
check("1,000 calls do not grow the memory", bytes(its) === size ? null : `${size} and ${bytes(its)} bytes`);
// a game that takes hours: it is stopped, and the calls beside it are answered
const names = Array.from({length: 40}, (_, at) => `${at}`), hard = council.writeGame({names, quotas: [10 ** 11 * 9, 10 ** 11 * 9], weights: [names.map((_, at) => (at * 7919 + 13) ** 3 % 10 ** 11), names.map((_, at) => (at * 104729 + 5) ** 3 % 10 ** 11)]});
const control = new AbortController(), stopped = throws(council.reportOf(hard, {signal: control.signal})), beside = council.report(simple);
setTimeout(() => control.abort(new Error("enough")), 300);
check("a call is stopped", (await stopped)?.message === "enough" ? null : "it was not");
check("a call beside it is answered", (await beside).minimal === 2 ? null : "it was not");
check("a call that is stopped before it begins", (await throws(council.report({...simple, signal: control.signal})))?.message === "enough" ? null : "it was not");
check("the version", (await council.version()) === spawnSync(program, ["--version"], {encoding: "utf8"}).stdout.split(/\s/)[1] ? null : await council.version());
