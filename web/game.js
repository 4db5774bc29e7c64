// The game that the page edits, in the words of a person: its numbers, what is wrong in which cell, and
// how it is read from tables, reports and links.

const FIRST_GAME = {title: "Three shareholders", ways: "", rules: [{name: "Shares", quota: ">50%"}],
  members: [{name: "Anna", weights: ["50"]}, {name: "Bruno", weights: ["49"]}, {name: "Chris", weights: ["1"]}]};

const ROWS = 1000, TOO_MANY = `A game has at most ${LIMITS.members} members. For a parliament, take parties instead of persons.`;
const countBytes = text => new TextEncoder().encode(text).length;
const isText = (text, most) => text !== "" && countBytes(text) <= most && text.isWellFormed?.() !== false && !/[\0-\x1f\x7f]/.test(text);
const isHeads = rule => /^\s*heads\b/i.test(rule.quota);
const group = number => String(number).replace(/\B(?=(\d{3})+(?!\d))/g, ",");

/** Reads a number as people write it: its digits without a point, and how many of these are decimals. */
function readNumber(text) {
  const plain = text.trim().replace(/\s*%$/, "");
  if (/^[1-9]\d{0,2}[.,]\d{3}$/.test(plain)) return {problem: `${plain} can be read in two ways: write ${plain.replace(/[.,]/, "")}, or ${plain.replace(",", ".")}0`};
  const whole = /^\d{1,3}(([,.' \u00a0\u2009\u202f_])\d{3})(\2\d{3})*$/.test(plain) ? plain.replace(/\D/g, "") : plain;
  const [, digits, decimals = ""] = /^(\d+)(?:[.,](\d+))?$/.exec(whole) ?? [];
  if (digits === undefined) return {problem: plain ? `“${plain}” is not a number from 0 on` : "a number is missing here; write 0 for none"};
  const kept = decimals.replace(/0+$/, "");
  return kept.length > 12 ? {problem: "a number has at most 12 decimals"} : {value: BigInt(digits + kept), places: kept.length};
}

/** Writes whole units of a rule as a person reads them: 1650 with two places is 16.50. */
function writeUnits(value, places = 0) {
  const digits = String(value).padStart(places + 1, "0");
  return group(places ? digits.slice(0, -places) : digits) + (places ? `.${digits.slice(-places)}` : "");
}

/** Reads a quota of a rule whose weights have a total: as a number of its units, and in words. */
function readQuota(text, total, places) {
  let rest = text.trim().replace(/^heads\s*:?/i, "").trim();
  const above = /^(>|more than)\s*/i.exec(rest);
  if (above) rest = rest.slice(above[0].length);
  rest = rest.replace(/^(>=|≥|at least)\s*/i, "");
  const share = /^(\d+)\s*\/\s*(\d+)$/.exec(rest), number = share ? null : readNumber(rest);
  if (number?.problem) return {problem: `${number.problem}. Write a quota as 51, >50%, 65%, 2/3 or heads:15`};
  if (share && !BigInt(share[2])) return {problem: "a share of nothing: write 2/3"};
  let top, bottom;
  if (share) [top, bottom] = [BigInt(share[1]) * total, BigInt(share[2])];
  else if (/%$/.test(rest)) [top, bottom] = [number.value * total, 100n * 10n ** BigInt(number.places)];
  else [top, bottom] = [number.value * 10n ** BigInt(places), 10n ** BigInt(number.places)];
  const value = above ? top / bottom + 1n : (top + bottom - 1n) / bottom;
  if (value < 1n || value > total) return {value, problem: `The quota is ${writeUnits(value, places)}. It must be at least 1, and at most the total of ${writeUnits(total, places)}.`};
  return {value};
}

/** Reads ways such as `1,2 3`: the rules of each, or what is wrong. */
function readWays(text, rules) {
  const every = Array.from({length: rules}, (_, rule) => rule + 1);
  if (!text.trim() || rules === 1) return {ways: [every]};
  if (!/^\d+(\s*,\s*\d+)*(\s+\d+(\s*,\s*\d+)*)*$/.test(text.trim())) return {problem: "Write the rules of a way with commas, and a blank between ways: 1,2 3"};
  const ways = text.trim().replace(/\s*,\s*/g, ",").split(/\s+/).map(way => way.split(",").map(Number));
  const has = (way, other) => other.every(rule => way.includes(rule));
  const bad = ways.flat().find(rule => !every.includes(rule)), left = every.find(rule => !ways.flat().includes(rule));
  if (bad !== undefined) return {problem: `There is no rule ${bad}: there are ${rules}`};
  if (left) return {problem: `Rule ${left} is in no way: each rule is in one`};
  if (ways.length > LIMITS.ways) return {problem: `There are at most ${LIMITS.ways} ways`};
  if (ways.some(way => new Set(way).size < way.length)) return {problem: "A way names a rule once"};
  if (ways.some((way, at) => ways.some((other, its) => at !== its && has(way, other)))) return {problem: "A way has all rules of another one, so it lets nobody else win"};
  return {ways};
}

const describeWays = ways => ways.map(way => way.length > 1 ? `rules ${way.slice(0, -1).join(", ")} and ${way.at(-1)}` : `rule ${way[0]}`).join(", or ");

/** Returns the numbers of a game, and what is wrong in which cell: `name 2`, `weight 2 0`, `quota 0`, `ways`, `members`. */
function resolve(game) {
  const problems = new Map(), {members, rules} = game, names = new Map();
  const report = (cell, text) => problems.has(cell) || problems.set(cell, text);
  const columns = rules.map((rule, at) => isHeads(rule) ? members.map(() => ({value: 1n, places: 0})) : members.map(it => readNumber(it.weights[at] ?? "")));
  const plain = rules.map(rule => isHeads(rule) || /[%/]/.test(rule.quota) ? 0 : readNumber(rule.quota.replace(/^\s*[>≥=]*/, "")).places ?? 0);
  const places = columns.map((its, rule) => Math.max(plain[rule], ...its.map(it => it.places ?? 0)));
  const weights = columns.map((its, rule) => its.map((it, member) => {
    const value = (it.value ?? 0n) * 10n ** BigInt(places[rule] - (it.places ?? 0));
    if (it.problem) report(`weight ${member} ${rule}`, it.problem);
    else if (value > LIMITS.weight) report(`weight ${member} ${rule}`, `A weight is at most ${group(LIMITS.weight)}${places[rule] ? ", all decimals counted" : ""}`);
    return value;
  }));
  const totals = weights.map(its => its.reduce((sum, it) => sum + it, 0n)), parsed = rules.map((rule, at) => readQuota(rule.quota, totals[at], places[at]));
  if (!problems.size) parsed.forEach((it, at) => it.problem && report(`quota ${at}`, it.problem));
  members.forEach(({name}, member) => {
    if (!isText(name, LIMITS.name)) report(`name ${member}`, name ? `A name has at most ${LIMITS.name} bytes; this has ${countBytes(name)}` : "A member needs a name");
    else if (names.has(name)) report(`name ${member}`, `Row ${names.get(name) + 1} has this name too`);
    else names.set(name, member);
  });
  const {ways, problem} = readWays(game.ways, rules.length);
  if (problem) report("ways", problem);
  if (game.title && !isText(game.title, LIMITS.title)) report("title", `A title has at most ${LIMITS.title} bytes`);
  if (members.length > LIMITS.members) report("members", `This game has ${members.length} members. ${TOO_MANY}`);
  const comments = rules.map((rule, at) => `Rule ${at + 1}: ${JSON.stringify(rule.name || `Rule ${at + 1}`)}${places[at] ? `, ${places[at]} decimals` : ""}; the quota ${JSON.stringify(rule.quota)}`);
  return {problems, places, weights, totals, ways: ways ?? [], title: game.title, names: members.map(it => it.name), quotas: parsed.map(it => it.value ?? 0n), comments};
}

/** Returns whether no two coalitions without a common member can both win: each two ways share a rule with a quota above half. */
function isProper({quotas, totals, ways}) {
  const isHigh = rule => 2n * BigInt(quotas[rule - 1]) > BigInt(totals[rule - 1]);
  return ways.every(way => ways.every(other => way.some(rule => other.includes(rule) && isHigh(rule))));
}

/** Returns what a member is called besides its name: vetoer, dictator or dummy. */
function markOf(member, report) {
  const [all, its] = report.minimal !== undefined ? [report.minimal, member.coalitions] : [report.winning, member.swings];
  const index = member.deegan_packel_exact ?? member.banzhaf_exact;
  return its === 0 ? "dummy" : index.top === index.bottom ? "dictator" : its === all ? "vetoer" : "";
}

/** Returns the rows and cells of a text from a spreadsheet or of a file: between tabs, semicolons or commas. */
function readCells(text) {
  const mark = ["\t", ";"].find(it => text.includes(it)) ?? ",", rows = [[""]];
  for (const [, quoted, part] of text.replace(/^\ufeff/, "").replace(/\r\n?/g, "\n").matchAll(/(?<=^|[\t;,\n])"((?:[^"]|"")*)"(?=[\t;,\n]|$)|([^])/g)) {
    if (part === "\n") rows.push([""]);
    else if (part === mark) rows.at(-1).push("");
    else rows.at(-1)[rows.at(-1).length - 1] += quoted?.replaceAll('""', '"') ?? part;
  }
  return rows.map(row => row.map(it => it.trim())).filter(row => row.some(Boolean));
}

/** Returns the game of a table, with or without headings, and what was not read of it. */
function readTable(rows, old) {
  const wide = Math.max(...rows.map(row => row.length)), column = at => rows.map(row => row[at] ?? "");
  const isNumber = text => /^[\d.,' \u00a0\u202f_]*\d\s*%?$/.test(text);
  const numeric = Array.from({length: wide}, (_, at) => at).filter(at => column(at).filter(isNumber).length * 2 >= rows.length);
  const named = Array.from({length: wide}, (_, at) => at).find(at => !numeric.includes(at) && column(at).some(Boolean));
  const weights = numeric.slice(0, LIMITS.rules);
  if (!weights.length) return null;
  const heading = weights.every(at => !isNumber(rows[0][at] ?? "")) ? rows[0] : null, body = heading ? rows.slice(1) : rows;
  if (!body.length) return null;
  const notes = [];
  if (numeric.length > weights.length) notes.push(`a game has at most ${LIMITS.rules} rules: further columns were not read`);
  if (/^(total|sum|all|summe|gesamt|somme)\b/i.test(body.at(-1)[named] ?? "")) notes.push(`remove the last row, “${body.at(-1)[named]}”, if it is no member`);
  const game = {title: "", ways: "", rules: weights.map((at, rule) => ({name: heading?.[at] ?? "", quota: old?.rules[rule]?.quota ?? ">50%"})),
    members: body.map((row, member) => ({name: (named === undefined ? "" : row[named] ?? "") || (named === undefined ? `Member ${member + 1}` : ""), weights: weights.map(at => row[at] ?? "")}))};
  return {game, notes, numbersOnly: named === undefined && !heading};
}

/** Returns the report in a text, if it is whole. */
function readWhole(text) {
  const report = readReport(text), its = [report.quotas, report.totals, ...report.members.map(it => it.weights)], rules = report.quotas.length;
  if (report.members.length && rules && its.every(it => it.length === rules && it.every(Number.isSafeInteger))) return report;
  throw new Error("the report is not whole");
}

/** Returns the game of a report, with the names of rules, decimals and quotas that comments of its game file have. */
function readGame(report, text = "") {
  const write = (number, places) => writeUnits(number, places).replaceAll(",", "");
  const rules = report.quotas.map((number, rule) => {
    const [, quoted = "", rest = ""] = new RegExp(`^# Rule ${rule + 1}: ("(?:[^"\\\\]|\\\\.)*")?(.*)$`, "m").exec(text) ?? [];
    const name = quoted.slice(1, -1).replace(/\\(["\\])/g, "$1"), places = Math.min(12, Number(/^,.*?(\d+) decimal/.exec(rest)?.[1] ?? 0));
    const quota = /the quota "([^"\\]*)"/.exec(rest)?.[1] ?? "heads", isIts = !/heads/i.test(quota) && readQuota(quota, BigInt(report.totals[rule]), places).value === BigInt(number);
    return {name: name === `Rule ${rule + 1}` ? "" : name, quota: isIts ? quota : write(number, places), places};
  });
  return {title: report.title, rules: rules.map(({name, quota}) => ({name, quota})), ways: report.ways.length > 1 ? report.ways.map(it => it.join(",")).join(" ") : "",
    members: report.members.map(it => ({name: it.name, weights: it.weights.map((weight, rule) => write(weight, rules[rule].places))}))};
}

/** Writes a game as the part of a link after #, and reads it; what is no game is null. */
function writeLink({title, ways, rules, members}) {
  const text = JSON.stringify([title, ways, rules.map(it => [it.name, it.quota]), members.map(it => [it.name, ...it.weights])]);
  return `#game=${btoa(String.fromCharCode(...new TextEncoder().encode(text))).replaceAll("+", "-").replaceAll("/", "_").replace(/=+$/, "")}`;
}

function readLink(hash) {
  try {
    const bytes = atob(/^#game=([\w-]+)$/.exec(hash)[1].replaceAll("-", "+").replaceAll("_", "/"));
    const [title, ways, rules, members] = JSON.parse(new TextDecoder().decode(Uint8Array.from(bytes, it => it.charCodeAt(0))));
    const isGame = rules.length >= 1 && rules.length <= LIMITS.rules && members.length >= 1 && members.length <= ROWS
      && [title, ways, ...rules.flat(), ...members.flat()].every(it => typeof it === "string")
      && rules.every(it => it.length === 2) && members.every(it => it.length === rules.length + 1);
    return isGame ? {title, ways, rules: rules.map(([name, quota]) => ({name, quota})), members: members.map(([name, ...weights]) => ({name, weights}))} : null;
  } catch {
    return null;
  }
}
