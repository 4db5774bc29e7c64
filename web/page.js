// The page: it edits a game, has it computed in a worker, and shows the report.

const $ = id => document.getElementById(id);
const SVG = "http://www.w3.org/2000/svg";
const SHARES = [["#858585", "#92979e"], ["#3f8f5b", "#62b37e"], ["#8a66b5", "#b094dc"], ["#9a8219", "#d0b84a"]];
const FAST = 15, SLOW = 1000, POINTS = 1000, LISTED = 1000;
const state = {game: FIRST_GAME, resolved: null, report: null, reported: null, kept: null, past: [], sort: null, lines: null,
  chosen: new Set(["deegan_packel", "public_good", "banzhaf", "shapley_shubik"]), running: null, sweeping: null, module: null, calls: {}};

/** Makes an element with attributes and children. */
function make(tag, attributes = {}, ...children) {
  const it = tag.startsWith("svg:") ? document.createElementNS(SVG, tag.slice(4)) : document.createElement(tag);
  for (const [name, value] of Object.entries(attributes)) if (value !== undefined && value !== false) it.setAttribute(name, value === true ? "" : value);
  it.append(...children);
  return it;
}

const notify = text => $("notice").textContent = text;
const percent = (part, whole) => `${new Fraction(100n * BigInt(part), BigInt(whole)).toFixed(2).replace(/\.?0+$/, "")}%`;
const nameRule = rule => state.game.rules[rule]?.name || (state.game.rules.length > 1 ? `Rule ${rule + 1}` : "Votes");
const isDark = () => matchMedia("(prefers-color-scheme: dark)").matches;

function renderEditor() {
  const {rules, members, title, ways} = state.game;
  const input = (cell, value, label, more = {}) => make("input", {"data-cell": cell, value, "aria-label": label, autocomplete: "off", spellcheck: "false", ...more});
  const head = rules.map((rule, at) => {
    const label = rules.length > 1 ? ` of rule ${at + 1}` : "";
    return make("th", {scope: "col"}, input(`rule ${at}`, rule.name, `Name${label || " of the votes"}`, {placeholder: rules.length > 1 ? `Rule ${at + 1}` : "Votes"}),
      input(`quota ${at}`, rule.quota, `Quota${label}`, {placeholder: "quota"}), input(`slide ${at}`, "1", `Quota${label}, slider`, {type: "range", min: 1}),
      make("small", {id: `meaning ${at}`}),
      ...rules.length > 1 ? [make("button", {type: "button", class: "remove", "data-remove-rule": at, "aria-label": `Remove rule ${at + 1}`}, "×")] : []);
  });
  $("editor").tHead.replaceChildren(make("tr", {}, make("th", {scope: "col"}, "Member"), ...head, make("th")));
  $("editor").tBodies[0].replaceChildren(...members.map((it, row) => make("tr", {},
    make("td", {}, input(`name ${row}`, it.name, `Name of member ${row + 1}`, {class: "name", dir: "auto"})),
    ...rules.map((rule, at) => make("td", {}, isHeads(rule) ? "1" : input(`weight ${row} ${at}`, it.weights[at] ?? "", `Votes of member ${row + 1}${rules.length > 1 ? ` under rule ${at + 1}` : ""}`, {class: "number", inputmode: "decimal"}))),
    make("td", {}, make("button", {type: "button", class: "remove", "data-remove": row, "aria-label": `Remove member ${row + 1}`}, "×")))));
  $("title").value = title;
  $("ways").value = ways;
  $("ways-line").hidden = rules.length < 2;
  $("add-rule").disabled = rules.length >= LIMITS.rules;
  $("undo").hidden = !state.past.length;
}

const findCell = cell => document.querySelector(`[data-cell="${cell}"]`);

/** Shows what is wrong at each cell, and what each quota means. */
function showProblems() {
  const {problems, quotas, totals, places, ways} = state.resolved;
  document.querySelectorAll("small.bad").forEach(it => it.remove());
  document.querySelectorAll("[aria-invalid]").forEach(it => ["aria-invalid", "aria-describedby"].forEach(name => it.removeAttribute(name)));
  $("ways-note").textContent = ways.length > 1 ? `A motion passes by ${describeWays(ways)}.` : "";
  state.game.rules.forEach((rule, at) => {
    const of = isHeads(rule) ? "members" : "", slide = findCell(`slide ${at}`), meaning = $(`meaning ${at}`), write = units => writeUnits(units, places[at]);
    meaning.textContent = problems.has(`quota ${at}`) || !totals[at] ? "" : `at least ${write(quotas[at])} of ${write(totals[at])} ${of} (${percent(quotas[at], totals[at])})`;
    Object.assign(slide, {max: String(totals[at]), value: String(quotas[at])});
    slide.setAttribute("aria-valuetext", meaning.textContent);
  });
  for (const [cell, text] of problems) {
    const it = findCell(cell), id = `problem-${cell.replaceAll(" ", "-")}`;
    it?.setAttribute("aria-invalid", "true");
    it?.setAttribute("aria-describedby", id);
    it?.after(make("small", {class: "bad", id}, text));
  }
}

/** Takes a game instead of the present one, which can be brought back. */
function setGame(game, notice = "", past = [...state.past, state.game]) {
  Object.assign(state, {game, past});
  notify(notice);
  renderEditor();
  changed();
}

function typed({target}) {
  const [kind, ...at] = (target.dataset.cell ?? "").split(" "), {game} = state, rule = game.rules[at[0]], had = rule && isHeads(rule);
  if (kind === "title" || kind === "ways") game[kind] = target.value;
  else if (kind === "name") game.members[at[0]].name = target.value;
  else if (kind === "weight") game.members[at[0]].weights[at[1]] = target.value;
  else if (kind === "rule") rule.name = target.value;
  else if (kind === "quota") rule.quota = target.value;
  else if (kind === "slide") {
    rule.quota = `${had ? "heads:" : ""}${writeUnits(target.value, state.resolved.places[at[0]]).replaceAll(",", "")}`;
    findCell(`quota ${at[0]}`).value = rule.quota;
  } else return;
  if (kind === "quota" && had !== isHeads(rule)) {
    renderEditor();
    findCell(target.dataset.cell).focus();
    findCell(target.dataset.cell).setSelectionRange(rule.quota.length, rule.quota.length);
  }
  changed();
}

/** Changes a copy of the game, and goes to a cell of it. */
function edit(change, notice) {
  const game = structuredClone(state.game), cell = change(game, game.members.length);
  setGame(game, notice);
  findCell(cell).focus();
  findCell(cell).select();
}

const addMember = () => edit(({members, rules}, last) => {
  let number = last + 1;
  while (members.some(it => it.name === `Member ${number}`)) number++;
  members.push({name: `Member ${number}`, weights: rules.map(() => "1")});
  return `name ${last}`;
});
const addRule = () => edit(({members, rules}) => {
  members.forEach(it => it.weights.push("1"));
  return `quota ${rules.push({name: "", quota: "heads:>50%"}) - 1}`;
});

function removeFrom({target: {dataset: {remove, removeRule}}}) {
  if (remove !== undefined && state.game.members.length > 1) edit(({members}, last) => (members.splice(remove, 1), `name ${Math.min(remove, last - 2)}`), "Removed.");
  if (removeRule !== undefined) edit(game => {
    for (const its of [game.rules, ...game.members.map(it => it.weights)]) its.splice(removeRule, 1);
    game.ways = "";
    return "quota 0";
  }, "Removed.");
}

/** Moves between rows by Enter and the arrow keys; Enter in the last row adds one. */
function move(event) {
  const step = {Enter: 1, ArrowDown: 1, ArrowUp: -1}[event.key], [kind, row, ...rest] = (event.target.dataset.cell ?? "").split(" ");
  if (!step || !["name", "weight"].includes(kind)) return;
  event.preventDefault();
  if (event.key === "Enter" && Number(row) === state.game.members.length - 1) return addMember();
  findCell([kind, Number(row) + step, ...rest].join(" "))?.select();
}

/** Pastes a block: a whole table with names, or numbers from a cell on. */
function paste(event) {
  const rows = readCells(event.clipboardData.getData("text/plain")), [kind, row, at = 0] = (event.target.dataset.cell ?? "").split(" ");
  if (rows.length < 2 && !(rows[0]?.length > 1 && /\t/.test(event.clipboardData.getData("text/plain")))) return;
  const table = readTable(rows, state.game);
  if (!table && kind !== "name") return;
  event.preventDefault();
  if (table && !(table.numbersOnly && kind === "weight")) return takeTable(table);
  const game = structuredClone(state.game);
  rows.forEach((cells, down) => {
    const member = game.members[Number(row) + down] ??= {name: `Member ${Number(row) + down + 1}`, weights: game.rules.map(() => "1")};
    if (kind === "name") member.name = cells[0];
    else cells.slice(0, game.rules.length - at).forEach((it, right) => member.weights[Number(at) + right] = it);
  });
  setGame(game, `Pasted ${rows.length} rows.`);
}

function takeTable({game, notes}, title = "") {
  if (game.members.length > ROWS) notify(`The table has ${group(game.members.length)} rows. ${TOO_MANY}`);
  else setGame({...game, title}, [`Read a table of ${game.members.length} members`, ...notes].join("; ") + ".");
}

async function openFile(file) {
  if (file?.size > 1 << 23) notify(`${file.name} has more than 8 MB.`);
  else if (file) openBytes(new Uint8Array(await file.arrayBuffer()), file.name);
}

/** Opens a game file, which the library reads, a report, or a table. */
async function openBytes(bytes, name) {
  const text = new TextDecoder().decode(bytes), title = name.replace(/\.\w+$/, "");
  try {
    if (/^(title\t[^\n]*\n)?members\t\d+\r?\n/.test(text)) return setGame(readGame(readWhole(text.replaceAll("\r", ""))), `Opened the game of the report ${name}.`);
    const {status, text: answer} = await compute({game: bytes, options: {tally: true}}, `Opening ${name}`);
    if (!status) return setGame(readGame(readReport(answer), text), `Opened ${name}.`);
    const table = /not TOML|longer/.test(answer) && /[\t;,]/.test(text) && readTable(readCells(text), null);
    if (table) return takeTable(table, title);
    notify(`${name}: ${new Refused(status, answer).message}`);
  } catch (error) {
    if (error.name === "AbortError") return;
    notify(`${name} was not opened${error === "stop" ? "" : `: ${error.message}`}.`);
  }
  changed();
}

/** Takes the game of the address, if it has one. */
function openLink() {
  const game = readLink(location.hash);
  if (game) return setGame(game);
  if (location.hash.startsWith("#game=")) notify("The link holds no game: it may be cut.");
  changed();
}

/** What the library is asked for: the indices that are chosen. */
function askFor() {
  const wants = GROUPS.map(it => it.indices.some(index => state.chosen.has(index.name)));
  return wants[1] ? wants[0] ? {tally: true, swings: true} : {only_swings: true} : {tally: true};
}

/** Asks the library in a worker of its own for each purpose. */
const ask = (purpose, ...words) => (state.calls[purpose] ??= new Calls(hear => startWorker(state.module, hear))).ask(...words);

/** Asks the library what the page waits for: a newer request stops an older one, and after a second it shows that it goes on. */
async function compute(request, doing = "Computing") {
  state.running?.abort();
  const control = state.running = new AbortController(), since = performance.now(), busy = $("busy");
  const tick = setInterval(() => {
    busy.hidden = false;
    $("report").classList.add("stale");
    busy.querySelector("span").textContent = `${doing}, ${Math.round((performance.now() - since) / 1000)} s`;
  }, SLOW);
  try {
    await new Promise(resolve => setTimeout(resolve, FAST));
    return await ask("table", request, control.signal);
  } finally {
    clearInterval(tick);
    if (state.running === control) busy.hidden = true;
  }
}

/** Computes the game anew, if nothing is wrong with it. */
async function changed() {
  state.running?.abort();
  Object.assign(state, {resolved: resolve(state.game), isFresh: false});
  showProblems();
  const {problems} = state.resolved, first = problems.get("members") ?? [...problems.values()][0];
  if (first) return showRefusal(problems.size > 1 ? `${problems.size} things are not right. The first: ${first}` : first);
  try {
    const {status, text, version} = await compute({game: writeGame(state.resolved), options: askFor()});
    if (version) $("version").textContent = version;
    if (status) showRefusal(new Refused(status, text).message);
    else showReport(readReport(text));
  } catch (error) {
    if (error.name !== "AbortError") showRefusal(error === "stop" ? "Stopped. Change something to compute again." : error.message);
  }
}

/** Says why there is no result; the last one stays, marked as old. */
function showRefusal(text) {
  $("problem").textContent = `${text.replace(/[^.]$/, "$&.")}${state.report ? " What is shown below is of the game before." : ""}`;
  $("report").classList.add("stale");
}

function showReport(report) {
  Object.assign(state, {report, isFresh: true, reported: {...state.resolved, rules: structuredClone(state.game.rules)}});
  $("problem").textContent = "";
  $("report").className = "";
  $("report").hidden = false;
  showSummary();
  showTable();
  showBars();
  showVaryChoice();
  if ($("coalitions").open) showCoalitions();
  else $("coalitions").lastElementChild.replaceChildren();
}

const shownIndices = () => INDICES.filter(it => state.chosen.has(it.name) && state.report.members[0][it.name] !== undefined);

function showSummary() {
  const {report, reported: {rules, places, ways}} = state, {quotas, totals, members} = report;
  const quota = rule => `at least ${writeUnits(quotas[rule], places[rule])} of ${writeUnits(totals[rule], places[rule])}${rules[rule].name ? ` (${rules[rule].name})` : isHeads(rules[rule]) ? " members" : ""}, ${percent(quotas[rule], totals[rule])}`;
  const wins = quotas.length === 1 ? `A coalition wins with ${quota(0)}.`
    : `A coalition wins by ${ways.length > 1 ? describeWays(ways) : "all rules"}: ${quotas.map((_, rule) => `${rule + 1}. ${quota(rule)}`).join("; ")}.`;
  const counts = GROUPS.filter(it => report[it.line] !== undefined).map(it => `${group(report[it.line])} ${it.what}`);
  if (report.power_to_act_exact) counts.push(`power of the body to act (Coleman) ${report.power_to_act_exact.toFixed(4)}`);
  const marks = {dictator: [], vetoer: [], dummy: []};
  members.forEach(it => marks[markOf(it, report)]?.push(it.name));
  const words = Object.entries(marks).filter(([, its]) => its.length).map(([mark, its]) => [make("br"), `${{dictator: "Dictator", vetoer: "With a veto", dummy: "Without any power (dummy)"}[mark]}: `,
    ...its.flatMap((name, at) => [at ? ", " : "", make("bdi", {}, name)]), "."]).flat();
  const low = isProper({quotas, totals, ways}) ? [] : [make("br"), make("strong", {}, "Improper: two coalitions without a common member could both win, as not more than half of the total decides.")];
  $("summary").replaceChildren(wins, ` ${members.length} members; ${counts.join(", ")}.`, ...words, ...low);
}

function choose({target: {checked, value}}) {
  const asked = JSON.stringify(askFor());
  state.chosen[checked ? "add" : "delete"](value);
  if (JSON.stringify(askFor()) !== asked) changed();
  else if (state.isFresh) showReport(state.report);
}

/** The columns of the table: a heading, the values to sort by, and how a value is written. */
function listColumns() {
  const {report: {members, totals, minimal, winning}, reported: {rules, places}} = state, form = $("form").value;
  const writeIndex = value => form === "fraction" ? String(value) : value.toFixed(Number(form));
  const columns = [{title: "Member", values: members.map(it => it.name)}];
  totals.forEach((total, rule) => {
    columns.push({title: rules[rule].name || (totals.length > 1 ? `Rule ${rule + 1}` : "Votes"), values: members.map(it => it.weights[rule]), write: it => writeUnits(it, places[rule])});
    columns.push({title: "Share", values: members.map(it => it.weights[rule]), write: it => percent(it, total)});
  });
  for (const it of shownIndices()) columns.push({title: it.title, values: members.map(member => member[`${it.name}_exact`]), write: writeIndex, index: it.name});
  if (minimal !== undefined) columns.push({title: "Minimal coalitions", values: members.map(it => it.coalitions), write: group});
  if (winning !== undefined) columns.push({title: "Swings", values: members.map(it => it.swings), write: group});
  return columns;
}

/** Returns the difference of two fractions, or of other values its sign. */
function subtract(one, other) {
  if (one instanceof Fraction) return new Fraction(one.top * other.bottom - other.top * one.bottom, one.bottom * other.bottom);
  return typeof one === "string" ? one.localeCompare(other) : one - other;
}

function showTable() {
  const {report, sort, kept} = state, columns = listColumns(), {members} = report, sorted = columns[sort?.column]?.values, order = members.map((_, at) => at);
  if (sorted) order.sort((one, other) => (sort.down ? -1 : 1) * subtract(sorted[one], sorted[other]) || one - other);
  $("powers").tHead.replaceChildren(make("tr", {}, ...columns.map((it, at) => make("th", {scope: "col", "aria-sort": sorted && sort.column === at ? sort.down ? "descending" : "ascending" : undefined},
    make("button", {type: "button", "data-column": at}, it.title)))));
  $("powers").tBodies[0].replaceChildren(...order.map(at => {
    const mark = markOf(members[at], report), old = kept?.members.find(it => it.name === members[at].name);
    return make("tr", {}, ...columns.map((it, column) => column ? make("td", {}, it.write(it.values[at]), ...kept && it.index ? [make("small", {class: "difference"}, writeDifference(members[at], old, it.index))] : [])
      : make("td", {}, make("bdi", {}, it.values[at]), ...mark ? [" ", make("span", {class: "mark"}, mark)] : [])));
  }));
  $("forget").hidden = !kept;
}

function writeDifference(member, old, index) {
  if (old?.[index] === undefined) return old ? "not kept" : "new";
  const {top, bottom} = subtract(member[`${index}_exact`], old[`${index}_exact`]), places = Number($("form").value) || 6;
  return top ? `${top > 0n ? "+" : "−"}${new Fraction(top > 0n ? top : -top, bottom).toFixed(places)}` : "same";
}

function sortBy({target}) {
  const column = Number(target.dataset.column ?? -1);
  if (column < 0) return;
  state.sort = {column, down: state.sort?.column === column ? !state.sort.down : column > 0};
  showTable();
  document.querySelector(`[data-column="${column}"]`).focus();
}

const pen = document.createElement("canvas").getContext("2d");
const measure = (text, size = 12) => (pen.font = `${size}px Helvetica, Arial, sans-serif`, pen.measureText(text).width);
const drawText = (x, y, text, more = {}) => make("svg:text", {x: x.toFixed(1), y: y.toFixed(1), "font-size": 12, ...more}, text);

function makePicture(wide, high, title, children, isFile) {
  return make("svg:svg", {xmlns: SVG, width: Math.ceil(wide), height: Math.ceil(high), viewBox: `0 0 ${Math.ceil(wide)} ${Math.ceil(high)}`, "font-family": "Helvetica, Arial, sans-serif", role: "img"},
    make("svg:title", {}, title), ...isFile ? [make("svg:rect", {width: "100%", height: "100%", fill: "white"})] : [], ...children);
}

/** Draws a bar for the share of each member under each rule, and for each of its indices. */
function drawBars(room, isFile) {
  const {report, reported: {rules, places}} = state, {members, quotas, totals} = report, tone = isDark() && !isFile ? 1 : 0;
  const kinds = [...totals.map((total, rule) => [`share of ${rules[rule].name || "the votes"}${totals.length > 1 ? `, rule ${rule + 1}` : ""}; quota ${writeUnits(quotas[rule], places[rule])} of ${writeUnits(total, places[rule])} (${percent(quotas[rule], total)})`, SHARES[rule][tone]]),
    ...shownIndices().map(it => [it.legend, tone ? it.dark : it.light])];
  const rows = members.map(it => [it.name, [...totals.map((total, rule) => new Fraction(it.weights[rule], total)), ...shownIndices().map(index => it[`${index.name}_exact`])]]);
  const longest = Math.max(...rows.flatMap(([, values]) => values.map(Number))), widest = Math.max(60, ...rows.map(([name]) => measure(name))) + 16;
  const above = widest > room * 0.35, left = above ? 8 : widest, most = Math.max(120, Math.min(460, room - left - 60)), parts = [];
  let y = 22, wide = left + most + 60;
  if (report.title) parts.push(drawText(8, y, report.title, {"font-size": 14, "font-weight": "bold"})), wide = Math.max(wide, measure(report.title, 15) + 16), y += 18;
  for (const [text, color] of kinds) {
    parts.push(make("svg:rect", {x: 8, y: y - 9, width: 10, height: 10, fill: color}), drawText(22, y, text));
    wide = Math.max(wide, 30 + measure(text));
    y += 16;
  }
  for (const [name, values] of rows) {
    parts.push(above ? drawText(8, y + 10, name) : drawText(left - 8, y + values.length * 6.5 + 4, name, {"text-anchor": "end"}));
    if (above) y += 14, wide = Math.max(wide, measure(name) + 16);
    values.forEach((value, at) => {
      const length = Number(value) / longest * most;
      parts.push(make("svg:rect", {x: left, y: y + 2.5, width: length.toFixed(2), height: 8, fill: kinds[at][1]}), drawText(left + length + 4, y + 9.5, value.toFixed(4), {"font-size": 9}));
      y += 13;
    });
    y += 9;
  }
  return makePicture(wide, y + 8, report.title || "Shares of the votes and of the power", parts, isFile);
}

function showBars() {
  if ($("bars").open) $("bars").lastElementChild.replaceChildren(drawBars($("bars").clientWidth || 600, false));
}

/** Draws lines of an index over the quotas of a rule; members of the same values share a line. */
function drawLines(room, isFile) {
  const {points, index, quota, total, places, names, title} = state.lines, tone = isDark() && !isFile ? 1 : 0, lines = new Map();
  names.forEach((name, member) => {
    const key = points.map(it => it.values?.[member]).join(" ");
    lines.set(key, {names: [...lines.get(key)?.names ?? [], name], member});
  });
  const its = [...lines.values()], high = Math.max(260, its.length * 14 + 20), top = 34, left = 50, legend = Math.min(170, room * 0.35), wide = Math.max(320, Math.min(room, 860)), right = wide - legend;
  const most = Math.max(...points.flatMap(it => it.values ?? []), 1e-9), x = value => left + (right - left) * (value - 1) / Math.max(1, total - 1), y = value => top + high * (1 - value / most);
  const ink = tone ? "#e6e6e6" : "#1c1c1c", axis = tone ? "#5a6068" : "#c8c8c8", parts = [drawText(8, 18, `${INDICES.find(it => it.name === index).legend} by the quota of ${title}`, {"font-weight": "bold"})];
  for (const part of [0, .25, .5, .75, 1]) parts.push(make("svg:line", {x1: left, x2: right, y1: y(most * part), y2: y(most * part), stroke: axis, "stroke-width": .5}), drawText(left - 6, y(most * part) + 4, (most * part).toFixed(2), {"text-anchor": "end", "font-size": 10}));
  for (const part of [0, .25, .5, .75, 1]) parts.push(drawText(x(1 + (total - 1) * part), top + high + 16, writeUnits(Math.round(1 + (total - 1) * part), places), {"text-anchor": "middle", "font-size": 10}));
  for (const [value, dash] of [[quota, ""], [total / 2, "2 3"]]) parts.push(make("svg:line", {x1: x(value), x2: x(value), y1: top, y2: top + high, stroke: ink, "stroke-width": 1, "stroke-dasharray": dash}));
  parts.push(drawText(x(quota), top + high + 30, "quota now", {"text-anchor": "middle", "font-size": 10}));
  its.forEach((it, at) => Object.assign(it, {color: `hsl(${Math.round(at * 360 / its.length)} 65% ${tone ? 65 : 40}%)`, last: points.findLast(point => point.values)?.values[it.member] ?? 0}));
  [...its].sort((one, other) => other.last - one.last).reduce((free, it) => (it.place = Math.max(free, Math.min(y(it.last), top + high - 14 * its.length)), it.place + 14), top);
  for (const {names, member, color, place} of its) {
    let path = "", isOn = false;
    for (const point of points) {
      if (point.values) path += isOn ? `H${x(point.quota).toFixed(1)}V${y(point.values[member]).toFixed(1)}` : `M${x(point.quota).toFixed(1)} ${y(point.values[member]).toFixed(1)}`;
      isOn = Boolean(point.values);
    }
    const label = names.length > 2 ? `${names[0]} and ${names.length - 1} more` : names.join(", ");
    parts.push(make("svg:path", {d: path || "M0 0", fill: "none", stroke: color, "stroke-width": 1.8}, make("svg:title", {}, names.join(", "))),
      make("svg:rect", {x: right + 8, y: place - 5, width: 10, height: 4, fill: color}), drawText(right + 22, place, [...label].slice(0, Math.max(8, legend / 7.5)).join("") + ([...label].length > legend / 7.5 ? "…" : ""), {"font-size": 11}));
  }
  return makePicture(wide, top + high + 40, `${index} by quota`, parts, isFile);
}

function showLines() {
  $("vary").lastElementChild.replaceChildren(...state.lines ? [drawLines($("vary").clientWidth || 600, false)] : []);
  document.querySelector("[data-take=lines]").hidden = !state.lines;
}

async function showCoalitions() {
  const {report} = state, place = $("coalitions").lastElementChild, count = report.minimal;
  if (count > LIMITS.coalitions) return place.replaceChildren(make("p", {}, `There are ${group(count)}: at most ${group(LIMITS.coalitions)} can be listed.`));
  place.replaceChildren(make("p", {class: "soft"}, "Listing ..."));
  const {status, text} = await ask("list", {game: writeGame(state.reported), options: {list: true, most: LIMITS.coalitions}, room: 1 << 19});
  if (state.report !== report) return;
  if (status) return place.replaceChildren(make("p", {class: "bad"}, new Refused(status, text).message));
  const all = text.split("\n").slice(0, -1).filter(it => it.startsWith("coalition\t")).map(it => readCoalition(it.split("\t").slice(1)));
  const first = all.slice(0, LISTED), more = (count ?? all.length) > first.length ? ` The first ${group(first.length)}:` : "";
  place.replaceChildren(make("p", {}, `${group(count ?? all.length)} coalitions.${more}`),
    make("ol", {}, ...first.map(it => make("li", {}, ...it.members.flatMap((name, at) => [at ? ", " : "", make("bdi", {}, name)]), make("small", {}, ` ${it.weights.map((weight, rule) => writeUnits(weight, state.reported.places[rule])).join(" / ")}`)))));
}

function showVaryChoice() {
  for (const [id, options] of [["vary-index", shownIndices().map(it => [it.name, it.title])], ["vary-rule", state.report.quotas.map((_, rule) => [rule, nameRule(rule)])]]) {
    const had = $(id).value;
    $(id).replaceChildren(...options.map(([value, text]) => make("option", {value, selected: String(value) === had}, text)));
  }
}

/** Computes an index at some or all quotas of a rule, one after the other, until it is stopped. */
async function vary() {
  const {resolved} = state, index = $("vary-index").value, rule = Number($("vary-rule").value), [total, quota] = [resolved.totals, resolved.quotas].map(its => Number(its[rule]));
  if (resolved.problems.size) return void ($("vary-note").textContent = "First set right what is wrong in the game.");
  state.sweeping?.abort();
  const control = state.sweeping = new AbortController(), number = Math.min(POINTS, total), step = (total - 1) / Math.max(1, number - 1);
  const quotas = [...new Set([...Array.from({length: number}, (_, at) => 1 + Math.round(step * at)), quota])].sort((one, other) => one - other);
  const options = GROUPS[0].indices.some(it => it.name === index) ? {tally: true} : {only_swings: true}, points = [];
  state.lines = {points, index, total, quota, places: resolved.places[rule], names: resolved.names, title: nameRule(rule)};
  $("vary-progress").max = quotas.length;
  for (const id of ["vary-stop", "vary-progress"]) $(id).hidden = false;
  try {
    for (const its of quotas) {
      const game = writeGame({...resolved, quotas: resolved.quotas.map((it, at) => at === rule ? its : it)});
      const {status, text} = await ask("lines", {game, options}, control.signal);
      points.push({quota: its, values: status ? null : readReport(text).members.map(it => it[index])});
      $("vary-progress").value = points.length;
      $("vary-note").textContent = `${points.length} of ${quotas.length} quotas`;
      if (points.length % 20 === 0) showLines();
    }
    const refused = points.filter(it => !it.values).length;
    $("vary-note").textContent = `${points.length} quotas${total > quotas.length ? `, of ${group(total)}` : ""}${refused ? `; ${refused} take too many states and are left out` : ""}. The dotted line is half of the total.`;
  } catch {
    $("vary-note").textContent = `Stopped after ${points.length} of ${quotas.length} quotas.`;
  }
  if (state.sweeping !== control) return;
  for (const id of ["vary-stop", "vary-progress"]) $(id).hidden = true;
  showLines();
}

/** Writes the members as CSV, with the columns of `council-tools export`. */
function writeTable({members, quotas}) {
  const quote = text => /[",\n]/.test(text) ? `"${text.replaceAll('"', '""')}"` : text, [first] = members;
  const cut = it => `${it.top / it.bottom}.${String(it.top % it.bottom * 1000000n / it.bottom).padStart(6, "0")}`;
  const columns = GROUPS.filter(it => first[it.column] !== undefined).flatMap(it => [it.column, ...it.indices.map(index => index.name), ...it.indices.map(index => `${index.name}_exact`)]);
  const rows = members.map(it => [it.name, ...it.weights, ...columns.map(column => it[`${column}_exact`] ? cut(it[`${column}_exact`]) : it[column])]);
  return [["name", ...quotas.length > 1 ? quotas.map((_, rule) => `weight_${rule + 1}`) : ["weight"], ...columns], ...rows].map(row => `${row.map(it => quote(String(it))).join(",")}\n`).join("");
}

function save(name, type, text) {
  const url = URL.createObjectURL(new Blob([text], {type})), base = (state.report?.title || "game").normalize("NFKD").replace(/[^\w]+/g, "-").replace(/^-|-$/g, "").slice(0, 60).toLowerCase() || "game";
  make("a", {href: url, download: `${base}${name}`}).click();
  setTimeout(() => URL.revokeObjectURL(url), 60000);
}

function take({target}) {
  const file = picture => new XMLSerializer().serializeToString(picture) + "\n", {report, resolved, game, isFresh} = state, {take: kind} = target.dataset;
  if (!isFresh && ["report", "csv", "bars"].includes(kind)) return notify("There is no result of this game.");
  if (resolved.problems.size && kind === "game") return notify("First set right what is wrong in the game.");
  const ways = {
    game: () => save(".toml", "application/toml", writeGame(resolved)),
    report: () => save("-report.tsv", "text/tab-separated-values", report.text),
    csv: () => save(".csv", "text/csv", writeTable(report)),
    bars: () => save(".svg", "image/svg+xml", file(drawBars(700, true))),
    lines: () => save("-quotas.svg", "image/svg+xml", file(drawLines(860, true))),
    print: () => print(),
    link: () => {
      $("link-line").hidden = false;
      $("link").value = location.href.replace(/#.*/, "") + writeLink(game);
      $("link").select();
      navigator.clipboard?.writeText($("link").value).catch(() => {});
    },
  };
  ways[kind]?.();
}

function listen() {
  const on = (id, events, call) => events.split(" ").forEach(event => (id ? $(id) : window).addEventListener(event, call));
  on("editor", "input", typed), on("title", "input", typed), on("ways", "input", typed);
  on("editor", "keydown", move), on("editor", "paste", paste), on("editor", "click", removeFrom);
  on("add-member", "click", addMember), on("add-rule", "click", addRule);
  on("undo", "click", () => setGame(state.past.at(-1), "", state.past.slice(0, -1)));
  on("open", "click", () => $("file").click());
  on("file", "change", () => (openFile($("file").files[0]), $("file").value = ""));
  on("powers", "click", sortBy), on("form", "change", showTable), on("choice", "change", choose), on("take", "click", take);
  on("stop", "click", () => state.running?.abort("stop"));
  on("vary-start", "click", vary), on("vary-stop", "click", () => state.sweeping?.abort("stop"));
  on("keep", "click", () => (state.kept = state.report, showTable())), on("forget", "click", () => (state.kept = null, showTable()));
  on("bars", "toggle", showBars), on("coalitions", "toggle", () => $("coalitions").open && showCoalitions());
  on("", "dragover dragleave drop", event => (event.preventDefault(), document.body.classList.toggle("dropping", event.type === "dragover")));
  on("", "drop", event => openFile(event.dataTransfer.files[0])), on("", "hashchange", openLink);
  for (const change of ["(prefers-color-scheme: dark)", "(max-width: 60rem)"]) matchMedia(change).addEventListener("change", () => state.report && (showBars(), showLines()));
  const examples = JSON.parse($("example-games").textContent);
  $("examples").append(...Object.keys(examples).map(it => make("option", {value: it}, it)));
  on("examples", "change", ({target}) => examples[target.value] && openBytes(new TextEncoder().encode(examples[target.value]), target.value));
  $("choice").append(...INDICES.map(it => make("label", {}, make("input", {type: "checkbox", value: it.name, checked: state.chosen.has(it.name)}), ` ${it.title}`)));
}

(async function start() {
  state.module = await WebAssembly.compile(Uint8Array.from(atob($("module").textContent), it => it.charCodeAt(0)));
  listen();
  $("old").remove();
  document.querySelector("main").hidden = false;
  renderEditor();
  openLink();
})();
