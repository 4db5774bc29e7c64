// The module for Node and for web pages of others. Its types and what they mean are in council.d.ts.
const threads = globalThis.process?.versions?.node ? await import("node:worker_threads") : null;
const compiled = WebAssembly.compile(Uint8Array.from(atob(MODULE), it => it.charCodeAt(0)));
const calls = compiled.then(module => new Calls(hear => startWorker(module, hear, threads)));
const first = (list, isBad) => list.findIndex(isBad) + 1 || null;

export async function reportOf(game, {signal, coalitions, ...options} = {}) {
  const asked = {...options, list: coalitions, tally: !coalitions && !options.most, most: options.most ?? (coalitions ? LIMITS.coalitions : 0)};
  const {status, text} = await (await calls).ask({game, options: asked}, signal);
  if (status) throw new Refused(status, text || "bad options");
  return readReport(text);
}

export async function report({quotas, weights, names, title, ways, ...options}) {
  const write = it => /^\d+$/.test(String(it)) ? String(it) : "nan";
  const rules = [quotas].flat().map(write), columns = (Array.isArray(weights[0]) ? weights : [weights]).map(it => it.map(write));
  if (columns.length !== rules.length || columns.some(it => it.length !== columns[0].length)) throw new Refused(3, "bad rules");
  names ??= columns[0].map((_, member) => member + 1);
  if (names.length !== columns[0].length) throw new Refused(3, "bad member list");
  try {
    return await reportOf(writeGame({title, quotas: rules, weights: columns, ways, names}), options);
  } catch (error) {
    // the fault of a game file does not say which rule it is of
    const number = it => it === "nan" ? Infinity : Number(it), total = rule => columns[rule].reduce((sum, it) => sum + number(it), 0);
    if (/^bad weight/.test(error.fault)) error.rule = first(columns, it => number(it[error.member - 1]) > Number(LIMITS.weight));
    if (/quota/.test(error.fault)) error.rule = first(rules, (it, rule) => number(it) < 1 || number(it) > total(rule));
    throw error;
  }
}

/** Returns the version of the library. */
export async function version() {
  return new Instance(await compiled).version;
}

export {Refused, Fraction, readReport, writeGame};
