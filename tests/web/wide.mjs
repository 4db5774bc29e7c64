// Calls LLVM's functions for 128 bits: `node wide.mjs council.mjs NUMBER` prints what they give as equations of Python.
import {readFileSync} from "node:fs";
const module = Buffer.from(/MODULE = "(.*)"/.exec(readFileSync(process.argv[2], "utf8"))[1], "base64");
const calls = new WebAssembly.Instance(new WebAssembly.Module(module)).exports, place = calls.malloc(16n), mask = 2n ** 64n - 1n;
let seed = 88172645463325252n;
const random = () => (seed ^= seed << 13n & mask, seed ^= seed >> 7n, seed ^= seed << 17n & mask);
const wide = () => (random() << 64n | random()) >> random() % 128n;
for (let at = 0; at < Number(process.argv[3]); at++) {
  for (const [call, sign] of Object.entries({__multi3: "*", __udivti3: "//", __umodti3: "%", __ashlti3: "<<", __lshrti3: ">>"}).filter(([it]) => calls[it])) {
    const one = wide(), isShift = /^[<>]/.test(sign), other = isShift ? random() % 128n : wide() || 1n;
    calls[call](place, one & mask, one >> 64n, ...isShift ? [Number(other)] : [other & mask, other >> 64n]);
    const [low, high] = new BigUint64Array(calls.memory.buffer, Number(place), 2);
    console.log(`(${one} ${sign} ${other}) % 2**128 == ${high << 64n | low}`);
  }
}
