// node misuse.mjs MODULE: what naplps.mjs throws, and what it doesn't. It prints what was wrong.
import {readFileSync} from "node:fs";
import {MOST_BUDGET, describe, load} from "../naplps.mjs";

const bytes = readFileSync(process.argv[2]), module = new WebAssembly.Module(bytes), naplps = await load(module);
const point = Uint8Array.of(0x0E, 0x26, 0x52, 0x40, 0x40), calls = ["check", "list", "canon", "canonForm1", "places", "find"];
let wrong = 0;

function must(right, what) {
  if (!right) console.log(`wrong: ${what}`, ++wrong);
}

function throws(kind, call, what) {
  try {
    call();
  } catch (error) {
    return must(error instanceof kind, `${what} throws ${error}`);
  }
  must(false, `${what} throws nothing`);
}

for (const call of [...calls, "make", "isPlain"]) {
  for (const given of [undefined, null, 5, "0e", [7], {length: 1}, new Map()]) throws(TypeError, () => naplps[call](given), call);
}
for (const call of [...calls, "begin"]) {
  const asked = (budget) => call === "begin" ? naplps.begin(budget) : naplps[call](point, budget);
  for (const budget of [-1, 0.5, MOST_BUDGET + 1, NaN, Infinity]) throws(RangeError, () => asked(budget), `${call} ${budget}`);
  for (const budget of ["5", null, 5n]) throws(TypeError, () => asked(budget), `${call} ${String(budget)}`);
  asked(0);
  asked(MOST_BUDGET);
}
throws(RangeError, () => new naplps.constructor(module, {memory: -1}), "memory");
throws(RangeError, () => new naplps.constructor(module, {memory: "5"}), "memory");

// Bytes of each kind are read as they are.
const inside = Uint8Array.of(9, ...point, 9).buffer;
for (const page of [point, point.buffer, new DataView(inside, 1, 5), new Uint8Array(inside, 1, 5), Buffer.from(point),
  new Uint8ClampedArray(inside, 1, 5), new Uint8Array(new SharedArrayBuffer(5)).fill(7)]) {
  must(naplps.check(page).accepted, "a page of another kind of bytes");
}

// A page in pieces.
const begun = naplps.begin();
must(begun.feed(point.subarray(0, 2)) === null && begun.feed(new Uint8Array()) === null, "a piece");
must(naplps.check(point).entries === 1, "a page between two pieces");
begun.feed(point.subarray(2));
must(describe(begun.finish()) === "accepted 1 entries", "a page in pieces");
throws(TypeError, () => begun.feed(point), "a piece after the end");
throws(TypeError, () => begun.finish(), "a second end");

// Little memory is a refusal, of each call, and the next page is answered.
for (const memory of [0, 1 << 16, 80_000, 100_000]) {
  const small = await load(bytes, {memory}), large = new Uint8Array(1 << 20).fill(7);
  for (const call of calls) must(small[call](large).number === 21, `${call} in ${memory} bytes`);
  must(small.make(large).fault === "NoMemory", `make in ${memory} bytes`);
  throws(RangeError, () => small.isPlain(large), `isPlain in ${memory} bytes`);
  must(memory < 100_000 || describe(small.check(point)) === "accepted 1 entries", `a small page in ${memory} bytes`);
}

// A place that has no module.
for (const source of ["file:///nowhere/naplps.wasm", new URL("file:///nowhere"), point]) {
  await load(source).then(() => must(false, "a module is loaded of nothing"), (error) => must(error instanceof Error, error));
}
await load(5).then(() => must(false, "a number is loaded"), (error) => must(error instanceof TypeError, error));
console.log(`${wrong} wrong`);
process.exitCode = wrong ? 1 : 0;
