// node changes.mjs MODULE COUNT SEED < RECORDS: changed pages and lists through each call of naplps.mjs. It prints how
// many there were, the longest time of all calls on one, and each exception; the status is 1 where there was one.
import {readFileSync} from "node:fs";
import {describe, load} from "../naplps.mjs";

const [, , file, count, seed] = process.argv, data = readFileSync(0), naplps = await load(readFileSync(file));
/** Pages and lists that are changed. */
const records = [], lists = [];
for (let at = 0; at < data.length;) {
  const length = data.readUInt32LE(at + 8);
  const kept = data.readUInt32LE(at) === 1 ? lists : records;
  if (length > 0 && length <= 600) kept.push(data.subarray(at + 12, at + 12 + length));
  at += 12 + length;
}

let state = Number(seed) >>> 0 || 1;
/** A number below another, by xorshift. */
function chance(below) {
  state ^= state << 13;
  state ^= state >>> 17;
  state ^= state << 5;
  return (state >>> 0) % below;
}

/** One of these, with bytes that are others, taken out or put in. */
function changed(kept) {
  const bytes = Array.from(kept[chance(kept.length)]);
  for (let n = chance(4); n > 0; n--) {
    const at = chance(bytes.length + 1), other = kept[chance(kept.length)], from = chance(other.length);
    if (chance(3) === 0 && at < bytes.length) bytes[at] = chance(256);
    else bytes.splice(at, chance(5), ...other.subarray(from, from + chance(20)));
  }
  return Uint8Array.from(bytes);
}

const BUDGETS = [0, 3, 300, 5000, 1 << 20];
let longest = 0, accepted = 0, made = 0, faults = 0;
for (let n = 0; n < Number(count); n++) {
  const bytes = changed(n % 2 ? records : lists), budget = BUDGETS[chance(BUDGETS.length)], began = performance.now();
  try {
    const counted = naplps.check(bytes, budget), listed = naplps.list(bytes, budget), canon = naplps.canon(bytes, budget);
    const placed = naplps.places(bytes, budget), lines = naplps.make(bytes);
    if (new Set([counted, listed, canon, placed].map((it) => it.accepted || describe(it))).size !== 1) throw new Error("calls differ");
    accepted += counted.accepted;
    made += lines.accepted;
    describe(lines);
  } catch (error) {
    if (faults++ < 5) console.log(`${Buffer.from(bytes).toString("hex")} budget ${budget}: ${error.stack}`);
  }
  longest = Math.max(longest, performance.now() - began);
}
console.log(JSON.stringify({pages: Number(count), accepted, made, longest: Math.round(longest), faults}));
process.exitCode = faults ? 1 : 0;
