// The drawing of many lists by browser/drawing.js. Each comes as two parts: its canonical stream, and its lines; a part as
// its length, four bytes, and its bytes. Both have to have the same entries. The answer is a line of JSON.
import { deepStrictEqual } from "node:assert";
import { readFileSync } from "node:fs";
import { read } from "../../browser/canonical.mjs";
import { drawing, drawingOf, entriesOf } from "../../browser/playing.js";

const all = readFileSync(0), parts = [];
for (let at = 0; at < all.length; at += 4 + all.readUInt32BE(at)) {
  parts.push(all.subarray(at + 4, at + 4 + all.readUInt32BE(at)));
}
for (let at = 0; at < parts.length; at += 2) {
  const lines = parts[at + 1].toString("ascii").split("\n").slice(0, -1), entries = entriesOf(lines);
  const wanted = [...read(parts[at])].map(({ place, ...entry }) => entry);
  deepStrictEqual(entries, wanted);
  const drawn = JSON.stringify(drawing(entries));
  if (JSON.stringify(drawingOf(lines)) !== drawn) throw new Error("the lines draw otherwise than their entries");
  process.stdout.write(`${drawn}\n`);
}
