// node answer-records.mjs MODULE < RECORDS > ANSWERS
import {readFileSync, writeSync} from "node:fs";
import {answersOf} from "./records.mjs";

const module = new WebAssembly.Module(readFileSync(process.argv[2])), records = new Uint8Array(readFileSync(0));
let held = [], size = 0;

function flush() {
  const bytes = Buffer.concat(held);
  for (let at = 0; at < bytes.length;) at += writeSync(1, bytes, at);
  held = [];
  size = 0;
}

for (const piece of answersOf(module, records)) {
  held.push(piece);
  size += piece.length;
  if (size > 1 << 22) flush();
}
flush();
