// node requests.mjs MODULE: answers requests as `naplps batch` does, by naplps.mjs, and form1 and plain too. What has to
// hold of several calls together is looked at.
import {readFileSync, readSync, writeSync} from "node:fs";
import {describe, load} from "../naplps.mjs";

const naplps = await load(readFileSync(process.argv[2]));
let held = Buffer.alloc(0), ended = false;

function must(right, what) {
  if (!right) throw new Error(what);
}

/** Reads on, until `is` gives a number of bytes that are there, or the input ends. */
function take(is) {
  for (;;) {
    const count = is();
    if (count >= 0 && count <= held.length) {
      const taken = held.subarray(0, count);
      held = held.subarray(count);
      return taken;
    }
    if (ended) return null;
    const piece = Buffer.alloc(1 << 16), got = readSync(0, piece, 0, piece.length, null);
    ended = got === 0;
    held = Buffer.concat([held, piece.subarray(0, got)]);
  }
}

/** A page in pieces has the answer of the whole, wherever it is cut. */
function tryPieces(page, budget, whole) {
  for (const size of [1, 7, Math.max(1, page.length >> 1)]) {
    if (page.length / size > 3000) continue;
    const begun = naplps.begin(budget);
    let last = null;
    for (let at = 0; at < page.length && !last; at += size) last = begun.feed(page.subarray(at, at + size));
    const told = begun.finish();
    must(describe(told) === whole && (!last || describe(last) === whole), `pieces of ${size} have another answer`);
  }
}

const texts = {list: "list", canon: "canon", form1: "canonForm1", places: "places"};

function answer(command, budget, page) {
  if (command === "plain") return [naplps.isPlain(page) ? "plain" : "not plain", new Uint8Array()];
  if (command === "make") {
    const made = naplps.make(page);
    if (made.accepted) must(Buffer.compare(naplps.list(made.bytes, 0).bytes, page) === 0, "a made page has other lines");
    return [describe(made), made.bytes ?? new Uint8Array()];
  }
  if (command === "find") {
    const {finds, open, passed} = naplps.find(page, budget);
    const lines = finds.map(({begin, end}) => `${begin} ${end}\n`).join("");
    return [`found ${finds.length} pages`, Buffer.from(`${lines}open ${open} passed ${passed}\n`)];
  }
  const counted = describe(naplps.check(page, budget));
  if (command === "check") tryPieces(page, budget, counted);
  if (command === "check") return [counted, new Uint8Array()];
  const told = naplps[texts[command]](page, budget);
  must(told.accepted ? counted.startsWith("accepted ") : describe(told) === counted, "two calls differ");
  return [counted, told.accepted || command === "places" ? told.bytes : new Uint8Array()];
}

for (;;) {
  const line = take(() => held.indexOf(10) + 1 || -1);
  if (!line) break;
  const [command, budget, length] = line.toString("latin1").trimEnd().split(" ");
  const page = take(() => Number(length));
  must(page, "the input ends amid a request");
  const [told, bytes] = answer(command, Number(budget), page);
  const out = Buffer.concat([Buffer.from(`${told}\n${bytes.length}\n`), bytes]);
  for (let at = 0; at < out.length;) at += writeSync(1, out, at);
}
