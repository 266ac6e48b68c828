// node limits.mjs MODULE PAGES < RECORDS: the stack and the heap of the module. It prints what it found, and ends with
// the status 1 where an answer is neither the whole one nor the lack of memory.
import {readFileSync} from "node:fs";

const bytes = readFileSync(process.argv[2]), pages = Number(process.argv[3]), data = readFileSync(0);
const CALLS = ["check", "list", "canon", "canon_form1", "places", "find", "make"];
const STACK = 1 << 16, MEMORY = 21, NO_MEMORY = 4, LONGEST = 3000, ALL = 0xFFFFFFFF;

const start = (code) => new WebAssembly.Instance(new WebAssembly.Module(code), {}).exports;

/** The records: a budget and bytes; a page, or lines where that is said. */
const records = [];
for (let at = 0; at < data.length;) {
  const [kind, budget, length] = [0, 4, 8].map((offset) => data.readUInt32LE(at + offset));
  records.push({kind, budget, bytes: data.subarray(at + 12, at + 12 + length)});
  at += 12 + length;
}

/** A call on bytes with no room for a text: all that the answer has, or null where there is no memory for the bytes. */
function ask(it, call, budget, page) {
  it.forget();
  const at = it.take(page.length) >>> 0;
  if (!at) return null;
  new Uint8Array(it.memory.buffer, at, page.length).set(page);
  if (call === "check") it.check(budget, at, page.length);
  else if (call === "make") it.make(at, page.length, 0, 0);
  else it[call](budget, at, page.length, 0, 0);
  return Buffer.from(new Uint8Array(it.memory.buffer, it.place_of_answer() >>> 0, 56)).toString("hex", 0, call === "make" ? 48 : 56);
}

/** Whether an answer is that there was no memory. */
function lacks(call, answer) {
  const status = parseInt(answer.slice(0, 2), 16), number = parseInt(answer.slice(8, 10), 16);
  return status === 1 && number === (call === "make" ? NO_MEMORY : MEMORY);
}

const fits = (call, {kind}) => (call === "make") === (kind === 1);

/** How deep the stack was, over all records. */
function stack() {
  const it = start(bytes);
  new Uint8Array(it.memory.buffer, 0, STACK).fill(0xAA);
  for (const record of records) {
    for (const call of CALLS) if (fits(call, record)) ask(it, call, record.budget, record.bytes);
  }
  const used = new Uint8Array(it.memory.buffer, 0, STACK).findIndex((byte) => byte !== 0xAA);
  return STACK - (used < 0 ? STACK : used);
}

/** Refuses each growth of the heap in turn: at first all memory that there is ends where the page does. */
function growths() {
  const it = start(bytes), told = {pages: 0, lacking: 0, whole: 0, wrong: 0};
  const chosen = records.filter((record) => record.bytes.length > 4 && record.bytes.length <= LONGEST);
  const step = Math.max(1, Math.floor(chosen.length / pages));
  for (let n = 0; n < chosen.length && told.pages < pages; n += step, told.pages++) {
    for (const call of CALLS) if (fits(call, chosen[n])) limited(it, call, chosen[n], told);
  }
  return told;
}

function limited(it, call, record, told) {
  it.limit_blocks(ALL);
  const whole = ask(it, call, record.budget, record.bytes);
  it.forget();
  for (let limit = it.take(record.bytes.length) && it.end_of_blocks() >>> 0; limit;) {
    it.limit_blocks(limit);
    const answer = ask(it, call, record.budget, record.bytes), next = it.end_refused() >>> 0;
    if (answer === whole) told.whole++;
    else if (answer !== null && lacks(call, answer)) told.lacking++;
    else told.wrong++;
    limit = next > limit ? next : 0;
  }
}

/** The module with another maximum of its memory, in pages of 64 KiB. */
function withMaximum(most) {
  const code = Uint8Array.from(bytes);
  let at = 8;
  const number = () => {
    let value = 0;
    for (let shift = 0; ; shift += 7) {
      const byte = code[at++];
      value += (byte & 127) * 2 ** shift;
      if (byte < 128) return value;
    }
  };
  for (;;) {
    const section = code[at++], size = number();
    if (section === 5) break;
    at += size;
  }
  number();
  if (code[at++] !== 1) throw new Error("the module's memory has no maximum");
  number();
  code.set([(most & 127) | 128, ((most >> 7) & 127) | 128, most >> 14], at);
  return code;
}

/** A page whose list is longer than memory: the refusal, and then the answer to another page. */
function refusedGrowth() {
  const define = Buffer.from([0x1B, 0x40, 0x21, 0x0F]), call = Buffer.from([0x1B, 0x6F, 0x1B, 0x45, 0x1B, 0x2B, 0x7A, 0x1B, 0x6F]);
  const page = Buffer.concat([define, Buffer.alloc(30000, 0x41), call, Buffer.alloc(100, 0x21)]);
  const it = start(withMaximum(2048)), answer = ask(it, "list", 1 << 26, page);
  const small = ask(it, "list", 1 << 20, Buffer.from("0e26524040", "hex"));
  const other = ask(start(bytes), "list", 1 << 20, Buffer.from("0e26524040", "hex"));
  return lacks("list", answer) && small === other && it.memory.buffer.byteLength <= 2048 << 16;
}

/** A block that would end beyond all memory, or beyond all addresses, is refused; the next one isn't. */
function ends() {
  const it = start(withMaximum(2048));
  const none = [0xFFFFFFFF, 0xFFFFFFF0, 0xFFEF0000, 0xF0000000, 0x80000000, 0x8000000].map((size) => it.take(size) >>> 0);
  return none.every((at) => at === 0) && it.take(1000) > 0;
}

/** All addresses taken: no block ends in the last megabyte, the next one is refused, and then a page is answered. */
function full() {
  const it = start(bytes), point = Buffer.from("0e26524040", "hex"), whole = ask(it, "list", 0, point);
  it.forget();
  for (let size = 1 << 28; size >= 16; size >>= 1) while (it.take(size) >>> 0);
  const end = it.end_of_blocks() >>> 0, most = 0xFFF00000;
  return end <= most && (it.take(16) >>> 0) === 0 && it.memory.buffer.byteLength <= most && ask(it, "list", 0, point) === whole;
}

const depth = stack(), found = growths(), refused = refusedGrowth(), bounded = ends() && full();
console.log(JSON.stringify({depth, ...found, refused, bounded}));
process.exitCode = found.wrong || !refused || !bounded || !found.lacking || !found.whole ? 1 : 0;
