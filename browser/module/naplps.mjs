// The calls of naplps on pages in memory, by the WebAssembly module naplps.wasm: in Node 18 and later, and in browsers.
//
//     import {load} from "./naplps.mjs";
//     const naplps = await load();
//     const answer = naplps.list(page);
//     if (answer.accepted) show(answer.bytes); else report(`${answer.name} at byte ${answer.place}`);
//
// Each call takes bytes (an ArrayBuffer, or a view of one) and returns an answer. What the bytes are is never an
// exception: a page is accepted or refused, and where memory runs out the refusal is number 21, Memory.
//
// A call throws TypeError where it isn't given bytes, and RangeError where there is no such budget; isPlain throws
// RangeError where there is no memory for the page. Any other exception is a fault of the module or of the engine, and
// says nothing of the page; the next call works on a new instance.

/** How many bytes of macro bodies a page may be charged with, where nothing else is said; and the most that may be. */
export const USUAL_BUDGET = 1 << 20;
export const MOST_BUDGET = 1 << 26;

/** How many entries a find has at least, where nothing else is said. */
export const LEAST_ENTRIES = 12;

/**
 * @typedef {ArrayBuffer | ArrayBufferView} Bytes
 * @typedef {{accepted: true, entries: number}} Counted
 * @typedef {{accepted: true, bytes: Uint8Array}} Written
 * @typedef {{accepted: true, bytes: Uint8Array, entries: number}} Made
 * @typedef {{begin: number, end: number}} Find
 *   A page among other bytes: the offset of its first byte, and the offset after its last byte.
 * @typedef {{accepted: true, finds: Find[], open: number, passed: number}} Finds
 *   The finds, in order; the offset from which on bytes that follow may change them; and how many beginnings were
 *   passed over.
 * @typedef {{accepted: false, number: number, name: string, place: number}} Refused
 *   Why a page is refused: the number and the name as docs/PROFILE.md has them, and the offset of the byte. A later
 *   version may have more numbers. Of 21, Memory, the place says nothing.
 * @typedef {"NoLine" | "Misfit" | "Unclosed" | "NoMemory"} LineFault
 * @typedef {{accepted: false, fault: LineFault, line: number, column: number, opening: number}} NotMade
 *   Why lines make no page: the first line that is wrong, from 1; the column, from 1 in bytes, of NoLine; the line that
 *   opens what isn't ended, of Unclosed; else 0.
 */

const ACCEPTED = 0, REFUSED = 1, SMALL_ROOM = 2;
const MEMORY = 21;
/** @type {LineFault[]} */
const FAULTS = ["NoLine", "Misfit", "Unclosed", "NoMemory"];
const NO_MEMORY = 4;
// The most bytes that a room has at first; a text that is longer is asked for again.
const FIRST_ROOM = 1 << 22;
// An instance never gives memory back; one that has more than this is replaced before the next call.
const LARGE_INSTANCE = 1 << 26;
// A page in pieces is handed over in parts of this many bytes.
const PART = 1 << 16;
const MOST_ADDRESS = 0xFFF00000;

/** @param {unknown} it @returns {Uint8Array} */
function bytesOf(it) {
  if (it instanceof Uint8Array) return it;
  if (ArrayBuffer.isView(it)) return new Uint8Array(it.buffer, it.byteOffset, it.byteLength);
  if (it instanceof ArrayBuffer) return new Uint8Array(it);
  throw new TypeError("a page or lines are bytes: an ArrayBuffer, or a view of one");
}

/** @param {unknown} it @param {string} [what] @returns {number} */
function budgetOf(it, what = "a budget") {
  if (typeof it !== "number") throw new TypeError(`${what} is a number`);
  if (!Number.isInteger(it) || it < 0 || it > MOST_BUDGET) {
    throw new RangeError(`${what} is a whole number from 0 to ${MOST_BUDGET}`);
  }
  return it;
}

/** @returns {Refused} */
const lacksMemory = () => ({accepted: false, number: MEMORY, name: "Memory", place: 0});

/** One instance of the module: its memory, and what stands there. */
class Instance {
  /** @param {WebAssembly.Module} module @param {number} memory */
  constructor(module, memory) {
    /** @type {any} */
    this.calls = new WebAssembly.Instance(module, {}).exports;
    this.calls.limit_blocks(memory);
    this.answerAt = this.calls.place_of_answer() >>> 0;
  }

  /** How many bytes its memory has. */
  get size() { return this.calls.memory.buffer.byteLength; }

  /**
   * The address of a room, or 0 where there is no memory for it.
   * @param {number} length
   * @returns {number}
   */
  take(length) { return length > MOST_ADDRESS ? 0 : this.calls.take(length) >>> 0; }

  /** @param {number} address @param {Uint8Array} bytes */
  put(address, bytes) { new Uint8Array(this.calls.memory.buffer, address, bytes.length).set(bytes); }

  /** @param {number} address @param {number} length @returns {Uint8Array} */
  copy(address, length) { return new Uint8Array(this.calls.memory.buffer, address, length).slice(); }

  /**
   * A number of 32 bits of the answer.
   * @param {number} at
   * @returns {number}
   */
  word(at) { return this.view().getUint32(at, true); }

  /**
   * A number of 64 bits of the answer.
   * @param {number} at
   * @returns {number}
   */
  wide(at) { return Number(this.view().getBigUint64(at, true)); }

  view() { return new DataView(this.calls.memory.buffer, this.answerAt, 56); }

  /**
   * The refusal that the answer has.
   * @returns {Refused}
   */
  refusal() {
    const name = new Uint8Array(this.calls.memory.buffer, this.answerAt + 24, 32);
    const length = Math.max(0, name.indexOf(0));
    return {accepted: false, number: this.word(4), name: String.fromCharCode(...name.subarray(0, length)),
      place: this.wide(8)};
  }
}

/** The calls of the library, by a compiled module. One call runs at a time, as everything in JavaScript. */
export class Naplps {
  /** @type {WebAssembly.Module} */
  #module;
  /** @type {number} */
  #memory;
  /** @type {Instance | null} */
  #instance = null;

  /**
   * @param {WebAssembly.Module} module the compiled naplps.wasm
   * @param {{memory?: number}} [options] `memory`: how many bytes of memory a call may have in all, the page and its
   *   answer included; 4 GiB less a megabyte at most, which is usual. A page that needs more is refused as number 21.
   */
  constructor(module, options = {}) {
    const memory = options.memory ?? MOST_ADDRESS;
    if (typeof memory !== "number" || !(memory >= 0)) throw new RangeError("memory is a number of bytes");
    this.#module = module;
    this.#memory = Math.floor(Math.min(memory, MOST_ADDRESS));
  }

  /**
   * How many entries a page has.
   * @param {Bytes} page @param {number} [budget] @returns {Counted | Refused}
   */
  check(page, budget = USUAL_BUDGET) {
    const bytes = bytesOf(page), most = budgetOf(budget);
    return this.#call((it) => {
      const at = it.take(bytes.length);
      if (!at) return lacksMemory();
      it.put(at, bytes);
      it.calls.check(most, at, bytes.length);
      return it.word(0) === ACCEPTED ? {accepted: true, entries: it.wide(16)} : it.refusal();
    });
  }

  /**
   * A line for each entry, in ASCII, as `naplps list` prints them.
   * @param {Bytes} page @param {number} [budget] @returns {Written | Refused}
   */
  list(page, budget = USUAL_BUDGET) { return this.#text("list", page, budget, 64); }

  /**
   * The canonical stream: two pages have the same exactly if their entries are the same.
   * @param {Bytes} page @param {number} [budget] @returns {Written | Refused}
   */
  canon(page, budget = USUAL_BUDGET) { return this.#text("canon", page, budget, 2); }

  /**
   * The text of the entries in form 1, which canonical streams had before form 2.
   * @param {Bytes} page @param {number} [budget] @returns {Written | Refused}
   */
  canonForm1(page, budget = USUAL_BUDGET) { return this.#text("canon_form1", page, budget, 2); }

  /**
   * The lines of `list`, each after the offset of the byte that added its entry, and a space. A page that is refused
   * has the lines before the refusal in `bytes`.
   * @param {Bytes} page @param {number} [budget] @returns {Written | (Refused & {bytes: Uint8Array})}
   */
  places(page, budget = USUAL_BUDGET) {
    const answer = this.#text("places", page, budget, 72);
    return answer.accepted ? answer : {...answer, bytes: answer.bytes ?? new Uint8Array()};
  }

  /**
   * The pages among other bytes, as docs/FINDING.md has them. Each has at least this number of entries, twice as many
   * bytes, and one shape. It is refused for want of memory alone.
   * @param {Bytes} bytes @param {number} [least] @returns {Finds | Refused}
   */
  find(bytes, least = LEAST_ENTRIES) {
    const answer = this.#text("find", bytes, budgetOf(least, "a number of entries"), 1);
    return answer.accepted ? findsOf(new TextDecoder().decode(answer.bytes)) : answer;
  }

  /**
   * The page that lines make, as `list` gives them: its canonical stream.
   * @param {Bytes} lines @returns {Made | NotMade}
   */
  make(lines) {
    const bytes = bytesOf(lines);
    for (let size = Math.min(bytes.length, FIRST_ROOM); ;) {
      const room = size;
      const {answer, need} = this.#call((it) => this.#made(it, bytes, room));
      if (answer) return answer;
      size = need;
    }
  }

  /**
   * Whether a page is plain, as each canonical stream is. A page that is refused may be plain.
   * @param {Bytes} page @returns {boolean}
   */
  isPlain(page) {
    const bytes = bytesOf(page);
    return this.#call((it) => {
      const at = it.take(bytes.length);
      if (!at) throw new RangeError("there is no memory for the page");
      it.put(at, bytes);
      return Boolean(it.calls.is_plain(at, bytes.length));
    });
  }

  /**
   * Begins to check a page that comes in pieces.
   * @param {number} [budget] @returns {Checking}
   */
  begin(budget = USUAL_BUDGET) { return new Checking(this.#module, this.#memory, budgetOf(budget)); }

  /**
   * @param {string} call @param {Bytes} page @param {number} budget @param {number} growth
   * @returns {Written | (Refused & {bytes?: Uint8Array})}
   */
  #text(call, page, budget, growth) {
    const bytes = bytesOf(page), most = budgetOf(budget);
    for (let size = Math.min(growth * bytes.length + 256, FIRST_ROOM); ;) {
      const room = size;
      const {answer, need} = this.#call((it) => this.#written(it, call, bytes, most, room));
      if (answer) return answer;
      size = need;
    }
  }

  /**
   * The answer of a call that writes a text, or how large a room it needs.
   * @param {Instance} it @param {string} call @param {Uint8Array} bytes @param {number} budget @param {number} size
   * @returns {{answer: Written | (Refused & {bytes?: Uint8Array}) | null, need: number}}
   */
  #written(it, call, bytes, budget, size) {
    const at = it.take(bytes.length), room = at && it.take(size);
    if (!room) return {answer: lacksMemory(), need: 0};
    it.put(at, bytes);
    it.calls[call](budget, at, bytes.length, room, size);
    const status = it.word(0), length = it.wide(16);
    if (status === SMALL_ROOM) return {answer: null, need: length};
    const text = it.copy(room, length);
    if (status !== REFUSED) return {answer: {accepted: true, bytes: text}, need: length};
    return {answer: call === "places" ? {...it.refusal(), bytes: text} : it.refusal(), need: length};
  }

  /**
   * @param {Instance} it @param {Uint8Array} bytes @param {number} size
   * @returns {{answer: Made | NotMade | null, need: number}}
   */
  #made(it, bytes, size) {
    const at = it.take(bytes.length), room = at && it.take(size);
    if (!room) return {answer: notMade(NO_MEMORY, 0, 0, 0), need: 0};
    it.put(at, bytes);
    it.calls.make(at, bytes.length, room, size);
    const status = it.word(0), length = it.wide(32);
    if (status === SMALL_ROOM) return {answer: null, need: length};
    if (status === REFUSED) return {answer: notMade(it.word(4), it.wide(8), it.wide(16), it.wide(24)), need: 0};
    return {answer: {accepted: true, bytes: it.copy(room, length), entries: it.wide(40)}, need: length};
  }

  /**
   * Calls with all memory free. After an exception, or after much memory, the next call has a new instance.
   * @template T @param {(it: Instance) => T} call @returns {T}
   */
  #call(call) {
    const it = this.#instance ?? new Instance(this.#module, this.#memory);
    this.#instance = null;
    it.calls.forget();
    const answer = call(it);
    if (it.size <= LARGE_INSTANCE) this.#instance = it;
    return answer;
  }
}

/** @param {string} text @returns {Finds} */
function findsOf(text) {
  const lines = text.trimEnd().split("\n").map((line) => line.split(" ")), last = lines.pop() ?? [];
  const finds = lines.map(([begin, end]) => ({begin: Number(begin), end: Number(end)}));
  return {accepted: true, finds, open: Number(last[1]), passed: Number(last[3])};
}

/** @param {number} fault @param {number} line @param {number} column @param {number} opening @returns {NotMade} */
const notMade = (fault, line, column, opening) => ({accepted: false, fault: FAULTS[fault - 1], line, column, opening});

/** A page that comes in pieces, of which no byte is kept. It has an instance, and so memory, of its own. */
export class Checking {
  /** @type {Instance | null} */
  #instance;
  /** @type {Refused | null} */
  #refused = null;
  /** @type {number} */
  #part;

  /**
   * As `begin` of the class Naplps gives it.
   * @param {WebAssembly.Module} module @param {number} memory @param {number} budget
   */
  constructor(module, memory, budget) {
    const instance = this.#instance = new Instance(module, memory);
    this.#part = instance.take(PART);
    instance.calls.check_begin(budget);
    if (!this.#part) this.#refused = lacksMemory();
    else if (instance.word(0) !== ACCEPTED) this.#refused = instance.refusal();
  }

  /**
   * Takes the next piece. Once the page is refused, whatever comes, it gives the refusal; until then null.
   * @param {Bytes} piece @returns {Refused | null}
   */
  feed(piece) {
    const bytes = bytesOf(piece), it = this.#running();
    for (let from = 0; from < bytes.length && !this.#refused; from += PART) {
      const part = bytes.subarray(from, from + PART);
      it.put(this.#part, part);
      it.calls.check_feed(this.#part, part.length);
      if (it.word(0) !== ACCEPTED) this.#refused = it.refusal();
    }
    return this.#refused;
  }

  /**
   * Ends the page, and gives what `check` gives of all pieces together.
   * @returns {Counted | Refused}
   */
  finish() {
    const it = this.#running();
    this.#instance = null;
    if (this.#refused) return this.#refused;
    it.calls.check_finish();
    return it.word(0) === ACCEPTED ? {accepted: true, entries: it.wide(16)} : it.refusal();
  }

  /** @returns {Instance} */
  #running() {
    if (!this.#instance) throw new TypeError("the page was finished");
    return this.#instance;
  }
}

/**
 * The line of an answer, as `naplps check` and `naplps make` print it.
 * @param {Counted | Made | Refused | NotMade} answer @returns {string}
 */
export function describe(answer) {
  if (answer.accepted) return `accepted ${answer.entries} entries`;
  if ("number" in answer) return `refused ${answer.number} ${answer.name} at ${answer.place}`;
  switch (answer.fault) {
    case "NoLine": return `line ${answer.line}: no line of a list, at column ${answer.column}`;
    case "Misfit": return `line ${answer.line}: can't come here`;
    case "Unclosed": return `line ${answer.line}: the definition of line ${answer.opening} isn't ended`;
    default: return "no memory";
  }
}

/**
 * Loads the module.
 * @param {URL | string | Bytes | WebAssembly.Module} [source] where naplps.wasm is, its bytes, or what was compiled of
 *   it; without it the file beside this one
 * @param {{memory?: number}} [options] as of the class Naplps
 * @returns {Promise<Naplps>}
 */
export async function load(source = new URL("./naplps.wasm", import.meta.url), options = {}) {
  if (source instanceof WebAssembly.Module) return new Naplps(source, options);
  const bytes = typeof source === "string" || source instanceof URL ? await fetched(source) : bytesOf(source);
  return new Naplps(await WebAssembly.compile(bytes), options);
}

/**
 * The bytes of a file or of an address.
 * @param {URL | string} source
 * @returns {Promise<Uint8Array>}
 */
async function fetched(source) {
  /** @type {any} */
  const host = globalThis, address = new URL(source, host.document?.baseURI ?? import.meta.url);
  if (address.protocol === "file:" && host.process?.versions?.node) {
    const files = "node:fs/promises";
    return new Uint8Array(await (await import(files)).readFile(address));
  }
  const response = await fetch(address);
  if (!response.ok) throw new Error(`${address}: ${response.status} ${response.statusText}`);
  return new Uint8Array(await response.arrayBuffer());
}
