// Answers records by each call of the module, as tests/library/records.c does by the library: structs and texts, byte
// for byte. It runs in Node and in a browser.

const LARGE = 1 << 29;

/** The calls of an instance, with all that they answer. */
class Calls {
  constructor(module) {
    this.module = module;
    this.start();
    this.held = [];
  }

  start() {
    this.it = new WebAssembly.Instance(this.module, {}).exports;
    this.place = this.it.place_of_answer() >>> 0;
  }

  bytes(at, length) { return new Uint8Array(this.it.memory.buffer, at, length); }
  add(at, length) { this.held.push(this.bytes(at, length).slice()); }
  wide(at) { return Number(new DataView(this.it.memory.buffer, this.place, 56).getBigUint64(at, true)); }

  put(bytes) {
    const at = this.it.take(bytes.length) >>> 0;
    if (!at) throw new Error("there is no memory for the test");
    this.bytes(at, bytes.length).set(bytes);
    return at;
  }

  /** A call that writes a text, asked for its length first. */
  text(call, given, before, lengthAt, size) {
    let room = 0;
    const ask = (need) => {
      this.it.forget();
      const at = this.put(given);
      room = need ? this.it.take(need) >>> 0 : 0;
      if (need && !room) throw new Error("there is no memory for the test");
      this.it[call](...before, at, given.length, room, need);
      return this.wide(lengthAt);
    };
    const need = ask(0);
    if (need) ask(need);
    this.add(this.place, size);
    this.add(room, need);
    return this.held[this.held.length - 1];
  }

  make(lines) { this.text("make", lines, [], 32, 48); }

  check(budget, page) {
    this.it.forget();
    this.it.check(budget, this.put(page), page.length);
    this.add(this.place, 56);
  }

  plain(page) {
    this.it.forget();
    this.held.push(Uint8Array.of(this.it.is_plain(this.put(page), page.length)));
  }

  pieces(budget, page) {
    this.it.forget();
    const at = this.put(page), cuts = [0, Math.floor(page.length / 3), Math.floor(page.length / 2), page.length];
    this.it.check_begin(budget);
    this.add(this.place, 56);
    for (let i = 0; i < 3; i++) {
      this.it.check_feed(at + cuts[i], cuts[i + 1] - cuts[i]);
      this.add(this.place, 56);
    }
    this.it.check_finish();
    this.add(this.place, 56);
    this.it.check_drop();
  }

  page(budget, page) {
    this.check(budget, page);
    this.make(this.text("list", page, [budget], 16, 56));
    for (const call of ["canon", "canon_form1", "places"]) this.text(call, page, [budget], 16, 56);
    this.text("find", page, [1], 16, 56);
    this.plain(page);
    this.pieces(budget, page);
  }
}

/** The answers to records, as pieces of bytes, with the length of each record's answers before them. */
export function* answersOf(module, records) {
  const calls = new Calls(module), view = new DataView(records.buffer, records.byteOffset, records.byteLength);
  for (let at = 0; at < records.length;) {
    const [kind, budget, length] = [0, 4, 8].map((offset) => view.getUint32(at + offset, true));
    const bytes = records.subarray(at + 12, at + 12 + length);
    at += 12 + length;
    calls.held = [];
    if (kind === 1) calls.make(bytes);
    else calls.page(budget, bytes);
    const size = calls.held.reduce((sum, piece) => sum + piece.length, 0);
    yield new Uint8Array(Uint32Array.of(size).buffer);
    yield* calls.held;
    if (calls.it.memory.buffer.byteLength > LARGE) calls.start();
  }
}
