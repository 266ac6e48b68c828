// Reads canonical streams of NAPLPS. This file needs no other; docs/CANONICAL.md has the format.
//
//     import { read, lineOf } from "./canonical.mjs";
//     for (const entry of read(bytes)) console.log(entry.place, lineOf(entry));
//
// A canonical stream is what `naplps canon` and `naplps make` print.

// The side of the unit screen, in steps; and how many colours of the map are known at most.
const ONE = 1 << 23, MOST_KNOWN = 16;
const HEADER = [0x0e, 0x21, 0x5f];
const INK = ["pel", "colour", "texture"], HAND = ["colour", "pen", "text"];

const several = (least, most, step) => (length) => length >= least && length <= most && length % step === 0;
const oneOf = (...lengths) => (length) => lengths.includes(length);
const SINGLES = several(8, 16384, 8), PAIRS = several(16, 16384, 16);
const ARCS = several(24, 16008, 8), POLYGONS = several(16, 16008, 8);
// The opcodes: how many bytes the run of each may have, and the entries that it makes of points.
const RUNS = new Map([
  [0x20, [oneOf(2)]], [0x21, [oneOf(1, 9)]], [0x22, [oneOf(2, 10)]], [0x23, [oneOf(1, 9)]], [0x24, [oneOf(8), "PEN"]],
  [0x26, [SINGLES, "POINT"]], [0x28, [SINGLES, "LINE"]], [0x2a, [PAIRS, "LINE"]], [0x2e, [ARCS, "ARC-OUTLINED"]],
  [0x2f, [ARCS, "ARC-FILLED"]], [0x32, [PAIRS, "RECT-OUTLINED"]], [0x33, [PAIRS, "RECT-FILLED"]],
  [0x36, [POLYGONS, "POLY-OUTLINED"]], [0x37, [POLYGONS, "POLY-FILLED"]], [0x38, [oneOf(0, 16), "FIELD"]],
  [0x3c, [oneOf(8)]], [0x3d, [oneOf(1)]], [0x3e, [oneOf(0, 4, 8)]], [0x3f, [oneOf(0, 7)]]]);
// The entries of codes without an argument, with what these hold: bytes, and those after ESC.
const BYTES = new Map([[0x07, ["BELL", []]], [0x0c, ["CLEAR", ["pen"]]]]);
for (const [byte, move] of [[8, "APB"], [9, "APF"], [10, "APD"], [11, "APU"], [13, "APR"], [30, "APH"]]) {
  BYTES.set(byte, ["MOVE", HAND, { move, bytes: [] }]);
}
const CONTROLS = new Map([[0x4e, ["BLINK-START", ["colour"]]], [0x5e, ["BLINK-STOP", ["colour"]]]]);
["flash", "steady", "off"].forEach((cursor, i) => CONTROLS.set(0x5b + i, ["CURSOR", [], { cursor }]));
// What the byte after ESC makes current.
const TEXTS = new Map();
for (const [byte, size] of [[0x4a, "small"], [0x4b, "medium"], [0x4c, "normal"], [0x4d, "tall"], [0x4f, "double"]]) {
  TEXTS.set(byte, { size, given: null });
}
for (const [flag, on, off] of [["reverse", 0x48, 0x49], ["underline", 0x59, 0x5a], ["wrap", 0x55, 0x56],
  ["scroll", 0x57, 0x58]]) {
  TEXTS.set(on, { [flag]: true }).set(off, { [flag]: false });
}
const FLAGS = ["reverse", "underline", "wrap", "scroll"];

const penAt = (at, point = null) => ({ at, point });
const colourOf = (kind, value = null, addresses = []) => ({ kind, value, addresses });
const numberOf = (words) => words.reduce((number, word) => number * 64 + word, 0);
const sum = (point, move) => [point[0] + move[0], point[1] + move[1]];
const PLAIN = { word: 0, mask: null };
const TEXT = {
  words: [0, 0], size: "normal", given: null, reverse: false, underline: false, wrap: false, scroll: false,
};

// The stream isn't canonical: `reason`, a name of the table of refusals, and `place`, an offset.
class NotCanonical extends Error {
  constructor(reason, place) {
    super(`refused ${reason} at ${place}`);
    Object.assign(this, { name: "NotCanonical", reason, place });
  }
}

// A point or a displacement: three bits of x and three of y in each word, in two's complement.
function pairOf(words) {
  let x = 0, y = 0;
  for (const word of words) {
    x = x << 3 | word >> 3;
    y = y << 3 | word & 7;
  }
  return [(x ^ ONE) - ONE, (y ^ ONE) - ONE];
}

// A colour: in each word two bits of green, red and blue, which lie three bits apart.
function valueOf(words) {
  return [0, 1, 2].map((part) => words.reduce(
    (value, word) => value << 2 | word >> (5 - part) << 1 & 2 | word >> (2 - part) & 1, 0));
}

const cut = (all, size) => Array.from({ length: all.length / size }, (_, i) => all.slice(i * size, (i + 1) * size));

// The points of each entry that an opcode makes of its operands.
function pointsOf(kind, operands, joined) {
  if (kind === "PEN" || kind === "POINT") return operands.map((each) => [each]);
  if (kind === "LINE") return joined ? operands.slice(1).map((each, i) => [operands[i], each]) : cut(operands, 2);
  if (kind.startsWith("RECT") || kind === "FIELD" && operands.length) {
    return cut(operands, 2).map(([at, size]) => [at, sum(at, size)]);
  }
  const points = operands.slice(0, 1);
  for (const move of operands.slice(1)) points.push(sum(points[points.length - 1], move));
  return [points];
}

// Where a shape leaves the pen.
function endOf(kind, points) {
  if (kind.startsWith("RECT")) return [points[1][0], points[0][1]];
  return points[kind.startsWith("POLY") ? 0 : points.length - 1];
}

// A stream, how far it is read, and what is current there.
class Reader {
  constructor(stream) {
    this.stream = stream;
    this.at = 1;
    this.state = { pen: penAt("start"), pel: [0, 0], colour: colourOf("own-start"), base: colourOf("own-start"),
      texture: PLAIN, text: TEXT };
    this.saved = null;
    this.known = [];
    this.draws = true;
    this.afterCharacter = false;
  }

  // The entries of the next code.
  code() {
    const place = this.at, byte = this.next();
    if (byte === 0x1b) return this.control(this.next());
    if (byte === 0x0e || byte === 0x0f) {
      this.draws = byte === 0x0e;
      return [];
    }
    if (BYTES.has(byte)) {
      const [kind, held, own] = BYTES.get(byte);
      return this.entry(kind, place, held, own);
    }
    if (byte === 0x1c) {
      const bytes = [this.argument(), this.argument()];
      return this.entry("MOVE", this.at - 1, HAND, { move: "APS", bytes });
    }
    if (byte === 0x19 || byte === 0x1d) {
      return this.character(byte === 0x19 ? "supplementary" : "mosaic", this.argument(), place + 1);
    }
    if (byte >= 0x20 && byte < 0x80 && !this.draws) return this.character("primary", byte, place);
    this.refuseIf(!RUNS.has(byte) || !this.draws, "BadCode", place);
    return this.opcode(byte, place);
  }

  // The entries of ESC and this byte.
  control(byte) {
    const place = this.at - 1;
    if (CONTROLS.has(byte)) {
      const [kind, held, own] = CONTROLS.get(byte);
      return this.entry(kind, place, held, own);
    }
    if (byte === 0x47) {
      this.refuseIf(!this.afterCharacter, "NothingToRepeat", place);
      return this.entry("TO-EOL", place, HAND);
    }
    if (byte === 0x2b) { // a character of DRCS, which is in G3 for it alone
      this.expect(0x7b, 0x1d);
      const code = this.argument(), completed = this.at - 1;
      this.expect(0x1b, 0x2b, 0x7d);
      return this.character("drcs", code, completed);
    }
    if (byte === 0x43 || byte === 0x44 || byte === 0x45) return this.definition(byte, place);
    this.refuseIf(!TEXTS.has(byte), "BadCode", place);
    this.state.text = { ...this.state.text, ...TEXTS.get(byte) };
    return [];
  }

  // The start of a glyph or a mask, or the end of one.
  definition(byte, place) {
    this.refuseIf((byte === 0x45) !== (this.saved !== null), "BadDefinition", place);
    if (this.saved) {
      this.state = this.saved;
      this.saved = null;
      return this.entry("END", place);
    }
    const code = byte === 0x43 ? this.argument() : this.argument(0x41, 0x44);
    this.saved = this.state;
    this.state = { ...this.state, pen: penAt("start") };
    if (byte === 0x43) return this.entry("GLYPH", place + 1, [], { character: code });
    return this.entry("MASK", place + 1, [], { mask: String.fromCharCode(code) });
  }

  // The entries of an opcode and its run, the bytes 40 to 7F that follow it.
  opcode(opcode, start) {
    while (this.at < this.stream.length && this.stream[this.at] >> 6 === 1) this.at++;
    const words = Array.from(this.stream.subarray(start + 1, this.at), (byte) => byte - 0x40);
    const [takes, shape] = RUNS.get(opcode);
    this.refuseIf(!takes(words.length), "BadOperands", start);
    this.refuseIf(opcode === 0x21 && words[0] !== 0x1f, "OperandLength", start);
    if (shape) return this.shapes(shape, opcode, start, cut(words, 8).map(pairOf));
    if (opcode === 0x20) return this.reset(words[0], words[1], start);
    if (opcode === 0x3c) return this.setColour(valueOf(words), start);
    if (opcode === 0x3d) return this.entry("WAIT", this.at, [], { tenths: words[0] });
    if (opcode === 0x3f) {
      if (!words.length) return this.entry("BLINK-END", this.at, ["colour"]);
      const [on, off, delay] = words.slice(4);
      return this.entry("BLINK", this.at, ["colour"], { address: numberOf(words.slice(0, 4)), on, off, delay });
    }
    this.attributes(opcode, words, words.length > 8 ? pairOf(words.slice(-8)) : null);
    return [];
  }

  // DOMAIN, TEXT, TEXTURE and SELECT COLOR, which make attributes current.
  attributes(opcode, words, size) {
    const state = this.state;
    if (opcode === 0x21) {
      state.pel = size || state.pel;
    } else if (opcode === 0x22) {
      state.text = { ...state.text, words: words.slice(0, 2), ...(size ? { size: "given", given: size } : {}) };
    } else if (opcode === 0x23) {
      state.texture = { word: words[0], mask: size || state.texture.mask };
    } else {
      const addresses = cut(words, 4).map(numberOf);
      state.colour = words.length ? colourOf(addresses.length > 1 ? "pair" : "front", null, addresses) : state.base;
    }
  }

  // The entries of an opcode with points, once all of these are known to be on the unit screen.
  shapes(kind, opcode, start, operands) {
    const pen = this.state.pen.point, joined = opcode === 0x28;
    this.refuseIf(joined && pen === null, "PenUnknown", start);
    const shapes = pointsOf(kind, joined ? [pen, ...operands] : operands, joined);
    const onScreen = shapes.every((points) => points.every((point) => point.every((each) => each >= 0 && each < ONE)));
    this.refuseIf(!onScreen, "Outside", start);
    const held = kind === "FIELD" ? ["pen"] : kind === "POINT" ? ["pel", "colour"] : INK, made = [];
    for (const points of shapes) {
      if (kind !== "PEN") made.push(...this.entry(kind, this.at, held, { points }));
      if (kind !== "FIELD") this.state.pen = penAt("point", endOf(kind, points));
    }
    return made;
  }

  // RESET, after which DOMAIN follows where it resets the lengths of operands.
  reset(first, second, start) {
    const domain = this.stream[this.at] === 0x21 && this.stream[this.at + 1] === 0x5f;
    this.refuseIf((first & 1) === 1 && !domain, "OperandLength", start);
    const made = this.entry("RESET", this.at, ["pen"], { words: [first, second] });
    const state = this.state, code = first >> 1 & 3;
    if (first & 1) state.pel = [0, 0];
    if (code) {
      this.known = [];
      state.colour = colourOf(code === 1 ? "own-reset" : `reset-${code}`);
    }
    if (code === 1) state.base = state.colour;
    if (second & 1) state.text = TEXT;
    if (second & 8) state.texture = PLAIN;
    return made;
  }

  // SET COLOR: of the map where the colour is an address of it, else the colour itself.
  setColour(value, start) {
    const { kind, addresses: [address] } = this.state.colour;
    this.refuseIf(kind.startsWith("reset-"), "NoAddress", start);
    if (address === undefined) {
      this.state.base = this.state.colour = colourOf("direct", value);
      return [];
    }
    const same = ([at, there]) => at === address && there.join() === value.join();
    this.refuseIf(this.known.some(same), "KnownColour", start);
    this.known = [[address, value], ...this.known.filter(([at]) => at !== address)].slice(0, MOST_KNOWN);
    return this.entry("MAP", this.at, [], { address, value });
  }

  character(set, character, place) {
    return this.entry("CHAR", place, HAND, { set, character });
  }

  // An entry, after which the pen is nowhere known if the entry holds it.
  entry(kind, place, held = [], own = {}) {
    const made = { kind, place, ...own };
    for (const name of held) made[name] = this.state[name];
    this.afterCharacter = kind === "CHAR";
    if (held.includes("pen")) this.state.pen = penAt("after");
    return [made];
  }

  next() {
    this.refuseIf(this.at >= this.stream.length, "Cut", this.stream.length);
    return this.stream[this.at++];
  }

  argument(least = 0x20, most = 0x7f) {
    const byte = this.next();
    this.refuseIf(byte < least || byte > most, "BadArgument", this.at - 1);
    return byte;
  }

  expect(...wanted) {
    for (const each of wanted) this.refuseIf(this.next() !== each, "BadCode", this.at - 1);
  }

  refuseIf(wrong, reason, place) {
    if (wrong) throw new NotCanonical(reason, place);
  }
}

// The entries of a canonical stream, a Uint8Array: objects as those of the JSON of naplps-pages(1), which share parts,
// so they aren't changed. Throws NotCanonical after the entries of all codes before the refused one.
function* read(stream) {
  for (const [place, wanted] of HEADER.entries()) {
    if (stream[place] !== wanted) throw new NotCanonical("BadHeader", place);
  }
  const next = stream[HEADER.length];
  if (next >= 0x40 && next < 0x80) throw new NotCanonical("BadHeader", HEADER.length);
  const reader = new Reader(stream);
  while (reader.at < stream.length) yield* reader.code();
  if (reader.saved) throw new NotCanonical("Unended", stream.length);
}

const hex = (byte) => byte.toString(16).padStart(2, "0");
const point = (it) => it.join();
// How the members of an entry are written in its line, in their order there.
const WRITERS = {
  kind: (it) => it.kind, set: (it) => it.set, character: (it) => hex(it.character), move: (it) => it.move,
  bytes: (it) => it.bytes.map(hex).join(" "), address: (it) => String(it.address), value: (it) => it.value.join(),
  on: (it) => [it.on, it.off, it.delay].join(), tenths: (it) => String(it.tenths), words: (it) => it.words.join(" "),
  mask: (it) => it.mask, cursor: (it) => it.cursor, points: (it) => it.points.map(point).join(" ") || "whole",
  pel: (it) => `pel=${point(it.pel)}`, pen: (it) => `pen=${it.pen.point ? point(it.pen.point) : it.pen.at}`,
  colour: ({ colour }) => {
    const parts = colour.value || colour.addresses;
    return `colour=${colour.kind}${parts.length ? `:${parts.join()}` : ""}`;
  },
  texture: ({ texture }) => `texture=${texture.word}/${texture.mask ? point(texture.mask) : "none"}`,
  text: ({ text }) => {
    const flags = FLAGS.map((name) => text[name] ? name[0] : "-").join("");
    return `text=${text.words.join()}/${text.given ? point(text.given) : text.size}/${flags}`;
  },
};

// The line that `naplps list` prints of an entry, without its end.
function lineOf(entry) {
  return Object.keys(WRITERS).filter((name) => name in entry).map((name) => WRITERS[name](entry)).filter(Boolean)
    .join(" ");
}

export { NotCanonical, lineOf, read };
