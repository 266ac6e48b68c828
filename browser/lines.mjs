// Reads the lines that `naplps list` prints, as docs/PROFILE.md has them.
//
//     import { entriesOf } from "./lines.mjs";
//     for (const { kind } of entriesOf(["CLEAR pen=start"])) console.log(kind);

const NUMBER = "[0-9]{1,10}", PAIR = `-?${NUMBER},-?${NUMBER}`, THREE = [NUMBER, NUMBER, NUMBER].join();
const HEX = "[0-9a-f]{2}";
// What entries hold, by the words of their lines: how it is written, and what it is.
const HELD = {
  pel: [PAIR, pairOf],
  pen: [`start|after|${PAIR}`, (it) => (
    it.includes(",") ? { at: "point", point: pairOf(it) } : { at: it, point: null })],
  colour: [`own-start|own-reset|reset-2|reset-3|direct:${THREE}|front:${NUMBER}|pair:${NUMBER},${NUMBER}`, (it) => {
    const [kind, parts = ""] = it.split(":"), numbers = parts ? numbersOf(parts) : [];
    return kind === "direct" ? { kind, value: numbers, addresses: [] } : { kind, value: null, addresses: numbers };
  }],
  texture: [`${NUMBER}/(?:none|${PAIR})`, (it) => {
    const [word, mask] = it.split("/");
    return { word: Number(word), mask: mask === "none" ? null : pairOf(mask) };
  }],
  text: [`${NUMBER},${NUMBER}/(?:small|medium|normal|tall|double|${PAIR})/[r-][u-][w-][s-]`, (it) => {
    const [words, size, flags] = it.split("/"), isGiven = size.includes(",");
    const [reverse, underline, wrap, scroll] = [...flags].map((flag) => flag !== "-");
    return { words: numbersOf(words), size: isGiven ? "given" : size, given: isGiven ? pairOf(size) : null, reverse,
      underline, wrap, scroll };
  }],
};
const INK = ["pel", "colour", "texture"], HAND = ["pen", "colour", "text"];

// The lines by their first words: what stands after these, what is made of its groups, and what the entry holds.
const POINTS = (words, held = INK) => [words, (points) => ({ points: pointsOf(points) }), held];
const TWO = ` (${PAIR} ${PAIR})`, MORE = `((?: ${PAIR}){3,})`, SOME = `((?: ${PAIR}){2,})`;
const NONE = () => ({});
const READERS = {
  POINT: POINTS(` (${PAIR})`, ["pel", "colour"]), LINE: POINTS(TWO),
  "ARC-OUTLINED": POINTS(MORE), "ARC-FILLED": POINTS(MORE), "RECT-OUTLINED": POINTS(TWO), "RECT-FILLED": POINTS(TWO),
  "POLY-OUTLINED": POINTS(SOME), "POLY-FILLED": POINTS(SOME),
  CHAR: [` (primary|supplementary|mosaic|drcs) (${HEX})`, (set, code) => ({ set, character: byteOf(code) }), HAND],
  MOVE: [` (AP[BFDURH]|APS ${HEX} ${HEX})`, (words) => {
    const [move, ...bytes] = words.split(" ");
    return { move, bytes: bytes.map(byteOf) };
  }, HAND],
  "TO-EOL": ["", NONE, HAND],
  MAP: [` (${NUMBER}) (${THREE})`, (address, value) => ({ address: Number(address), value: numbersOf(value) }), []],
  BLINK: [` (${NUMBER}) (${THREE})`, (address, times) => {
    const [on, off, delay] = numbersOf(times);
    return { address: Number(address), on, off, delay };
  }, ["colour"]],
  "BLINK-END": ["", NONE, ["colour"]], "BLINK-START": ["", NONE, ["colour"]], "BLINK-STOP": ["", NONE, ["colour"]],
  WAIT: [` (${NUMBER})`, (tenths) => ({ tenths: Number(tenths) }), []],
  BELL: ["", NONE, []], CURSOR: [" (flash|steady|off)", (cursor) => ({ cursor }), []],
  FIELD: [` (whole|${PAIR} ${PAIR})`, (it) => ({ points: it === "whole" ? [] : pointsOf(it) }), ["pen"]],
  RESET: [` (${NUMBER}) (${NUMBER})`, (...words) => ({ words: words.map(Number) }), ["pen"]],
  CLEAR: ["", NONE, ["pen"]], GLYPH: [` (${HEX})`, (code) => ({ character: byteOf(code) }), []],
  MASK: [" ([A-D])", (mask) => ({ mask }), []], END: ["", NONE, []],
};
const KINDS = new Map(Object.entries(READERS).map(([kind, [words, own, held]]) => {
  const behind = held.map((name) => ` ${name}=(${HELD[name][0]})`).join("");
  return [kind, { form: new RegExp(`^${kind}${words}${behind}$`), own, held }];
}));
// Values that entries share, by how they are written: so many at most.
const MOST_SHARED = 4096;

function numbersOf(text) {
  return text.split(",").map(Number);
}

function pairOf(text) {
  const [x, y] = text.split(",");
  return [Number(x), Number(y)];
}

const pointsOf = (text) => text.trim().split(" ").map(pairOf);
const byteOf = (text) => parseInt(text, 16);

// It isn't a line that `naplps list` prints.
class NotALine extends Error {
  constructor(line) {
    super(`not a line of a list: ${line.slice(0, 200)}`);
    this.name = "NotALine";
  }
}

// The entries of lines without their ends: objects as those of the JSON of naplps-pages(1), without their places. They
// share parts, so they aren't changed. Throws NotALine.
function entriesOf(lines) {
  const shared = new Map();
  const heldOf = (name, text) => {
    const key = `${name}=${text}`, known = shared.get(key);
    if (known) return known;
    const made = HELD[name][1](text);
    if (shared.size < MOST_SHARED) shared.set(key, made);
    return made;
  };
  return lines.map((line) => {
    const [kind] = line.split(" ", 1), reader = KINDS.get(kind), found = reader && reader.form.exec(line);
    if (!found) throw new NotALine(line);
    const { own, held } = reader, parts = found.slice(1), first = parts.length - held.length;
    const entry = { kind, ...own(...parts.slice(0, first)) };
    held.forEach((name, at) => {
      entry[name] = heldOf(name, parts[first + at]);
    });
    return entry;
  });
}

export { NotALine, entriesOf };
