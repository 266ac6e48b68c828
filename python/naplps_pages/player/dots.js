// Made of browser/dots.js by `make browser`.
const Dots = (() => {
"use strict";
const module0 = (() => {
const NUMBER = "[0-9]{1,10}", PAIR = `-?${NUMBER},-?${NUMBER}`, THREE = [NUMBER, NUMBER, NUMBER].join();
const HEX = "[0-9a-f]{2}";
const HELD = {
  pel: [PAIR, pairOf],
  pen: [`start|after|${PAIR}`, (it) => (
    it.includes(",") ? { at: "point", point: pairOf(it) } : { at: it, point: null })],
  colour: [`own-start|own-reset|reset-2|reset-3|direct:${THREE}|front:${NUMBER}|pair:${NUMBER},${NUMBER}`, (it) => {
    const [kind, parts = ""] = it.split(":"), numbers = parts ? numbersOf(parts) : [];
    return kind === "direct" ? { kind, value: numbers, addresses: [] } : { kind, value: null, addresses: numbers };
  }],
  texture: [`${NUMBER}/(?:none|${PAIR})`, (it) => {
    const [word, mask] = it.split("/");
    return { word: Number(word), mask: mask === "none" ? null : pairOf(mask) };
  }],
  text: [`${NUMBER},${NUMBER}/(?:small|medium|normal|tall|double|${PAIR})/[r-][u-][w-][s-]`, (it) => {
    const [words, size, flags] = it.split("/"), isGiven = size.includes(",");
    const [reverse, underline, wrap, scroll] = [...flags].map((flag) => flag !== "-");
    return { words: numbersOf(words), size: isGiven ? "given" : size, given: isGiven ? pairOf(size) : null, reverse,
      underline, wrap, scroll };
  }],
};
const INK = ["pel", "colour", "texture"], HAND = ["pen", "colour", "text"];

const POINTS = (words, held = INK) => [words, (points) => ({ points: pointsOf(points) }), held];
const TWO = ` (${PAIR} ${PAIR})`, MORE = `((?: ${PAIR}){3,})`, SOME = `((?: ${PAIR}){2,})`;
const NONE = () => ({});
const READERS = {
  POINT: POINTS(` (${PAIR})`, ["pel", "colour"]), LINE: POINTS(TWO),
  "ARC-OUTLINED": POINTS(MORE), "ARC-FILLED": POINTS(MORE), "RECT-OUTLINED": POINTS(TWO), "RECT-FILLED": POINTS(TWO),
  "POLY-OUTLINED": POINTS(SOME), "POLY-FILLED": POINTS(SOME),
  CHAR: [` (primary|supplementary|mosaic|drcs) (${HEX})`, (set, code) => ({ set, character: byteOf(code) }), HAND],
  MOVE: [` (AP[BFDURH]|APS ${HEX} ${HEX})`, (words) => {
    const [move, ...bytes] = words.split(" ");
    return { move, bytes: bytes.map(byteOf) };
  }, HAND],
  "TO-EOL": ["", NONE, HAND],
  MAP: [` (${NUMBER}) (${THREE})`, (address, value) => ({ address: Number(address), value: numbersOf(value) }), []],
  BLINK: [` (${NUMBER}) (${THREE})`, (address, times) => {
    const [on, off, delay] = numbersOf(times);
    return { address: Number(address), on, off, delay };
  }, ["colour"]],
  "BLINK-END": ["", NONE, ["colour"]], "BLINK-START": ["", NONE, ["colour"]], "BLINK-STOP": ["", NONE, ["colour"]],
  WAIT: [` (${NUMBER})`, (tenths) => ({ tenths: Number(tenths) }), []],
  BELL: ["", NONE, []], CURSOR: [" (flash|steady|off)", (cursor) => ({ cursor }), []],
  FIELD: [` (whole|${PAIR} ${PAIR})`, (it) => ({ points: it === "whole" ? [] : pointsOf(it) }), ["pen"]],
  RESET: [` (${NUMBER}) (${NUMBER})`, (...words) => ({ words: words.map(Number) }), ["pen"]],
  CLEAR: ["", NONE, ["pen"]], GLYPH: [` (${HEX})`, (code) => ({ character: byteOf(code) }), []],
  MASK: [" ([A-D])", (mask) => ({ mask }), []], END: ["", NONE, []],
};
const KINDS = new Map(Object.entries(READERS).map(([kind, [words, own, held]]) => {
  const behind = held.map((name) => ` ${name}=(${HELD[name][0]})`).join("");
  return [kind, { form: new RegExp(`^${kind}${words}${behind}$`), own, held }];
}));
const MOST_SHARED = 4096;

function numbersOf(text) {
  return text.split(",").map(Number);
}

function pairOf(text) {
  const [x, y] = text.split(",");
  return [Number(x), Number(y)];
}

const pointsOf = (text) => text.trim().split(" ").map(pairOf);
const byteOf = (text) => parseInt(text, 16);

class NotALine extends Error {
  constructor(line) {
    super(`not a line of a list: ${line.slice(0, 200)}`);
    this.name = "NotALine";
  }
}

function entriesOf(lines) {
  const shared = new Map();
  const heldOf = (name, text) => {
    const key = `${name}=${text}`, known = shared.get(key);
    if (known) return known;
    const made = HELD[name][1](text);
    if (shared.size < MOST_SHARED) shared.set(key, made);
    return made;
  };
  return lines.map((line) => {
    const [kind] = line.split(" ", 1), reader = KINDS.get(kind), found = reader && reader.form.exec(line);
    if (!found) throw new NotALine(line);
    const { own, held } = reader, parts = found.slice(1), first = parts.length - held.length;
    const entry = { kind, ...own(...parts.slice(0, first)) };
    held.forEach((name, at) => {
      entry[name] = heldOf(name, parts[first + at]);
    });
    return entry;
  });
}
return { NotALine, entriesOf };
})();
const module1 = (() => {
const SIGNS = [
  "space   !       \"       #       $       %       &       '       (       )       *       +",
  ".....   .....   .....   .....   .....   .....   .....   .....   .....   .....   .....   .....",
  ".....   ..#..   .#.#.   .#.#.   ..#..   ##...   .##..   ..#..   ...#.   .#...   .....   .....",
  ".....   ..#..   .#.#.   .#.#.   .####   ##..#   #..#.   ..#..   ..#..   ..#..   ..#..   ..#..",
  ".....   ..#..   .#.#.   #####   #.#..   ...#.   #.#..   .#...   .#...   ...#.   #.#.#   ..#..",
  ".....   ..#..   .....   .#.#.   .###.   ..#..   .#...   .....   .#...   ...#.   .###.   #####",
  ".....   ..#..   .....   #####   ..#.#   .#...   #.#.#   .....   .#...   ...#.   #.#.#   ..#..",
  ".....   .....   .....   .#.#.   ####.   #..##   #..#.   .....   ..#..   ..#..   ..#..   ..#..",
  ".....   ..#..   .....   .#.#.   ..#..   ...##   .##.#   .....   ...#.   .#...   .....   .....",
  ".....   .....   .....   .....   .....   .....   .....   .....   .....   .....   .....   .....",
  ".....   .....   .....   .....   .....   .....   .....   .....   .....   .....   .....   .....",
  "",
  ",       -       .       /       0       1       2       3       4       5       6       7",
  ".....   .....   .....   .....   .....   .....   .....   .....   .....   .....   .....   .....",
  ".....   .....   .....   .....   .###.   ..#..   .###.   #####   ...#.   #####   ..##.   #####",
  ".....   .....   .....   ....#   #...#   .##..   #...#   ...#.   ..##.   #....   .#...   ....#",
  ".....   .....   .....   ...#.   #..##   ..#..   ....#   ..#..   .#.#.   ####.   #....   ...#.",
  ".....   #####   .....   ..#..   #.#.#   ..#..   ...#.   ...#.   #..#.   ....#   ####.   ..#..",
  ".....   .....   .....   .#...   ##..#   ..#..   ..#..   ....#   #####   ....#   #...#   .#...",
  ".##..   .....   .##..   #....   #...#   ..#..   .#...   #...#   ...#.   #...#   #...#   .#...",
  "..#..   .....   .##..   .....   .###.   .###.   #####   .###.   ...#.   .###.   .###.   .#...",
  ".#...   .....   .....   .....   .....   .....   .....   .....   .....   .....   .....   .....",
  ".....   .....   .....   .....   .....   .....   .....   .....   .....   .....   .....   .....",
  "",
  "8       9       :       ;       <       =       >       ?       @       A       B       C",
  ".....   .....   .....   .....   .....   .....   .....   .....   .....   .....   .....   .....",
  ".###.   .###.   .....   .....   ...#.   .....   .#...   .###.   .###.   .###.   ####.   .###.",
  "#...#   #...#   .##..   .##..   ..#..   .....   ..#..   #...#   #...#   #...#   #...#   #...#",
  "#...#   #...#   .##..   .##..   .#...   #####   ...#.   ....#   #.###   #...#   #...#   #....",
  ".###.   .####   .....   .....   #....   .....   ....#   ...#.   #.#.#   #####   ####.   #....",
  "#...#   ....#   .##..   .##..   .#...   #####   ...#.   ..#..   #.###   #...#   #...#   #....",
  "#...#   ...#.   .##..   ..#..   ..#..   .....   ..#..   .....   #....   #...#   #...#   #...#",
  ".###.   .##..   .....   .#...   ...#.   .....   .#...   ..#..   .####   #...#   ####.   .###.",
  ".....   .....   .....   .....   .....   .....   .....   .....   .....   .....   .....   .....",
  ".....   .....   .....   .....   .....   .....   .....   .....   .....   .....   .....   .....",
  "",
  "D       E       F       G       H       I       J       K       L       M       N       O",
  ".....   .....   .....   .....   .....   .....   .....   .....   .....   .....   .....   .....",
  "###..   #####   #####   .###.   #...#   .###.   ..###   #...#   #....   #...#   #...#   .###.",
  "#..#.   #....   #....   #...#   #...#   ..#..   ...#.   #..#.   #....   ##.##   #...#   #...#",
  "#...#   #....   #....   #....   #...#   ..#..   ...#.   #.#..   #....   #.#.#   ##..#   #...#",
  "#...#   ####.   ####.   #.###   #####   ..#..   ...#.   ##...   #....   #.#.#   #.#.#   #...#",
  "#...#   #....   #....   #...#   #...#   ..#..   ...#.   #.#..   #....   #...#   #..##   #...#",
  "#..#.   #....   #....   #...#   #...#   ..#..   #..#.   #..#.   #....   #...#   #...#   #...#",
  "###..   #####   #....   .####   #...#   .###.   .##..   #...#   #####   #...#   #...#   .###.",
  ".....   .....   .....   .....   .....   .....   .....   .....   .....   .....   .....   .....",
  ".....   .....   .....   .....   .....   .....   .....   .....   .....   .....   .....   .....",
  "",
  "P       Q       R       S       T       U       V       W       X       Y       Z       [",
  ".....   .....   .....   .....   .....   .....   .....   .....   .....   .....   .....   .....",
  "####.   .###.   ####.   .####   #####   #...#   #...#   #...#   #...#   #...#   #####   .###.",
  "#...#   #...#   #...#   #....   ..#..   #...#   #...#   #...#   #...#   #...#   ....#   .#...",
  "#...#   #...#   #...#   #....   ..#..   #...#   #...#   #...#   .#.#.   #...#   ...#.   .#...",
  "####.   #...#   ####.   .###.   ..#..   #...#   #...#   #.#.#   ..#..   .#.#.   ..#..   .#...",
  "#....   #.#.#   #.#..   ....#   ..#..   #...#   #...#   #.#.#   .#.#.   ..#..   .#...   .#...",
  "#....   #..#.   #..#.   ....#   ..#..   #...#   .#.#.   #.#.#   #...#   ..#..   #....   .#...",
  "#....   .##.#   #...#   ####.   ..#..   .###.   ..#..   .#.#.   #...#   ..#..   #####   .###.",
  ".....   .....   .....   .....   .....   .....   .....   .....   .....   .....   .....   .....",
  ".....   .....   .....   .....   .....   .....   .....   .....   .....   .....   .....   .....",
  "",
  "\\       ]       ^       _       `       a       b       c       d       e       f       g",
  ".....   .....   .....   .....   .....   .....   .....   .....   .....   .....   .....   .....",
  ".....   .###.   ..#..   .....   .#...   .....   #....   .....   ....#   .....   ..##.   .....",
  "#....   ...#.   .#.#.   .....   ..#..   .....   #....   .....   ....#   .....   .#..#   .....",
  ".#...   ...#.   #...#   .....   ...#.   .###.   #.##.   .###.   .##.#   .###.   .#...   .##.#",
  "..#..   ...#.   .....   .....   .....   ....#   ##..#   #....   #..##   #...#   ###..   #..##",
  "...#.   ...#.   .....   .....   .....   .####   #...#   #....   #...#   #####   .#...   #...#",
  "....#   ...#.   .....   .....   .....   #...#   #...#   #...#   #...#   #....   .#...   #...#",
  ".....   .###.   .....   .....   .....   .####   ####.   .###.   .####   .###.   .#...   .####",
  ".....   .....   .....   #####   .....   .....   .....   .....   .....   .....   .....   ....#",
  ".....   .....   .....   .....   .....   .....   .....   .....   .....   .....   .....   .###.",
  "",
  "h       i       j       k       l       m       n       o       p       q       r       s",
  ".....   .....   .....   .....   .....   .....   .....   .....   .....   .....   .....   .....",
  "#....   ..#..   ...#.   #....   .##..   .....   .....   .....   .....   .....   .....   .....",
  "#....   .....   .....   #....   ..#..   .....   .....   .....   .....   .....   .....   .....",
  "#.##.   .##..   ..##.   #..#.   ..#..   ##.#.   #.##.   .###.   #.##.   .##.#   #.##.   .####",
  "##..#   ..#..   ...#.   #.#..   ..#..   #.#.#   ##..#   #...#   ##..#   #..##   ##..#   #....",
  "#...#   ..#..   ...#.   ##...   ..#..   #.#.#   #...#   #...#   #...#   #...#   #....   .###.",
  "#...#   ..#..   ...#.   #.#..   ..#..   #.#.#   #...#   #...#   #...#   #...#   #....   ....#",
  "#...#   .###.   ...#.   #..#.   .###.   #.#.#   #...#   .###.   ####.   .####   #....   ####.",
  ".....   .....   #..#.   .....   .....   .....   .....   .....   #....   ....#   .....   .....",
  ".....   .....   .##..   .....   .....   .....   .....   .....   #....   ....#   .....   .....",
  "",
  "t       u       v       w       x       y       z       {       |       }       ~       ¡",
  ".....   .....   .....   .....   .....   .....   .....   .....   .....   .....   .....   .....",
  ".#...   .....   .....   .....   .....   .....   .....   ...#.   ..#..   .#...   .....   ..#..",
  ".#...   .....   .....   .....   .....   .....   .....   ..#..   ..#..   ..#..   .....   .....",
  "###..   #...#   #...#   #...#   #...#   #...#   #####   ..#..   ..#..   ..#..   .#..#   ..#..",
  ".#...   #...#   #...#   #...#   .#.#.   #...#   ...#.   .#...   ..#..   ...#.   #.#.#   ..#..",
  ".#...   #...#   #...#   #.#.#   ..#..   #...#   ..#..   ..#..   ..#..   ..#..   #..#.   ..#..",
  ".#..#   #..##   .#.#.   #.#.#   .#.#.   #...#   .#...   ..#..   ..#..   ..#..   .....   ..#..",
  "..##.   .##.#   ..#..   .#.#.   #...#   .####   #####   ...#.   ..#..   .#...   .....   ..#..",
  ".....   .....   .....   .....   .....   ....#   .....   .....   .....   .....   .....   .....",
  ".....   .....   .....   .....   .....   .###.   .....   .....   .....   .....   .....   .....",
  "",
  "¢       £       ¥       §       ¤       ‘       “       «       ←       ↑       →       ↓",
  ".....   .....   .....   .....   .....   .....   .....   .....   .....   .....   .....   .....",
  "..#..   ..##.   #...#   .####   .....   ...#.   .#..#   .....   .....   ..#..   .....   ..#..",
  ".####   .#..#   .#.#.   #....   #...#   ..#..   #..#.   ..#.#   ..#..   .###.   ..#..   ..#..",
  "#.#..   .#...   #####   .###.   .###.   ..#..   #..#.   .#.#.   .#...   #.#.#   ...#.   ..#..",
  "#.#..   ###..   ..#..   #...#   .#.#.   .....   .....   #.#..   #####   ..#..   #####   ..#..",
  "#.#..   .#...   #####   .###.   .###.   .....   .....   .#.#.   .#...   ..#..   ...#.   #.#.#",
  ".####   .#..#   ..#..   ....#   #...#   .....   .....   ..#.#   ..#..   ..#..   ..#..   .###.",
  "..#..   #.##.   ..#..   ####.   .....   .....   .....   .....   .....   ..#..   .....   ..#..",
  ".....   .....   .....   .....   .....   .....   .....   .....   .....   .....   .....   .....",
  ".....   .....   .....   .....   .....   .....   .....   .....   .....   .....   .....   .....",
  "",
  "°       ±       ²       ³       ×       µ       ¶       ·       ÷       ’       ”       »",
  ".....   .....   .....   .....   .....   .....   .....   .....   .....   .....   .....   .....",
  ".##..   ..#..   .##..   .##..   .....   .....   .####   .....   .....   ..#..   .#..#   .....",
  "#..#.   ..#..   ...#.   ..##.   #...#   .....   ###.#   .....   ..#..   ..#..   .#..#   #.#..",
  "#..#.   #####   ..#..   ...#.   .#.#.   #...#   ###.#   .....   .....   .#...   #..#.   .#.#.",
  ".##..   ..#..   .###.   .##..   ..#..   #...#   .##.#   .##..   #####   .....   .....   ..#.#",
  ".....   ..#..   .....   .....   .#.#.   #...#   ..#.#   .##..   .....   .....   .....   .#.#.",
  ".....   .....   .....   .....   #...#   #..##   ..#.#   .....   ..#..   .....   .....   #.#..",
  ".....   #####   .....   .....   .....   ###.#   ..#.#   .....   .....   .....   .....   .....",
  ".....   .....   .....   .....   .....   #....   .....   .....   .....   .....   .....   .....",
  ".....   .....   .....   .....   .....   #....   .....   .....   .....   .....   .....   .....",
  "",
  "¼       ½       ¾       ¿       ―       ¹       ®       ©       ™       ♪       ¬       ¦",
  ".....   .....   .....   .....   .....   .....   .....   .....   .....   .....   .....   .....",
  ".##..   .##..   .###.   ..#..   .....   .#...   .###.   .###.   ###.#   ..#..   .....   ..#..",
  "..#..   ..#..   ..##.   .....   .....   ##...   #...#   #...#   .#.##   ..##.   .....   ..#..",
  "..#..   ..#..   .###.   ..#..   .....   .#...   #####   #.###   .#.#.   ..#.#   #####   ..#..",
  "#####   #####   #####   .#...   #####   ###..   ##.##   ##..#   .....   ..#..   ....#   .....",
  ".#.#.   .##..   .#.#.   #....   .....   .....   ####.   #.###   .....   .##..   ....#   ..#..",
  ".###.   ...#.   .###.   #...#   .....   .....   ##.##   #...#   .....   ###..   .....   ..#..",
  "...#.   ..#..   ...#.   .###.   .....   .....   .###.   .###.   .....   .#...   .....   ..#..",
  "...#.   .###.   ...#.   .....   .....   .....   .....   .....   .....   .....   .....   .....",
  ".....   .....   .....   .....   .....   .....   .....   .....   .....   .....   .....   .....",
  "",
  "Ω       Æ       Ð       ª       Ħ       Ĳ       Ŀ       Ł       Ø       Œ       º       Þ",
  ".....   .....   .....   .....   .....   .....   .....   .....   .....   .....   .....   .....",
  ".###.   .####   .###.   .##..   #...#   #..##   #....   .#...   .##.#   .####   .###.   #....",
  "#...#   #.#..   .#..#   ..##.   #####   #...#   #....   .#...   #..#.   #.#..   .#.#.   ###..",
  "#...#   #.#..   .#..#   .#.#.   #...#   #...#   #..#.   .##..   #.#.#   #.#..   .#.#.   #..#.",
  "#...#   #####   ###.#   .####   #####   #...#   #..#.   .#...   #.#.#   #.###   .###.   #..#.",
  ".#.#.   #.#..   .#..#   .....   #...#   #...#   #....   ##...   #.#.#   #.#..   .....   ###..",
  ".#.#.   #.#..   .#..#   .####   #...#   #.#.#   #....   .#...   .#..#   #.#..   .###.   #....",
  "##.##   #.###   .###.   .....   #...#   #..#.   #####   .####   #.##.   .####   .....   #....",
  ".....   .....   .....   .....   .....   .....   .....   .....   .....   .....   .....   .....",
  ".....   .....   .....   .....   .....   .....   .....   .....   .....   .....   .....   .....",
  "",
  "Ŧ       Ŋ       ŉ       ĸ       æ       đ       ð       ħ       ı       ĳ       ŀ       ł",
  ".....   .....   .....   .....   .....   .....   .....   .....   .....   .....   .....   .....",
  "#####   #...#   #....   .....   .....   ...#.   ..#.#   .#...   .....   #..#.   ##...   .##..",
  "..#..   ##..#   #....   .....   .....   ..###   ...#.   ###..   .....   .....   .#...   ..#..",
  "..#..   #.#.#   ..##.   #..#.   ##.#.   .##.#   ..#.#   .###.   .##..   #..#.   .#..#   ..##.",
  ".###.   #..##   .#..#   #.#..   ..#.#   #..##   .####   .#..#   ..#..   #..#.   .#..#   ..#..",
  "..#..   #...#   .#..#   ##...   #####   #...#   #...#   .#..#   ..#..   #..#.   .#...   .##..",
  "..#..   #...#   .#..#   #.#..   #.#..   #...#   #...#   .#..#   ..#..   #..#.   .#...   ..#..",
  "..#..   #...#   .#..#   #..#.   .####   .####   .###.   .#..#   .###.   #..#.   ###..   .###.",
  ".....   ....#   .....   .....   .....   .....   .....   .....   .....   ...#.   .....   .....",
  ".....   ..##.   .....   .....   .....   .....   .....   .....   .....   .##..   .....   .....",
  "",
  "ø       œ       ß       þ       ŧ       ŋ       □       ȷ",
  ".....   .....   .....   .....   .....   .....   .....   .....",
  ".....   .....   .##..   #....   .#...   .....   #####   .....",
  "....#   .....   #..#.   #....   ###..   .....   #...#   .....",
  ".###.   .#.#.   #..#.   ####.   .#...   #.##.   #...#   ..##.",
  "#..##   #.#.#   #.#..   #...#   ###..   ##..#   #...#   ...#.",
  "#.#.#   #.###   #..#.   #...#   .#...   #...#   #...#   ...#.",
  "##..#   #.#..   #..#.   #...#   .#..#   #...#   #...#   ...#.",
  ".###.   .####   #.##.   ####.   ..##.   #...#   #####   ...#.",
  "#....   .....   .....   #....   .....   ....#   .....   #..#.",
  ".....   .....   .....   #....   .....   ..##.   .....   .##..",
];

const MARKS = [
  "41      42      43      44      45      46      47      48      49      4a      4b      4c",
  ".#...   ...#.   ..#..   .##.#   #####   #...#   ..#..   .#.#.   .#.#.   .###.   .....   .....",
  "..#..   ..#..   .#.#.   #.##.   .....   .###.   .....   .....   .....   .#.#.   .....   .....",
  ".....   .....   .....   .....   .....   .....   .....   .....   .....   .....   .....   .....",
  ".....   .....   .....   .....   .....   .....   .....   .....   .....   .....   .....   .....",
  ".....   .....   .....   .....   .....   .....   .....   .....   .....   .....   .....   .....",
  ".....   .....   .....   .....   .....   .....   .....   .....   .....   .....   .....   .....",
  ".....   .....   .....   .....   .....   .....   .....   .....   .....   .....   .....   .....",
  ".....   .....   .....   .....   .....   .....   .....   .....   .....   .....   .....   .....",
  ".....   .....   .....   .....   .....   .....   .....   .....   .....   .....   ..#..   .....",
  ".....   .....   .....   .....   .....   .....   .....   .....   .....   .....   .#...   #####",
  "",
  "4d      4e      4f",
  ".#..#   .....   .#.#.",
  "#..#.   .....   ..#..",
  ".....   .....   .....",
  ".....   .....   .....",
  ".....   .....   .....",
  ".....   .....   .....",
  ".....   .....   .....",
  ".....   .....   .....",
  ".....   ..#..   .....",
  ".....   ..##.   .....",
];
return { MARKS, SIGNS };
})();
const module2 = (() => {
const { MARKS, SIGNS } = module1;

const COLUMNS = 6, ROWS = 10, STEP = 8, LETTER = 5, BELOW = [0x4b, 0x4c, 0x4e];
const DOTLESS = { i: "\u0131", j: "\u0237" }, BLOCK = "\u2588", UNKNOWN = "\u25a1";

function tableOf(lines) {
  const found = new Map();
  for (let start = 0; start < lines.length; start += ROWS + 2) {
    const head = lines[start], rows = lines.slice(start + 1, start + 1 + ROWS).reverse();
    for (let left = 0; left < head.length; left += STEP) {
      const name = head.slice(left, left + STEP).trim();
      found.set(name === "space" ? " " : name, rows.map((row) => (
        Uint8Array.from({ length: COLUMNS }, (_, k) => Number(k < LETTER && row[left + k] === "#")))));
    }
  }
  return found;
}

const signs = tableOf(SIGNS), marks = tableOf(MARKS);
const markOf = (accent) => marks.get(accent.toString(16));
const isBlankRow = (row) => !row.includes(1);
const BLANK_ROW = new Uint8Array(COLUMNS), known = new Map();

function underAccent(sign, base) {
  const rows = DOTLESS[sign] ? signs.get(DOTLESS[sign]) : base;
  return isBlankRow(rows[8]) && isBlankRow(rows[7]) ? rows : [...rows.slice(0, 7), rows[8], BLANK_ROW, BLANK_ROW];
}

function compose(sign, accent) {
  const block = () => Array.from({ length: ROWS }, () => new Uint8Array(COLUMNS).fill(1));
  const base = sign === BLOCK ? block() : signs.get(sign) || signs.get(UNKNOWN);
  if (!accent) return base;
  const rows = BELOW.includes(accent) ? base : underAccent(sign, base), mark = markOf(accent);
  return rows.map((row, at) => row.map((dot, k) => dot | mark[at][k]));
}

function rowsOf(sign, accent = 0) {
  const key = `${accent} ${sign}`;
  if (!known.has(key)) known.set(key, compose(sign, accent));
  return known.get(key);
}

function widthOf(rows) {
  const used = Array.from({ length: COLUMNS }, (_, k) => rows.some((row) => row[k]));
  if (!used.includes(true)) return [0, 3];
  return [used.indexOf(true), used.lastIndexOf(true) - used.indexOf(true) + 1];
}
return { COLUMNS, ROWS, markOf, rowsOf, widthOf };
})();
const module3 = (() => {
const ONE = 1 << 23, ACROSS = 256, UP = 200, UNIT = ONE / ACROSS, HALF = UNIT / 2;
const MOST_COUNTED = 1 << 26, OF_ENTRY = 256, OF_ROW = 16;
const SCREEN = { wide: ACROSS, high: UP };

const over = (number, by) => Math.floor(number / by);
const overUp = (number, by) => -Math.floor(-number / by);
const modulo = (number, by) => number - by * over(number, by);
const firstAt = (at) => overUp(at - HALF, UNIT);
const nearestDots = (length) => Math.max(over(Math.abs(length) + HALF, UNIT), 1);

function side(length) {
  if (!length) return [1 - HALF, 1 + HALF];
  const size = nearestDots(length) * UNIT;
  return length > 0 ? [0, size] : [-size, 0];
}

function pelBox(pel) {
  const [left, right] = side(pel[0]), [low, high] = side(pel[1]);
  return { left, right, low, high };
}

function dotsOf(spans) {
  let dots = 0;
  for (let at = 0; at < spans.length; at += 3) dots += spans[at + 2] - spans[at + 1];
  return dots;
}
return { ACROSS, HALF, MOST_COUNTED, OF_ENTRY, OF_ROW, ONE, SCREEN, UNIT, UP, dotsOf, firstAt, modulo, nearestDots, over, overUp, pelBox };
})();
const module4 = (() => {
const { ACROSS, ONE, UP, over } = module3;

const PART = 60, SIDE = ONE * PART, DOT = SIDE / ACROSS, TOP = DOT * UP;
const SIZES = { small: [SIDE / 80, SIDE / 128 * 5], medium: [SIDE / 32, SIDE / 64 * 3],
  normal: [SIDE / 40, SIDE / 128 * 5], tall: [SIDE / 40, SIDE / 64 * 5], double: [SIDE / 20, SIDE / 64 * 5] };
const SPACINGS = [4, 5, 6, 4], PROPORTIONAL = 3, RIGHT = 0, LEFT = 1, UPWARD = 2, FIRST_OF_APS = 0x20;
const SCREEN_FIELD = [0, 0, SIDE, TOP], NOWHERE = { x: 0, y: 0, known: false, scrolled: false, field: SCREEN_FIELD };
const cells = new WeakMap();

function cellOf(text) {
  if (!cells.has(text)) {
    const [wide, high] = text.given ? text.given.map((side) => side * PART) : SIZES[text.size], [first] = text.words;
    cells.set(text, { wide, high, rotation: first & 3, path: first >> 2 & 3, spacing: first >> 4 & 3,
      scroll: text.scroll });
  }
  return cells.get(text);
}

const spaced = (cell, length) => over(length * SPACINGS[cell.spacing], 4);

function advanceOf(cell, columns) {
  const isByLetters = cell.spacing === PROPORTIONAL && (cell.path === RIGHT || cell.path === LEFT);
  return isByLetters ? over(cell.wide * (columns + 1), 6) : spaced(cell, cell.wide);
}

class DotCursor {
  constructor() {
    this.putBack(NOWHERE);
  }

  saved() {
    const { x, y, known, scrolled, field } = this;
    return { x, y, known, scrolled, field };
  }

  putBack(saved) {
    Object.assign(this, saved);
  }

  enterGlyph() {
    this.putBack({ ...NOWHERE, known: true, field: [0, 0, SIDE, SIDE] });
  }

  take(pen, cell) {
    if (pen.point) {
      [this.x, this.y] = pen.point.map((part) => part * PART);
      this.scrolled = false;
    } else if (!this.known) {
      this.home(cell);
    }
    this.known = true;
  }

  home(cell) {
    this.x = this.field[0];
    this.y = this.field[3] - Math.abs(cell.high);
    this.scrolled = false;
  }

  lose() {
    this.known = false;
  }

  setField(corners) {
    this.field = SCREEN_FIELD;
    if (corners.length) {
      const [[a, b], [c, d]] = corners;
      this.field = [Math.min(a, c), Math.min(b, d), Math.max(a, c), Math.max(b, d)].map((side) => side * PART);
    }
    this.lose();
  }

  fits(wide) {
    return this.x + wide <= this.field[2] + DOT;
  }

  wrap(cell, wide) {
    const hasRoom = wide <= this.field[2] - this.field[0] + DOT;
    if (cell.path !== RIGHT || this.x <= this.field[0] || this.fits(hasRoom ? wide : cell.wide)) return;
    this.x = this.field[0];
    this.down(cell, Math.abs(cell.high));
  }

  down(cell, high) {
    const low = this.field[1] - DOT, wasWithin = this.y >= low;
    this.y -= high;
    if (wasWithin && this.y < low) {
      this.scrolled = cell.scroll;
      if (!cell.scroll) this.y = this.field[3] - Math.abs(cell.high);
    }
  }

  step(cell, columns) {
    if (cell.path === RIGHT) this.x += advanceOf(cell, columns);
    else if (cell.path === LEFT) this.x -= advanceOf(cell, columns);
    else if (cell.path === UPWARD) this.y += spaced(cell, cell.high);
    else this.y -= spaced(cell, cell.high);
  }

  move({ move, bytes }, cell) {
    if (move === "APF") {
      this.x += spaced(cell, cell.wide);
      this.wrap(cell, cell.wide);
    } else if (move === "APB") {
      this.x -= spaced(cell, cell.wide);
    } else if (move === "APD") {
      this.down(cell, cell.high);
    } else if (move === "APU") {
      this.y += cell.high;
      this.scrolled = this.scrolled && this.y < this.field[1] - DOT;
    } else if (move === "APR") {
      this.x = this.field[0];
    } else if (move === "APH") {
      this.home(cell);
    } else {
      this.x = this.field[0] + (bytes[1] - FIRST_OF_APS) * cell.wide;
      this.y = this.field[3] - (bytes[0] - FIRST_OF_APS + 1) * cell.high;
      this.scrolled = false;
    }
  }
}
return { DOT, DotCursor, PROPORTIONAL, RIGHT, SIDE, advanceOf, cellOf };
})();
const module5 = (() => {
const { COLUMNS, ROWS } = module2;
const { over } = module3;
const { DOT } = module4;

const BLOCKS = [[16, 64], [4, 8], [1, 2]];
const sides = new Map(), MOST_SIDES = 4096;

function makeSide(phase, length, count, isWhole) {
  const size = Math.abs(length), scale = isWhole ? over(size, count * DOT) : 0, found = [];
  const spare = over(over(size, DOT) - scale * count, 2), last = over(Math.max(phase, phase + length), DOT) + 1;
  for (let dot = over(Math.min(phase, phase + length), DOT) - 1; dot <= last; dot++) {
    const away = dot * DOT + DOT / 2 - phase, at = length > 0 ? away : -away;
    if (at < 0 || at >= size) continue;
    const shown = scale ? over(over(at, DOT) - spare, scale) : over(at * count, size);
    found.push([dot, shown >= 0 && shown < count ? shown : -1]);
  }
  return found;
}

function sideOf(phase, length, count, isWhole) {
  const key = `${phase} ${length} ${count} ${isWhole}`;
  if (!sides.has(key)) {
    if (sides.size >= MOST_SIDES) sides.clear();
    sides.set(key, makeSide(phase, length, count, isWhole));
  }
  return sides.get(key);
}

function sidesOf({ x, y, wide, high, rotation }, columns, rows, isWhole) {
  const across = rotation === 2 || rotation === 3 ? -wide : wide, up = rotation === 1 || rotation === 2 ? -high : high;
  const left = over(x, DOT), low = over(y, DOT), isTurned = rotation % 2 === 1;
  const byColumns = (phase) => sideOf(phase, across, columns, isWhole);
  const byRows = (phase) => sideOf(phase, up, rows, isWhole);
  const inX = x - left * DOT, inY = y - low * DOT;
  return { left, low, isTurned, across: isTurned ? byRows(inX) : byColumns(inX),
    up: isTurned ? byColumns(inY) : byRows(inY) };
}

function shownBy({ left, low, isTurned, across, up }, rows, grid) {
  const spans = [];
  for (const [dot, first] of up) {
    const row = dot + low;
    if (first < 0 || row < 0 || row >= grid.high) continue;
    let start = 0, end = null;
    for (const [at, second] of across) {
      if (second < 0 || !(isTurned ? rows[second][first] : rows[first][second])) continue;
      if (at !== end) {
        if (end !== null) addSpan(row, start + left, end + left, grid, spans);
        start = at;
      }
      end = at + 1;
    }
    if (end !== null) addSpan(row, start + left, end + left, grid, spans);
  }
  return spans;
}

function addSpan(row, from, to, grid, spans) {
  const start = Math.max(from, 0), end = Math.min(to, grid.wide);
  if (start < end) spans.push(row, start, end);
}

const letterSpans = (cell, rows, grid) => shownBy(sidesOf(cell, COLUMNS, ROWS, true), rows, grid);
const glyphSpans = (cell, rows, wide, grid) => shownBy(sidesOf(cell, wide, rows.length, false), rows, grid);
const wholeSpans = (cell, grid) => glyphSpans(cell, [[1]], 1, grid);

function underlineSpans(cell, grid) {
  const it = sidesOf(cell, 1, ROWS, true), name = it.isTurned ? "up" : "across";
  const rows = Array.from({ length: ROWS }, (_, row) => [row ? 0 : 1]);
  return shownBy({ ...it, [name]: it[name].map(([dot]) => [dot, 0]) }, rows, grid);
}

function apartSide(side, isRows, { wide, high, rotation }) {
  const length = isRows ? high : wide, isBack = (isRows ? [1, 2] : [2, 3]).includes(rotation);
  const ordered = length > 0 !== isBack ? side : [...side].reverse();
  const firsts = new Set(ordered.filter(([, block], at) => !at || ordered[at - 1][1] !== block).map(([dot]) => dot));
  return side.map(([dot, block]) => [dot, firsts.has(dot) ? -1 : block]);
}

function mosaicSpans(cell, code, isApart, grid) {
  const it = sidesOf(cell, 2, 3, false), rows = BLOCKS.map((row) => row.map((bit) => code & bit));
  if (isApart) {
    it.across = apartSide(it.across, it.isTurned, cell);
    it.up = apartSide(it.up, !it.isTurned, cell);
  }
  return shownBy(it, rows, grid);
}
return { glyphSpans, letterSpans, mosaicSpans, underlineSpans, wholeSpans };
})();
const module6 = (() => {
const { nearestDots, over } = module3;

const DIRECT = 1 << 24, MARK = 1 << 25, BLACK = DIRECT, WHITE = DIRECT | 0xffffff;
const FIRST = [0x000000, 0x242424, 0x494949, 0x6d6d6d, 0x929292, 0xb6b6b6, 0xdbdbdb, 0xffffff,
  0x0000ff, 0xbf00ff, 0xff0080, 0xff4000, 0xffff00, 0x40ff00, 0x00ff80, 0x00bfff];
const rgbOf = ([green, red, blue]) => red >> 8 << 16 | green >> 8 << 8 | blue >> 8;
const backInk = ({ kind, addresses }) => kind === "pair" ? addresses[1] : null;

function frontInk({ kind, value, addresses }) {
  if (kind === "direct") return DIRECT | rgbOf(value);
  return addresses.length ? addresses[0] : WHITE;
}

function colourOf(ink, map) {
  if (ink & DIRECT) return ink & 0xffffff;
  const address = ink & 0xffffff;
  return map.has(address) ? map.get(address) : FIRST[address >> 20];
}

class Canvas {
  constructor(grid, ground, Numbers = Uint32Array) {
    Object.assign(this, { grid, inks: new Numbers(grid.wide * grid.high).fill(ground), counted: 0 });
  }

  paint({ spans, counted }, ink, pattern = null) {
    this.counted += counted;
    for (let at = 0; at < spans.length; at += 3) {
      const row = spans[at], start = spans[at + 1], end = spans[at + 2], from = row * this.grid.wide;
      if (!pattern) {
        this.inks.fill(ink, from + start, from + end);
        continue;
      }
      const dots = pattern[row % pattern.length];
      for (let dot = start; dot < end; dot++) if (dots[dot % dots.length]) this.inks[from + dot] = ink;
    }
  }

  paintParts(parts, ink) {
    for (const part of parts) this.paint(part, ink);
  }
}

const HALF_TONE = [[1, 0], [0, 1]], USUAL = { wide: 6, high: 6 }, SHARE = 6;
const tileOf = (size) => size ? { wide: nearestDots(size[0]), high: nearestDots(size[1]) } : USUAL;

function linePattern(which, { wide, high }) {
  const thick = Math.max(over(Math.min(wide, high), SHARE), 1);
  return Array.from({ length: high }, (_, row) => Array.from({ length: wide }, (__, dot) => (
    Number((which & 1) && dot < thick || (which & 2) && row < thick))));
}
return { BLACK, Canvas, DIRECT, HALF_TONE, MARK, backInk, colourOf, frontInk, linePattern, rgbOf, tileOf };
})();
const module7 = (() => {
const { HALF, OF_ROW, UNIT, dotsOf, firstAt, over } = module3;

function addEdge(low, top, grid, crossings) {
  const across = top[0] - low[0], up = top[1] - low[1], begin = Math.max(firstAt(low[1]), 0);
  const end = Math.min(firstAt(top[1]), grid.high), step = across * UNIT, divisor = up * UNIT;
  let before = (HALF - low[0]) * up - across * (UNIT * begin + HALF - low[1]);
  for (let row = begin; row < end; row++) {
    (crossings[row] = crossings[row] || []).push(-over(before, divisor));
    before -= step;
  }
}

function inside(points, grid) {
  const crossings = [], spans = [];
  let pairs = 0, a = points[points.length - 1];
  for (const b of points) {
    if (a[1] !== b[1]) addEdge(...(a[1] < b[1] ? [a, b] : [b, a]), grid, crossings);
    a = b;
  }
  crossings.forEach((found, row) => {
    found.sort((one, other) => one - other);
    pairs += found.length / 2;
    for (let at = 0; at < found.length; at += 2) {
      const start = Math.max(found[at], 0), end = Math.min(found[at + 1], grid.wide);
      if (start < end) spans.push(row, start, end);
    }
  });
  return { spans, counted: OF_ROW * (points.length + pairs) + dotsOf(spans) };
}

function filledBox(a, b, grid) {
  const left = Math.min(a[0], b[0]), low = Math.min(a[1], b[1]), spans = [];
  const wide = Math.max(Math.abs(a[0] - b[0]), UNIT), high = Math.max(Math.abs(a[1] - b[1]), UNIT);
  const start = Math.max(firstAt(left), 0), end = Math.min(firstAt(left + wide), grid.wide);
  const top = Math.min(firstAt(low + high), grid.high);
  for (let row = Math.max(firstAt(low), 0); row < top && start < end; row++) spans.push(row, start, end);
  return { spans, counted: OF_ROW * (4 + spans.length / 3) + dotsOf(spans) };
}
return { filledBox, inside };
})();
const module8 = (() => {
const { over } = module3;

const COSINES = [
  65536, 65457, 65220, 64827, 64277, 63572, 62714, 61705, 60547, 59244, 57798, 56212, 54491, 52639, 50660, 48559,
  46341, 44011, 41576, 39040, 36410, 33692, 30893, 28020, 25080, 22078, 19024, 15924, 12785, 9616, 6424, 3216, 0];
const TURN = 128, SCALE = 65536n, PARTS = 16, FAR = 1n << 24n;

function direction(part) {
  const quarter = part >> 5, x = COSINES[part & 31], y = COSINES[32 - (part & 31)];
  return [[x, y], [-y, x], [-x, -y], [y, -x]][quarter].map(BigInt);
}

const DIRECTIONS = Array.from({ length: TURN }, (_, part) => direction(part));
const isLater = (x, y) => y < 0n || (y === 0n && x < 0n);

function isBefore([x, y], [otherX, otherY]) {
  if (isLater(x, y) !== isLater(otherX, otherY)) return isLater(otherX, otherY);
  return x * otherY - y * otherX > 0n;
}

function overBig(number, by) {
  const whole = number / by;
  return whole * by > number ? whole - 1n : whole;
}

const absolute = (number) => number < 0n ? -number : number;

function near(a, x, y) {
  const far = absolute(x) > absolute(y) ? absolute(x) : absolute(y);
  const [dx, dy] = far > FAR ? [overBig(x * FAR, far), overBig(y * FAR, far)] : [x, y];
  return [a[0] + Number(dx), a[1] + Number(dy)];
}

function between(a, middle, scale, sign, start, end) {
  const from = (at) => [0, 1].map((k) => BigInt(at[k] - a[k]) * scale - middle[k]);
  const [ux, uy] = from(start), [vx, vy] = from(end), divisor = SCALE * scale, found = [];
  const to = [ux * vx + uy * vy, sign * (ux * vy - uy * vx)];
  for (const [x, y] of DIRECTIONS.slice(1)) {
    if (!isBefore([x, y], to)) break;
    found.push(near(a, overBig(SCALE * middle[0] + x * ux - sign * y * uy + divisor / 2n, divisor),
      overBig(SCALE * middle[1] + sign * y * ux + x * uy + divisor / 2n, divisor)));
  }
  return found;
}

function circle(a, m) {
  if (a[0] === m[0] && a[1] === m[1]) return [a, m, a];
  const middle = [BigInt(m[0] - a[0]), BigInt(m[1] - a[1])];
  return [a, ...between(a, middle, 2n, 1n, a, m), m, ...between(a, middle, 2n, 1n, m, a), a];
}

function threePoints(a, m, e) {
  const [bx, by, cx, cy] = [m[0] - a[0], m[1] - a[1], e[0] - a[0], e[1] - a[1]].map(BigInt);
  const cross = bx * cy - by * cx, b2 = bx * bx + by * by, c2 = cx * cx + cy * cy;
  if (!cross) return [a, m, e];
  const sign = cross > 0n ? 1n : -1n, scale = 2n * sign * cross;
  const middle = [sign * (cy * b2 - by * c2), sign * (bx * c2 - cx * b2)];
  return [a, ...between(a, middle, scale, sign, a, m), m, ...between(a, middle, scale, sign, m, e), e];
}

const curveAt = (a, b, c, d, part) => over(8192 * b + part * (256 * (c - a) + part * (
  16 * (2 * a - 5 * b + 4 * c - d) + part * (3 * b - a - 3 * c + d))) + 4096, 8192);

function curve(points) {
  const last = points.length - 1, found = [points[0]];
  for (let number = 0; number < last; number++) {
    const four = [Math.max(number - 1, 0), number, number + 1, Math.min(number + 2, last)].map((at) => points[at]);
    for (let part = 1; part < PARTS; part++) {
      found.push([0, 1].map((k) => curveAt(...four.map((point) => point[k]), part)));
    }
    found.push(points[number + 1]);
  }
  return found;
}

function polyline(points) {
  if (points.length > 3) return curve(points);
  const [a, m, e] = points;
  return a[0] === e[0] && a[1] === e[1] ? circle(a, m) : threePoints(a, m, e);
}
return { polyline };
})();
const module9 = (() => {
const { HALF, OF_ROW, UNIT, dotsOf, firstAt, modulo, over, overUp } = module3;

const DASHES = [null, [1, 2], [5, 3], [5, 2, 1, 2]], MOST_SPANS = 4096;

function addBox(a, b, box, grid, spans) {
  const start = Math.max(firstAt(Math.min(a[0], b[0]) + box.left), 0);
  const end = Math.min(firstAt(Math.max(a[0], b[0]) + box.right), grid.wide);
  if (start >= end) return;
  const low = Math.max(firstAt(Math.min(a[1], b[1]) + box.low), 0);
  const top = Math.min(firstAt(Math.max(a[1], b[1]) + box.high), grid.high);
  for (let row = low; row < top; row++) spans.push(row, start, end);
}

function addSloping(from, to, box, grid, spans) {
  const [a, b] = from[1] > to[1] ? [to, from] : [from, to], across = b[0] - a[0], up = b[1] - a[1];
  const divisor = UNIT * up, left = (a[0] + box.left - HALF) * up, right = (a[0] + box.right - HALF) * up;
  const top = Math.min(firstAt(b[1] + box.high), grid.high);
  for (let row = Math.max(firstAt(a[1] + box.low), 0); row < top; row++) {
    const middle = UNIT * row + HALF - a[1], isOpen = middle - box.high >= 0;
    const begin = Math.max(middle - box.high, 0), end = Math.min(middle - box.low, up);
    let start, high;
    if (across > 0) {
      const low = left + begin * across;
      high = right + end * across;
      start = isOpen ? over(low, divisor) + 1 : overUp(low, divisor);
    } else {
      high = right + begin * across;
      start = overUp(left + end * across, divisor);
    }
    start = Math.max(start, 0);
    const stop = Math.min(overUp(high, divisor), grid.wide);
    if (start < stop) spans.push(row, start, stop);
  }
}

function* swept(segments, box, grid) {
  let spans = [], counted = 0;
  for (const [start, end] of segments) {
    if (spans.length >= 3 * MOST_SPANS) {
      yield { spans, counted: counted + dotsOf(spans) };
      [spans, counted] = [[], 0];
    }
    const before = spans.length;
    (start[0] === end[0] || start[1] === end[1] ? addBox : addSloping)(start, end, box, grid, spans);
    counted += OF_ROW * (1 + (spans.length - before) / 3);
  }
  yield { spans, counted: counted + dotsOf(spans) };
}

const onLine = (start, end, at, long) => start.map((from, k) => from + over(2 * (end[k] - from) * at + long, 2 * long));

function* dashesOf(start, end, at, dashes, unit) {
  const long = Math.max(Math.abs(end[0] - start[0]), Math.abs(end[1] - start[1]), 1);
  let down = -at;
  while (down < long) {
    for (let number = 0; number < dashes.length; number += 2) {
      const up = down + (dashes[number] - 1) * unit;
      if (down < long && up >= 0) {
        yield [onLine(start, end, Math.max(down, 0), long), onLine(start, end, Math.min(up, long), long)];
      }
      down += (dashes[number] + dashes[number + 1]) * unit;
    }
  }
}

function* segmentsOf(points, box, word) {
  const dashes = DASHES[word & 3];
  let at = 0, unit = 0;
  for (let number = 0; number + 1 < points.length; number++) {
    const start = points[number], end = points[number + 1];
    if (!dashes) {
      yield [start, end];
      continue;
    }
    const across = Math.abs(end[0] - start[0]), up = Math.abs(end[1] - start[1]);
    const side = across >= up ? box.right - box.left : box.high - box.low;
    at = unit ? over(at * side, unit) : 0;
    unit = side;
    yield* dashesOf(start, end, at, dashes, unit);
    at = modulo(at + Math.max(across, up), dashes.reduce((sum, each) => sum + each) * unit);
  }
}
return { segmentsOf, swept };
})();
const module10 = (() => {
const { filledBox, inside } = module7;
const { polyline } = module8;
const { segmentsOf, swept } = module9;
const { ACROSS, SCREEN, over, pelBox } = module3;

const PAGE = { wide: ACROSS, high: ACROSS, grid: SCREEN };
const isFilled = ({ kind }) => kind.endsWith("-FILLED");
const pointOn = ([x, y], { wide, high }) => [over(x * wide, ACROSS), over(y * high, ACROSS)];
const scaledSide = (side, dots) => side ? Math.sign(side) * Math.max(over(Math.abs(side) * dots, ACROSS), 1) : 0;

function outlineOf({ kind }, points) {
  if (kind.startsWith("ARC")) return polyline(points);
  if (kind.startsWith("POLY")) return [...points, points[0]];
  if (!kind.startsWith("RECT")) return points;
  const [[a, b], [c, d]] = points;
  return [[a, b], [c, b], [c, d], [a, d], [a, b]];
}

function painted(entry, scale) {
  const points = entry.points.map((at) => pointOn(at, scale)), { grid } = scale;
  if (isFilled(entry)) {
    if (entry.kind === "RECT-FILLED") return [filledBox(points[0], points[1], grid)];
    return [inside(entry.kind === "ARC-FILLED" ? polyline(points) : points, grid)];
  }
  const box = pelBox([scaledSide(entry.pel[0], scale.wide), scaledSide(entry.pel[1], scale.high)]);
  if (entry.kind === "POINT") return swept([[points[0], points[0]]], box, grid);
  return swept(segmentsOf(outlineOf(entry, points), box, entry.texture.word), box, grid);
}

function edgeOf(entry, scale) {
  const around = outlineOf(entry, entry.points.map((at) => pointOn(at, scale))), [first] = around;
  const last = around[around.length - 1];
  if (first[0] !== last[0] || first[1] !== last[1]) around.push(first);
  return swept(segmentsOf(around, null, 0), pelBox([0, 0]), scale.grid);
}
return { PAGE, edgeOf, isFilled, painted };
})();
const module11 = (() => {
const ONE = 1 << 23, WIDTH = 1024, HEIGHT = 800, STEPS = ONE / WIDTH, THIN = 4, THIN_IN_GLYPH = 64;
const MOST_DRAWN = 20000, MOST_POINTS = 200000;
const MOST_BYTES = (16 << 20) - 4096, MOST_WEIGHT = 500000, MOST_COPIED = 1 << 20;
const ADDRESS = "@n";

function fixed(value, digits) {
  const text = value.toFixed(digits);
  if (Math.abs(value * 2 ** (digits + 1) % 2) !== 1) return text;
  const down = value.toFixed(digits + 1).slice(0, -1);
  return "02468".includes(down.at(-1)) ? down : text;
}

function shortest(value, digits) {
  const text = fixed(value, digits).replace(/\.?0+$/, "");
  return text === "-0" || text === "" ? "0" : text;
}

const num = (value) => shortest(value, 2);
const fine = (value) => shortest(value, 5);
const lengthOf = (units) => units / STEPS;
const distance = ([a, b], [c, d]) => Math.hypot(a - c, b - d);
const moved = ([x, y], [across, down]) => [x + across, y + down];
const between = ([a, b], [c, d], share) => [a + (c - a) * share, b + (d - b) * share];

const element = (name, attributes, inside = [], text = "") => (
  { name, attributes, ...(inside.length ? { inside } : {}), ...(text ? { text } : {}) });

const escaped = (text) => text.replaceAll("&", "&amp;").replaceAll("<", "&lt;").replaceAll(">", "&gt;");

function markup({ name, attributes, inside = [], text = "" }) {
  const told = Object.entries(attributes).map(([key, value]) => ` ${key}="${value}"`).join("");
  if (!inside.length && !text) return `<${name}${told}/>`;
  return `<${name}${told}>${escaped(text)}${inside.map(markup).join("")}</${name}>`;
}

const encoder = new TextEncoder();
const sizeOf = (it) => encoder.encode(markup(it)).length;

const ELEMENT = 30, LETTER = 20, JOINT = 4, DASH = 10, EDGE = 2.5, OUTLINE = 5, SMALL = 300;
const SCREEN = 120, PATTERNED = 60, TILE = 100, SQUARE = WIDTH * HEIGHT;
const RUN = [160, 0, 0], NOTHING = [0, 0, 0];

const plus = (a, b) => a.map((part, i) => part + b[i]);
const scaled = ([points, edges, area], across, down) => (
  [points, edges * Math.max(Math.abs(across), Math.abs(down)), area * Math.abs(across) * Math.abs(down)]);
const total = ([points, edges, area]) => points + edges / EDGE + area * SCREEN / SQUARE;

function extentOf(places) {
  let length = 0, [x, y] = places[places.length - 1];
  let [left, right, top, bottom] = [Infinity, -Infinity, Infinity, -Infinity];
  for (const [a, b] of places) {
    length += Math.abs(a - x) + Math.abs(b - y);
    [x, y] = [a, b];
    [left, right, top, bottom] = [Math.min(left, a), Math.max(right, a), Math.min(top, b), Math.max(bottom, b)];
  }
  return [places.length, length, (right - left) * (bottom - top)];
}

function lineExtent([a, b], [c, d]) {
  const across = Math.abs(a - c), down = Math.abs(b - d);
  return [2, across + down, across * down];
}

const filledWeight = ([points, length, area]) => [ELEMENT + points, length, area];
const boxWeight = (wide, high) => [ELEMENT, 0, Math.abs(wide * high)];
const sumOf = (numbers) => numbers.reduce((sum, each) => sum + each, 0);
const dashPoints = (length, unit, dashes) => length / (sumOf(dashes) * unit) * dashes.length / 2 * DASH;

function outlinedWeight([points, length], thick, dashes) {
  const broken = dashes.length ? dashPoints(length, thick, dashes) : 0;
  return [ELEMENT + points * JOINT + broken, length * EDGE / OUTLINE, length * thick];
}

const letterWeight = (wide, high) => (
  [LETTER, Math.max(0, 2 * (Math.abs(wide) + Math.abs(high)) - SMALL), 2 * Math.abs(wide * high)]);
return { ADDRESS, HEIGHT, MOST_BYTES, MOST_COPIED, MOST_DRAWN, MOST_POINTS, MOST_WEIGHT, NOTHING, ONE, PATTERNED, RUN, STEPS, THIN, THIN_IN_GLYPH, TILE, WIDTH, between, boxWeight, dashPoints, distance, element, extentOf, filledWeight, fine, fixed, lengthOf, letterWeight, lineExtent, markup, moved, num, outlinedWeight, plus, scaled, sizeOf, sumOf, total };
})();
const module12 = (() => {
const { COLUMNS } = module2;
const { ADDRESS, HEIGHT, ONE, THIN, WIDTH } = module11;

const OWN = "#ffffff", BLACK = "#000000";
const FIRST = [
  "#000000", "#242424", "#494949", "#6d6d6d", "#929292", "#b6b6b6", "#dbdbdb", "#ffffff",
  "#0000ff", "#bf00ff", "#ff0080", "#ff4000", "#ffff00", "#40ff00", "#00ff80", "#00bfff"];
const direct = ([green, red, blue]) => `#${[red, green, blue].map((part) => (
  (part >> 8).toString(16).padStart(2, "0"))).join("")}`;
const inMap = (address) => `${ADDRESS}${address}`;
const backOf = ({ kind, addresses }) => kind === "pair" ? inMap(addresses[1]) : null;

function frontOf({ kind, value, addresses }) {
  if (kind === "direct") return direct(value);
  return addresses.length ? inMap(addresses[0]) : OWN;
}

const BLOCK = "\u2588", UNKNOWN = "\u25a1";
const MARKS = [..."\u0300\u0301\u0302\u0303\u0304\u0306\u0307\u0308\u0308\u030a\u0327\u0331\u030b\u0328\u030c"];
const ALONE = [..."`´^~¯˘˙¨¨˚¸_˝˛ˇ"];
const SUPPLEMENTARY = new Map();
for (const [first, signs] of [
  [0x21, "¡¢£$¥#§¤‘“«←↑→↓°±²³×µ¶·÷’”»¼½¾¿"], [0x41, ALONE], [0x50, "―¹®©™♪¬¦"],
  [0x60, "ΩÆÐªĦ\u25a1ĲĿŁØŒºÞŦŊŉĸæđðħıĳŀłøœßþŧŋ\u25a1"]]) {
  [...signs].forEach((sign, i) => SUPPLEMENTARY.set(first + i, sign));
}
const isAccent = ({ set, character }) => set === "supplementary" && character > 0x40 && character < 0x50;

function letterOf({ set, character }) {
  if (set === "primary") return character < 0x7f ? String.fromCharCode(character) : BLOCK;
  return character === 0x20 ? " " : SUPPLEMENTARY.get(character) || UNKNOWN;
}

const composed = (accent, base) => (
  base === " " ? ALONE[accent - 0x41] : (base + MARKS[accent - 0x41]).normalize("NFC"));

const SIZES = { small: [1 / 80, 5 / 128], medium: [1 / 32, 3 / 64], normal: [1 / 40, 5 / 128], tall: [1 / 40, 5 / 64],
  double: [1 / 20, 5 / 64] };
const SPACINGS = [1, 1.25, 1.5, 1], PROPORTIONAL = 3, RIGHT = 0, LEFT = 1, UP = 2;
const TOP = HEIGHT / WIDTH, DOT = THIN / WIDTH;
const SCREEN_FIELD = [0, 0, 1, TOP], NOWHERE = { x: 0, y: 0, known: false, scrolled: false, field: SCREEN_FIELD };
const cells = new WeakMap();

function cellOf(text) {
  let cell = cells.get(text);
  if (!cell) {
    const [wide, high] = text.given ? text.given.map((side) => side / ONE) : SIZES[text.size], [first] = text.words;
    const [rotation, path, kind] = [first & 3, first >> 2 & 3, first >> 4 & 3];
    const byLetters = kind === PROPORTIONAL && (path === RIGHT || path === LEFT);
    cell = { wide, high, rotation, path, spacing: SPACINGS[kind], byLetters, scroll: text.scroll };
    cells.set(text, cell);
  }
  return cell;
}

const advanceOf = ({ wide, spacing, byLetters }, columns) => (
  byLetters ? wide * (columns + 1) / COLUMNS : wide * spacing);
const isSameCell = (a, b) => a === b || Object.keys(a).every((name) => a[name] === b[name]);

class TextCursor {
  constructor() {
    this.putBack(NOWHERE);
  }

  saved() {
    const { x, y, known, scrolled, field } = this;
    return { x, y, known, scrolled, field };
  }

  putBack(saved) {
    Object.assign(this, saved);
  }

  enterGlyph() {
    this.putBack({ ...NOWHERE, known: true, field: [0, 0, 1, 1] });
  }

  take(pen, cell) {
    if (pen.point) {
      [this.x, this.y] = [pen.point[0] / ONE, pen.point[1] / ONE];
      this.scrolled = false;
    } else if (!this.known) {
      this.home(cell);
    }
    this.known = true;
  }

  home(cell) {
    this.x = this.field[0];
    this.y = this.field[3] - Math.abs(cell.high);
    this.scrolled = false;
  }

  lose() {
    this.known = false;
  }

  setField(corners) {
    if (corners.length) {
      const [[a, b], [c, d]] = corners;
      this.field = [Math.min(a, c), Math.min(b, d), Math.max(a, c), Math.max(b, d)].map((side) => side / ONE);
    } else {
      this.field = SCREEN_FIELD;
    }
    this.lose();
  }

  fits(wide) {
    return this.x + wide <= this.field[2] + DOT;
  }

  wrap(cell, wide) {
    const hasRoom = wide <= this.field[2] - this.field[0] + DOT;
    if (cell.path !== RIGHT || this.x <= this.field[0] || this.fits(hasRoom ? wide : cell.wide)) return false;
    this.x = this.field[0];
    this.down(cell, Math.abs(cell.high));
    return true;
  }

  down(cell, high) {
    const low = this.field[1] - DOT, wasWithin = this.y >= low;
    this.y -= high;
    if (wasWithin && this.y < low) {
      this.scrolled = cell.scroll;
      if (!cell.scroll) this.y = this.field[3] - Math.abs(cell.high);
    }
  }

  step(cell, columns) {
    if (cell.path === RIGHT) this.x += advanceOf(cell, columns);
    else if (cell.path === LEFT) this.x -= advanceOf(cell, columns);
    else if (cell.path === UP) this.y += cell.high * cell.spacing;
    else this.y -= cell.high * cell.spacing;
  }

  move({ move, bytes }, cell) {
    if (move === "APF") {
      this.x += cell.wide * cell.spacing;
      this.wrap(cell, cell.wide);
    } else if (move === "APB") {
      this.x -= cell.wide * cell.spacing;
    } else if (move === "APD") {
      this.down(cell, cell.high);
    } else if (move === "APU") {
      this.y += cell.high;
      this.scrolled = this.scrolled && this.y < this.field[1] - DOT;
    } else if (move === "APR") {
      this.x = this.field[0];
    } else if (move === "APH") {
      this.home(cell);
    } else {
      this.x = this.field[0] + (bytes[1] - 0x20) * cell.wide;
      this.y = this.field[3] - (bytes[0] - 0x20 + 1) * cell.high;
      this.scrolled = false;
    }
  }
}
return { ALONE, BLACK, FIRST, RIGHT, TextCursor, advanceOf, backOf, cellOf, composed, direct, frontOf, inMap, isAccent, isSameCell, letterOf };
})();
const module13 = (() => {
const { isAccent, letterOf } = module12;
const { COLUMNS, markOf, rowsOf, widthOf } = module2;

const isWritten = (set) => set === "primary" || set === "supplementary";

function rowsOfEntry(entry, accent) {
  if (!isWritten(entry.set) || isAccent(entry)) return null;
  const sign = letterOf(entry);
  return accent && sign === " " ? markOf(accent) : rowsOf(sign, accent);
}

function columnsOf(entry, accent = 0) {
  const rows = rowsOfEntry(entry, accent);
  return rows ? widthOf(rows)[1] : COLUMNS - 1;
}
return { columnsOf, isWritten, rowsOfEntry };
})();
const module14 = (() => {
const { isAccent } = module12;
const { DOT, DotCursor, PROPORTIONAL, RIGHT, SIDE, advanceOf, cellOf } = module4;
const { COLUMNS, markOf, widthOf } = module2;
const { ACROSS, OF_ENTRY, over } = module3;
const { columnsOf, isWritten, rowsOfEntry } = module13;

const BLANK = 0x20, MOST_IN_LINE = 1000;
const isBlank = ({ set, character }) => character === BLANK && isWritten(set);

const extentOf = (set, rows, cell) => (
  cell.spacing !== PROPORTIONAL || !isWritten(set) || !rows ? [0, COLUMNS - 1] : widthOf(rows));
const moved = (rows, by) => rows.map((row) => row.map((_, k) => k + by < row.length ? row[k + by] : 0));

class DotWriting {
  constructor(scale, put, characterAt) {
    Object.assign(this, { scale, put, characterAt, cursor: new DotCursor() });
    Object.assign(this, { number: 0, inWord: -2, accent: null, last: null });
  }

  flush() {
    const { accent } = this;
    this.accent = null;
    if (accent) this.place("supplementary", accent.character, markOf(accent.character), accent.colour, accent.text);
  }

  character(entry) {
    this.last = entry;
    const cell = cellOf(entry.text);
    this.take(entry.pen, cell);
    if (!this.isWithin(entry, cell)) return;
    if (isAccent(entry)) {
      this.flush();
      this.accent = entry;
      return;
    }
    const rows = rowsOfEntry(entry, this.accent ? this.accent.character : 0);
    if (isWritten(entry.set)) this.accent = null;
    else this.flush();
    this.cursor.step(cell, this.place(entry.set, entry.character, rows, entry.colour, entry.text));
  }

  move(entry) {
    this.flush();
    const cell = cellOf(entry.text);
    this.take(entry.pen, cell);
    this.cursor.move(entry, cell);
  }

  toEnd({ pen, colour, text }) {
    if (!this.last) return;
    const cell = cellOf(text), { set, character } = this.last;
    this.take(pen, cell);
    this.cursor.wrap(cell, cell.wide);
    const again = { kind: "CHAR", set, character, pen: { at: "after", point: null }, colour, text };
    for (let count = 0; count < MOST_IN_LINE; count++) {
      if (cell.wide <= 0 || cell.path !== RIGHT || !this.cursor.fits(cell.wide)) break;
      this.character(again);
    }
  }

  take(pen, cell) {
    if (pen.at === "after" && this.cursor.known) return;
    this.flush();
    this.cursor.take(pen, cell);
  }

  isWithin(entry, cell) {
    let { wide } = cell;
    if (entry.text.wrap && isBlank(entry)) {
      if (cell.path === RIGHT && !this.cursor.fits(wide)) return false;
    } else if (entry.text.wrap) {
      if (this.inWord !== this.number - 1 || entry.pen.at !== "after") wide = Math.max(wide, this.word(this.number));
      this.inWord = this.number;
    }
    this.cursor.wrap(cell, wide);
    return !this.cursor.scrolled;
  }

  word(number) {
    let start = 0, total = 0;
    for (let at = number, entry = this.characterAt(at); entry && total <= SIDE; entry = this.characterAt(++at)) {
      const cell = cellOf(entry.text), isFirst = at === number;
      if (!entry.text.wrap || isBlank(entry) || cell.path !== RIGHT || !(entry.pen.at === "after" || isFirst)) break;
      if (isAccent(entry)) continue;
      total = start + cell.wide;
      start += advanceOf(cell, columnsOf(entry));
    }
    return total;
  }

  place(set, code, rows, colour, text) {
    const cell = cellOf(text), { scale } = this, [skipped, columns] = extentOf(set, rows, cell);
    const on = (length, dots) => over(length * dots, ACROSS);
    const at = { x: on(this.cursor.x, scale.wide), y: on(this.cursor.y, scale.high), wide: on(cell.wide, scale.wide),
      high: on(cell.high, scale.high), rotation: cell.rotation };
    const counted = OF_ENTRY + (over(Math.abs(at.wide), DOT) + 1) * (over(Math.abs(at.high), DOT) + 1);
    const shown = skipped ? moved(rows, skipped) : rows;
    if (at.wide && at.high) this.put({ set, code, rows: shown, at, colour, text, counted });
    return columns;
  }
}
return { DotWriting };
})();
const module15 = (() => {
const { glyphSpans, letterSpans, mosaicSpans, underlineSpans, wholeSpans } = module5;
const { DOT } = module4;
const {
  BLACK, Canvas, DIRECT, HALF_TONE, MARK, backInk, colourOf, frontInk, linePattern, rgbOf, tileOf,
} = module6;
const { rowsOf } = module2;
const { ACROSS, MOST_COUNTED, OF_ENTRY, SCREEN, UP, over } = module3;
const { PAGE, edgeOf, isFilled, painted } = module10;
const { isWritten } = module13;
const { DotWriting } = module14;

const TO_BLACK = [1, 7], TO_COLOUR = [2, 5, 6], NOTHING = 0, DRAWN = 1, EDGE = 2, BOX = rowsOf("\u25a1");
const MOST_KEPT = 1 << 22, OF_KEPT_ROW = 256;
const uncounted = (spans) => ({ spans, counted: 0 });
const hasEdge = (entry) => isFilled(entry) && (entry.texture.word & 4) !== 0;

class Painter {
  constructor(scale, canvas, entries) {
    Object.assign(this, { scale, canvas, entries });
    this.writing = new DotWriting(scale, (sign) => this.put(sign), (number) => (
      number < entries.length && entries[number].kind === "CHAR" ? entries[number] : null));
  }

  paint(number, entry) {
    const { writing } = this, { kind } = entry;
    writing.number = number;
    if (kind === "CHAR") return writing.character(entry);
    if (kind === "MOVE") return writing.move(entry);
    if (kind === "TO-EOL") return writing.toEnd(entry);
    writing.flush();
    if (entry.pel) this.shape(entry);
    else if (kind === "FIELD") writing.cursor.setField(entry.points);
    else if (kind === "CLEAR" || kind === "RESET") {
      if (kind === "RESET" && entry.words[1] & 1) writing.cursor.setField([]);
      writing.cursor.lose();
    }
    return undefined;
  }

  signSpans({ set, code, rows, at, text }) {
    const { grid } = this.scale;
    if (set === "mosaic") return [mosaicSpans(at, code, text.underline, grid), []];
    const line = text.underline && isWritten(set) ? underlineSpans(at, grid) : [];
    return [letterSpans(at, set === "drcs" ? BOX : rows, grid), line];
  }
}

function rowsThatAre(value, { inks, grid: { wide, high } }) {
  if (!inks.includes(value)) return new Array(high).fill(new Uint8Array(wide));
  const dots = new Uint8Array(inks.length);
  for (let at = 0; at < dots.length; at++) dots[at] = Number(inks[at] === value);
  return Array.from({ length: high }, (_, row) => dots.subarray(row * wide, (row + 1) * wide));
}

class DefinitionPainter extends Painter {
  constructor(grid, entries) {
    super({ ...grid, grid }, new Canvas(grid, NOTHING, Uint8Array), entries);
    this.writing.cursor.enterGlyph();
  }

  shape(entry) {
    this.canvas.paintParts(painted(entry, this.scale), DRAWN);
    if (hasEdge(entry)) this.canvas.paintParts(edgeOf(entry, this.scale), EDGE);
  }

  put(sign) {
    const [spans, line] = this.signSpans(sign);
    this.canvas.paint({ spans, counted: sign.counted }, DRAWN);
    this.canvas.paint(uncounted(line), DRAWN);
  }

  picture(body, most) {
    const { canvas } = this;
    for (const [number, entry] of body) {
      if (canvas.counted >= most) break;
      canvas.counted += OF_ENTRY;
      this.paint(number, entry);
    }
    this.writing.flush();
    return { drawn: rowsThatAre(DRAWN, canvas), edge: rowsThatAre(EDGE, canvas), counted: canvas.counted };
  }
}

class PagePainter extends Painter {
  constructor(entries) {
    super(PAGE, new Canvas(SCREEN, BLACK), entries);
    Object.assign(this, { mark: 0, glyphs: new Map(), masks: new Map(), pictures: new Map(), kept: 0 });
  }

  shape(entry) {
    const { canvas, mark } = this, front = frontInk(entry.colour) | mark, behind = backInk(entry.colour);
    const pattern = isFilled(entry) ? this.pattern(entry.texture) : null;
    for (const part of painted(entry, this.scale)) {
      if (pattern && behind !== null) canvas.paint(uncounted(part.spans), behind | mark);
      canvas.paint(part, front, pattern);
    }
    if (hasEdge(entry)) canvas.paintParts(edgeOf(entry, this.scale), BLACK | mark);
  }

  pattern({ word, mask }) {
    const which = word >> 3 & 7, tile = tileOf(mask);
    if (!which) return null;
    if (which < 4) return linePattern(which, tile);
    const body = this.masks.get("ABCD"[which - 4]);
    return body ? this.picture(body, tile).drawn : HALF_TONE;
  }

  picture(body, grid) {
    const { canvas } = this, key = `${body.number} ${grid.wide} ${grid.high}`;
    let picture = this.pictures.get(key);
    if (!picture || canvas.counted + picture.counted >= MOST_COUNTED) {
      picture = new DefinitionPainter(grid, this.entries).picture(body.entries, MOST_COUNTED - canvas.counted);
      this.keep(key, grid, picture);
    }
    canvas.counted += picture.counted;
    return picture;
  }

  keep(key, { wide, high }, picture) {
    const size = high * (wide + OF_KEPT_ROW);
    if (this.kept + size > MOST_KEPT) {
      this.pictures.clear();
      this.kept = 0;
    }
    this.pictures.set(key, picture);
    this.kept += size;
  }

  put(sign) {
    const { canvas, mark, scale: { grid } } = this, ground = backInk(sign.colour), first = frontInk(sign.colour);
    const [front, behind] = sign.text.reverse ? [ground === null ? BLACK : ground, first] : [first, ground];
    canvas.counted += sign.counted;
    if (behind !== null) canvas.paint(uncounted(wholeSpans(sign.at, grid)), behind | mark);
    const body = sign.set === "drcs" ? this.glyphs.get(sign.code) : null;
    if (body) {
      this.glyph(sign, body, front | mark);
      return;
    }
    for (const spans of this.signSpans(sign)) canvas.paint(uncounted(spans), front | mark);
  }

  glyph(sign, body, ink) {
    const dots = (side) => Math.max(over(Math.abs(side) + DOT / 2, DOT), 1);
    const grid = { wide: dots(sign.at.wide), high: dots(sign.at.high) }, { drawn, edge } = this.picture(body, grid);
    for (const [rows, each] of [[drawn, ink], [edge, BLACK | this.mark]]) {
      this.canvas.paint(uncounted(glyphSpans(sign.at, rows, grid.wide, this.scale.grid)), each);
    }
  }
}

class Raster {
  constructor(entries) {
    this.entries = entries;
    this.page = new PagePainter(entries);
    Object.assign(this, { drawn: 0, map: new Map(), definition: null, body: [], bodies: 0, saved: null });
    this.colour = { kind: "own-start", value: null, addresses: [] };
  }

  get inks() {
    return this.page.canvas.inks;
  }

  get hasNext() {
    return this.drawn < this.entries.length && this.page.canvas.counted < MOST_COUNTED;
  }

  next() {
    const number = this.drawn++;
    this.page.canvas.counted += OF_ENTRY;
    this.entry(number, this.entries[number]);
    if (!this.hasNext) this.page.writing.flush();
  }

  whole() {
    while (this.hasNext) this.next();
    this.page.writing.flush();
    return this;
  }

  entry(number, entry) {
    const { page } = this, { kind } = entry;
    if (entry.colour && !this.definition) this.colour = entry.colour;
    if (kind === "GLYPH" || kind === "MASK") {
      page.writing.flush();
      Object.assign(this, { definition: entry, body: [], saved: page.writing.cursor.saved() });
    } else if (kind === "END") {
      this.end();
    } else if (this.changes(entry)) {
      page.writing.flush();
    } else if (this.definition) {
      this.body.push([number, entry]);
    } else {
      if (kind === "CLEAR" || kind === "RESET") {
        page.writing.flush();
        this.clear(entry);
      }
      page.paint(number, entry);
    }
  }

  changes({ kind, address, value }) {
    if (kind === "MAP") this.map.set(address, rgbOf(value));
    else if (kind === "BLINK-START" || kind === "BLINK-STOP") this.page.mark = kind === "BLINK-START" ? MARK : 0;
    else return kind === "BLINK" || kind === "BLINK-END";
    return true;
  }

  clear({ kind, words }) {
    const screen = kind === "CLEAR" ? TO_BLACK[0] : words[0] >> 3 & 7;
    if (TO_BLACK.includes(screen)) this.inks.fill(BLACK);
    else if (TO_COLOUR.includes(screen)) this.inks.fill(frontInk(this.colour) | this.page.mark);
  }

  end() {
    const { definition, page } = this;
    this.definition = null;
    if (!definition) return;
    page.writing.cursor.putBack(this.saved);
    const body = { number: this.bodies++, entries: this.body };
    if (definition.kind === "GLYPH") page.glyphs.set(definition.character, body);
    else page.masks.set(definition.mask, body);
  }
}

const raster = (entries) => new Raster(entries).whole();
return { ACROSS, DIRECT, MARK, Raster, UP, colourOf, raster };
})();
const module16 = (() => {
const { entriesOf } = module0;
const { DIRECT, MARK, Raster } = module15;

const rasterOf = (lines) => new Raster(entriesOf(lines));
return { DIRECT, MARK, rasterOf };
})();
return module16;
})();
