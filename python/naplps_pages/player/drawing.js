// Made of browser/playing.js by `make browser`.
const Drawing = (() => {
"use strict";
const module0 = (() => {
const ONE = 1 << 23, WIDTH = 1024, HEIGHT = 800, STEPS = ONE / WIDTH, THIN = 4, THIN_IN_GLYPH = 64;
const MOST_DRAWN = 20000, MOST_POINTS = 200000;
const MOST_BYTES = (16 << 20) - 4096, MOST_WEIGHT = 500000, MOST_COPIED = 1 << 20;
const ADDRESS = "@n";

function fixed(value, digits) {
  const text = value.toFixed(digits);
  if (Math.abs(value * 2 ** (digits + 1) % 2) !== 1) return text;
  const down = value.toFixed(digits + 1).slice(0, -1);
  return "02468".includes(down.at(-1)) ? down : text;
}

function shortest(value, digits) {
  const text = fixed(value, digits).replace(/\.?0+$/, "");
  return text === "-0" || text === "" ? "0" : text;
}

const num = (value) => shortest(value, 2);
const fine = (value) => shortest(value, 5);
const lengthOf = (units) => units / STEPS;
const distance = ([a, b], [c, d]) => Math.hypot(a - c, b - d);
const moved = ([x, y], [across, down]) => [x + across, y + down];
const between = ([a, b], [c, d], share) => [a + (c - a) * share, b + (d - b) * share];

const element = (name, attributes, inside = [], text = "") => (
  { name, attributes, ...(inside.length ? { inside } : {}), ...(text ? { text } : {}) });

const escaped = (text) => text.replaceAll("&", "&amp;").replaceAll("<", "&lt;").replaceAll(">", "&gt;");

function markup({ name, attributes, inside = [], text = "" }) {
  const told = Object.entries(attributes).map(([key, value]) => ` ${key}="${value}"`).join("");
  if (!inside.length && !text) return `<${name}${told}/>`;
  return `<${name}${told}>${escaped(text)}${inside.map(markup).join("")}</${name}>`;
}

const encoder = new TextEncoder();
const sizeOf = (it) => encoder.encode(markup(it)).length;

const ELEMENT = 30, LETTER = 20, JOINT = 4, DASH = 10, EDGE = 2.5, OUTLINE = 5, SMALL = 300;
const SCREEN = 120, PATTERNED = 60, TILE = 100, SQUARE = WIDTH * HEIGHT;
const RUN = [160, 0, 0], NOTHING = [0, 0, 0];

const plus = (a, b) => a.map((part, i) => part + b[i]);
const scaled = ([points, edges, area], across, down) => (
  [points, edges * Math.max(Math.abs(across), Math.abs(down)), area * Math.abs(across) * Math.abs(down)]);
const total = ([points, edges, area]) => points + edges / EDGE + area * SCREEN / SQUARE;

function extentOf(places) {
  let length = 0, [x, y] = places[places.length - 1];
  let [left, right, top, bottom] = [Infinity, -Infinity, Infinity, -Infinity];
  for (const [a, b] of places) {
    length += Math.abs(a - x) + Math.abs(b - y);
    [x, y] = [a, b];
    [left, right, top, bottom] = [Math.min(left, a), Math.max(right, a), Math.min(top, b), Math.max(bottom, b)];
  }
  return [places.length, length, (right - left) * (bottom - top)];
}

function lineExtent([a, b], [c, d]) {
  const across = Math.abs(a - c), down = Math.abs(b - d);
  return [2, across + down, across * down];
}

const filledWeight = ([points, length, area]) => [ELEMENT + points, length, area];
const boxWeight = (wide, high) => [ELEMENT, 0, Math.abs(wide * high)];
const sumOf = (numbers) => numbers.reduce((sum, each) => sum + each, 0);
const dashPoints = (length, unit, dashes) => length / (sumOf(dashes) * unit) * dashes.length / 2 * DASH;

function outlinedWeight([points, length], thick, dashes) {
  const broken = dashes.length ? dashPoints(length, thick, dashes) : 0;
  return [ELEMENT + points * JOINT + broken, length * EDGE / OUTLINE, length * thick];
}

const letterWeight = (wide, high) => (
  [LETTER, Math.max(0, 2 * (Math.abs(wide) + Math.abs(high)) - SMALL), 2 * Math.abs(wide * high)]);
return { ADDRESS, HEIGHT, MOST_BYTES, MOST_COPIED, MOST_DRAWN, MOST_POINTS, MOST_WEIGHT, NOTHING, ONE, PATTERNED, RUN, STEPS, THIN, THIN_IN_GLYPH, TILE, WIDTH, between, boxWeight, dashPoints, distance, element, extentOf, filledWeight, fine, fixed, lengthOf, letterWeight, lineExtent, markup, moved, num, outlinedWeight, plus, scaled, sizeOf, sumOf, total };
})();
const module1 = (() => {
const SIGNS = [
  "space   !       \"       #       $       %       &       '       (       )       *       +",
  ".....   .....   .....   .....   .....   .....   .....   .....   .....   .....   .....   .....",
  ".....   ..#..   .#.#.   .#.#.   ..#..   ##...   .##..   ..#..   ...#.   .#...   .....   .....",
  ".....   ..#..   .#.#.   .#.#.   .####   ##..#   #..#.   ..#..   ..#..   ..#..   ..#..   ..#..",
  ".....   ..#..   .#.#.   #####   #.#..   ...#.   #.#..   .#...   .#...   ...#.   #.#.#   ..#..",
  ".....   ..#..   .....   .#.#.   .###.   ..#..   .#...   .....   .#...   ...#.   .###.   #####",
  ".....   ..#..   .....   #####   ..#.#   .#...   #.#.#   .....   .#...   ...#.   #.#.#   ..#..",
  ".....   .....   .....   .#.#.   ####.   #..##   #..#.   .....   ..#..   ..#..   ..#..   ..#..",
  ".....   ..#..   .....   .#.#.   ..#..   ...##   .##.#   .....   ...#.   .#...   .....   .....",
  ".....   .....   .....   .....   .....   .....   .....   .....   .....   .....   .....   .....",
  ".....   .....   .....   .....   .....   .....   .....   .....   .....   .....   .....   .....",
  "",
  ",       -       .       /       0       1       2       3       4       5       6       7",
  ".....   .....   .....   .....   .....   .....   .....   .....   .....   .....   .....   .....",
  ".....   .....   .....   .....   .###.   ..#..   .###.   #####   ...#.   #####   ..##.   #####",
  ".....   .....   .....   ....#   #...#   .##..   #...#   ...#.   ..##.   #....   .#...   ....#",
  ".....   .....   .....   ...#.   #..##   ..#..   ....#   ..#..   .#.#.   ####.   #....   ...#.",
  ".....   #####   .....   ..#..   #.#.#   ..#..   ...#.   ...#.   #..#.   ....#   ####.   ..#..",
  ".....   .....   .....   .#...   ##..#   ..#..   ..#..   ....#   #####   ....#   #...#   .#...",
  ".##..   .....   .##..   #....   #...#   ..#..   .#...   #...#   ...#.   #...#   #...#   .#...",
  "..#..   .....   .##..   .....   .###.   .###.   #####   .###.   ...#.   .###.   .###.   .#...",
  ".#...   .....   .....   .....   .....   .....   .....   .....   .....   .....   .....   .....",
  ".....   .....   .....   .....   .....   .....   .....   .....   .....   .....   .....   .....",
  "",
  "8       9       :       ;       <       =       >       ?       @       A       B       C",
  ".....   .....   .....   .....   .....   .....   .....   .....   .....   .....   .....   .....",
  ".###.   .###.   .....   .....   ...#.   .....   .#...   .###.   .###.   .###.   ####.   .###.",
  "#...#   #...#   .##..   .##..   ..#..   .....   ..#..   #...#   #...#   #...#   #...#   #...#",
  "#...#   #...#   .##..   .##..   .#...   #####   ...#.   ....#   #.###   #...#   #...#   #....",
  ".###.   .####   .....   .....   #....   .....   ....#   ...#.   #.#.#   #####   ####.   #....",
  "#...#   ....#   .##..   .##..   .#...   #####   ...#.   ..#..   #.###   #...#   #...#   #....",
  "#...#   ...#.   .##..   ..#..   ..#..   .....   ..#..   .....   #....   #...#   #...#   #...#",
  ".###.   .##..   .....   .#...   ...#.   .....   .#...   ..#..   .####   #...#   ####.   .###.",
  ".....   .....   .....   .....   .....   .....   .....   .....   .....   .....   .....   .....",
  ".....   .....   .....   .....   .....   .....   .....   .....   .....   .....   .....   .....",
  "",
  "D       E       F       G       H       I       J       K       L       M       N       O",
  ".....   .....   .....   .....   .....   .....   .....   .....   .....   .....   .....   .....",
  "###..   #####   #####   .###.   #...#   .###.   ..###   #...#   #....   #...#   #...#   .###.",
  "#..#.   #....   #....   #...#   #...#   ..#..   ...#.   #..#.   #....   ##.##   #...#   #...#",
  "#...#   #....   #....   #....   #...#   ..#..   ...#.   #.#..   #....   #.#.#   ##..#   #...#",
  "#...#   ####.   ####.   #.###   #####   ..#..   ...#.   ##...   #....   #.#.#   #.#.#   #...#",
  "#...#   #....   #....   #...#   #...#   ..#..   ...#.   #.#..   #....   #...#   #..##   #...#",
  "#..#.   #....   #....   #...#   #...#   ..#..   #..#.   #..#.   #....   #...#   #...#   #...#",
  "###..   #####   #....   .####   #...#   .###.   .##..   #...#   #####   #...#   #...#   .###.",
  ".....   .....   .....   .....   .....   .....   .....   .....   .....   .....   .....   .....",
  ".....   .....   .....   .....   .....   .....   .....   .....   .....   .....   .....   .....",
  "",
  "P       Q       R       S       T       U       V       W       X       Y       Z       [",
  ".....   .....   .....   .....   .....   .....   .....   .....   .....   .....   .....   .....",
  "####.   .###.   ####.   .####   #####   #...#   #...#   #...#   #...#   #...#   #####   .###.",
  "#...#   #...#   #...#   #....   ..#..   #...#   #...#   #...#   #...#   #...#   ....#   .#...",
  "#...#   #...#   #...#   #....   ..#..   #...#   #...#   #...#   .#.#.   #...#   ...#.   .#...",
  "####.   #...#   ####.   .###.   ..#..   #...#   #...#   #.#.#   ..#..   .#.#.   ..#..   .#...",
  "#....   #.#.#   #.#..   ....#   ..#..   #...#   #...#   #.#.#   .#.#.   ..#..   .#...   .#...",
  "#....   #..#.   #..#.   ....#   ..#..   #...#   .#.#.   #.#.#   #...#   ..#..   #....   .#...",
  "#....   .##.#   #...#   ####.   ..#..   .###.   ..#..   .#.#.   #...#   ..#..   #####   .###.",
  ".....   .....   .....   .....   .....   .....   .....   .....   .....   .....   .....   .....",
  ".....   .....   .....   .....   .....   .....   .....   .....   .....   .....   .....   .....",
  "",
  "\\       ]       ^       _       `       a       b       c       d       e       f       g",
  ".....   .....   .....   .....   .....   .....   .....   .....   .....   .....   .....   .....",
  ".....   .###.   ..#..   .....   .#...   .....   #....   .....   ....#   .....   ..##.   .....",
  "#....   ...#.   .#.#.   .....   ..#..   .....   #....   .....   ....#   .....   .#..#   .....",
  ".#...   ...#.   #...#   .....   ...#.   .###.   #.##.   .###.   .##.#   .###.   .#...   .##.#",
  "..#..   ...#.   .....   .....   .....   ....#   ##..#   #....   #..##   #...#   ###..   #..##",
  "...#.   ...#.   .....   .....   .....   .####   #...#   #....   #...#   #####   .#...   #...#",
  "....#   ...#.   .....   .....   .....   #...#   #...#   #...#   #...#   #....   .#...   #...#",
  ".....   .###.   .....   .....   .....   .####   ####.   .###.   .####   .###.   .#...   .####",
  ".....   .....   .....   #####   .....   .....   .....   .....   .....   .....   .....   ....#",
  ".....   .....   .....   .....   .....   .....   .....   .....   .....   .....   .....   .###.",
  "",
  "h       i       j       k       l       m       n       o       p       q       r       s",
  ".....   .....   .....   .....   .....   .....   .....   .....   .....   .....   .....   .....",
  "#....   ..#..   ...#.   #....   .##..   .....   .....   .....   .....   .....   .....   .....",
  "#....   .....   .....   #....   ..#..   .....   .....   .....   .....   .....   .....   .....",
  "#.##.   .##..   ..##.   #..#.   ..#..   ##.#.   #.##.   .###.   #.##.   .##.#   #.##.   .####",
  "##..#   ..#..   ...#.   #.#..   ..#..   #.#.#   ##..#   #...#   ##..#   #..##   ##..#   #....",
  "#...#   ..#..   ...#.   ##...   ..#..   #.#.#   #...#   #...#   #...#   #...#   #....   .###.",
  "#...#   ..#..   ...#.   #.#..   ..#..   #.#.#   #...#   #...#   #...#   #...#   #....   ....#",
  "#...#   .###.   ...#.   #..#.   .###.   #.#.#   #...#   .###.   ####.   .####   #....   ####.",
  ".....   .....   #..#.   .....   .....   .....   .....   .....   #....   ....#   .....   .....",
  ".....   .....   .##..   .....   .....   .....   .....   .....   #....   ....#   .....   .....",
  "",
  "t       u       v       w       x       y       z       {       |       }       ~       ¡",
  ".....   .....   .....   .....   .....   .....   .....   .....   .....   .....   .....   .....",
  ".#...   .....   .....   .....   .....   .....   .....   ...#.   ..#..   .#...   .....   ..#..",
  ".#...   .....   .....   .....   .....   .....   .....   ..#..   ..#..   ..#..   .....   .....",
  "###..   #...#   #...#   #...#   #...#   #...#   #####   ..#..   ..#..   ..#..   .#..#   ..#..",
  ".#...   #...#   #...#   #...#   .#.#.   #...#   ...#.   .#...   ..#..   ...#.   #.#.#   ..#..",
  ".#...   #...#   #...#   #.#.#   ..#..   #...#   ..#..   ..#..   ..#..   ..#..   #..#.   ..#..",
  ".#..#   #..##   .#.#.   #.#.#   .#.#.   #...#   .#...   ..#..   ..#..   ..#..   .....   ..#..",
  "..##.   .##.#   ..#..   .#.#.   #...#   .####   #####   ...#.   ..#..   .#...   .....   ..#..",
  ".....   .....   .....   .....   .....   ....#   .....   .....   .....   .....   .....   .....",
  ".....   .....   .....   .....   .....   .###.   .....   .....   .....   .....   .....   .....",
  "",
  "¢       £       ¥       §       ¤       ‘       “       «       ←       ↑       →       ↓",
  ".....   .....   .....   .....   .....   .....   .....   .....   .....   .....   .....   .....",
  "..#..   ..##.   #...#   .####   .....   ...#.   .#..#   .....   .....   ..#..   .....   ..#..",
  ".####   .#..#   .#.#.   #....   #...#   ..#..   #..#.   ..#.#   ..#..   .###.   ..#..   ..#..",
  "#.#..   .#...   #####   .###.   .###.   ..#..   #..#.   .#.#.   .#...   #.#.#   ...#.   ..#..",
  "#.#..   ###..   ..#..   #...#   .#.#.   .....   .....   #.#..   #####   ..#..   #####   ..#..",
  "#.#..   .#...   #####   .###.   .###.   .....   .....   .#.#.   .#...   ..#..   ...#.   #.#.#",
  ".####   .#..#   ..#..   ....#   #...#   .....   .....   ..#.#   ..#..   ..#..   ..#..   .###.",
  "..#..   #.##.   ..#..   ####.   .....   .....   .....   .....   .....   ..#..   .....   ..#..",
  ".....   .....   .....   .....   .....   .....   .....   .....   .....   .....   .....   .....",
  ".....   .....   .....   .....   .....   .....   .....   .....   .....   .....   .....   .....",
  "",
  "°       ±       ²       ³       ×       µ       ¶       ·       ÷       ’       ”       »",
  ".....   .....   .....   .....   .....   .....   .....   .....   .....   .....   .....   .....",
  ".##..   ..#..   .##..   .##..   .....   .....   .####   .....   .....   ..#..   .#..#   .....",
  "#..#.   ..#..   ...#.   ..##.   #...#   .....   ###.#   .....   ..#..   ..#..   .#..#   #.#..",
  "#..#.   #####   ..#..   ...#.   .#.#.   #...#   ###.#   .....   .....   .#...   #..#.   .#.#.",
  ".##..   ..#..   .###.   .##..   ..#..   #...#   .##.#   .##..   #####   .....   .....   ..#.#",
  ".....   ..#..   .....   .....   .#.#.   #...#   ..#.#   .##..   .....   .....   .....   .#.#.",
  ".....   .....   .....   .....   #...#   #..##   ..#.#   .....   ..#..   .....   .....   #.#..",
  ".....   #####   .....   .....   .....   ###.#   ..#.#   .....   .....   .....   .....   .....",
  ".....   .....   .....   .....   .....   #....   .....   .....   .....   .....   .....   .....",
  ".....   .....   .....   .....   .....   #....   .....   .....   .....   .....   .....   .....",
  "",
  "¼       ½       ¾       ¿       ―       ¹       ®       ©       ™       ♪       ¬       ¦",
  ".....   .....   .....   .....   .....   .....   .....   .....   .....   .....   .....   .....",
  ".##..   .##..   .###.   ..#..   .....   .#...   .###.   .###.   ###.#   ..#..   .....   ..#..",
  "..#..   ..#..   ..##.   .....   .....   ##...   #...#   #...#   .#.##   ..##.   .....   ..#..",
  "..#..   ..#..   .###.   ..#..   .....   .#...   #####   #.###   .#.#.   ..#.#   #####   ..#..",
  "#####   #####   #####   .#...   #####   ###..   ##.##   ##..#   .....   ..#..   ....#   .....",
  ".#.#.   .##..   .#.#.   #....   .....   .....   ####.   #.###   .....   .##..   ....#   ..#..",
  ".###.   ...#.   .###.   #...#   .....   .....   ##.##   #...#   .....   ###..   .....   ..#..",
  "...#.   ..#..   ...#.   .###.   .....   .....   .###.   .###.   .....   .#...   .....   ..#..",
  "...#.   .###.   ...#.   .....   .....   .....   .....   .....   .....   .....   .....   .....",
  ".....   .....   .....   .....   .....   .....   .....   .....   .....   .....   .....   .....",
  "",
  "Ω       Æ       Ð       ª       Ħ       Ĳ       Ŀ       Ł       Ø       Œ       º       Þ",
  ".....   .....   .....   .....   .....   .....   .....   .....   .....   .....   .....   .....",
  ".###.   .####   .###.   .##..   #...#   #..##   #....   .#...   .##.#   .####   .###.   #....",
  "#...#   #.#..   .#..#   ..##.   #####   #...#   #....   .#...   #..#.   #.#..   .#.#.   ###..",
  "#...#   #.#..   .#..#   .#.#.   #...#   #...#   #..#.   .##..   #.#.#   #.#..   .#.#.   #..#.",
  "#...#   #####   ###.#   .####   #####   #...#   #..#.   .#...   #.#.#   #.###   .###.   #..#.",
  ".#.#.   #.#..   .#..#   .....   #...#   #...#   #....   ##...   #.#.#   #.#..   .....   ###..",
  ".#.#.   #.#..   .#..#   .####   #...#   #.#.#   #....   .#...   .#..#   #.#..   .###.   #....",
  "##.##   #.###   .###.   .....   #...#   #..#.   #####   .####   #.##.   .####   .....   #....",
  ".....   .....   .....   .....   .....   .....   .....   .....   .....   .....   .....   .....",
  ".....   .....   .....   .....   .....   .....   .....   .....   .....   .....   .....   .....",
  "",
  "Ŧ       Ŋ       ŉ       ĸ       æ       đ       ð       ħ       ı       ĳ       ŀ       ł",
  ".....   .....   .....   .....   .....   .....   .....   .....   .....   .....   .....   .....",
  "#####   #...#   #....   .....   .....   ...#.   ..#.#   .#...   .....   #..#.   ##...   .##..",
  "..#..   ##..#   #....   .....   .....   ..###   ...#.   ###..   .....   .....   .#...   ..#..",
  "..#..   #.#.#   ..##.   #..#.   ##.#.   .##.#   ..#.#   .###.   .##..   #..#.   .#..#   ..##.",
  ".###.   #..##   .#..#   #.#..   ..#.#   #..##   .####   .#..#   ..#..   #..#.   .#..#   ..#..",
  "..#..   #...#   .#..#   ##...   #####   #...#   #...#   .#..#   ..#..   #..#.   .#...   .##..",
  "..#..   #...#   .#..#   #.#..   #.#..   #...#   #...#   .#..#   ..#..   #..#.   .#...   ..#..",
  "..#..   #...#   .#..#   #..#.   .####   .####   .###.   .#..#   .###.   #..#.   ###..   .###.",
  ".....   ....#   .....   .....   .....   .....   .....   .....   .....   ...#.   .....   .....",
  ".....   ..##.   .....   .....   .....   .....   .....   .....   .....   .##..   .....   .....",
  "",
  "ø       œ       ß       þ       ŧ       ŋ       □       ȷ",
  ".....   .....   .....   .....   .....   .....   .....   .....",
  ".....   .....   .##..   #....   .#...   .....   #####   .....",
  "....#   .....   #..#.   #....   ###..   .....   #...#   .....",
  ".###.   .#.#.   #..#.   ####.   .#...   #.##.   #...#   ..##.",
  "#..##   #.#.#   #.#..   #...#   ###..   ##..#   #...#   ...#.",
  "#.#.#   #.###   #..#.   #...#   .#...   #...#   #...#   ...#.",
  "##..#   #.#..   #..#.   #...#   .#..#   #...#   #...#   ...#.",
  ".###.   .####   #.##.   ####.   ..##.   #...#   #####   ...#.",
  "#....   .....   .....   #....   .....   ....#   .....   #..#.",
  ".....   .....   .....   #....   .....   ..##.   .....   .##..",
];

const MARKS = [
  "41      42      43      44      45      46      47      48      49      4a      4b      4c",
  ".#...   ...#.   ..#..   .##.#   #####   #...#   ..#..   .#.#.   .#.#.   .###.   .....   .....",
  "..#..   ..#..   .#.#.   #.##.   .....   .###.   .....   .....   .....   .#.#.   .....   .....",
  ".....   .....   .....   .....   .....   .....   .....   .....   .....   .....   .....   .....",
  ".....   .....   .....   .....   .....   .....   .....   .....   .....   .....   .....   .....",
  ".....   .....   .....   .....   .....   .....   .....   .....   .....   .....   .....   .....",
  ".....   .....   .....   .....   .....   .....   .....   .....   .....   .....   .....   .....",
  ".....   .....   .....   .....   .....   .....   .....   .....   .....   .....   .....   .....",
  ".....   .....   .....   .....   .....   .....   .....   .....   .....   .....   .....   .....",
  ".....   .....   .....   .....   .....   .....   .....   .....   .....   .....   ..#..   .....",
  ".....   .....   .....   .....   .....   .....   .....   .....   .....   .....   .#...   #####",
  "",
  "4d      4e      4f",
  ".#..#   .....   .#.#.",
  "#..#.   .....   ..#..",
  ".....   .....   .....",
  ".....   .....   .....",
  ".....   .....   .....",
  ".....   .....   .....",
  ".....   .....   .....",
  ".....   .....   .....",
  ".....   ..#..   .....",
  ".....   ..##.   .....",
];
return { MARKS, SIGNS };
})();
const module2 = (() => {
const { MARKS, SIGNS } = module1;

const COLUMNS = 6, ROWS = 10, STEP = 8, LETTER = 5, BELOW = [0x4b, 0x4c, 0x4e];
const DOTLESS = { i: "\u0131", j: "\u0237" }, BLOCK = "\u2588", UNKNOWN = "\u25a1";

function tableOf(lines) {
  const found = new Map();
  for (let start = 0; start < lines.length; start += ROWS + 2) {
    const head = lines[start], rows = lines.slice(start + 1, start + 1 + ROWS).reverse();
    for (let left = 0; left < head.length; left += STEP) {
      const name = head.slice(left, left + STEP).trim();
      found.set(name === "space" ? " " : name, rows.map((row) => (
        Uint8Array.from({ length: COLUMNS }, (_, k) => Number(k < LETTER && row[left + k] === "#")))));
    }
  }
  return found;
}

const signs = tableOf(SIGNS), marks = tableOf(MARKS);
const markOf = (accent) => marks.get(accent.toString(16));
const isBlankRow = (row) => !row.includes(1);
const BLANK_ROW = new Uint8Array(COLUMNS), known = new Map();

function underAccent(sign, base) {
  const rows = DOTLESS[sign] ? signs.get(DOTLESS[sign]) : base;
  return isBlankRow(rows[8]) && isBlankRow(rows[7]) ? rows : [...rows.slice(0, 7), rows[8], BLANK_ROW, BLANK_ROW];
}

function compose(sign, accent) {
  const block = () => Array.from({ length: ROWS }, () => new Uint8Array(COLUMNS).fill(1));
  const base = sign === BLOCK ? block() : signs.get(sign) || signs.get(UNKNOWN);
  if (!accent) return base;
  const rows = BELOW.includes(accent) ? base : underAccent(sign, base), mark = markOf(accent);
  return rows.map((row, at) => row.map((dot, k) => dot | mark[at][k]));
}

function rowsOf(sign, accent = 0) {
  const key = `${accent} ${sign}`;
  if (!known.has(key)) known.set(key, compose(sign, accent));
  return known.get(key);
}

function widthOf(rows) {
  const used = Array.from({ length: COLUMNS }, (_, k) => rows.some((row) => row[k]));
  if (!used.includes(true)) return [0, 3];
  return [used.indexOf(true), used.lastIndexOf(true) - used.indexOf(true) + 1];
}
return { COLUMNS, ROWS, markOf, rowsOf, widthOf };
})();
const module3 = (() => {
const { COLUMNS } = module2;
const { ADDRESS, HEIGHT, ONE, THIN, WIDTH } = module0;

const OWN = "#ffffff", BLACK = "#000000";
const FIRST = [
  "#000000", "#242424", "#494949", "#6d6d6d", "#929292", "#b6b6b6", "#dbdbdb", "#ffffff",
  "#0000ff", "#bf00ff", "#ff0080", "#ff4000", "#ffff00", "#40ff00", "#00ff80", "#00bfff"];
const direct = ([green, red, blue]) => `#${[red, green, blue].map((part) => (
  (part >> 8).toString(16).padStart(2, "0"))).join("")}`;
const inMap = (address) => `${ADDRESS}${address}`;
const backOf = ({ kind, addresses }) => kind === "pair" ? inMap(addresses[1]) : null;

function frontOf({ kind, value, addresses }) {
  if (kind === "direct") return direct(value);
  return addresses.length ? inMap(addresses[0]) : OWN;
}

const BLOCK = "\u2588", UNKNOWN = "\u25a1";
const MARKS = [..."\u0300\u0301\u0302\u0303\u0304\u0306\u0307\u0308\u0308\u030a\u0327\u0331\u030b\u0328\u030c"];
const ALONE = [..."`´^~¯˘˙¨¨˚¸_˝˛ˇ"];
const SUPPLEMENTARY = new Map();
for (const [first, signs] of [
  [0x21, "¡¢£$¥#§¤‘“«←↑→↓°±²³×µ¶·÷’”»¼½¾¿"], [0x41, ALONE], [0x50, "―¹®©™♪¬¦"],
  [0x60, "ΩÆÐªĦ\u25a1ĲĿŁØŒºÞŦŊŉĸæđðħıĳŀłøœßþŧŋ\u25a1"]]) {
  [...signs].forEach((sign, i) => SUPPLEMENTARY.set(first + i, sign));
}
const isAccent = ({ set, character }) => set === "supplementary" && character > 0x40 && character < 0x50;

function letterOf({ set, character }) {
  if (set === "primary") return character < 0x7f ? String.fromCharCode(character) : BLOCK;
  return character === 0x20 ? " " : SUPPLEMENTARY.get(character) || UNKNOWN;
}

const composed = (accent, base) => (
  base === " " ? ALONE[accent - 0x41] : (base + MARKS[accent - 0x41]).normalize("NFC"));

const SIZES = { small: [1 / 80, 5 / 128], medium: [1 / 32, 3 / 64], normal: [1 / 40, 5 / 128], tall: [1 / 40, 5 / 64],
  double: [1 / 20, 5 / 64] };
const SPACINGS = [1, 1.25, 1.5, 1], PROPORTIONAL = 3, RIGHT = 0, LEFT = 1, UP = 2;
const TOP = HEIGHT / WIDTH, DOT = THIN / WIDTH;
const SCREEN_FIELD = [0, 0, 1, TOP], NOWHERE = { x: 0, y: 0, known: false, scrolled: false, field: SCREEN_FIELD };
const cells = new WeakMap();

function cellOf(text) {
  let cell = cells.get(text);
  if (!cell) {
    const [wide, high] = text.given ? text.given.map((side) => side / ONE) : SIZES[text.size], [first] = text.words;
    const [rotation, path, kind] = [first & 3, first >> 2 & 3, first >> 4 & 3];
    const byLetters = kind === PROPORTIONAL && (path === RIGHT || path === LEFT);
    cell = { wide, high, rotation, path, spacing: SPACINGS[kind], byLetters, scroll: text.scroll };
    cells.set(text, cell);
  }
  return cell;
}

const advanceOf = ({ wide, spacing, byLetters }, columns) => (
  byLetters ? wide * (columns + 1) / COLUMNS : wide * spacing);
const isSameCell = (a, b) => a === b || Object.keys(a).every((name) => a[name] === b[name]);

class TextCursor {
  constructor() {
    this.putBack(NOWHERE);
  }

  saved() {
    const { x, y, known, scrolled, field } = this;
    return { x, y, known, scrolled, field };
  }

  putBack(saved) {
    Object.assign(this, saved);
  }

  enterGlyph() {
    this.putBack({ ...NOWHERE, known: true, field: [0, 0, 1, 1] });
  }

  take(pen, cell) {
    if (pen.point) {
      [this.x, this.y] = [pen.point[0] / ONE, pen.point[1] / ONE];
      this.scrolled = false;
    } else if (!this.known) {
      this.home(cell);
    }
    this.known = true;
  }

  home(cell) {
    this.x = this.field[0];
    this.y = this.field[3] - Math.abs(cell.high);
    this.scrolled = false;
  }

  lose() {
    this.known = false;
  }

  setField(corners) {
    if (corners.length) {
      const [[a, b], [c, d]] = corners;
      this.field = [Math.min(a, c), Math.min(b, d), Math.max(a, c), Math.max(b, d)].map((side) => side / ONE);
    } else {
      this.field = SCREEN_FIELD;
    }
    this.lose();
  }

  fits(wide) {
    return this.x + wide <= this.field[2] + DOT;
  }

  wrap(cell, wide) {
    const hasRoom = wide <= this.field[2] - this.field[0] + DOT;
    if (cell.path !== RIGHT || this.x <= this.field[0] || this.fits(hasRoom ? wide : cell.wide)) return false;
    this.x = this.field[0];
    this.down(cell, Math.abs(cell.high));
    return true;
  }

  down(cell, high) {
    const low = this.field[1] - DOT, wasWithin = this.y >= low;
    this.y -= high;
    if (wasWithin && this.y < low) {
      this.scrolled = cell.scroll;
      if (!cell.scroll) this.y = this.field[3] - Math.abs(cell.high);
    }
  }

  step(cell, columns) {
    if (cell.path === RIGHT) this.x += advanceOf(cell, columns);
    else if (cell.path === LEFT) this.x -= advanceOf(cell, columns);
    else if (cell.path === UP) this.y += cell.high * cell.spacing;
    else this.y -= cell.high * cell.spacing;
  }

  move({ move, bytes }, cell) {
    if (move === "APF") {
      this.x += cell.wide * cell.spacing;
      this.wrap(cell, cell.wide);
    } else if (move === "APB") {
      this.x -= cell.wide * cell.spacing;
    } else if (move === "APD") {
      this.down(cell, cell.high);
    } else if (move === "APU") {
      this.y += cell.high;
      this.scrolled = this.scrolled && this.y < this.field[1] - DOT;
    } else if (move === "APR") {
      this.x = this.field[0];
    } else if (move === "APH") {
      this.home(cell);
    } else {
      this.x = this.field[0] + (bytes[1] - 0x20) * cell.wide;
      this.y = this.field[3] - (bytes[0] - 0x20 + 1) * cell.high;
      this.scrolled = false;
    }
  }
}
return { ALONE, BLACK, FIRST, RIGHT, TextCursor, advanceOf, backOf, cellOf, composed, direct, frontOf, inMap, isAccent, isSameCell, letterOf };
})();
const module4 = (() => {
const { MOST_BYTES, MOST_COPIED, MOST_WEIGHT, NOTHING, element, fixed, plus, sizeOf, total } = module0;

class Full extends Error {}

class Paper {
  constructor() {
    Object.assign(this, { steps: [], named: {}, glyphs: new Map(), masks: new Map() });
    Object.assign(this, { definedGlyphs: 0, definedMasks: 0, open: null, openSize: 0, openWeight: NOTHING });
    Object.assign(this, { copied: 0, isFull: false, held: 0, top: 0, highest: 0, entry: 0 });
    this.ofPage = { size: 0, weight: 0 };
    this.ofDefinitions = { size: 0, weight: 0 };
  }

  spend(size, weight) {
    if (!this.open) return this.count(this.ofPage, size, total(weight));
    this.openWeight = plus(this.openWeight, weight);
    return this.count(this.ofDefinitions, size, weight[0]);
  }

  count(cost, size, weight) {
    if (!this.isFull) {
      cost.size += size;
      cost.weight += weight;
      this.fullIf(this.ofPage.size + this.ofDefinitions.size > MOST_BYTES
        || this.ofPage.weight + this.ofDefinitions.weight > MOST_WEIGHT);
    }
    this.held += size;
    this.fullIf(this.held > MOST_BYTES);
  }

  require(points) {
    this.fullIf(this.ofPage.weight + this.ofDefinitions.weight + points > MOST_WEIGHT);
  }

  fullIf(isTooMuch) {
    if (!isTooMuch || this.isFull) return;
    this.isFull = true;
    throw new Full();
  }

  put(it, weight) {
    const size = sizeOf(it);
    this.spend(size, weight);
    if (this.open) this.keepOpen(it, size);
    else this.step({ draw: it });
  }

  putCounted(it, { entries, x, wide }) {
    if (this.open) this.keepOpen(it, sizeOf(it));
    else {
      const [left, cell] = [Number(fixed(x, 2)), Number(fixed(wide, 4))];
      this.step({ draw: it, entry: entries[0], letters: entries, x: left, cell });
    }
  }

  keepOpen(it, size) {
    this.open.push(it);
    this.openSize += size;
  }

  step(members) {
    this.steps.push({ entry: this.entry, ...members });
  }

  reach(y) {
    if (!this.open && y > this.top) this.top = y;
  }

  clear(colour) {
    this.highest = Math.max(this.highest, this.top);
    if (this.open) return;
    this.ofPage.size = this.ofPage.weight = this.top = 0;
    this.step({ clear: colour });
  }

  begin() {
    Object.assign(this, { open: [], openSize: 0, openWeight: NOTHING });
  }

  endGlyph(code) {
    const glyph = this.ended("g", this.definedGlyphs++);
    this.glyphs.set(code, glyph);
    this.defineGroup(glyph);
  }

  endMask(name) {
    this.masks.set(name, this.ended("m", ++this.definedMasks));
  }

  ended(letter, number) {
    const elements = this.open || [];
    this.open = null;
    return { number, name: `n${letter}${number}`, elements, size: this.openSize, weight: this.openWeight };
  }

  drawingOf(mask) {
    if (this.copied + mask.size <= MOST_COPIED) {
      this.copied += mask.size;
      return mask.elements;
    }
    this.defineGroup(mask);
    return [element("use", { href: `#${mask.name}` })];
  }

  defineGroup(it) {
    this.define(it.name, element("g", { id: it.name }, it.elements), it.size);
  }

  define(key, it, counted = 0) {
    if (Object.hasOwn(this.named, key)) return;
    this.count(this.ofDefinitions, sizeOf(it) - counted, 0);
    this.named[key] = it;
  }
}
return { Full, Paper };
})();
const module5 = (() => {
const { WIDTH, between, distance, extentOf, moved, num, sumOf } = module0;

const stepsOf = (piece) => Math.min(Math.max(8, Math.ceil(piece.length() / 8)), 256);

class Straight {
  constructor(start, end) {
    Object.assign(this, { start, end });
  }

  path() {
    return `L${num(this.end[0])} ${num(this.end[1])}`;
  }

  moved(by) {
    return new Straight(moved(this.start, by), moved(this.end, by));
  }

  reversed() {
    return new Straight(this.end, this.start);
  }

  monotone() {
    return [this];
  }

  places() {
    return [this.end];
  }

  length() {
    return distance(this.start, this.end);
  }
}

class Round {
  constructor(start, end, centre, radius, turn) {
    Object.assign(this, { start, end, centre, radius, turn });
  }

  path() {
    const flags = `${Math.abs(this.turn) > Math.PI ? 1 : 0} ${this.turn > 0 ? 1 : 0}`;
    return `A${num(this.radius)} ${num(this.radius)} 0 ${flags} ${num(this.end[0])} ${num(this.end[1])}`;
  }

  moved(by) {
    const [start, end, centre] = [this.start, this.end, this.centre].map((place) => moved(place, by));
    return new Round(start, end, centre, this.radius, this.turn);
  }

  reversed() {
    return new Round(this.end, this.start, this.centre, this.radius, -this.turn);
  }

  monotone() {
    const quarter = Math.PI / 2, first = this.angle(), last = first + this.turn, inner = [];
    const high = Math.floor(Math.max(first, last) / quarter);
    for (let number = Math.ceil(Math.min(first, last) / quarter); number <= high; number++) {
      const cut = Math.abs(quarter * number - first);
      if (cut > 1e-9 && cut < Math.abs(this.turn) - 1e-9) inner.push(quarter * number - first);
    }
    const turns = [0, ...inner.sort((a, b) => Math.abs(a) - Math.abs(b)), this.turn];
    const ends = [this.start, ...turns.slice(1, -1).map((turn) => this.at(turn)), this.end];
    return turns.slice(1).map((turn, i) => (
      new Round(ends[i], ends[i + 1], this.centre, this.radius, turn - turns[i])));
  }

  places() {
    const steps = stepsOf(this);
    return [...Array.from({ length: steps - 1 }, (_, i) => this.at(this.turn * (i + 1) / steps)), this.end];
  }

  length() {
    return Math.abs(this.turn) * this.radius;
  }

  angle() {
    return Math.atan2(this.start[1] - this.centre[1], this.start[0] - this.centre[0]);
  }

  at(turn) {
    const angle = this.angle() + turn, [x, y] = this.centre;
    return [x + this.radius * Math.cos(angle), y + this.radius * Math.sin(angle)];
  }
}

class Cubic {
  constructor(...four) {
    Object.assign(this, { four, start: four[0], end: four[3] });
  }

  path() {
    return `C${this.four.slice(1).flat().map(num).join(" ")}`;
  }

  moved(by) {
    return new Cubic(...this.four.map((place) => moved(place, by)));
  }

  reversed() {
    return new Cubic(...[...this.four].reverse());
  }

  monotone() {
    const cuts = [0, 1].flatMap((side) => turnsBack(...this.four.map((place) => place[side]))).sort((a, b) => a - b);
    const pieces = [];
    let rest = this, done = 0;
    for (const cut of cuts) {
      if (cut - done > 1e-6) {
        const [piece, after] = rest.cut((cut - done) / (1 - done));
        pieces.push(piece);
        [rest, done] = [after, cut];
      }
    }
    return [...pieces, rest];
  }

  cut(share) {
    const [a, b, c, d] = this.four, ab = between(a, b, share), bc = between(b, c, share), cd = between(c, d, share);
    const abc = between(ab, bc, share), bcd = between(bc, cd, share), middle = between(abc, bcd, share);
    return [new Cubic(a, ab, abc, middle), new Cubic(middle, bcd, cd, d)];
  }

  places() {
    const steps = stepsOf(this);
    return [...Array.from({ length: steps - 1 }, (_, i) => this.cut((i + 1) / steps)[0].end), this.end];
  }

  length() {
    return sumOf([0, 1, 2].map((i) => distance(this.four[i], this.four[i + 1])));
  }
}

function turnsBack(a, b, c, d) {
  const square = d - 3 * c + 3 * b - a, linear = 2 * (c - 2 * b + a), constant = b - a;
  const inside = linear * linear - 4 * square * constant;
  let found = [];
  if (Math.abs(square) < 1e-9) {
    if (Math.abs(linear) > 1e-9) found = [-constant / linear];
  } else if (inside > 0) {
    found = [-1, 1].map((sign) => (-linear + sign * Math.sqrt(inside)) / (2 * square));
  }
  return found.filter((share) => share > 1e-6 && share < 1 - 1e-6);
}

const MOST_RADIUS = 4 * WIDTH, ARC_PIECES = 16;
const same = (a, b) => a[0] === b[0] && a[1] === b[1];
const crossOf = ([a, m, e]) => (m[0] - a[0]) * (e[1] - a[1]) - (m[1] - a[1]) * (e[0] - a[0]);
const isLarge = (pieces) => pieces.some((piece) => piece instanceof Round && piece.radius > MOST_RADIUS);

function arcPieces(points) {
  if (points.length !== 3) return curvePieces(points);
  return same(points[0], points[2]) ? circlePieces(points) : threePointPieces(points);
}

function arcPath(points, isFilled) {
  const body = arcPieces(points).map((piece) => piece.path()).join("");
  return `M${num(points[0][0])} ${num(points[0][1])}${body}${isFilled ? "Z" : ""}`;
}

function arcExtent(points) {
  if (points.length > 3) {
    const [count, length, area] = extentOf(points);
    return [3 * count, 2 * length, 2 * area];
  }
  const long = Math.min(arcLength(points), MOST_RADIUS);
  return [4 * points.length, 3 * long, Math.min(long * long / Math.PI, WIDTH * WIDTH)];
}

function arcLength(points) {
  const [a, m, e] = points, cross = crossOf(points);
  if (same(a, e)) return Math.PI * distance(a, m);
  if (Math.abs(cross) < 1e-9) return distance(a, m) + distance(m, e);
  const centre = centreOf(points, cross), turn = (from, to) => Math.abs(turnOf(centre, from, to, cross > 0));
  return (turn(a, m) + turn(m, e)) * distance(a, centre);
}

function circlePieces([a, m]) {
  const centre = [(a[0] + m[0]) / 2, (a[1] + m[1]) / 2], radius = distance(a, m) / 2;
  return [new Round(a, m, centre, radius, Math.PI), new Round(m, a, centre, radius, Math.PI)];
}

function centreOf([a, m, e], cross) {
  const bx = m[0] - a[0], by = m[1] - a[1], cx = e[0] - a[0], cy = e[1] - a[1];
  const b2 = bx * bx + by * by, c2 = cx * cx + cy * cy;
  return [a[0] + (cy * b2 - by * c2) / (2 * cross), a[1] + (bx * c2 - cx * b2) / (2 * cross)];
}

function turnOf(centre, start, to, isClockwise) {
  const first = Math.atan2(start[1] - centre[1], start[0] - centre[0]);
  const last = Math.atan2(to[1] - centre[1], to[0] - centre[0]);
  const rest = (last - first) % (2 * Math.PI), turn = rest < 0 ? rest + 2 * Math.PI : rest;
  return isClockwise ? turn : turn - 2 * Math.PI;
}

function threePointPieces(points) {
  const [a, m, e] = points, cross = crossOf(points);
  if (Math.abs(cross) < 1e-9) return [new Straight(a, m), new Straight(m, e)];
  const radius = distance(a, m) * distance(m, e) * distance(a, e) / (2 * Math.abs(cross));
  const centre = centreOf(points, cross);
  return [[a, m], [m, e]].flatMap(([start, to]) => {
    const turn = turnOf(centre, start, to, cross > 0);
    if (!(radius > MOST_RADIUS && Math.abs(turn) < Math.PI / 2)) return [new Round(start, to, centre, radius, turn)];
    const places = [start, ...onCircle(centre, start, turn).slice(0, -1), to];
    return places.slice(1).map((place, i) => new Straight(places[i], place));
  });
}

function onCircle(centre, start, turn) {
  const x = start[0] - centre[0], y = start[1] - centre[1];
  return Array.from({ length: ARC_PIECES }, (_, i) => {
    const angle = turn * (i + 1) / ARC_PIECES, half = Math.sin(angle / 2);
    const dx = -2 * half * half * x - Math.sin(angle) * y, dy = -2 * half * half * y + Math.sin(angle) * x;
    return [start[0] + dx, start[1] + dy];
  });
}

function curvePieces(points) {
  const last = points.length - 1;
  return points.slice(0, last).map((start, i) => {
    const before = points[Math.max(i - 1, 0)], to = points[i + 1], behind = points[Math.min(i + 2, last)];
    return new Cubic(start, [start[0] + (to[0] - before[0]) / 6, start[1] + (to[1] - before[1]) / 6],
      [to[0] - (behind[0] - start[0]) / 6, to[1] - (behind[1] - start[1]) / 6], to);
  });
}
return { Straight, arcExtent, arcPath, arcPieces, isLarge, same };
})();
const module6 = (() => {
const { WIDTH, between, distance, filledWeight, lengthOf, num } = module0;
const { Straight } = module5;

function sideOf(size, least) {
  if (!size) return [-least / 2, least / 2];
  return size > 0 ? [0, Math.max(size, least)] : [Math.min(size, -least), 0];
}

function pelOf(size, least) {
  const [[left, right], [low, high]] = size.map((part) => sideOf(lengthOf(part), least));
  return { left, top: -high, right, bottom: -low, wide: right - left, high: -low + high };
}

const spot = (place, by = [0, 0]) => `${num(place[0] + by[0])} ${num(place[1] + by[1])}`;

function sweptPath(piece, pel) {
  const [a, b] = piece.start, [c, d] = piece.end;
  if (a === c || b === d) {
    const [left, top] = [Math.min(a, c) + pel.left, Math.min(b, d) + pel.top];
    const [right, bottom] = [Math.max(a, c) + pel.right, Math.max(b, d) + pel.bottom];
    return `M${num(left)} ${num(top)}H${num(right)}V${num(bottom)}H${num(left)}Z`;
  }
  const corners = [[pel.left, pel.bottom], [pel.left, pel.top], [pel.right, pel.top], [pel.right, pel.bottom]];
  const first = c > a ? (d > b ? 1 : 0) : (d > b ? 2 : 3);
  const [behind, one, ahead, other] = [...corners.slice(first), ...corners.slice(0, first)];
  const { start, end } = piece;
  if (piece instanceof Straight) {
    return `M${spot(start, behind)}L${spot(start, one)}L${spot(end, one)}L${spot(end, ahead)}L${spot(end, other)}`
      + `L${spot(start, other)}Z`;
  }
  const there = piece.moved(one), back = piece.reversed().moved(other);
  return `M${spot(start, behind)}L${spot(there.start)}${there.path()}L${spot(end, ahead)}L${spot(back.start)}`
    + `${back.path()}Z`;
}

function sweep(pieces, pel) {
  const parts = [], extent = [0, 0, 0];
  for (const each of pieces) {
    for (const piece of each.monotone()) {
      parts.push(sweptPath(piece, pel));
      const across = Math.min(Math.abs(piece.end[0] - piece.start[0]), WIDTH);
      const down = Math.min(Math.abs(piece.end[1] - piece.start[1]), WIDTH);
      extent[0] += each instanceof Straight ? 6 : 24;
      extent[1] += across + down + pel.wide + pel.high;
      extent[2] += (across + pel.wide) * (down + pel.high);
    }
  }
  return { path: parts.join(""), weight: filledWeight(extent) };
}

const unitOf = (start, end, pel) => (
  Math.abs(end[0] - start[0]) >= Math.abs(end[1] - start[1]) ? pel.wide : pel.high);

const unitOfPiece = (piece, pel) => (
  piece instanceof Straight ? unitOf(piece.start, piece.end, pel) : Math.max(pel.wide, pel.high));

function dashed(pieces, pel, dashes) {
  const parts = [];
  let number = 0, left = dashes[0];
  for (const piece of pieces) {
    let at = piece.start;
    for (const place of piece.places()) {
      const far = distance(at, place), unit = unitOf(at, place, pel);
      let done = 0;
      while (far - done > left * unit) {
        const begin = done;
        done += left * unit;
        if (number % 2 === 0) parts.push(new Straight(between(at, place, begin / far), between(at, place, done / far)));
        number = (number + 1) % dashes.length;
        left = dashes[number];
      }
      if (number % 2 === 0) parts.push(new Straight(far ? between(at, place, done / far) : at, place));
      left -= (far - done) / unit;
      at = place;
    }
  }
  return parts;
}
return { dashed, pelOf, sweep, unitOfPiece };
})();
const module7 = (() => {
const {
  HEIGHT, ONE, PATTERNED, STEPS, THIN, THIN_IN_GLYPH, TILE, WIDTH, boxWeight, dashPoints, element, extentOf,
  filledWeight, fine, lengthOf, lineExtent, num, outlinedWeight, plus, scaled, sumOf,
} = module0;
const { Straight, arcExtent, arcPath, arcPieces, isLarge, same } = module5;
const { dashed, pelOf, sweep, unitOfPiece } = module6;
const { BLACK, backOf, frontOf } = module3;

const DASHES = [[], [1, 2], [5, 3], [5, 2, 1, 2]], USUAL_MASK = 24;
const dashesOf = (entry) => DASHES[entry.texture.word & 3];
const boxOf = (wide, high, fill) => element("rect", { width: num(wide), height: num(high), fill });
const edgesOf = (places) => places.map((place, i) => new Straight(place, places[(i + 1) % places.length]));

class Shapes {
  constructor(paper) {
    this.paper = paper;
  }

  draw(entry) {
    const places = this.places(entry.points), [shape, fill] = entry.kind.split("-"), isFilled = fill === "FILLED";
    if (shape === "POINT") this.point(entry, places);
    else if (!same(entry.pel, [0, 0]) && !isFilled) this.swept(entry, this.pieces(shape, places));
    else if (shape === "LINE") this.line(entry, places);
    else if (shape === "RECT") this.rectangle(entry, places, isFilled);
    else if (shape === "POLY") this.polygon(entry, places, isFilled);
    else this.shape("path", entry, isFilled, arcExtent(places), () => ({ d: arcPath(places, isFilled) }));
  }

  places(points) {
    if (!this.paper.open) this.paper.reach(points.reduce((most, [, y]) => Math.max(most, y), -Infinity) / ONE);
    const foot = this.paper.open ? WIDTH : HEIGHT;
    return points.map(([x, y]) => [x / STEPS, foot - y / STEPS]);
  }

  pieces(shape, places) {
    if (shape === "LINE") return [new Straight(...places)];
    if (shape === "ARC") return arcPieces(places);
    const [[a, b], [c, d]] = places;
    return edgesOf(shape === "RECT" ? [[a, b], [c, b], [c, d], [a, d]] : places);
  }

  point(entry, [[x, y]]) {
    const dot = pelOf(entry.pel, this.thin());
    this.paper.put(element("rect", { x: num(x + dot.left), y: num(y + dot.top), width: num(dot.wide),
      height: num(dot.high), fill: this.ink(entry) }), boxWeight(dot.wide, dot.high));
  }

  line(entry, [[a, b], [c, d]]) {
    this.shape("path", entry, false, lineExtent([a, b], [c, d]), () => (
      { d: `M${num(a)} ${num(b)}L${num(c)} ${num(d)}`, "stroke-linecap": "square" }));
  }

  rectangle(entry, [[a, b], [c, d]], isFilled) {
    const least = isFilled ? this.thin() : 0.01;
    const wide = Math.max(Math.abs(c - a), least), high = Math.max(Math.abs(d - b), least);
    this.shape("rect", entry, isFilled, [4, 2 * (wide + high), wide * high], () => (
      { x: num(Math.min(a, c)), y: num(Math.min(b, d)), width: num(wide), height: num(high) }));
  }

  polygon(entry, places, isFilled) {
    this.shape("polygon", entry, isFilled, extentOf(places), () => (
      { points: places.map(([x, y]) => `${num(x)},${num(y)}`).join(" "), "fill-rule": "evenodd" }));
  }

  shape(name, entry, isFilled, extent, attributes) {
    const style = isFilled ? this.fill(entry, extent) : this.stroke(entry, extent);
    this.paper.put(element(name, { ...attributes(), ...style.attributes }), style.weight);
  }

  swept(entry, pieces) {
    const dot = pelOf(entry.pel, this.thin()), dashes = dashesOf(entry);
    let parts = pieces;
    if (dashes.length && !isLarge(pieces)) {
      this.paper.require(dashPoints(sumOf(pieces.map((piece) => piece.length() / unitOfPiece(piece, dot))), 1, dashes));
      parts = dashed(pieces, dot, dashes);
    }
    const { path, weight } = sweep(parts, dot);
    this.paper.put(element("path", { d: path, fill: this.ink(entry) }), weight);
  }

  ink(entry) {
    return this.paper.open ? "currentColor" : frontOf(entry.colour);
  }

  thin() {
    return this.paper.open ? THIN_IN_GLYPH : THIN;
  }

  stroke(entry, extent) {
    const thick = this.thin(), dashes = dashesOf(entry);
    const attributes = { fill: "none", stroke: this.ink(entry), "stroke-width": num(thick) };
    if (dashes.length) attributes["stroke-dasharray"] = dashes.map((part) => num(part * thick)).join(" ");
    return { attributes, weight: outlinedWeight(extent, thick, dashes) };
  }

  fill(entry, extent) {
    const { texture } = entry, number = texture.word >> 3 & 7, ink = this.ink(entry), edge = {};
    let weight = filledWeight(extent);
    if (texture.word & 4) {
      const thick = this.thin() * 0.75;
      Object.assign(edge, { stroke: BLACK, "stroke-width": num(thick) });
      weight = plus(weight, outlinedWeight(extent, thick, []));
    }
    if (!number || this.paper.open) return { attributes: { fill: ink, ...edge }, weight };
    const [wide, high] = texture.mask ? texture.mask.map((side) => Math.max(Math.abs(lengthOf(side)), THIN))
      : [USUAL_MASK, USUAL_MASK];
    const mask = number >= 4 ? this.paper.masks.get("ABCD"[number - 4]) : undefined;
    if (mask) weight = plus(weight, scaled(mask.weight, wide / WIDTH, high / WIDTH));
    weight = plus(weight, [TILE, 0, extent[2] * PATTERNED + wide * high]);
    const key = this.pattern(number, wide, high, mask, ink, backOf(entry.colour));
    return { attributes: { fill: `url(#${key})`, ...edge }, weight };
  }

  pattern(number, wide, high, mask, ink, ground) {
    const version = mask ? `-${mask.number}` : "", behind = ground ? ground.slice(1) : "none";
    const key = `np${number}-${ink.slice(1)}-${behind}-${num(wide)}-${num(high)}${version}`.replaceAll(".", "_");
    if (Object.hasOwn(this.paper.named, key)) return key;
    const inside = ground ? [boxOf(wide, high, ground)] : [], half = Math.min(wide, high) / 4;
    if (number === 1 || number === 3) inside.push(boxOf(half, high, ink));
    if (number === 2 || number === 3) inside.push(boxOf(wide, half, ink));
    if (mask) {
      const transform = `scale(${fine(wide / WIDTH)} ${fine(high / WIDTH)})`;
      inside.push(element("g", { color: ink, transform }, this.paper.drawingOf(mask)));
    } else if (number >= 4) {
      const tone = boxOf(wide, high, ink);
      inside.push(element("rect", { ...tone.attributes, "fill-opacity": "0.5" }));
    }
    const attributes = { id: key, width: num(wide), height: num(high), patternUnits: "userSpaceOnUse" };
    this.paper.define(key, element("pattern", attributes, inside));
    return key;
  }
}
return { Shapes };
})();
const module8 = (() => {
const { isAccent, letterOf } = module3;
const { COLUMNS, markOf, rowsOf, widthOf } = module2;

const isWritten = (set) => set === "primary" || set === "supplementary";

function rowsOfEntry(entry, accent) {
  if (!isWritten(entry.set) || isAccent(entry)) return null;
  const sign = letterOf(entry);
  return accent && sign === " " ? markOf(accent) : rowsOf(sign, accent);
}

function columnsOf(entry, accent = 0) {
  const rows = rowsOfEntry(entry, accent);
  return rows ? widthOf(rows)[1] : COLUMNS - 1;
}
return { columnsOf, isWritten, rowsOfEntry };
})();
const module9 = (() => {
const { num } = module0;

const MOSAIC_ROWS = [[1, 2], [4, 8], [16, 64]], GAP = 0.15;
const numberOfBlocks = (code) => MOSAIC_ROWS.flat().filter((bit) => code & bit).length;

function blocksPath(codes, x, y, wide, high, isApart) {
  const across = wide / 2, down = high / 3, gap = isApart ? GAP / 2 : 0, parts = [];
  MOSAIC_ROWS.forEach((bits, number) => {
    const top = num(y - high + (number + gap) * down), foot = num(y - high + (number + 1 - gap) * down);
    const row = codes.flatMap((code) => bits.map((bit) => (code & bit) !== 0));
    for (const [first, end] of blockParts(row, isApart)) {
      const left = num(x + (first + gap) * across);
      parts.push(`M${left} ${top}H${num(x + (end - gap) * across)}V${foot}H${left}Z`);
    }
  });
  return parts.join("");
}

function* blockParts(row, isApart) {
  for (let at = 0; at < row.length;) {
    const first = at;
    while (at < row.length && row[at] && (at === first || !isApart)) at++;
    if (at > first) yield [first, at];
    else at++;
  }
}
return { blocksPath, numberOfBlocks };
})();
const module10 = (() => {
const {
  HEIGHT, NOTHING, RUN, WIDTH, boxWeight, element, fine, letterWeight, num, outlinedWeight, plus, scaled,
} = module0;
const { COLUMNS } = module2;
const { columnsOf, isWritten } = module8;
const { same } = module5;
const { blocksPath, numberOfBlocks } = module9;
const {
  ALONE, BLACK, RIGHT, TextCursor, advanceOf, inMap, backOf, cellOf, composed, frontOf, isAccent, isSameCell, letterOf,
} = module3;

const ADVANCE = 0.602, SIZE = 0.86, BASE = 0.22, MOST_IN_LINE = 1000, LEAST_COLUMNS = 3;
const A_LETTER = 16, A_RUN = 1024;
const A_BLOCK = 64, A_ROW = 256;
const isStraight = (cell, isMosaic) => (
  cell.path === RIGHT && cell.rotation === 0 && cell.spacing === 1 && (isMosaic || !cell.byLetters));
const isBlank = ({ set, character }) => character === 0x20 && isWritten(set);
const cellBox = (x, y, wide, high, fill) => element("rect", { x: num(Math.min(x, x + wide)),
  y: num(Math.min(y - high, y)), width: num(Math.abs(wide)), height: num(Math.abs(high)), fill });
const boxPath = (x, y, wide, high) => `M${num(x)} ${num(y)}h${num(wide)}v${num(high)}h${num(-wide)}z`;

class Writing {
  constructor(paper, characterAt) {
    Object.assign(this, { paper, characterAt, cursor: new TextCursor() });
    Object.assign(this, { inWord: -1, run: null, accent: null, last: null });
  }

  flush() {
    if (this.accent !== null) this.endAccent();
    const run = this.run;
    this.run = null;
    if (run && run.cell.wide && run.cell.high) this.drawRun(run);
  }

  character(entry) {
    this.last = entry;
    const style = this.style(entry), { cell } = style;
    this.take(entry.pen, cell);
    if (!this.isWithin(entry, cell)) return;
    this.paper.spend(A_LETTER, style.weight);
    if (isAccent(entry)) {
      this.endAccent();
      this.paper.spend(A_RUN, RUN);
      this.accent = entry.character;
      return;
    }
    let columns = COLUMNS - 1;
    if (isWritten(entry.set)) {
      const sign = letterOf(entry), { accent } = this;
      this.accent = null;
      if (cell.byLetters) columns = columnsOf(entry, accent || 0);
      this.letter(style, accent === null ? sign : composed(accent, sign), columns);
    } else if (entry.set === "mosaic") {
      if (this.accent !== null) this.endAccent();
      this.mosaic(entry.character, style);
    } else {
      this.flush();
      this.sign(entry.character, style);
    }
    this.cursor.step(cell, columns);
  }

  isWithin(entry, cell) {
    let { wide } = cell;
    if (entry.text.wrap && isBlank(entry)) {
      if (cell.path === RIGHT && !this.cursor.fits(wide)) return false;
    } else if (entry.text.wrap) {
      const begins = this.inWord !== this.paper.entry - 1 || entry.pen.at !== "after";
      if (begins) wide = Math.max(wide, this.wordWidth(this.paper.entry));
      this.inWord = this.paper.entry;
    }
    if (this.cursor.wrap(cell, wide)) this.flush();
    return !this.cursor.scrolled;
  }

  wordWidth(number) {
    let width = 0, most = 0;
    for (let at = number, entry = this.characterAt(at); entry && most <= 1; entry = this.characterAt(++at)) {
      const cell = cellOf(entry.text), isFirst = at === number;
      if (!entry.text.wrap || isBlank(entry) || cell.path !== RIGHT || !(entry.pen.at === "after" || isFirst)) break;
      if (!isAccent(entry)) {
        most = width + cell.wide;
        width += advanceOf(cell, cell.byLetters ? columnsOf(entry) : 0);
      }
    }
    return most;
  }

  move(entry) {
    this.flush();
    const cell = cellOf(entry.text);
    this.take(entry.pen, cell);
    this.cursor.move(entry, cell);
  }

  toEnd({ pen, colour, text }) {
    if (!this.last) return;
    const cell = cellOf(text), { set, character } = this.last;
    this.take(pen, cell);
    if (this.cursor.wrap(cell, cell.wide)) this.flush();
    const again = { kind: "CHAR", set, character, pen: { at: "after", point: null }, colour, text };
    for (let count = 0; count < MOST_IN_LINE; count++) {
      if (cell.wide <= 0 || cell.path !== RIGHT || !this.cursor.fits(cell.wide)) break;
      this.character(again);
    }
  }

  take(pen, cell) {
    if (pen.at === "after" && this.cursor.known) return;
    this.flush();
    this.cursor.take(pen, cell);
  }

  style({ colour, text }) {
    const cell = cellOf(text), weight = letterWeight(cell.wide * WIDTH, cell.high * WIDTH);
    let ink = ["currentColor", null];
    if (!this.paper.open) {
      const ground = backOf(colour);
      ink = text.reverse ? [ground || BLACK, frontOf(colour)] : [frontOf(colour), ground];
    }
    return { cell, ink, underline: text.underline, weight };
  }

  corner(cell) {
    this.paper.reach(this.cursor.y + Math.max(cell.high, 0));
    return [this.cursor.x * WIDTH, (this.paper.open ? WIDTH : HEIGHT) - this.cursor.y * WIDTH];
  }

  letter(style, sign, columns, isCounted = false) {
    const [x, y] = this.corner(style.cell);
    if (this.joined(style, sign, x, y, false)) return;
    this.flush();
    if (!isCounted) this.paper.spend(A_RUN, RUN);
    this.run = { ...style, signs: [sign], entries: [this.paper.entry], x, y, isMosaic: false, columns };
  }

  mosaic(code, style) {
    const { cell, ink: [, ground] } = style, [x, y] = this.corner(cell);
    const box = boxWeight(cell.wide * WIDTH, cell.high * WIDTH);
    if (!cell.wide || !cell.high) {
      this.flush();
      return;
    }
    this.paper.spend(A_BLOCK * numberOfBlocks(code), ground ? box.map((part) => part * 2) : box);
    if (this.joined(style, code, x, y, true)) return;
    this.flush();
    this.paper.spend(A_ROW, NOTHING);
    this.run = { ...style, signs: [code], entries: [this.paper.entry], x, y, isMosaic: true };
  }

  joined({ cell, ink, underline }, sign, x, y, isMosaic) {
    const { run } = this;
    if (!run || run.isMosaic !== isMosaic || !isStraight(cell, isMosaic)) return false;
    const isAlike = same(run.ink, ink) && run.underline === underline && isSameCell(run.cell, cell);
    const end = run.x + run.signs.length * run.cell.wide * WIDTH;
    if (!isAlike || Math.abs(end - x) >= 0.01 || Math.abs(run.y - y) >= 0.01) return false;
    run.signs.push(sign);
    run.entries.push(this.paper.entry);
    return true;
  }

  endAccent() {
    const { accent } = this;
    this.accent = null;
    if (accent !== null && this.last) this.letter(this.style(this.last), ALONE[accent - 0x41], COLUMNS - 1, true);
  }

  drawRun(run) {
    const { cell, ink: [, ground], signs, x, y, isMosaic } = run, wide = cell.wide * WIDTH, high = cell.high * WIDTH;
    const parts = ground ? [cellBox(x, y, wide * signs.length, high, ground)] : [];
    parts.push(...(isMosaic ? rowOf(run, wide, high) : lettersAndLine(run, wide, high)));
    const transform = `rotate(${-90 * cell.rotation} ${num(x)} ${num(y)})`;
    for (const part of parts) {
      const turned = cell.rotation && !isMosaic ? element("g", { transform }, [part]) : part;
      this.paper.putCounted(turned, { entries: run.entries, x, wide });
    }
  }

  sign(code, { cell, ink: [fore, ground] }) {
    const [x, y] = this.corner(cell), wide = cell.wide * WIDTH, high = cell.high * WIDTH;
    if (!wide || !high) return;
    if (ground) this.paper.put(cellBox(x, y, wide, high, ground), boxWeight(wide, high));
    this.glyph(code, x, y, wide, high, fore);
  }

  glyph(code, x, y, wide, high, color) {
    const glyph = this.paper.open ? undefined : this.paper.glyphs.get(code);
    if (glyph) {
      const [across, down] = [wide / WIDTH, high / WIDTH];
      const transform = `translate(${num(x)} ${num(y - high)}) scale(${fine(across)} ${fine(down)})`;
      const use = element("use", { href: `#${glyph.name}`, color, transform });
      this.paper.put(use, plus(RUN, scaled(glyph.weight, across, down)));
      return;
    }
    const d = boxPath(x + wide * 0.15, y - high * 0.85, wide * 0.7, high * 0.7);
    const shape = element("path", { d, fill: "none", stroke: color, "stroke-width": "2" });
    this.paper.put(shape, outlinedWeight([4, 2 * Math.abs(wide) + 2 * Math.abs(high), 0], 2, []));
  }
}

function rowOf({ ink: [fill], signs, underline, x, y }, wide, high) {
  const d = blocksPath(signs, x, y, wide, high, underline);
  return d ? [element("path", { d, fill, "shape-rendering": "crispEdges" })] : [];
}

function lettersAndLine(run, wide, high) {
  const { ink: [fore], signs, underline, x, y } = run, text = signs.join("");
  const parts = /[^ ]/.test(text) ? [textOf(text, run, wide, high, fore)] : [];
  if (underline) {
    const d = `M${num(x)} ${num(y - 3)}h${num(wide * signs.length)}`;
    parts.push(element("path", { d, fill: "none", stroke: fore, "stroke-width": "3" }));
  }
  return parts;
}

function placeOf({ cell, x, columns }, wide) {
  if (!cell.byLetters) return [x, wide];
  const [place, letter] = [columns, Math.max(columns, LEAST_COLUMNS)].map((each) => (each + 1) * wide / COLUMNS);
  return [x + (place - letter) / 2, letter];
}

function textOf(text, run, wide, high, fill) {
  const { y, signs } = run;
  const size = Math.abs(high) * SIZE, [x, letter] = placeOf(run, wide), down = high > 0 ? 1 : -1;
  const transform = `matrix(${fine(letter / (ADVANCE * size))} 0 0 ${down} ${num(x)} ${num(y - high * BASE)})`;
  const textLength = num(ADVANCE * size * signs.length);
  return element("text", { transform, "font-size": num(size), textLength, fill, "xml:space": "preserve" }, [], text);
}
return { Writing };
})();
const module11 = (() => {
const { ADDRESS, HEIGHT, MOST_DRAWN, MOST_POINTS, WIDTH } = module0;
const { BLACK, FIRST, inMap, direct, frontOf } = module3;
const { Full, Paper } = module4;
const { Shapes } = module7;
const { Writing } = module10;

const TO_BLACK = [1, 7], TO_COLOUR = [2, 5, 6];

class Walk {
  constructor(entries) {
    this.entries = entries;
    this.most = Math.min(entries.length, MOST_DRAWN);
    this.paper = new Paper();
    this.shapes = new Shapes(this.paper);
    this.writing = new Writing(this.paper, (number) => (
      number < this.most && entries[number].kind === "CHAR" ? entries[number] : null));
    Object.assign(this, { colour: { kind: "own-start", value: null, addresses: [] }, definition: null, saved: null });
  }

  draw() {
    let number = 0, points = 0;
    try {
      for (; number < this.most; number++) {
        this.paper.entry = number;
        points += (this.entries[number].points || []).length;
        if (points > MOST_POINTS) break;
        this.entry(this.entries[number]);
      }
    } catch (error) {
      if (!(error instanceof Full)) throw error;
    }
    this.writing.flush();
    return number;
  }

  entry(entry) {
    const { kind } = entry;
    if (!this.paper.open && entry.colour) this.colour = entry.colour;
    if (kind === "CHAR") this.writing.character(entry);
    else if (kind === "TO-EOL") this.writing.toEnd(entry);
    else if (kind === "MOVE") this.writing.move(entry);
    else {
      this.writing.flush();
      if (entry.pel) this.shapes.draw(entry);
      else this.other(entry);
    }
  }

  other(entry) {
    const { paper, writing: { cursor } } = this;
    switch (entry.kind) {
      case "CLEAR":
        paper.clear(BLACK);
        cursor.lose();
        break;
      case "RESET":
        this.reset(entry.words);
        break;
      case "FIELD":
        cursor.setField(entry.points);
        break;
      case "GLYPH":
      case "MASK":
        this.definition = entry;
        this.saved = cursor.saved();
        cursor.enterGlyph();
        paper.begin();
        break;
      case "END":
        this.end();
        break;
      default:
        this.change(entry);
    }
  }

  change(entry) {
    const { paper } = this, { colour, address } = entry;
    if (entry.kind === "MAP") paper.step({ map: inMap(address), to: direct(entry.value) });
    else if (entry.kind === "BLINK") {
      const { on, off, delay } = entry;
      paper.step({ blink: frontOf(colour), to: inMap(address), on, off, delay });
    } else if (entry.kind === "BLINK-END") paper.step({ steady: frontOf(colour) });
    else if (entry.kind === "BLINK-START") paper.step({ blinking: true });
    else if (entry.kind === "BLINK-STOP") paper.step({ blinking: false });
    else if (entry.kind === "WAIT") paper.step({ wait: entry.tenths });
  }

  reset([first, second]) {
    const screen = first >> 3 & 7, { cursor } = this.writing;
    if (TO_BLACK.includes(screen)) this.paper.clear(BLACK);
    else if (TO_COLOUR.includes(screen)) this.paper.clear(frontOf(this.colour));
    if (second & 1) cursor.setField([]);
    cursor.lose();
  }

  end() {
    const { definition } = this;
    this.definition = null;
    if (!definition) return;
    this.writing.cursor.putBack(this.saved);
    if (definition.kind === "GLYPH") this.paper.endGlyph(definition.character);
    else this.paper.endMask(definition.mask);
  }
}

function drawing(entries) {
  const walk = new Walk(entries), drawn = walk.draw(), { paper } = walk;
  const isTall = Math.max(paper.top, paper.highest) > HEIGHT / WIDTH + 0.001;
  return { wide: WIDTH, high: isTall ? WIDTH : HEIGHT, foot: HEIGHT, ground: BLACK, first: FIRST, address: ADDRESS,
    drawn, named: paper.named, steps: paper.steps };
}
return { drawing };
})();
const module12 = (() => {
const NUMBER = "[0-9]{1,10}", PAIR = `-?${NUMBER},-?${NUMBER}`, THREE = [NUMBER, NUMBER, NUMBER].join();
const HEX = "[0-9a-f]{2}";
const HELD = {
  pel: [PAIR, pairOf],
  pen: [`start|after|${PAIR}`, (it) => (
    it.includes(",") ? { at: "point", point: pairOf(it) } : { at: it, point: null })],
  colour: [`own-start|own-reset|reset-2|reset-3|direct:${THREE}|front:${NUMBER}|pair:${NUMBER},${NUMBER}`, (it) => {
    const [kind, parts = ""] = it.split(":"), numbers = parts ? numbersOf(parts) : [];
    return kind === "direct" ? { kind, value: numbers, addresses: [] } : { kind, value: null, addresses: numbers };
  }],
  texture: [`${NUMBER}/(?:none|${PAIR})`, (it) => {
    const [word, mask] = it.split("/");
    return { word: Number(word), mask: mask === "none" ? null : pairOf(mask) };
  }],
  text: [`${NUMBER},${NUMBER}/(?:small|medium|normal|tall|double|${PAIR})/[r-][u-][w-][s-]`, (it) => {
    const [words, size, flags] = it.split("/"), isGiven = size.includes(",");
    const [reverse, underline, wrap, scroll] = [...flags].map((flag) => flag !== "-");
    return { words: numbersOf(words), size: isGiven ? "given" : size, given: isGiven ? pairOf(size) : null, reverse,
      underline, wrap, scroll };
  }],
};
const INK = ["pel", "colour", "texture"], HAND = ["pen", "colour", "text"];

const POINTS = (words, held = INK) => [words, (points) => ({ points: pointsOf(points) }), held];
const TWO = ` (${PAIR} ${PAIR})`, MORE = `((?: ${PAIR}){3,})`, SOME = `((?: ${PAIR}){2,})`;
const NONE = () => ({});
const READERS = {
  POINT: POINTS(` (${PAIR})`, ["pel", "colour"]), LINE: POINTS(TWO),
  "ARC-OUTLINED": POINTS(MORE), "ARC-FILLED": POINTS(MORE), "RECT-OUTLINED": POINTS(TWO), "RECT-FILLED": POINTS(TWO),
  "POLY-OUTLINED": POINTS(SOME), "POLY-FILLED": POINTS(SOME),
  CHAR: [` (primary|supplementary|mosaic|drcs) (${HEX})`, (set, code) => ({ set, character: byteOf(code) }), HAND],
  MOVE: [` (AP[BFDURH]|APS ${HEX} ${HEX})`, (words) => {
    const [move, ...bytes] = words.split(" ");
    return { move, bytes: bytes.map(byteOf) };
  }, HAND],
  "TO-EOL": ["", NONE, HAND],
  MAP: [` (${NUMBER}) (${THREE})`, (address, value) => ({ address: Number(address), value: numbersOf(value) }), []],
  BLINK: [` (${NUMBER}) (${THREE})`, (address, times) => {
    const [on, off, delay] = numbersOf(times);
    return { address: Number(address), on, off, delay };
  }, ["colour"]],
  "BLINK-END": ["", NONE, ["colour"]], "BLINK-START": ["", NONE, ["colour"]], "BLINK-STOP": ["", NONE, ["colour"]],
  WAIT: [` (${NUMBER})`, (tenths) => ({ tenths: Number(tenths) }), []],
  BELL: ["", NONE, []], CURSOR: [" (flash|steady|off)", (cursor) => ({ cursor }), []],
  FIELD: [` (whole|${PAIR} ${PAIR})`, (it) => ({ points: it === "whole" ? [] : pointsOf(it) }), ["pen"]],
  RESET: [` (${NUMBER}) (${NUMBER})`, (...words) => ({ words: words.map(Number) }), ["pen"]],
  CLEAR: ["", NONE, ["pen"]], GLYPH: [` (${HEX})`, (code) => ({ character: byteOf(code) }), []],
  MASK: [" ([A-D])", (mask) => ({ mask }), []], END: ["", NONE, []],
};
const KINDS = new Map(Object.entries(READERS).map(([kind, [words, own, held]]) => {
  const behind = held.map((name) => ` ${name}=(${HELD[name][0]})`).join("");
  return [kind, { form: new RegExp(`^${kind}${words}${behind}$`), own, held }];
}));
const MOST_SHARED = 4096;

function numbersOf(text) {
  return text.split(",").map(Number);
}

function pairOf(text) {
  const [x, y] = text.split(",");
  return [Number(x), Number(y)];
}

const pointsOf = (text) => text.trim().split(" ").map(pairOf);
const byteOf = (text) => parseInt(text, 16);

class NotALine extends Error {
  constructor(line) {
    super(`not a line of a list: ${line.slice(0, 200)}`);
    this.name = "NotALine";
  }
}

function entriesOf(lines) {
  const shared = new Map();
  const heldOf = (name, text) => {
    const key = `${name}=${text}`, known = shared.get(key);
    if (known) return known;
    const made = HELD[name][1](text);
    if (shared.size < MOST_SHARED) shared.set(key, made);
    return made;
  };
  return lines.map((line) => {
    const [kind] = line.split(" ", 1), reader = KINDS.get(kind), found = reader && reader.form.exec(line);
    if (!found) throw new NotALine(line);
    const { own, held } = reader, parts = found.slice(1), first = parts.length - held.length;
    const entry = { kind, ...own(...parts.slice(0, first)) };
    held.forEach((name, at) => {
      entry[name] = heldOf(name, parts[first + at]);
    });
    return entry;
  });
}
return { NotALine, entriesOf };
})();
const module13 = (() => {
const { drawing } = module11;
const { MOST_DRAWN } = module0;
const { entriesOf } = module12;

const drawingOf = (lines) => drawing(entriesOf(lines.slice(0, MOST_DRAWN)));
return { drawing, drawingOf, entriesOf };
})();
return module13;
})();
