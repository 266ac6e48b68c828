// Numbers of a drawing as they are written, its elements, and what these cost a browser.

const ONE = 1 << 23, WIDTH = 1024, HEIGHT = 800, STEPS = ONE / WIDTH, THIN = 4, THIN_IN_GLYPH = 64;
const MOST_DRAWN = 20000, MOST_POINTS = 200000;
const MOST_BYTES = (16 << 20) - 4096, MOST_WEIGHT = 500000, MOST_COPIED = 1 << 20;
const ADDRESS = "@n";

// A number with this many digits after the point, ties to even.
function fixed(value, digits) {
  const text = value.toFixed(digits);
  if (Math.abs(value * 2 ** (digits + 1) % 2) !== 1) return text;
  const down = value.toFixed(digits + 1).slice(0, -1);
  return "02468".includes(down.at(-1)) ? down : text;
}

function shortest(value, digits) {
  const text = fixed(value, digits).replace(/\.?0+$/, "");
  return text === "-0" || text === "" ? "0" : text;
}

const num = (value) => shortest(value, 2);
const fine = (value) => shortest(value, 5);
const lengthOf = (units) => units / STEPS;
const distance = ([a, b], [c, d]) => Math.hypot(a - c, b - d);
const moved = ([x, y], [across, down]) => [x + across, y + down];
const between = ([a, b], [c, d], share) => [a + (c - a) * share, b + (d - b) * share];

const element = (name, attributes, inside = [], text = "") => (
  { name, attributes, ...(inside.length ? { inside } : {}), ...(text ? { text } : {}) });

const escaped = (text) => text.replaceAll("&", "&amp;").replaceAll("<", "&lt;").replaceAll(">", "&gt;");

// An element as SVG.
function markup({ name, attributes, inside = [], text = "" }) {
  const told = Object.entries(attributes).map(([key, value]) => ` ${key}="${value}"`).join("");
  if (!inside.length && !text) return `<${name}${told}/>`;
  return `<${name}${told}>${escaped(text)}${inside.map(markup).join("")}</${name}>`;
}

const encoder = new TextEncoder();
const sizeOf = (it) => encoder.encode(markup(it)).length;

// Weights are lists: points, units of edges, square units that are filled.
const ELEMENT = 30, LETTER = 20, JOINT = 4, DASH = 10, EDGE = 2.5, OUTLINE = 5, SMALL = 300;
const SCREEN = 120, PATTERNED = 60, TILE = 100, SQUARE = WIDTH * HEIGHT;
const RUN = [160, 0, 0], NOTHING = [0, 0, 0];

const plus = (a, b) => a.map((part, i) => part + b[i]);
const scaled = ([points, edges, area], across, down) => (
  [points, edges * Math.max(Math.abs(across), Math.abs(down)), area * Math.abs(across) * Math.abs(down)]);
const total = ([points, edges, area]) => points + edges / EDGE + area * SCREEN / SQUARE;

// The extent of straight edges from place to place and back: points, length, area.
function extentOf(places) {
  let length = 0, [x, y] = places[places.length - 1];
  let [left, right, top, bottom] = [Infinity, -Infinity, Infinity, -Infinity];
  for (const [a, b] of places) {
    length += Math.abs(a - x) + Math.abs(b - y);
    [x, y] = [a, b];
    [left, right, top, bottom] = [Math.min(left, a), Math.max(right, a), Math.min(top, b), Math.max(bottom, b)];
  }
  return [places.length, length, (right - left) * (bottom - top)];
}

function lineExtent([a, b], [c, d]) {
  const across = Math.abs(a - c), down = Math.abs(b - d);
  return [2, across + down, across * down];
}

const filledWeight = ([points, length, area]) => [ELEMENT + points, length, area];
const boxWeight = (wide, high) => [ELEMENT, 0, Math.abs(wide * high)];
const sumOf = (numbers) => numbers.reduce((sum, each) => sum + each, 0);
const dashPoints = (length, unit, dashes) => length / (sumOf(dashes) * unit) * dashes.length / 2 * DASH;

function outlinedWeight([points, length], thick, dashes) {
  const broken = dashes.length ? dashPoints(length, thick, dashes) : 0;
  return [ELEMENT + points * JOINT + broken, length * EDGE / OUTLINE, length * thick];
}

const letterWeight = (wide, high) => (
  [LETTER, Math.max(0, 2 * (Math.abs(wide) + Math.abs(high)) - SMALL), 2 * Math.abs(wide * high)]);

export {
  ADDRESS, HEIGHT, MOST_BYTES, MOST_COPIED, MOST_DRAWN, MOST_POINTS, MOST_WEIGHT, NOTHING, ONE, PATTERNED, RUN, STEPS,
  THIN, THIN_IN_GLYPH, TILE, WIDTH, between, boxWeight, dashPoints, distance, element, extentOf, filledWeight, fine,
  fixed, lengthOf, letterWeight, lineExtent, markup, moved, num, outlinedWeight, plus, scaled, sizeOf, sumOf, total,
};
