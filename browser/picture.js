// The picture of a page: what its drawing in time leaves on the screen, as elements of SVG.

import { element, markup } from "./drawing/measure.js";

const SVG = "http://www.w3.org/2000/svg";
// The letters that the cells are made for; where they are not there, others are stretched to them.
const LETTERS_OF_PICTURES = "DejaVu Sans Mono, monospace";

// The colours of the map as the last entry that is drawn leaves them, by what is written for their addresses.
function colourMap({ steps, first, address }) {
  const map = new Map(steps.filter((step) => "map" in step).map((step) => [step.map, step.to]));
  return (value) => {
    if (typeof value !== "string" || !value.startsWith(address)) return value;
    return map.get(value) || first[Number(value.slice(address.length)) >> 20 & 15];
  };
}

function coloured(it, colourOf) {
  const attributes = Object.fromEntries(Object.entries(it.attributes).map(([name, value]) => [name, colourOf(value)]));
  return element(it.name, attributes, (it.inside || []).map((each) => coloured(each, colourOf)), it.text || "");
}

// The picture of a drawing, as one element `svg`; `words` say what it shows, for those who don't see it.
function picture(drawn, words = "") {
  const colourOf = colourMap(drawn), above = drawn.high - drawn.foot, side = String(drawn.wide);
  const ground = (y, height, fill) => (
    element("rect", { y: String(y), width: side, height: String(height), fill }));
  let shown = [];
  for (const step of drawn.steps) {
    if (step.clear) {
      const fill = colourOf(step.clear);
      shown = fill === drawn.ground ? [] : [ground(drawn.foot - drawn.wide, drawn.wide, fill)];
    } else if (step.draw) {
      shown.push(coloured(step.draw, colourOf));
    }
  }
  const named = Object.values(drawn.named).map((it) => coloured(it, colourOf));
  const inside = [ground(-above, drawn.high, drawn.ground), ...shown];
  if (named.length) inside.unshift(element("defs", {}, named));
  if (words) inside.unshift(element("title", {}, [], words));
  return element("svg", {
    xmlns: SVG, viewBox: `0 ${-above} ${drawn.wide} ${drawn.high}`, width: side, height: String(drawn.high),
    "font-family": LETTERS_OF_PICTURES, role: "img" }, inside);
}

// The nodes of an element, made without any markup.
function nodesOf({ name, attributes, inside = [], text = "" }) {
  const node = document.createElementNS(SVG, name);
  for (const [key, value] of Object.entries(attributes)) {
    if (key === "xml:space") node.setAttributeNS("http://www.w3.org/XML/1998/namespace", key, value);
    else if (key !== "xmlns") node.setAttribute(key, value);
  }
  node.append(...(text ? [text] : []), ...inside.map(nodesOf));
  return node;
}

export { markup, nodesOf, picture };
