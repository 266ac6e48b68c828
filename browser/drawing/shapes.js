// Points, lines, rectangles, polygons and arcs, with their strokes, fills and textures.

import {
  HEIGHT, ONE, PATTERNED, STEPS, THIN, THIN_IN_GLYPH, TILE, WIDTH, boxWeight, dashPoints, element, extentOf,
  filledWeight, fine, lengthOf, lineExtent, num, outlinedWeight, plus, scaled, sumOf,
} from "./measure.js";
import { Straight, arcExtent, arcPath, arcPieces, isLarge, same } from "./curves.js";
import { dashed, pelOf, sweep, unitOfPiece } from "./sweeps.js";
import { BLACK, backOf, frontOf } from "./letters.js";

const DASHES = [[], [1, 2], [5, 3], [5, 2, 1, 2]], USUAL_MASK = 24;
const dashesOf = (entry) => DASHES[entry.texture.word & 3];
const boxOf = (wide, high, fill) => element("rect", { width: num(wide), height: num(high), fill });
const edgesOf = (places) => places.map((place, i) => new Straight(place, places[(i + 1) % places.length]));

class Shapes {
  constructor(paper) {
    this.paper = paper;
  }

  draw(entry) {
    const places = this.places(entry.points), [shape, fill] = entry.kind.split("-"), isFilled = fill === "FILLED";
    if (shape === "POINT") this.point(entry, places);
    else if (!same(entry.pel, [0, 0]) && !isFilled) this.swept(entry, this.pieces(shape, places));
    else if (shape === "LINE") this.line(entry, places);
    else if (shape === "RECT") this.rectangle(entry, places, isFilled);
    else if (shape === "POLY") this.polygon(entry, places, isFilled);
    else this.shape("path", entry, isFilled, arcExtent(places), () => ({ d: arcPath(places, isFilled) }));
  }

  places(points) {
    if (!this.paper.open) this.paper.reach(points.reduce((most, [, y]) => Math.max(most, y), -Infinity) / ONE);
    const foot = this.paper.open ? WIDTH : HEIGHT;
    return points.map(([x, y]) => [x / STEPS, foot - y / STEPS]);
  }

  pieces(shape, places) {
    if (shape === "LINE") return [new Straight(...places)];
    if (shape === "ARC") return arcPieces(places);
    const [[a, b], [c, d]] = places;
    return edgesOf(shape === "RECT" ? [[a, b], [c, b], [c, d], [a, d]] : places);
  }

  point(entry, [[x, y]]) {
    const dot = pelOf(entry.pel, this.thin());
    this.paper.put(element("rect", { x: num(x + dot.left), y: num(y + dot.top), width: num(dot.wide),
      height: num(dot.high), fill: this.ink(entry) }), boxWeight(dot.wide, dot.high));
  }

  line(entry, [[a, b], [c, d]]) {
    this.shape("path", entry, false, lineExtent([a, b], [c, d]), () => (
      { d: `M${num(a)} ${num(b)}L${num(c)} ${num(d)}`, "stroke-linecap": "square" }));
  }

  rectangle(entry, [[a, b], [c, d]], isFilled) {
    const least = isFilled ? this.thin() : 0.01;
    const wide = Math.max(Math.abs(c - a), least), high = Math.max(Math.abs(d - b), least);
    this.shape("rect", entry, isFilled, [4, 2 * (wide + high), wide * high], () => (
      { x: num(Math.min(a, c)), y: num(Math.min(b, d)), width: num(wide), height: num(high) }));
  }

  polygon(entry, places, isFilled) {
    this.shape("polygon", entry, isFilled, extentOf(places), () => (
      { points: places.map(([x, y]) => `${num(x)},${num(y)}`).join(" "), "fill-rule": "evenodd" }));
  }

  // An element with its own attributes and the style of an area or an outline without a pel.
  shape(name, entry, isFilled, extent, attributes) {
    const style = isFilled ? this.fill(entry, extent) : this.stroke(entry, extent);
    this.paper.put(element(name, { ...attributes(), ...style.attributes }), style.weight);
  }

  swept(entry, pieces) {
    const dot = pelOf(entry.pel, this.thin()), dashes = dashesOf(entry);
    let parts = pieces;
    if (dashes.length && !isLarge(pieces)) {
      this.paper.require(dashPoints(sumOf(pieces.map((piece) => piece.length() / unitOfPiece(piece, dot))), 1, dashes));
      parts = dashed(pieces, dot, dashes);
    }
    const { path, weight } = sweep(parts, dot);
    this.paper.put(element("path", { d: path, fill: this.ink(entry) }), weight);
  }

  ink(entry) {
    return this.paper.open ? "currentColor" : frontOf(entry.colour);
  }

  thin() {
    return this.paper.open ? THIN_IN_GLYPH : THIN;
  }

  stroke(entry, extent) {
    const thick = this.thin(), dashes = dashesOf(entry);
    const attributes = { fill: "none", stroke: this.ink(entry), "stroke-width": num(thick) };
    if (dashes.length) attributes["stroke-dasharray"] = dashes.map((part) => num(part * thick)).join(" ");
    return { attributes, weight: outlinedWeight(extent, thick, dashes) };
  }

  fill(entry, extent) {
    const { texture } = entry, number = texture.word >> 3 & 7, ink = this.ink(entry), edge = {};
    let weight = filledWeight(extent);
    if (texture.word & 4) {
      const thick = this.thin() * 0.75;
      Object.assign(edge, { stroke: BLACK, "stroke-width": num(thick) });
      weight = plus(weight, outlinedWeight(extent, thick, []));
    }
    if (!number || this.paper.open) return { attributes: { fill: ink, ...edge }, weight };
    const [wide, high] = texture.mask ? texture.mask.map((side) => Math.max(Math.abs(lengthOf(side)), THIN))
      : [USUAL_MASK, USUAL_MASK];
    const mask = number >= 4 ? this.paper.masks.get("ABCD"[number - 4]) : undefined;
    if (mask) weight = plus(weight, scaled(mask.weight, wide / WIDTH, high / WIDTH));
    weight = plus(weight, [TILE, 0, extent[2] * PATTERNED + wide * high]);
    const key = this.pattern(number, wide, high, mask, ink, backOf(entry.colour));
    return { attributes: { fill: `url(#${key})`, ...edge }, weight };
  }

  // The name of a pattern, which is defined once.
  pattern(number, wide, high, mask, ink, ground) {
    const version = mask ? `-${mask.number}` : "", behind = ground ? ground.slice(1) : "none";
    const key = `np${number}-${ink.slice(1)}-${behind}-${num(wide)}-${num(high)}${version}`.replaceAll(".", "_");
    if (Object.hasOwn(this.paper.named, key)) return key;
    const inside = ground ? [boxOf(wide, high, ground)] : [], half = Math.min(wide, high) / 4;
    if (number === 1 || number === 3) inside.push(boxOf(half, high, ink));
    if (number === 2 || number === 3) inside.push(boxOf(wide, half, ink));
    if (mask) {
      const transform = `scale(${fine(wide / WIDTH)} ${fine(high / WIDTH)})`;
      inside.push(element("g", { color: ink, transform }, this.paper.drawingOf(mask)));
    } else if (number >= 4) {
      const tone = boxOf(wide, high, ink);
      inside.push(element("rect", { ...tone.attributes, "fill-opacity": "0.5" }));
    }
    const attributes = { id: key, width: num(wide), height: num(high), patternUnits: "userSpaceOnUse" };
    this.paper.define(key, element("pattern", attributes, inside));
    return key;
  }
}

export { Shapes };
