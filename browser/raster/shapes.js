// Points, lines, rectangles, polygons and arcs, as what they paint.

import { filledBox, inside } from "./areas.js";
import { polyline } from "./arcs.js";
import { segmentsOf, swept } from "./lines.js";
import { ACROSS, SCREEN, over, pelBox } from "./measure.js";

const PAGE = { wide: ACROSS, high: ACROSS, grid: SCREEN };
const isFilled = ({ kind }) => kind.endsWith("-FILLED");
const pointOn = ([x, y], { wide, high }) => [over(x * wide, ACROSS), over(y * high, ACROSS)];
const scaledSide = (side, dots) => side ? Math.sign(side) * Math.max(over(Math.abs(side) * dots, ACROSS), 1) : 0;

function outlineOf({ kind }, points) {
  if (kind.startsWith("ARC")) return polyline(points);
  if (kind.startsWith("POLY")) return [...points, points[0]];
  if (!kind.startsWith("RECT")) return points;
  const [[a, b], [c, d]] = points;
  return [[a, b], [c, b], [c, d], [a, d], [a, b]];
}

// What a shape paints, in parts.
function painted(entry, scale) {
  const points = entry.points.map((at) => pointOn(at, scale)), { grid } = scale;
  if (isFilled(entry)) {
    if (entry.kind === "RECT-FILLED") return [filledBox(points[0], points[1], grid)];
    return [inside(entry.kind === "ARC-FILLED" ? polyline(points) : points, grid)];
  }
  const box = pelBox([scaledSide(entry.pel[0], scale.wide), scaledSide(entry.pel[1], scale.high)]);
  if (entry.kind === "POINT") return swept([[points[0], points[0]]], box, grid);
  return swept(segmentsOf(outlineOf(entry, points), box, entry.texture.word), box, grid);
}

// The edge of an area, a dot thick, in parts.
function edgeOf(entry, scale) {
  const around = outlineOf(entry, entry.points.map((at) => pointOn(at, scale))), [first] = around;
  const last = around[around.length - 1];
  if (first[0] !== last[0] || first[1] !== last[1]) around.push(first);
  return swept(segmentsOf(around, null, 0), pelBox([0, 0]), scale.grid);
}

export { PAGE, edgeOf, isFilled, painted };
