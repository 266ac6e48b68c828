// Arcs as lines through points: of circles by a table of directions, and of curves by sixteen parts.

import { over } from "./measure.js";

const COSINES = [
  65536, 65457, 65220, 64827, 64277, 63572, 62714, 61705, 60547, 59244, 57798, 56212, 54491, 52639, 50660, 48559,
  46341, 44011, 41576, 39040, 36410, 33692, 30893, 28020, 25080, 22078, 19024, 15924, 12785, 9616, 6424, 3216, 0];
const TURN = 128, SCALE = 65536n, PARTS = 16, FAR = 1n << 24n;

function direction(part) {
  const quarter = part >> 5, x = COSINES[part & 31], y = COSINES[32 - (part & 31)];
  return [[x, y], [-y, x], [-x, -y], [y, -x]][quarter].map(BigInt);
}

const DIRECTIONS = Array.from({ length: TURN }, (_, part) => direction(part));
const isLater = (x, y) => y < 0n || (y === 0n && x < 0n);

function isBefore([x, y], [otherX, otherY]) {
  if (isLater(x, y) !== isLater(otherX, otherY)) return isLater(otherX, otherY);
  return x * otherY - y * otherX > 0n;
}

// The quotient of whole numbers, the second above 0, rounded down.
function overBig(number, by) {
  const whole = number / by;
  return whole * by > number ? whole - 1n : whole;
}

const absolute = (number) => number < 0n ? -number : number;

function near(a, x, y) {
  const far = absolute(x) > absolute(y) ? absolute(x) : absolute(y);
  const [dx, dy] = far > FAR ? [overBig(x * FAR, far), overBig(y * FAR, far)] : [x, y];
  return [a[0] + Number(dx), a[1] + Number(dy)];
}

function between(a, middle, scale, sign, start, end) {
  const from = (at) => [0, 1].map((k) => BigInt(at[k] - a[k]) * scale - middle[k]);
  const [ux, uy] = from(start), [vx, vy] = from(end), divisor = SCALE * scale, found = [];
  const to = [ux * vx + uy * vy, sign * (ux * vy - uy * vx)];
  for (const [x, y] of DIRECTIONS.slice(1)) {
    if (!isBefore([x, y], to)) break;
    found.push(near(a, overBig(SCALE * middle[0] + x * ux - sign * y * uy + divisor / 2n, divisor),
      overBig(SCALE * middle[1] + sign * y * ux + x * uy + divisor / 2n, divisor)));
  }
  return found;
}

function circle(a, m) {
  if (a[0] === m[0] && a[1] === m[1]) return [a, m, a];
  const middle = [BigInt(m[0] - a[0]), BigInt(m[1] - a[1])];
  return [a, ...between(a, middle, 2n, 1n, a, m), m, ...between(a, middle, 2n, 1n, m, a), a];
}

function threePoints(a, m, e) {
  const [bx, by, cx, cy] = [m[0] - a[0], m[1] - a[1], e[0] - a[0], e[1] - a[1]].map(BigInt);
  const cross = bx * cy - by * cx, b2 = bx * bx + by * by, c2 = cx * cx + cy * cy;
  if (!cross) return [a, m, e];
  const sign = cross > 0n ? 1n : -1n, scale = 2n * sign * cross;
  const middle = [sign * (cy * b2 - by * c2), sign * (bx * c2 - cx * b2)];
  return [a, ...between(a, middle, scale, sign, a, m), m, ...between(a, middle, scale, sign, m, e), e];
}

// The place between b and c after so many parts, to the nearest whole number.
const curveAt = (a, b, c, d, part) => over(8192 * b + part * (256 * (c - a) + part * (
  16 * (2 * a - 5 * b + 4 * c - d) + part * (3 * b - a - 3 * c + d))) + 4096, 8192);

function curve(points) {
  const last = points.length - 1, found = [points[0]];
  for (let number = 0; number < last; number++) {
    const four = [Math.max(number - 1, 0), number, number + 1, Math.min(number + 2, last)].map((at) => points[at]);
    for (let part = 1; part < PARTS; part++) {
      found.push([0, 1].map((k) => curveAt(...four.map((point) => point[k]), part)));
    }
    found.push(points[number + 1]);
  }
  return found;
}

// The points through which an arc goes in straight lines.
function polyline(points) {
  if (points.length > 3) return curve(points);
  const [a, m, e] = points;
  return a[0] === e[0] && a[1] === e[1] ? circle(a, m) : threePoints(a, m, e);
}

export { polyline };
