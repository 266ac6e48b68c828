// Pieces of lines: straight, of a circle, and curves; and arcs, which are made of these.

import { WIDTH, between, distance, extentOf, moved, num, sumOf } from "./measure.js";

const stepsOf = (piece) => Math.min(Math.max(8, Math.ceil(piece.length() / 8)), 256);

class Straight {
  constructor(start, end) {
    Object.assign(this, { start, end });
  }

  path() {
    return `L${num(this.end[0])} ${num(this.end[1])}`;
  }

  moved(by) {
    return new Straight(moved(this.start, by), moved(this.end, by));
  }

  reversed() {
    return new Straight(this.end, this.start);
  }

  monotone() {
    return [this];
  }

  places() {
    return [this.end];
  }

  length() {
    return distance(this.start, this.end);
  }
}

class Round {
  constructor(start, end, centre, radius, turn) {
    Object.assign(this, { start, end, centre, radius, turn });
  }

  path() {
    const flags = `${Math.abs(this.turn) > Math.PI ? 1 : 0} ${this.turn > 0 ? 1 : 0}`;
    return `A${num(this.radius)} ${num(this.radius)} 0 ${flags} ${num(this.end[0])} ${num(this.end[1])}`;
  }

  moved(by) {
    const [start, end, centre] = [this.start, this.end, this.centre].map((place) => moved(place, by));
    return new Round(start, end, centre, this.radius, this.turn);
  }

  reversed() {
    return new Round(this.end, this.start, this.centre, this.radius, -this.turn);
  }

  monotone() {
    const quarter = Math.PI / 2, first = this.angle(), last = first + this.turn, inner = [];
    const high = Math.floor(Math.max(first, last) / quarter);
    for (let number = Math.ceil(Math.min(first, last) / quarter); number <= high; number++) {
      const cut = Math.abs(quarter * number - first);
      if (cut > 1e-9 && cut < Math.abs(this.turn) - 1e-9) inner.push(quarter * number - first);
    }
    const turns = [0, ...inner.sort((a, b) => Math.abs(a) - Math.abs(b)), this.turn];
    const ends = [this.start, ...turns.slice(1, -1).map((turn) => this.at(turn)), this.end];
    return turns.slice(1).map((turn, i) => (
      new Round(ends[i], ends[i + 1], this.centre, this.radius, turn - turns[i])));
  }

  places() {
    const steps = stepsOf(this);
    return [...Array.from({ length: steps - 1 }, (_, i) => this.at(this.turn * (i + 1) / steps)), this.end];
  }

  length() {
    return Math.abs(this.turn) * this.radius;
  }

  angle() {
    return Math.atan2(this.start[1] - this.centre[1], this.start[0] - this.centre[0]);
  }

  at(turn) {
    const angle = this.angle() + turn, [x, y] = this.centre;
    return [x + this.radius * Math.cos(angle), y + this.radius * Math.sin(angle)];
  }
}

class Cubic {
  constructor(...four) {
    Object.assign(this, { four, start: four[0], end: four[3] });
  }

  path() {
    return `C${this.four.slice(1).flat().map(num).join(" ")}`;
  }

  moved(by) {
    return new Cubic(...this.four.map((place) => moved(place, by)));
  }

  reversed() {
    return new Cubic(...[...this.four].reverse());
  }

  monotone() {
    const cuts = [0, 1].flatMap((side) => turnsBack(...this.four.map((place) => place[side]))).sort((a, b) => a - b);
    const pieces = [];
    let rest = this, done = 0;
    for (const cut of cuts) {
      if (cut - done > 1e-6) {
        const [piece, after] = rest.cut((cut - done) / (1 - done));
        pieces.push(piece);
        [rest, done] = [after, cut];
      }
    }
    return [...pieces, rest];
  }

  cut(share) {
    const [a, b, c, d] = this.four, ab = between(a, b, share), bc = between(b, c, share), cd = between(c, d, share);
    const abc = between(ab, bc, share), bcd = between(bc, cd, share), middle = between(abc, bcd, share);
    return [new Cubic(a, ab, abc, middle), new Cubic(middle, bcd, cd, d)];
  }

  places() {
    const steps = stepsOf(this);
    return [...Array.from({ length: steps - 1 }, (_, i) => this.cut((i + 1) / steps)[0].end), this.end];
  }

  length() {
    return sumOf([0, 1, 2].map((i) => distance(this.four[i], this.four[i + 1])));
  }
}

// The shares of the way of a curve at which one of its coordinates turns back.
function turnsBack(a, b, c, d) {
  const square = d - 3 * c + 3 * b - a, linear = 2 * (c - 2 * b + a), constant = b - a;
  const inside = linear * linear - 4 * square * constant;
  let found = [];
  if (Math.abs(square) < 1e-9) {
    if (Math.abs(linear) > 1e-9) found = [-constant / linear];
  } else if (inside > 0) {
    found = [-1, 1].map((sign) => (-linear + sign * Math.sqrt(inside)) / (2 * square));
  }
  return found.filter((share) => share > 1e-6 && share < 1 - 1e-6);
}

const MOST_RADIUS = 4 * WIDTH, ARC_PIECES = 16;
const same = (a, b) => a[0] === b[0] && a[1] === b[1];
const crossOf = ([a, m, e]) => (m[0] - a[0]) * (e[1] - a[1]) - (m[1] - a[1]) * (e[0] - a[0]);
const isLarge = (pieces) => pieces.some((piece) => piece instanceof Round && piece.radius > MOST_RADIUS);

function arcPieces(points) {
  if (points.length !== 3) return curvePieces(points);
  return same(points[0], points[2]) ? circlePieces(points) : threePointPieces(points);
}

function arcPath(points, isFilled) {
  const body = arcPieces(points).map((piece) => piece.path()).join("");
  return `M${num(points[0][0])} ${num(points[0][1])}${body}${isFilled ? "Z" : ""}`;
}

function arcExtent(points) {
  if (points.length > 3) {
    const [count, length, area] = extentOf(points);
    return [3 * count, 2 * length, 2 * area];
  }
  const long = Math.min(arcLength(points), MOST_RADIUS);
  return [4 * points.length, 3 * long, Math.min(long * long / Math.PI, WIDTH * WIDTH)];
}

function arcLength(points) {
  const [a, m, e] = points, cross = crossOf(points);
  if (same(a, e)) return Math.PI * distance(a, m);
  if (Math.abs(cross) < 1e-9) return distance(a, m) + distance(m, e);
  const centre = centreOf(points, cross), turn = (from, to) => Math.abs(turnOf(centre, from, to, cross > 0));
  return (turn(a, m) + turn(m, e)) * distance(a, centre);
}

function circlePieces([a, m]) {
  const centre = [(a[0] + m[0]) / 2, (a[1] + m[1]) / 2], radius = distance(a, m) / 2;
  return [new Round(a, m, centre, radius, Math.PI), new Round(m, a, centre, radius, Math.PI)];
}

function centreOf([a, m, e], cross) {
  const bx = m[0] - a[0], by = m[1] - a[1], cx = e[0] - a[0], cy = e[1] - a[1];
  const b2 = bx * bx + by * by, c2 = cx * cx + cy * cy;
  return [a[0] + (cy * b2 - by * c2) / (2 * cross), a[1] + (bx * c2 - cx * b2) / (2 * cross)];
}

function turnOf(centre, start, to, isClockwise) {
  const first = Math.atan2(start[1] - centre[1], start[0] - centre[0]);
  const last = Math.atan2(to[1] - centre[1], to[0] - centre[0]);
  const rest = (last - first) % (2 * Math.PI), turn = rest < 0 ? rest + 2 * Math.PI : rest;
  return isClockwise ? turn : turn - 2 * Math.PI;
}

function threePointPieces(points) {
  const [a, m, e] = points, cross = crossOf(points);
  if (Math.abs(cross) < 1e-9) return [new Straight(a, m), new Straight(m, e)];
  const radius = distance(a, m) * distance(m, e) * distance(a, e) / (2 * Math.abs(cross));
  const centre = centreOf(points, cross);
  return [[a, m], [m, e]].flatMap(([start, to]) => {
    const turn = turnOf(centre, start, to, cross > 0);
    if (!(radius > MOST_RADIUS && Math.abs(turn) < Math.PI / 2)) return [new Round(start, to, centre, radius, turn)];
    const places = [start, ...onCircle(centre, start, turn).slice(0, -1), to];
    return places.slice(1).map((place, i) => new Straight(places[i], place));
  });
}

// Places along a large circle, after the start.
function onCircle(centre, start, turn) {
  const x = start[0] - centre[0], y = start[1] - centre[1];
  return Array.from({ length: ARC_PIECES }, (_, i) => {
    const angle = turn * (i + 1) / ARC_PIECES, half = Math.sin(angle / 2);
    const dx = -2 * half * half * x - Math.sin(angle) * y, dy = -2 * half * half * y + Math.sin(angle) * x;
    return [start[0] + dx, start[1] + dy];
  });
}

function curvePieces(points) {
  const last = points.length - 1;
  return points.slice(0, last).map((start, i) => {
    const before = points[Math.max(i - 1, 0)], to = points[i + 1], behind = points[Math.min(i + 2, last)];
    return new Cubic(start, [start[0] + (to[0] - before[0]) / 6, start[1] + (to[1] - before[1]) / 6],
      [to[0] - (behind[0] - start[0]) / 6, to[1] - (behind[1] - start[1]) / 6], to);
  });
}

export { Straight, arcExtent, arcPath, arcPieces, isLarge, same };
