// What browser/raster.js paints. The input is a line of JSON for each page, an array of lines of its list. With the
// word `shapes` each line is a shape alone, and the answer for a page is the SHA-256 of its numbers: of each part of a
// shape how much it counts, and its spans. Otherwise it is that of the inks, how many entries are drawn, and what was counted.
import { createHash } from "node:crypto";
import { readFileSync } from "node:fs";
import { entriesOf } from "../../browser/lines.mjs";
import { raster } from "../../browser/raster.js";
import { PAGE, painted } from "../../browser/raster/shapes.js";

function shapesOf(entries) {
  const hash = createHash("sha256");
  for (const entry of entries) {
    for (const { spans, counted } of painted(entry, PAGE)) {
      hash.update(Buffer.from(Uint32Array.from([counted, spans.length / 3, ...spans]).buffer));
    }
  }
  return hash.digest("hex");
}

function pageOf(entries) {
  const { inks, drawn, page, map } = raster(entries), hash = createHash("sha256").update(Buffer.from(inks.buffer));
  return `${hash.digest("hex")} ${drawn} ${page.canvas.counted} ${JSON.stringify([...map].sort(([a], [b]) => a - b))}`;
}

for (const line of readFileSync(0, "utf8").split("\n").slice(0, -1)) {
  const entries = entriesOf(JSON.parse(line));
  process.stdout.write(`${process.argv[2] === "shapes" ? shapesOf(entries) : pageOf(entries)}\n`);
}
