// Mosaics that stand side by side: one path for the row, so that no seam is seen between them.

import { num } from "./measure.js";

const MOSAIC_ROWS = [[1, 2], [4, 8], [16, 64]], GAP = 0.15;
const numberOfBlocks = (code) => MOSAIC_ROWS.flat().filter((bit) => code & bit).length;

// The path of mosaics, the first of which has its lower left corner here and is so wide and so high.
function blocksPath(codes, x, y, wide, high, isApart) {
  const across = wide / 2, down = high / 3, gap = isApart ? GAP / 2 : 0, parts = [];
  MOSAIC_ROWS.forEach((bits, number) => {
    const top = num(y - high + (number + gap) * down), foot = num(y - high + (number + 1 - gap) * down);
    const row = codes.flatMap((code) => bits.map((bit) => (code & bit) !== 0));
    for (const [first, end] of blockParts(row, isApart)) {
      const left = num(x + (first + gap) * across);
      parts.push(`M${left} ${top}H${num(x + (end - gap) * across)}V${foot}H${left}Z`);
    }
  });
  return parts.join("");
}

// The first block and the one after the last of each part of a row.
function* blockParts(row, isApart) {
  for (let at = 0; at < row.length;) {
    const first = at;
    while (at < row.length && row[at] && (at === first || !isApart)) at++;
    if (at > first) yield [first, at];
    else at++;
  }
}

export { blocksPath, numberOfBlocks };
