
// What a player shows of what it holds: the drawing in time of its entries; and of a page with more than a picture may
// be, what comes before that.

// Characters of a line of the list that are shown.
const A_LINE = 2000;

// A player's data: what it holds, with the drawing of its lines. (It can hold this drawing already.)
function drawnOf(held) {
  const it = held.drawing || Drawing.drawingOf(held.lines), before = Math.min(held.before, it.drawn);
  const places = held.places.slice(0, it.drawn);
  const isWhole = it.drawn === held.lines.length;
  const length = isWhole ? held.length : Math.min(held.length, it.drawn > before ? places[it.drawn - 1] + 1 : 1);
  const codes = codesUpTo(held.codes, length, it.drawn), lines = held.lines.slice(0, it.drawn);
  const notes = held.notes.filter(Boolean), end = codes.end[codes.end.length - 1];
  if (it.drawn < held.entries) {
    notes.push(`The picture ends before entry ${it.drawn - before + 1}: with what follows it would be more than a `
      + "picture may be.");
  }
  if (held.isCut && end < length) notes.push(`Bytes are shown up to byte ${end} of ${length}.`);
  if (lines.some((line) => line.length > A_LINE)) notes.push("Some lines of the list are shown in part.");
  return {...held, ...it, before, places, length, codes, notes, listed: lines, lines: lines.map(shortLine)};
}

// The codes that begin before this byte, and those of so many entries.
function codesUpTo(codes, length, entries) {
  const count = upTo(codes.start, (start) => start < length);
  const [start, end, name] = [codes.start, codes.end, codes.name].map((column) => column.slice(0, count));
  return {start, end, name, names: codes.names, entry: codes.entry.slice(0, entries)};
}

function shortLine(line) {
  if (line.length <= A_LINE) return line;
  return `${line.slice(0, line.lastIndexOf(" ", A_LINE - 1))} ..`;
}
