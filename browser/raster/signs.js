// The dots of characters, and how many columns these have in proportional spacing.

import { isAccent, letterOf } from "../drawing/letters.js";
import { COLUMNS, markOf, rowsOf, widthOf } from "./font.js";

const isWritten = (set) => set === "primary" || set === "supplementary";

// The rows of a letter with the accent that came before it; none of other signs.
function rowsOfEntry(entry, accent) {
  if (!isWritten(entry.set) || isAccent(entry)) return null;
  const sign = letterOf(entry);
  return accent && sign === " " ? markOf(accent) : rowsOf(sign, accent);
}

// A letter has those from its first dot to its last one.
function columnsOf(entry, accent = 0) {
  const rows = rowsOfEntry(entry, accent);
  return rows ? widthOf(rows)[1] : COLUMNS - 1;
}

export { columnsOf, isWritten, rowsOfEntry };
