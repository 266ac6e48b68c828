// The raster of the lines of a list on standard input: node list-dots.mjs < LINES. It prints 200 lines of 256 inks, the
// lowest row first, and then a line for each address that a dot has, with its colour.
import { readFileSync } from "node:fs";
import { entriesOf } from "./lines.mjs";
import { ACROSS, DIRECT, MARK, UP, colourOf, raster } from "./raster.js";

const { inks, map } = raster(entriesOf(readFileSync(0, "utf8").split("\n").filter(Boolean)));
const rows = Array.from({ length: UP }, (_, row) => inks.slice(row * ACROSS, (row + 1) * ACROSS).join(" "));
const bare = new Set(inks.map((ink) => ink & ~MARK).filter((ink) => !(ink & DIRECT)));
const addresses = [...bare].sort((a, b) => a - b).map((address) => `${address} ${colourOf(address, map)}`);
process.stdout.write(`${[...rows, ...addresses].join("\n")}\n`);
