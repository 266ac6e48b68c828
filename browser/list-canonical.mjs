#!/usr/bin/env node
// Prints the lines of a canonical stream: list-canonical.mjs list < STREAM.
import { readFileSync } from "node:fs";
import { NotCanonical, lineOf, read } from "./canonical.mjs";

function main(words) {
  if (words.length !== 1 || words[0] !== "list") {
    console.error("usage: list-canonical.mjs list < STREAM");
    return 2;
  }
  let lines = "";
  try {
    for (const entry of read(readFileSync(0))) lines += `${lineOf(entry)}\n`;
  } catch (refusal) {
    if (!(refusal instanceof NotCanonical)) throw refusal;
    console.error(refusal.message);
    return 1;
  }
  process.stdout.write(lines);
  return 0;
}

process.exitCode = main(process.argv.slice(2));
