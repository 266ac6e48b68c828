#!/usr/bin/env node
// naplps as a command of Node: `node command.mjs list < PAGE`, with the words, answers and statuses of naplps.
import {existsSync, readSync, writeSync} from "node:fs";
import {MOST_BUDGET, USUAL_BUDGET, describe, load} from "./naplps.mjs";

const USAGE = `Reads a NAPLPS page from standard input, as 'naplps' does.

Usage: node command.mjs list|check|canon [--hex] [--budget N] < PAGE
       node command.mjs make < LINES

  list   Prints one line for each point, line, character or reset that the page draws
  check  Says whether the page is accepted, and with how many entries, or why it is refused
  canon  Prints the page's canonical stream: two pages draw the same acts exactly if these are equal
  make   Makes the page of lines as 'list' prints them: its canonical stream

  --hex         The page is hexadecimal digits, with spaces, tabs and line ends as you like
  --budget <N>  How many bytes of macro bodies the page may be charged with,
                from 0 to ${MOST_BUDGET} [default: ${USUAL_BUDGET}]

NAPLPS_MODULE names the file naplps.wasm, where it isn't beside this file.
Statuses: 0 accepted, 1 refused, 2 a wrong command line, 3 a fault of reading or writing.
`;
const COMMANDS = ["list", "check", "canon", "make"];

/** What ends the command: a line for standard error, and a status. */
class Stop extends Error {
  constructor(status, line) {
    super(line);
    this.status = status;
  }
}

const wrong = (line) => new Stop(2, `error: ${line}\n\nFor more information, try '--help'.`);

/** The command and the options of the command line. */
function read(words) {
  if (words.some((word) => word === "--help" || word === "-h") || words[0] === "help") return {command: "help"};
  const [command, ...rest] = words, found = {command, hex: false, budget: USUAL_BUDGET};
  if (command === undefined) throw wrong("'naplps' requires a subcommand but one was not provided");
  if (!COMMANDS.includes(command)) throw wrong(`unrecognized subcommand '${command}'`);
  const seen = new Set();
  while (rest.length) {
    const [name, given] = parted(rest.shift());
    const isHex = name === "--hex";
    if (command === "make" || (!isHex && name !== "--budget")) throw wrong(`unexpected argument '${name}' found`);
    if (seen.has(name)) throw wrong(`the argument '${isHex ? name : "--budget <N>"}' cannot be used multiple times`);
    seen.add(name);
    if (isHex && given !== undefined) throw wrong(`unexpected value '${given}' for '--hex' found; no more were expected`);
    if (isHex) found.hex = true;
    else found.budget = budgetOf(given ?? rest.shift());
  }
  return found;
}

/** A word at its first '=', where it is an option. */
function parted(word) {
  const at = word.startsWith("--") ? word.indexOf("=") : -1;
  return at < 0 ? [word, undefined] : [word.slice(0, at), word.slice(at + 1)];
}

function budgetOf(text) {
  if (text === undefined) throw wrong("a value is required for '--budget <N>' but none was supplied");
  const number = /^(\+?[0-9]+|-0+)$/.test(text) ? Math.abs(Number(text)) : NaN;
  if (!(number <= MOST_BUDGET)) {
    throw wrong(`invalid value '${text}' for '--budget <N>': it takes a number from 0 to ${MOST_BUDGET}`);
  }
  return number;
}

/** All of standard input. */
function readInput() {
  const pieces = [], piece = Buffer.allocUnsafe(1 << 16);
  for (;;) {
    try {
      const count = readSync(0, piece, 0, piece.length, null);
      if (count === 0) return Buffer.concat(pieces);
      pieces.push(Buffer.from(piece.subarray(0, count)));
    } catch (error) {
      if (error.code === "EOF") return Buffer.concat(pieces);
      if (error.code === "EAGAIN") wait();
      else throw new Stop(3, "read fault");
    }
  }
}

/** A moment, for an input or an output that isn't ready. */
function wait() { Atomics.wait(new Int32Array(new SharedArrayBuffer(4)), 0, 0, 5); }

function write(file, bytes) {
  for (let at = 0; at < bytes.length;) {
    try {
      at += writeSync(file, bytes, at);
    } catch (error) {
      if (error.code === "EAGAIN") wait();
      else throw new Stop(3, `write fault after ${at} bytes`);
    }
  }
}

/** The bytes that hexadecimal digits spell. */
function bytesOfHex(text) {
  const digits = text.toString("latin1").replace(/[ \t\r\n]/g, "");
  if (digits.length % 2 || /[^0-9A-Fa-f]/.test(digits)) throw new Stop(3, "hex fault");
  return Buffer.from(digits, "hex");
}

/** Where the module is: named, beside this file, or in the sources. */
function place() {
  if (process.env.NAPLPS_MODULE) return process.env.NAPLPS_MODULE;
  const beside = new URL("./naplps.wasm", import.meta.url);
  return existsSync(beside) ? beside : new URL("../../dist/browser/naplps.wasm", import.meta.url);
}

/** Does what the words say, and gives the status. */
async function run(words) {
  const {command, hex, budget} = read(words);
  if (command === "help") {
    write(1, Buffer.from(USAGE));
    return 0;
  }
  const naplps = await load(place()).catch((error) => {
    throw new Stop(3, `the module can't be loaded: ${error.message}`);
  });
  const input = readInput(), page = hex ? bytesOfHex(input) : input;
  const answer = command === "make" ? naplps.make(page) : naplps[command](page, budget);
  if (!answer.accepted) {
    write(command === "check" ? 1 : 2, Buffer.from(describe(answer) + "\n"));
    return answer.fault === "NoMemory" ? 3 : 1;
  }
  if (command === "check") write(1, Buffer.from(describe(answer) + "\n"));
  else if (hex && command === "canon") write(1, Buffer.from(Buffer.from(answer.bytes).toString("hex") + "\n"));
  else write(1, answer.bytes);
  return 0;
}

try {
  process.exitCode = await run(process.argv.slice(2));
} catch (error) {
  const status = error instanceof Stop ? error.status : 3;
  writeSync(2, `${error instanceof Stop ? "" : "fault: "}${error.message}\n`);
  process.exitCode = status;
}
