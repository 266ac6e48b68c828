// node hostile.mjs MODULE CALLS < RECORDS: pages that take all they can, by these calls of naplps.mjs. It prints what
// `check` says of each, and how many seconds of a processor the longest of its calls took; a page after it has to be
// answered as ever.
import {readFileSync} from "node:fs";
import {describe, load} from "../naplps.mjs";

const [, , file, calls] = process.argv;
const naplps = await load(readFileSync(file)), data = readFileSync(0), small = Buffer.from("0e26524040", "hex");
for (let at = 0; at < data.length;) {
  const budget = data.readUInt32LE(at + 4), length = data.readUInt32LE(at + 8);
  const page = data.subarray(at + 12, at + 12 + length);
  at += 12 + length;
  let longest = 0;
  const told = [];
  for (const call of ["check", ...calls.split(",")]) {
    const began = process.cpuUsage(), answer = naplps[call](page, budget), used = process.cpuUsage(began);
    longest = Math.max(longest, used.user + used.system);
    if (call === "check") told.push(describe(answer));
    else if (answer.accepted === told[0].startsWith("refused ") && answer.number !== 21) throw new Error(`${call} differs`);
    if (describe(naplps.check(small)) !== "accepted 1 entries") throw new Error("the next page has another answer");
  }
  console.log(`${told[0]} in ${(longest / 1e6).toFixed(3)}`);
}
