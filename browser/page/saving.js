// What is saved: files, all canonical streams in a zip, and a table as CSV.

const encoder = new TextEncoder();

function save(parts, name, type = "application/octet-stream") {
  const link = document.createElement("a");
  link.href = URL.createObjectURL(new Blob(parts, { type }));
  link.download = name;
  document.body.append(link);
  link.click();
  link.remove();
  setTimeout(() => URL.revokeObjectURL(link.href), 60000);
}

const CRCS = Uint32Array.from({ length: 256 }, (_, at) => {
  let value = at;
  for (let bit = 0; bit < 8; bit++) value = value & 1 ? value >>> 1 ^ 0xedb88320 : value >>> 1;
  return value;
});

function crcOf(bytes) {
  let value = 0xffffffff;
  for (const byte of bytes) value = CRCS[(value ^ byte) & 0xff] ^ value >>> 8;
  return (value ^ 0xffffffff) >>> 0;
}

// Numbers in bytes, the lowest byte first: each is a value and how many bytes it has.
const numbers = (...pairs) => Uint8Array.from(pairs.flatMap(([value, size]) => (
  Array.from({ length: size }, (_, at) => value >>> 8 * at & 0xff))));

// A name in a zip: no folder above, no half of a character, no name twice. `taken` has each name, and the last number
// with which another was made of it.
function zipName(name, taken) {
  const parts = name.split(/[\\/]/).filter((part) => part && part !== "." && part !== "..");
  const plain = parts.join("/").replace(/[\0-\x1f\x7f\p{Surrogate}]/gu, "_") || "page";
  let free = plain, number = taken.get(plain) ?? 1;
  while (taken.has(free)) free = `${plain} ${++number}`;
  taken.set(plain, number).set(free, 1);
  return free;
}

// The parts of a zip file of these files, each a name and bytes, which are stored as they are.
function zipOf(files) {
  const parts = [], central = [], taken = new Map();
  let at = 0;
  for (const [wanted, bytes] of files) {
    const name = encoder.encode(zipName(wanted, taken)), sum = crcOf(bytes);
    // (UTF-8 names; the first day that a zip can tell)
    const about = [[20, 2], [0x800, 2], [0, 2], [0, 2], [0x21, 2], [sum, 4], [bytes.length, 4], [bytes.length, 4],
      [name.length, 2], [0, 2]];
    const local = numbers([0x04034b50, 4], ...about);
    central.push(numbers([0x02014b50, 4], [20, 2], ...about, [0, 2], [0, 2], [0, 2], [0, 4], [at, 4]), name);
    parts.push(local, name, bytes);
    at += local.length + name.length + bytes.length;
  }
  const size = central.reduce((sum, part) => sum + part.length, 0);
  const counts = [[files.length, 2], [files.length, 2], [size, 4], [at, 4], [0, 2]];
  return [...parts, ...central, numbers([0x06054b50, 4], [0, 2], [0, 2], ...counts)];
}

// A table as CSV; no field begins as a formula of a spreadsheet does.
function csvOf(rows) {
  const field = (value) => {
    const text = String(value ?? ""), isFormula = typeof value === "string" && /^[=+\-@\t\r]/.test(text);
    const plain = isFormula ? `'${text}` : text;
    return /[",\n\r']/.test(plain) ? `"${plain.replaceAll('"', '""')}"` : plain;
  };
  return rows.map((row) => `${row.map(field).join(",")}\r\n`).join("");
}

export { csvOf, save, zipOf };
