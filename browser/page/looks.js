// What a file looks like that isn't a page. The tables are those of python/naplps_pages/file_kinds.py, and the answers
// too.

const MAC_HEADER = 128;
const whole = (pattern) => new RegExp(`^(?:${pattern})$`);
const letters = (bytes) => bytes.reduce((text, byte) => text + String.fromCharCode(byte), "");
const numberAt = (bytes, at) => new DataView(bytes.buffer, bytes.byteOffset).getUint32(at);

// Whether it has a header of MacBinary: zeros at their places, a name, and forks that fill the file.
function isMacBinary(bytes, length) {
  if (bytes.length < MAC_HEADER || bytes[0] || bytes[74] || bytes[82] || bytes[1] < 1 || bytes[1] > 63) return false;
  const forks = [83, 87].map((at) => numberAt(bytes, at));
  const filled = forks.reduce((sum, each) => sum + Math.ceil(each / MAC_HEADER) * MAC_HEADER, MAC_HEADER);
  return forks.some(Boolean) && filled - MAC_HEADER < length && length <= filled + MAC_HEADER;
}

// What finds the name of the format of bytes, the first of a file of a length; empty where it is none that is known.
function looksBy({ most, magic, archive, sectors, texts, plain, codes }) {
  const known = magic.map(([offset, hex, name]) => ({
    offset, name, data: hex.match(/../g).map((digits) => parseInt(digits, 16)) }));
  const archived = whole(archive.name), inCodes = codes.map(([name, pattern]) => [name, whole(pattern)]);
  const isText = whole(texts);

  // Whether it begins as an ARC archive: a mark, a method, and a name that ends by zero.
  function isArchive(bytes) {
    if (bytes[0] !== 0x1a || bytes.length < archive.header || bytes[1] < 1 || bytes[1] > archive.methods) return false;
    const name = bytes.subarray(2, 15), end = name.indexOf(0);
    return end >= 0 && archived.test(letters(name.subarray(0, end)));
  }

  // Whether it begins with the boot sector of a disk: a jump, bytes of a sector, and the mark at its end.
  function isDisk(bytes) {
    return (bytes[0] === 0xeb || bytes[0] === 0xe9) && bytes[510] === 0x55 && bytes[511] === 0xaa
      && sectors.includes(bytes[11] + 256 * bytes[12]);
  }

  // In which code it is a text, where it has letters that ASCII lacks, and few of them.
  function textIn(bytes, isWhole) {
    let end = bytes.length;
    while (end && bytes[end - 1] === 0x1a) end -= 1;
    const part = bytes.subarray(0, end), text = letters(part);
    const high = part.reduce((sum, byte) => sum + (byte >= 0x80), 0);
    if (!high || !isText.test(text)) return "";
    if (isUtf8(part, isWhole)) return "text in UTF-8";
    const found = high * plain > end ? null : inCodes.find(([, pattern]) => pattern.test(text));
    return found ? `text in ${found[0]}` : "";
  }

  return (file) => {
    const bytes = file.subarray(0, most);
    const found = known.find(({ offset, data }) => data.every((byte, at) => bytes[offset + at] === byte));
    if (found) return found.name;
    if (isMacBinary(bytes, file.length)) return "MacBinary";
    if (isArchive(bytes)) return "ARC";
    return isDisk(bytes) ? "disk of DOS" : textIn(bytes, bytes.length === file.length);
  };
}

// Whether it is UTF-8, but for a letter that is cut at the end of a beginning.
function isUtf8(bytes, isWhole) {
  try {
    new TextDecoder("utf-8", { fatal: true }).decode(bytes, { stream: !isWhole });
    return true;
  } catch {
    return false;
  }
}

export { looksBy };
