// The bytes of an address, by pieces, so that no more are read than are wanted.

// Whether the header of a response promises more than the most bytes. (Of coded bytes it counts those on the way.)
const isTooLong = ({ headers }, most) => (
  !headers.get("Content-Encoding") && Number(headers.get("Content-Length")) > most);

// Reads all pieces into one array, which has the most bytes.
async function readPieces(reader, most) {
  const bytes = new Uint8Array(most);
  let length = 0;
  for (let { done, value } = await reader.read(); !done; { done, value } = await reader.read()) {
    if (length + value.length > most) throw new Error(`it has more than ${most} bytes`);
    bytes.set(value, length);
    length += value.length;
  }
  return bytes.slice(0, length);
}

// What an address has, if that are no more than the most bytes; else its reading ends there.
async function fetchedBytes(address, most) {
  const response = await fetch(address), reader = response.body?.getReader();
  try {
    if (!response.ok) throw new Error(`it can't be fetched: ${response.status}`);
    if (isTooLong(response, most)) throw new Error(`it has more than ${most} bytes`);
    return reader ? await readPieces(reader, most) : new Uint8Array();
  } finally {
    reader?.cancel().catch(() => {});  // (without effect where it was read to its end)
  }
}

export { fetchedBytes };
