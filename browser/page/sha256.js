// The SHA-256 of bytes (FIPS 180-4), also where a page of the web has no `crypto.subtle`: on plain http.

const BLOCK = 64;
const isPrime = (number) => {
  for (let other = 2; other * other <= number; other++) if (number % other === 0) return false;
  return true;
};
const PRIMES = Array.from({ length: 310 }, (_, at) => at + 2).filter(isPrime);
// The first 32 bits of the fractions of square roots and cube roots of primes.
const fraction = (root) => (root % 1) * 2 ** 32 | 0;
const FIRST = PRIMES.slice(0, 8).map((prime) => fraction(Math.sqrt(prime)));
const ROUNDS = Int32Array.from(PRIMES, (prime) => fraction(Math.cbrt(prime)));
const turned = (word, bits) => word >>> bits | word << 32 - bits;

// Adds a block to the state.
function mix(state, words) {
  for (let at = 16; at < 64; at++) {
    const low = words[at - 15], high = words[at - 2];
    words[at] = (words[at - 16] + words[at - 7] | 0) + (turned(low, 7) ^ turned(low, 18) ^ low >>> 3)
      + (turned(high, 17) ^ turned(high, 19) ^ high >>> 10) | 0;
  }
  let a = state[0], b = state[1], c = state[2], d = state[3], e = state[4], f = state[5], g = state[6], h = state[7];
  for (let at = 0; at < 64; at++) {
    const first = h + (turned(e, 6) ^ turned(e, 11) ^ turned(e, 25)) + (e & f ^ ~e & g) + ROUNDS[at] + words[at] | 0;
    const second = (turned(a, 2) ^ turned(a, 13) ^ turned(a, 22)) + (a & b ^ a & c ^ b & c) | 0;
    h = g;
    g = f;
    f = e;
    e = d + first | 0;
    d = c;
    c = b;
    b = a;
    a = first + second | 0;
  }
  state[0] += a;
  state[1] += b;
  state[2] += c;
  state[3] += d;
  state[4] += e;
  state[5] += f;
  state[6] += g;
  state[7] += h;
}

// The end of bytes: what doesn't fill a block, the bit that ends it, and the length in bits.
function lastBlocks(bytes) {
  const rest = bytes.subarray(bytes.length - bytes.length % BLOCK);
  const blocks = new Uint8Array(rest.length < BLOCK - 8 ? BLOCK : 2 * BLOCK), view = new DataView(blocks.buffer);
  blocks.set(rest);
  blocks[rest.length] = 0x80;
  view.setBigUint64(blocks.length - 8, BigInt(bytes.length) * 8n);
  return blocks;
}

function add(state, bytes) {
  const words = new Int32Array(64), view = new DataView(bytes.buffer, bytes.byteOffset, bytes.length);
  for (let from = 0; from + BLOCK <= bytes.length; from += BLOCK) {
    for (let at = 0; at < 16; at++) words[at] = view.getInt32(from + 4 * at);
    mix(state, words);
  }
}

// The checksum, in hexadecimal digits.
function sha256(bytes) {
  const state = Int32Array.from(FIRST);
  add(state, bytes);
  add(state, lastBlocks(bytes));
  return [...state].map((word) => (word >>> 0).toString(16).padStart(8, "0")).join("");
}

export { sha256 };
