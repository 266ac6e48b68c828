// What is kept of all files together, so that memory has an end however many there are.

// The most bytes that are kept of files, and of canonical streams.
const MOST_KEPT = 1 << 27;

class Allowance {
  #length = 0;

  // These bytes if they may be kept, or null.
  take(bytes) {
    if (!bytes || this.#length + bytes.length > MOST_KEPT) return null;
    this.#length += bytes.length;
    return bytes;
  }
}

export { Allowance };
