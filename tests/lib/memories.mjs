// How much memory the instances of WebAssembly modules have that are made from now on.

const sizes = [];

WebAssembly.Instance = class extends WebAssembly.Instance {
  constructor(...words) {
    super(...words);
    const { memory } = this.exports;
    sizes.push(() => memory.buffer.byteLength);
  }
};

// The most bytes that one of them has.
export const mostMemory = () => Math.max(0, ...sizes.map((size) => size()));
