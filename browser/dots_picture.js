// The picture of a page in dots: its raster on a canvas, with the colours that the page leaves.

import { ACROSS, UP, colourOf, raster } from "./raster.js";

// The pels of an image of 256 x 200, from the uppermost row down: red, green, blue and 255 of each dot.
function pelsOf({ inks, map }) {
  const pels = new Uint8ClampedArray(ACROSS * UP * 4);
  inks.forEach((ink, at) => {
    const row = UP - 1 - Math.floor(at / ACROSS), colour = colourOf(ink, map);
    pels.set([colour >> 16, colour >> 8 & 255, colour & 255, 255], (row * ACROSS + at % ACROSS) * 4);
  });
  return pels;
}

// A canvas with the dots of these entries.
function dotsCanvas(entries) {
  const canvas = document.createElement("canvas");
  Object.assign(canvas, { width: ACROSS, height: UP });
  canvas.getContext("2d").putImageData(new ImageData(pelsOf(raster(entries)), ACROSS, UP), 0, 0);
  return canvas;
}

export { dotsCanvas, pelsOf };
