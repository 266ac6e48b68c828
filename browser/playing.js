// What a player draws with: the entries of a page from the lines of its list, and their drawing in time.
// (`make browser` makes python/naplps_pages/player/drawing.js of it.)

import { drawing } from "./drawing.js";
import { MOST_DRAWN } from "./drawing/measure.js";
import { entriesOf } from "./lines.mjs";

// The drawing in time of the lines of a list: of those that may be drawn.
const drawingOf = (lines) => drawing(entriesOf(lines.slice(0, MOST_DRAWN)));

export { drawing, drawingOf, entriesOf };
