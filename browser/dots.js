// What the raster view of a player paints with: the raster of the lines of a list.
// (`make browser` makes python/naplps_pages/player/dots.js of it.)

import { entriesOf } from "./lines.mjs";
import { DIRECT, MARK, Raster } from "./raster.js";

const rasterOf = (lines) => new Raster(entriesOf(lines));

export { DIRECT, MARK, rasterOf };
