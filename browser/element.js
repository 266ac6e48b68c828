// <naplps-page src="page.nap" alt="what it shows">: the picture of a page in a page of the web.
//
// It reads canonical streams; with reader="full" it reads any page by naplps.wasm, which is beside this script or where
// the attribute `module` says. With view="dots" it shows the raster of the page. Its words are those of `alt`. It needs
// no inline script and no inline style, and fetches what `src` names; where the page can't be shown it says why, and
// sends the event `error`.

import { read } from "./canonical.mjs";
import { dotsCanvas } from "./dots_picture.js";
import { drawing } from "./drawing.js";
import { fetchedBytes } from "./fetching.js";
import { Naplps } from "./module/naplps.mjs";
import { nodesOf, picture } from "./picture.js";

// The most bytes of a page, of its canonical stream, and of the module.
const MOST_PAGE_BYTES = 1 << 20, MOST_MODULE_BYTES = 1 << 24;
// The most bytes of memory that the module may have, and the number of the refusal of a page that needs more.
const MOST_MEMORY = 1 << 26, MEMORY = 21;
const ELEMENT_STYLE = ":host { display: block; } svg, canvas { display: block; width: 100%; height: auto; }"
  + " canvas { image-rendering: pixelated; }"
  + " p { margin: 0; padding: 0.5em; border: 1px solid; overflow-wrap: anywhere; }";
const scriptAddress = document.currentScript?.src || document.baseURI;
let elementModule = null;

// The canonical stream of any page, by the module, which is compiled once.
async function canonicalOf(bytes, address) {
  elementModule ||= fetchedBytes(address, MOST_MODULE_BYTES).then((module) => WebAssembly.compile(module));
  const answer = new Naplps(await elementModule, { memory: MOST_MEMORY }).canon(bytes);
  if (answer.number === MEMORY || answer.bytes?.length > MOST_PAGE_BYTES) {
    throw new Error(`it draws more than ${MOST_PAGE_BYTES} bytes`);
  }
  if (!answer.accepted) throw new Error(`refused ${answer.number} ${answer.name} at ${answer.place}`);
  return answer.bytes;
}

class NaplpsPage extends HTMLElement {
  static observedAttributes = ["src", "alt", "reader", "module", "view"];

  constructor() {
    super();
    const style = new CSSStyleSheet();
    style.replaceSync(ELEMENT_STYLE);
    this.attachShadow({ mode: "open" }).adoptedStyleSheets = [style];
    this.turn = 0;
  }

  connectedCallback() {
    this.show();
  }

  attributeChangedCallback() {
    if (this.isConnected) this.show();
  }

  // Shows what the attributes name; what was begun before is dropped.
  async show() {
    const turn = ++this.turn, src = this.getAttribute("src"), words = this.getAttribute("alt") || "";
    try {
      const shown = src ? await this.pictureOf(new URL(src, document.baseURI), words) : [];
      if (turn !== this.turn) return;
      this.shadowRoot.replaceChildren(...shown);
      if (src) this.dispatchEvent(new Event("load"));
    } catch (error) {
      if (turn === this.turn) this.fail(words, error);
    }
  }

  async pictureOf(address, words) {
    let bytes = await fetchedBytes(address, MOST_PAGE_BYTES);
    if (this.getAttribute("reader") === "full") {
      const module = this.getAttribute("module");
      bytes = await canonicalOf(bytes, module ? new URL(module, document.baseURI)
        : new URL("naplps.wasm", scriptAddress));
    }
    const entries = [...read(bytes)], isDots = this.getAttribute("view") === "dots";
    const shown = isDots ? dotsCanvas(entries) : nodesOf(picture(drawing(entries), words));
    shown.setAttribute("role", "img");
    if (words) shown.setAttribute("aria-label", words);
    else shown.setAttribute("aria-hidden", "true");
    return [shown];
  }

  fail(words, error) {
    const told = document.createElement("p");
    told.textContent = `${words ? `${words}: ` : ""}the page isn't shown. ${error.message || error}`;
    this.shadowRoot.replaceChildren(told);
    this.dispatchEvent(new ErrorEvent("error", { message: String(error.message || error) }));
  }
}

customElements.define("naplps-page", NaplpsPage);
