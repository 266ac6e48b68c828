/**
 * The line of an answer, as `naplps check` and `naplps make` print it.
 * @param {Counted | Made | Refused | NotMade} answer @returns {string}
 */
export function describe(answer: Counted | Made | Refused | NotMade): string;
/**
 * Loads the module.
 * @param {URL | string | Bytes | WebAssembly.Module} [source] where naplps.wasm is, its bytes, or what was compiled of
 *   it; without it the file beside this one
 * @param {{memory?: number}} [options] as of the class Naplps
 * @returns {Promise<Naplps>}
 */
export function load(source?: URL | string | Bytes | WebAssembly.Module, options?: {
    memory?: number;
}): Promise<Naplps>;
/** How many bytes of macro bodies a page may be charged with, where nothing else is said; and the most that may be. */
export const USUAL_BUDGET: number;
export const MOST_BUDGET: number;
/** How many entries a find has at least, where nothing else is said. */
export const LEAST_ENTRIES: 12;
/** The calls of the library, by a compiled module. One call runs at a time, as everything in JavaScript. */
export class Naplps {
    /**
     * @param {WebAssembly.Module} module the compiled naplps.wasm
     * @param {{memory?: number}} [options] `memory`: how many bytes of memory a call may have in all, the page and its
     *   answer included; 4 GiB less a megabyte at most, which is usual. A page that needs more is refused as number 21.
     */
    constructor(module: WebAssembly.Module, options?: {
        memory?: number;
    });
    /**
     * How many entries a page has.
     * @param {Bytes} page @param {number} [budget] @returns {Counted | Refused}
     */
    check(page: Bytes, budget?: number): Counted | Refused;
    /**
     * A line for each entry, in ASCII, as `naplps list` prints them.
     * @param {Bytes} page @param {number} [budget] @returns {Written | Refused}
     */
    list(page: Bytes, budget?: number): Written | Refused;
    /**
     * The canonical stream: two pages have the same exactly if their entries are the same.
     * @param {Bytes} page @param {number} [budget] @returns {Written | Refused}
     */
    canon(page: Bytes, budget?: number): Written | Refused;
    /**
     * The text of the entries in form 1, which canonical streams had before form 2.
     * @param {Bytes} page @param {number} [budget] @returns {Written | Refused}
     */
    canonForm1(page: Bytes, budget?: number): Written | Refused;
    /**
     * The lines of `list`, each after the offset of the byte that added its entry, and a space. A page that is refused
     * has the lines before the refusal in `bytes`.
     * @param {Bytes} page @param {number} [budget] @returns {Written | (Refused & {bytes: Uint8Array})}
     */
    places(page: Bytes, budget?: number): Written | (Refused & {
        bytes: Uint8Array;
    });
    /**
     * The pages among other bytes, as docs/FINDING.md has them. Each has at least this number of entries, twice as many
     * bytes, and one shape. It is refused for want of memory alone.
     * @param {Bytes} bytes @param {number} [least] @returns {Finds | Refused}
     */
    find(bytes: Bytes, least?: number): Finds | Refused;
    /**
     * The page that lines make, as `list` gives them: its canonical stream.
     * @param {Bytes} lines @returns {Made | NotMade}
     */
    make(lines: Bytes): Made | NotMade;
    /**
     * Whether a page is plain, as each canonical stream is. A page that is refused may be plain.
     * @param {Bytes} page @returns {boolean}
     */
    isPlain(page: Bytes): boolean;
    /**
     * Begins to check a page that comes in pieces.
     * @param {number} [budget] @returns {Checking}
     */
    begin(budget?: number): Checking;
    #private;
}
/** A page that comes in pieces, of which no byte is kept. It has an instance, and so memory, of its own. */
export class Checking {
    /**
     * As `begin` of the class Naplps gives it.
     * @param {WebAssembly.Module} module @param {number} memory @param {number} budget
     */
    constructor(module: WebAssembly.Module, memory: number, budget: number);
    /**
     * Takes the next piece. Once the page is refused, whatever comes, it gives the refusal; until then null.
     * @param {Bytes} piece @returns {Refused | null}
     */
    feed(piece: Bytes): Refused | null;
    /**
     * Ends the page, and gives what `check` gives of all pieces together.
     * @returns {Counted | Refused}
     */
    finish(): Counted | Refused;
    #private;
}
export type Bytes = ArrayBuffer | ArrayBufferView;
export type Counted = {
    accepted: true;
    entries: number;
};
export type Written = {
    accepted: true;
    bytes: Uint8Array;
};
export type Made = {
    accepted: true;
    bytes: Uint8Array;
    entries: number;
};
/**
 * A page among other bytes: the offset of its first byte, and the offset after its last byte.
 */
export type Find = {
    begin: number;
    end: number;
};
/**
 * The finds, in order; the offset from which on bytes that follow may change them; and how many beginnings were
 * passed over.
 */
export type Finds = {
    accepted: true;
    finds: Find[];
    open: number;
    passed: number;
};
/**
 * Why a page is refused: the number and the name as docs/PROFILE.md has them, and the offset of the byte. A later
 * version may have more numbers. Of 21, Memory, the place says nothing.
 */
export type Refused = {
    accepted: false;
    number: number;
    name: string;
    place: number;
};
export type LineFault = "NoLine" | "Misfit" | "Unclosed" | "NoMemory";
/**
 * Why lines make no page: the first line that is wrong, from 1; the column, from 1 in bytes, of NoLine; the line that
 * opens what isn't ended, of Unclosed; else 0.
 */
export type NotMade = {
    accepted: false;
    fault: LineFault;
    line: number;
    column: number;
    opening: number;
};
