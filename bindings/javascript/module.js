/* The WebAssembly module: its file, its memory, and its calls. */

const PLACE = new URL("sulgrevad.wasm", import.meta.url);
const VERSION = 0x0001; // the major and the minor number of the library that this package is for, a byte each
const LARGEST = 2 ** 32 - 1;

export const PIECE = 65536; // bytes of a text that are moved at a time

/** Compiles the module as it comes; or, if a server gives it another type, which that doesn't take, once all of it is there. */
async function instantiate() {
  if (PLACE.protocol === "file:") {
    const files = "node:fs/promises"; // not a constant of the import, so that no packer looks for it
    return WebAssembly.instantiate(await (await import(/* @vite-ignore */ files)).readFile(PLACE), {});
  }
  const answer = await fetch(PLACE);
  if (!answer.ok) throw new Error(`${PLACE} can't be read: ${answer.status}`);
  const isStreamed = answer.headers.get("Content-Type") === "application/wasm";
  return isStreamed ? WebAssembly.instantiateStreaming(answer, {}) : WebAssembly.instantiate(await answer.arrayBuffer(), {});
}

async function load() {
  try {
    return (await instantiate()).instance.exports;
  } catch (error) {
    if (!(error instanceof WebAssembly.CompileError)) throw error;
    throw new Error("this engine has no WebAssembly with a memory of 64 bits", { cause: error });
  }
}

/** The module's functions and its memory. */
export const library = await load();
if (library.sam_library_version() >>> 8 !== VERSION) throw new Error(`${PLACE} has another version than this package`);

// The results of a call stand at RESULTS, and the bytes that it is lent at SPACE, if there is room.
const RESULTS_SIZE = 128;
const RESULTS = library.malloc(BigInt(RESULTS_SIZE + PIECE));
const SPACE = RESULTS + BigInt(RESULTS_SIZE);
const ENCODER = new TextEncoder();
const DECODER = new TextDecoder("utf-8", { fatal: true, ignoreBOM: true });
let stopped = null; // the reason why no call can be made
let view = new DataView(library.memory.buffer);

/** Returns the memory, which is another buffer each time that it has grown. */
function data() {
  if (view.buffer !== library.memory.buffer) view = new DataView(library.memory.buffer);
  return view;
}

/** Returns a part of the memory, which holds up to the next call. */
export function part(place, length) {
  return new Uint8Array(library.memory.buffer, Number(place), length);
}

export function canCall() {
  return stopped === null;
}

/** Makes a call, and returns its status. If the machine breaks it off, for example because its stack is full, nobody knows how far it
 * came: so no other call is made after that. */
export function call(name, ...words) {
  if (stopped) throw new Error("the library was broken off, and can't be used any more", { cause: stopped });
  try {
    return library[name](...words);
  } catch (error) {
    if (!(error instanceof TypeError || error instanceof SyntaxError)) stopped = error;
    throw error;
  }
}

/** Returns the place at which a call hands out its result of this number, from 0 on. */
export function result(number) {
  return RESULTS + BigInt(8 * number);
}

export function truth(number = 0) {
  return data().getUint8(Number(RESULTS) + 8 * number) !== 0;
}

/** Returns the number that stands `after` bytes after the beginning of a result. */
export function u8(number, after = 0) {
  return data().getUint8(Number(RESULTS) + 8 * number + after);
}

export function u16(number = 0, after = 0) {
  return data().getUint16(Number(RESULTS) + 8 * number + after, true);
}

export function u32(number = 0, after = 0) {
  return data().getUint32(Number(RESULTS) + 8 * number + after, true);
}

/** Writes a result of 64 bits before a call: 0 for one that hands out a count even where it is refused, or what a struct lends it. */
export function put(number, value = 0n) {
  data().setBigUint64(Number(RESULTS) + 8 * number, value, true);
}

/** Returns a count of 64 bits: exact up to 2^53. */
export function u64(number = 0) {
  return Number(data().getBigUint64(Number(RESULTS) + 8 * number, true));
}

/** Returns the place at which a call writes at most PIECE bytes. */
export function space() {
  return SPACE;
}

export function bytesOut(length) {
  return part(SPACE, length);
}

/** The text that bytes are in UTF-8. */
export function textOf(bytes) {
  return DECODER.decode(bytes);
}

export function textOut(length) {
  return textOf(bytesOut(length));
}

/** Returns the first `count` numbers of 32 bits that a call wrote, so many bytes behind the beginning of its space. */
export function numbersOut(count, after = 0) {
  const memory = data();
  return Array.from({ length: count }, (_, at) => memory.getUint32(Number(SPACE) + after + 4 * at, true));
}

/** Returns the first `count` sizes of C's that stand at a place. */
export function sizesAt(place, count) {
  const memory = data();
  return Array.from({ length: count }, (_, at) => Number(memory.getBigUint64(Number(place) + 8 * at, true)));
}

/** Returns the bytes of a text, or null if it has a surrogate that stands alone, which UTF-8 can't have. */
export function bytesOf(text) {
  if (text instanceof Uint8Array) return text;
  if (typeof text !== "string") throw new TypeError("a text is a string, or its UTF-8 as a Uint8Array");
  return text.isWellFormed() ? ENCODER.encode(text) : null;
}

/** The bytes in the place of a text that isn't one, so that the library refuses them. */
export const NO_TEXT = new Uint8Array([0xff]);

/** Writes a short text into the space that a call is lent, and returns its number of bytes; -1 if it isn't short, or has a lone
 * surrogate. */
export function written(text) {
  if (typeof text !== "string" || 3 * text.length > PIECE || !text.isWellFormed()) return -1;
  return ENCODER.encodeInto(text, part(SPACE, PIECE)).written;
}

/** Gives `use` the place of room for so many bytes, or null if there is no memory for it. */
export function withRoom(length, use) {
  const place = length <= PIECE ? SPACE : call("malloc", BigInt(length));
  if (place === 0n) return use(null);
  try {
    return use(place);
  } finally {
    if (place !== SPACE && canCall()) call("free", place);
  }
}

/** Lends a call these pieces of bytes: gives `use` the place of each of them, or null if there is no memory for them. */
export function lend(pieces, use) {
  const length = pieces.reduce((sum, piece) => sum + piece.length, 0);
  return withRoom(length, (place) => {
    if (place === null) return use(null);
    let at = place;
    const places = [];
    for (const piece of pieces) {
      part(at, piece.length).set(piece);
      places.push(at);
      at += BigInt(piece.length);
    }
    return use(places);
  });
}

function index(number, end) {
  if (typeof number !== "number") throw new TypeError(`${typeof number === "symbol" ? "a symbol" : number} is not a number`);
  if (!Number.isInteger(number) || number < 0 || number > end) throw new RangeError(`${number} is not a whole number from 0 to ${end}`);
  return number;
}

/** Returns the number, if it is one that a byte can be. */
export function byte(number) {
  return index(number, 255);
}

/** Returns the number, if it is one that a tag or a version can be. */
export function short(number) {
  return index(number, 65535);
}

/** Returns the number, if it is one that a place or a count of runes can be. */
export function long(number) {
  return index(number, LARGEST);
}

/** Returns the number as C's size_t. */
export function size(number) {
  return BigInt(index(number, Number.MAX_SAFE_INTEGER));
}

/** Returns the smaller of a wished number, if there is one, and of the number that there are. */
export function least(most, there) {
  return most === undefined || most === Infinity ? there : Math.min(index(most, Number.MAX_SAFE_INTEGER), there);
}

/** Makes an empty handle: 16 bytes that are zero. Returns its place, or 0n if there is no memory. */
export function makeHandle() {
  const at = call("malloc", 16n);
  if (at !== 0n) part(at, 16).fill(0);
  return at;
}

export function dropHandle(at) {
  call("free", at);
}

/** Returns the text at a place, which ends in NUL. */
export function textAt(place) {
  const bytes = new Uint8Array(library.memory.buffer, Number(place));
  return DECODER.decode(bytes.subarray(0, bytes.indexOf(0)));
}

/** The memory of the library. */
export const memory = {
  limit: (bytes) => call("heap_limit", size(bytes)),
  get taken() {
    return Number(call("heap_taken"));
  },
  get used() {
    return Number(call("heap_used"));
  },
};
