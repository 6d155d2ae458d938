/* The handle of the library that a host, a terminal, a link and a line each have, and the calls of it. */
import * as module from "./module.js";
import { bytesOut, call, lend, put, result, space, u64 } from "./module.js";
import { Missing, SamError, Status, errorOf } from "./status.js";

export const PREFIX = Symbol("prefix"); // the beginning of the names of its calls
const handles = new WeakMap(); // of each side the place of its handle, 0n once it was freed
const lost = new FinalizationRegistry(({ prefix, at }) => {
  if (module.canCall()) release(prefix, at);
});

function release(prefix, at) {
  call(`${prefix}_free`, at);
  module.dropHandle(at);
}

/** Returns whether it was freed. */
export function isFreed(side) {
  return handles.get(side) === 0n;
}

/** Makes a call of a side, and throws the error of its status, if that is not SAM_OK. */
export function make(side, name, ...words) {
  const code = call(`${side[PREFIX]}_${name}`, handles.get(side), ...words);
  if (code !== Status.OK) throw errorOf(code);
}

/** Returns the result of `reading`; null if it answers SAM_NONE. */
export function ifAny(reading) {
  try {
    return reading();
  } catch (error) {
    if (error instanceof Missing) return null;
    throw error;
  }
}

/** Makes a call whose last words are a text's place and length. */
export function makeOfText(side, name, words, text) {
  const length = module.written(text);
  if (length >= 0) {
    make(side, name, ...words, space(), BigInt(length));
    return;
  }
  const bytes = module.bytesOf(text);
  if (bytes === null) throw errorOf(isFreed(side) ? Status.NO_HANDLE : Status.NOT_TEXT);
  makeOfBytes(side, name, words, bytes);
}

/** Makes a call that takes these words, the bytes' place and length, and then the words after them. */
export function makeOfBytes(side, name, words, bytes, ...after) {
  lendTo(side, [bytes], ([place]) => make(side, name, ...words, place, BigInt(bytes.length), ...after));
}

/** Lends a call of a side these pieces of bytes: gives `use` their places. */
export function lendTo(side, pieces, use) {
  return lend(pieces, (places) => {
    if (places === null) throw errorOf(isFreed(side) ? Status.NO_HANDLE : Status.NO_MEMORY);
    return use(places);
  });
}

/** Makes a call that takes these words and fills a room for so many bytes, and returns what it has put there. */
export function bytesBy(side, name, room, ...words) {
  make(side, name, ...words, space(), BigInt(room), result(0));
  return bytesOut(u64(0)).slice();
}

/** Makes a call, and returns its first result, as `as` reads it. */
export function one(side, name, as, ...words) {
  make(side, name, ...words, result(0));
  return as(0);
}

/** Makes a call whose last result counts what it did, and returns that. A refusal behind something that was done is left to a later call,
 * which has it again. */
export function counted(side, name, ...words) {
  put(0);
  try {
    make(side, name, ...words, result(0));
  } catch (error) {
    if (!(error instanceof SamError) || u64(0) === 0) throw error;
  }
  return u64(0);
}

/** A handle, which host, terminal, link and line share. */
export class Held {
  /** Makes the handle, by the call `new` with these words. */
  constructor(...words) {
    const at = module.makeHandle();
    if (at === 0n) throw errorOf(Status.NO_MEMORY);
    const code = call(`${this[PREFIX]}_new`, at, ...words);
    if (code !== Status.OK) {
      module.dropHandle(at);
      throw errorOf(code);
    }
    handles.set(this, at);
    lost.register(this, { prefix: this[PREFIX], at }, this);
  }

  free() {
    const at = handles.get(this);
    if (at === 0n) return;
    handles.set(this, 0n);
    lost.unregister(this);
    release(this[PREFIX], at);
  }
}
if (Symbol.dispose) Held.prototype[Symbol.dispose] = Held.prototype.free;
