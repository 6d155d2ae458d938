/* What the checks of the binding have in common: what they expect of values and errors. */
import * as sulgrevad from "../../../bindings/javascript/sulgrevad.js";

const { SamError, Status } = sulgrevad;

export function expect(holds, told) {
  if (!holds) throw new Error(told);
}

export function same(got, wanted) {
  expect(JSON.stringify(got) === JSON.stringify(wanted), `${JSON.stringify(got)}, wanted ${JSON.stringify(wanted)}`);
}

/** Expects an error of the binding to be of this class, with this code. */
export function isError(error, kind, code) {
  expect(error instanceof sulgrevad[kind] && error instanceof SamError && error.name === kind, `${error}, wanted ${kind}`);
  same(error.code, Status[code]);
  expect(error.message.startsWith(`SAM_${code}: `), error.message);
  return error;
}

export function throws(kind, code, call) {
  try {
    call();
  } catch (error) {
    return isError(error, kind, code);
  }
  throw new Error(`${call} throws nothing, wanted ${kind}`);
}

export function throwsPlain(kind, call) {
  try {
    call();
  } catch (error) {
    expect(error.constructor === kind, `${error}, wanted ${kind.name}`);
    return;
  }
  throw new Error(`${call} throws nothing, wanted ${kind.name}`);
}

/** Returns the error by which a promise is rejected. */
export async function rejection(promise) {
  try {
    await promise;
  } catch (error) {
    return error;
  }
  throw new Error("a promise is kept that should be broken");
}

export function bytes(count, value = 0) {
  return new Uint8Array(count).fill(value);
}

/** The bytes of a text in UTF-8. */
export function spelled(text) {
  return new TextEncoder().encode(text);
}

export function joined(...pieces) {
  const all = new Uint8Array(pieces.reduce((sum, piece) => sum + piece.length, 0));
  pieces.reduce((at, piece) => (all.set(piece, at), at + piece.length), 0);
  return all;
}
