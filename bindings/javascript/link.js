/* One end of a link, and hellos. */
import { Held, PREFIX, bytesBy, ifAny, lendTo, make, makeOfBytes, one } from "./held.js";
import { PIECE, call, least, lend, long, part, result, size, sizesAt, space, u32, u64 } from "./module.js";
import { Status, errorOf } from "./status.js";

const ID_BYTES = 16;
const HELLO_BYTES = 42;
export const MOST_NOTE = 4096;
const MOST_BODY = 4096; // bytes that one packet has for the program
const MOST_PLACES = 256; // of bytes in a piece, that are handed out at once
const PLACE_SIZE = 16; // bytes of a place: two numbers of 64 bits

/** The kinds of a hello: a terminal says one of the first three, a host one of the others. */
export const What = Object.freeze({
  BEGIN: 1,
  RESUME: 2,
  TAKE_OVER: 3,
  WELCOME: 4,
  NOT_A_LINK: 17,
  OTHER_VERSION: 18,
  BAD_HELLO: 19,
  NO_SESSION: 20,
  OTHER_SESSION: 21,
  OLD_ATTEMPT: 22,
  WRONG_COUNT: 23,
});

export function bytesIn(bytes) {
  if (!(bytes instanceof Uint8Array)) throw new TypeError("a Uint8Array is wanted");
  return bytes;
}

/** Lends a call the id of a session: returns its place. */
export function lendId(id) {
  if (bytesIn(id).length !== ID_BYTES) throw new RangeError(`an id has ${ID_BYTES} bytes, not ${id.length}`);
  part(space(), ID_BYTES).set(id);
  return space();
}

/** Makes a call without a handle, of bytes that it is lent, and throws the error of its status, if that is not SAM_OK. */
export function callOf(bytes, calling) {
  lend([bytesIn(bytes)], (places) => {
    if (places === null) throw errorOf(Status.NO_MEMORY);
    const code = calling(places[0], BigInt(bytes.length));
    if (code !== Status.OK) throw errorOf(code);
  });
}

/** Reads the hello with which the bytes begin, and returns it; null if nothing is wrong so far, but there are fewer than 42. */
export function readHello(bytes) {
  return ifAny(() => {
    callOf(bytes, (place, length) => call("sam_link_read_hello", place, length, result(0), result(1), result(3)));
    return { what: u32(0), id: part(result(1), ID_BYTES).slice(), attempt: u64(3) };
  });
}

/** Returns the hello by which a host refuses a connection whose first bytes these are. */
export function writeRefusal(status, bytes) {
  callOf(bytes, (place, length) => call("sam_link_write_refusal", long(status), place, length, result(0)));
  return part(result(0), HELLO_BYTES).slice();
}

/** Adds to a class what link, line and client share: what goes out on their connections. */
export const Outward = (Base) =>
  class extends Base {
    acknowledge() {
      make(this, "acknowledge");
    }

    takeOut(attempt, most = PIECE) {
      return bytesBy(this, "take_out", least(most, PIECE), size(attempt));
    }
  };

/** Adds to a class what link and line share: what comes in by them. */
export const Inward = (Base) =>
  class extends Base {
    takeIn(most = MOST_BODY) {
      return bytesBy(this, "take_in", least(most, MOST_BODY));
    }

    nextNote() {
      return ifAny(() => bytesBy(this, "next_note", MOST_NOTE));
    }
  };

/** One end of a link. */
export class Link extends Inward(Outward(Held)) {
  static TERMINAL = 0;
  static HOST = 1;
  static DOWN = 0;
  static ASKING = 1;
  static OPEN = 2;

  constructor(role, id) {
    super(long(role), lendId(id));
  }

  get [PREFIX]() {
    return "sam_link";
  }

  call(takeOver = false) {
    return one(this, "call", u64, takeOver ? 1 : 0);
  }

  welcomed(hello) {
    makeOfBytes(this, "welcomed", [], bytesIn(hello));
  }

  answer(hello) {
    makeOfBytes(this, "answer", [], bytesIn(hello));
  }

  broken(attempt) {
    make(this, "broken", size(attempt));
  }

  put(bytes) {
    makeOfBytes(this, "put", [], bytesIn(bytes));
  }

  putNote(bytes) {
    makeOfBytes(this, "put_note", [], bytesIn(bytes));
  }

  ask() {
    make(this, "ask");
  }

  feed(attempt, bytes) {
    makeOfBytes(this, "feed", [size(attempt)], bytesIn(bytes));
  }

  feedInto(attempt, bytes, most = PIECE) {
    const room = new Uint8Array(least(most, PIECE));
    return lendTo(this, [bytesIn(bytes), room], ([from, into]) => {
      make(this, "feed_into", size(attempt), from, BigInt(bytes.length), into, BigInt(room.length), result(0));
      return part(into, u64(0)).slice();
    });
  }

  feedPlaces(attempt, bytes, most = MOST_PLACES) {
    const room = new Uint8Array(PLACE_SIZE * least(most, MOST_PLACES));
    return lendTo(this, [room, bytesIn(bytes)], ([into, from]) => {
      make(this, "feed_places", size(attempt), from, BigInt(bytes.length), into, BigInt(room.length / PLACE_SIZE), result(0));
      const found = sizesAt(into, 2 * u64(0));
      return Array.from({ length: found.length / 2 }, (_, at) => ({ start: found[2 * at], len: found[2 * at + 1] }));
    });
  }

  get phase() {
    return one(this, "phase", u32);
  }

  get attempt() {
    return one(this, "attempt", u64);
  }

  get putCount() {
    return one(this, "put_count", u64);
  }

  get acknowledged() {
    return one(this, "acknowledged", u64);
  }

  get unsent() {
    return one(this, "unsent", u64);
  }

  get received() {
    return one(this, "received", u64);
  }
}
