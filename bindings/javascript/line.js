/* The terminal's end of a link, with the clock of its connections. */
import { Held, PREFIX, bytesBy, ifAny, make, makeOfBytes, one } from "./held.js";
import { Inward, Outward, bytesIn, lendId } from "./link.js";
import { result, size, truth, u32, u64, u8 } from "./module.js";

const MOST_WORDS = 65536; // bytes before the host's hello

/** What a program is to do for its line or its client (enum sam_tick of sulgrevad.h). */
export const Tick = Object.freeze({ NOTHING: 0, CONNECT: 1, DROP: 2, ASK: 3 });

/** Adds to a class what line and client share: their connections, what comes on these, and how they stand. */
export const Clocked = (Base) =>
  class extends Outward(Base) {
    static DOWN = 0;
    static CONNECTING = 1;
    static OPEN = 2;
    static LATE = 3;
    static LOST = 4;

    constructor(id, takeOver, now) {
      super(lendId(id), takeOver ? 1 : 0, size(now));
    }

    tick(now) {
      return one(this, "tick", u32, size(now));
    }

    dueIn(now) {
      return ifAny(() => one(this, "due_in", u64, size(now)));
    }

    connected(now) {
      return one(this, "connected", u64, size(now));
    }

    notConnected(now) {
      make(this, "not_connected", size(now));
    }

    broken(attempt, now) {
      make(this, "broken", size(attempt), size(now));
    }

    addressChanged(now) {
      make(this, "address_changed", size(now));
    }

    expect(expects, now) {
      make(this, "expect", expects ? 1 : 0, size(now));
    }

    putNote(bytes, now) {
      makeOfBytes(this, "put_note", [], bytesIn(bytes), size(now));
    }

    receive(attempt, bytes, now) {
      makeOfBytes(this, "receive", [size(attempt)], bytesIn(bytes), size(now));
    }

    describe(now) {
      make(this, "describe", size(now), result(0));
      return {
        silence: u64(0),
        roundTrip: u64(1),
        overdueAfter: u64(2),
        failures: u64(3),
        attempt: u64(4),
        putCount: u64(5),
        acknowledged: u64(6),
        received: u64(7),
        state: u32(8),
        why: u32(8, 4),
        isKnown: truth(9),
        isBroken: u8(9, 1) !== 0,
        hasAll: u8(9, 2) !== 0,
      };
    }

    get words() {
      return bytesBy(this, "words", MOST_WORDS);
    }
  };

/** The terminal's end of a link, which also says when to connect, to ask and to give up. */
export class Line extends Inward(Clocked(Held)) {
  get [PREFIX]() {
    return "sam_line";
  }

  put(bytes, now) {
    makeOfBytes(this, "put", [], bytesIn(bytes), size(now));
  }

  ask(now) {
    make(this, "ask", size(now));
  }
}
