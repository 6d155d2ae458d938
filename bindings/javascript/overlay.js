/* A terminal whose user never waits: the edits that wait are shown over its texts. */
import { PREFIX, ifAny, lendTo, make, makeOfText, one } from "./held.js";
import { NO_TEXT, bytesOf, long, part, result, short, textOf, u16, u32, u64, withRoom } from "./module.js";
import { Screened, Stepping, Streams } from "./sides.js";
import { Status, errorOf } from "./status.js";

const EVENT_SIZE = 16; // bytes of a sam_event
export const SPLICES = [undefined, "came", "went", "filled", "emptied"]; // enum sam_splice_kind of sulgrevad.h
const PUTS = ["nothing", "not free", "edit"]; // enum sam_put of sulgrevad.h
const TURNS = ["nothing", "not yet", "request"]; // enum sam_turn of sulgrevad.h
const AT_REST = ["idle", "locked"];

/** The events that an overlay or a client takes (enum sam_event_kind of sulgrevad.h). */
export const EventKind = Object.freeze({
  SELECT: 1,
  DCLICK: 2,
  LOOK: 3,
  SEARCH: 4,
  FLUSH: 5,
  SNARF: 6,
  GET_SNARF: 7,
  SET_SNARF: 8,
  VIEW: 9,
  LOAD: 10,
  SCROLL: 11,
  CHECK: 12,
  OPEN: 13,
  NEW_FILE: 14,
  WRITE: 15,
  CLOSE: 16,
  OPEN_CMD: 17,
  WORK: 18,
  SEND: 19,
  OFFER_VERSION: 20,
  EXIT: 21,
  TYPE_CMD: 22,
  CUT_CMD: 23,
  PASTE_CMD: 24,
});

/** Makes a call that takes an event and its text, and the places of its `results`. */
function makeOfEvent(side, name, kind, { tag = 0, start = 0, number = 0, version = 0, text = "" } = {}, ...results) {
  const record = new DataView(new ArrayBuffer(EVENT_SIZE));
  [kind, start, number].forEach((word, at) => record.setUint32(4 * at, long(word), true));
  record.setUint16(12, short(tag), true);
  record.setUint16(14, short(version), true);
  const bytes = bytesOf(text) ?? NO_TEXT;
  lendTo(side, [new Uint8Array(record.buffer), bytes], (places) => make(side, name, ...places, BigInt(bytes.length), ...results));
}

/** Adds to a class what overlay and client share: the shown texts, how they change, and what is asked for beside edits. */
export const Shown = (Base) =>
  class extends Screened(Base) {
    replace(tag, start, end, text) {
      makeOfText(this, "replace", [short(tag), long(start), long(end)], text);
    }

    ask(kind, fields) {
      makeOfEvent(this, "ask", kind, fields, result(0));
      return u64(0);
    }

    get requests() {
      return one(this, "requests", u64);
    }

    dropNext(tag) {
      const room = 4 * this.waiting(tag);
      return withRoom(room, (at) => {
        if (at === null) throw errorOf(Status.NO_MEMORY);
        return ifAny(() => {
          make(this, "drop_next", short(tag), result(0), at, BigInt(room), result(2));
          return { tag: u16(1, 4), place: u32(0, 4), count: u32(1), text: textOf(part(at, u64(2))) };
        });
      });
    }

    nextSplice() {
      return ifAny(() => {
        make(this, "next_splice", result(0));
        return { kind: SPLICES[u32(0)], tag: u16(1, 4), place: u32(0, 4), count: u32(1) };
      });
    }

    *splices() {
      for (let splice = this.nextSplice(); splice !== null; splice = this.nextSplice()) yield splice;
    }

    waiting(tag) {
      return one(this, "waiting", u32, short(tag));
    }

    nextWaiting(from = 0) {
      return ifAny(() => one(this, "next_waiting", u16, short(from)));
    }

    isWaiting(tag) {
      return this.nextWaiting(tag) === tag;
    }
  };

/** A terminal for an editor that has a text of its own and takes each key at once. */
export class Overlay extends Stepping(Shown(Streams)) {
  get [PREFIX]() {
    return "sam_overlay";
  }

  putNext(tag) {
    return PUTS[one(this, "put_next", u32, short(tag))];
  }

  actNext() {
    return TURNS[one(this, "act_next", u32)];
  }

  bringEvent(kind, fields) {
    makeOfEvent(this, "bring_event", kind, fields);
  }

  *goOn(...tags) {
    for (let moves = true; moves; moves = this.actNext() === "request" || tags.some((tag) => this.putNext(tag) === "edit")) {
      yield* this.splices();
      while (!AT_REST.includes(this.step().step)) yield* this.splices();
    }
  }
}
