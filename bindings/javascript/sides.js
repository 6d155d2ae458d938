/* The two sides: what they share with each other, with overlay and client, the host, and the terminal. */
import { Held, PREFIX, counted, ifAny, isFreed, lendTo, make, makeOfBytes, makeOfText, one } from "./held.js";
import * as module from "./module.js";
import { PIECE, least, long, put, result, short, size, space, truth, u16, u32, u64, u8 } from "./module.js";
import { Status, errorOf } from "./status.js";

const MOST_IN_NAME = 256; // bytes of the longest name
const MOST_IN_PATTERN = 512; // bytes of the longest pattern
const LEAST_PIECE = 256; // bytes that are read of a text, if so few runes are wished for
const GAP = 2 ** 32 - 1; // a rune that is not loaded

const STEPS = ["idle", "locked", "wrote", "edited", "answered", "received", "acted", "refused"]; // enum sam_step of sulgrevad.h

const DID = 14; // words of 32 bits of a sam_did

// A sam_did stands at result(0): its event, its request, its count, its step and why, its start and gone, its came and task, its tag, its
// kind, and whether it loads.
const didTag = () => u16(6);
const didKind = () => u8(6, 2);
const didLoads = () => u8(6, 3) !== 0;

function range(side, name, tag) {
  make(side, name, short(tag), result(0), result(1));
  return { start: u32(0), end: u32(1) };
}

function shortText(side, name, room, ...words) {
  make(side, name, ...words, space(), BigInt(room), result(0));
  return module.textOut(u64(0));
}

/** The text of a rune that a call hands out; `gap` for one that is not loaded. */
export function shownRune(rune, gap) {
  return rune === GAP ? gap : String.fromCodePoint(rune);
}

/** Returns the first runes of a text. */
function front(text, runes) {
  let end = 0;
  while (runes-- > 0) end += text.codePointAt(end) > 0xffff ? 2 : 1;
  return text.slice(0, end);
}

/** Returns the runes of a text from a place on: at most `most`, or all if that is undefined. */
function longText(side, name, place, most, ...words) {
  let left = least(most, 2 ** 32);
  let text = "";
  for (place = long(place); ; ) {
    const room = Math.min(PIECE, Math.max(LEAST_PIECE, left)); // if runes take more than a byte each, more pieces come
    make(side, name, ...words, place, space(), BigInt(room), result(0), result(1));
    const runes = Math.min(u32(1), left);
    const piece = module.textOut(u64(0));
    text += runes < u32(1) ? front(piece, runes) : piece;
    place += runes;
    left -= runes;
    if (runes === 0 || left === 0) return text;
  }
}

/** What can be read of host, terminal, overlay and client alike. */
export class Texts extends Held {
  get faultPlace() {
    return ifAny(() => one(this, "fault_place", u64));
  }

  name(tag) {
    return shortText(this, "name", MOST_IN_NAME, short(tag));
  }

  len(tag) {
    return one(this, "len", u32, short(tag));
  }

  text(tag, place = 0, runes = undefined) {
    return longText(this, "text", place, runes, short(tag));
  }
}

/** The streams of host, terminal and overlay. */
export class Streams extends Texts {
  bring(bytes) {
    if (!(bytes instanceof Uint8Array)) throw new TypeError("what is brought is a Uint8Array");
    makeOfBytes(this, "bring", [], bytes);
  }

  finish() {
    make(this, "finish");
  }

  get pending() {
    return one(this, "pending", u64);
  }

  takeOut(most) {
    const bytes = new Uint8Array(least(most, this.pending));
    for (let at = 0; at < bytes.length; ) {
      make(this, "take_out", space(), BigInt(Math.min(PIECE, bytes.length - at)), result(0));
      bytes.set(module.bytesOut(u64(0)), at);
      at += u64(0);
    }
    return bytes;
  }
}

/** What host and terminal share beside that. */
class Side extends Streams {
  feed(bytes = new Uint8Array(0)) {
    if (!(bytes instanceof Uint8Array)) throw new TypeError("what is fed is a Uint8Array");
    makeOfBytes(this, "feed", [], bytes);
  }

  get version() {
    return one(this, "version", u16);
  }

  get tags() {
    return one(this, "tags", u64);
  }

  isDirty(tag) {
    return one(this, "is_dirty", truth, short(tag));
  }

  dot(tag) {
    return range(this, "dot", tag);
  }
}

/** Returns the step of a terminal that a call has handed out at result(0). */
export function terminalStep() {
  const change = { start: u32(4), gone: u32(4, 4), came: u32(5) };
  const numbers = { event: u64(0), request: u64(1), task: u32(5, 4), why: u32(3, 4) };
  return { step: STEPS[u32(3)], kind: didKind(), tag: didTag(), change, loads: didLoads(), ...numbers };
}

/** Adds to a class the steps of terminal and overlay. */
export const Stepping = (Base) =>
  class extends Base {
    step() {
      make(this, "step", result(0));
      return terminalStep();
    }

    nextRefusal() {
      return ifAny(() => {
        make(this, "next_refusal", result(0), result(1));
        return { event: u64(0), why: u32(1) };
      });
    }

    *refusals() {
      for (let refusal = this.nextRefusal(); refusal !== null; refusal = this.nextRefusal()) yield refusal;
    }
  };

/** Adds to a class what can be read of terminal, overlay and client. */
export const Screened = (Base) =>
  class extends Base {
    /** Reads a sam_state: seven numbers of 64 bits, two of 32, one of 16, and two truths. */
    state() {
      make(this, "state", result(0));
      const [events, decided, held, sent, underWay, pending, tags] = [0, 1, 2, 3, 4, 5, 6].map((at) => u64(at));
      const [commandLocked, exited] = [u8(8, 2) !== 0, u8(8, 3) !== 0];
      const counts = { events, decided, held, sent, underWay, pending, tags };
      return { ...counts, unsent: u32(7), snarfLen: u32(7, 4), version: u16(8), commandLocked, exited };
    }

    /** Reads a sam_file: five numbers of 32 bits, and six truths. */
    file(tag) {
      make(this, "file", short(tag), result(0));
      const [isKnown, isOpen, isDirty, isChanged, isLocked, isFree] = [4, 5, 6, 7, 8, 9].map((at) => u8(2, at) !== 0);
      const dot = { start: u32(0, 4), end: u32(1) };
      const view = { start: u32(1, 4), end: u32(2) };
      return { isKnown, isOpen, isDirty, isChanged, isLocked, isFree, len: u32(0), dot, view };
    }

    get current() {
      return ifAny(() => one(this, "current", u16));
    }

    get pattern() {
      return shortText(this, "pattern", MOST_IN_PATTERN);
    }

    snarfed(place = 0, runes = undefined) {
      return longText(this, "snarfed", place, runes);
    }

    read(tag, place, count) {
      const runes = [];
      const most = least(count, Math.max(0, this.len(tag) - long(place)));
      while (runes.length < most) {
        const room = Math.min(PIECE / 4, most - runes.length);
        make(this, "read", short(tag), place + runes.length, space(), BigInt(room), result(0));
        for (const rune of module.numbersOut(u32(0))) runes.push(shownRune(rune, null));
      }
      return runes;
    }

    firstGap(tag, place = 0) {
      return ifAny(() => one(this, "first_gap", u32, short(tag), long(place)));
    }
  };

/** The side that holds whole texts and runs commands. */
export class Host extends Side {
  get [PREFIX]() {
    return "sam_host";
  }

  addFile(name, text = "") {
    const pieces = [module.bytesOf(name), module.bytesOf(text)];
    if (pieces.includes(null)) return this.#refuseText(pieces);
    return lendTo(this, pieces, (places) => {
      const words = pieces.flatMap((piece, at) => [places[at], BigInt(piece.length)]);
      return one(this, "add_file", u16, ...words);
    });
  }

  /** Lets the library say why it refuses a text, because more than a surrogate may be wrong. */
  #refuseText(pieces) {
    const wrong = new Uint8Array([0xff]);
    return this.addFile(pieces[0] ?? wrong, pieces[1] ?? wrong);
  }

  nextMessage() {
    return ifAny(() => {
      make(this, "next_message", result(0), result(1));
      return { kind: u8(0), tag: u16(1) };
    });
  }

  step() {
    make(this, "step", result(0));
    return { step: STEPS[u32(3)], kind: didKind(), tag: didTag(), count: u64(2) };
  }

  nextWritten() {
    return ifAny(() => one(this, "next_written", u16));
  }

  *written() {
    for (let tag = this.nextWritten(); tag !== null; tag = this.nextWritten()) yield tag;
  }

  markDirty(tag) {
    make(this, "mark_dirty", short(tag));
  }

  get isDone() {
    return one(this, "is_done", truth);
  }

  get taken() {
    return one(this, "taken", u64);
  }

  hasFile(tag) {
    return one(this, "has_file", truth, short(tag));
  }

  files() {
    return Array.from({ length: this.tags }, (_, tag) => tag).filter((tag) => this.hasFile(tag));
  }

  savedLen(tag) {
    return ifAny(() => one(this, "saved_len", u32, short(tag)));
  }

  saved(tag, place = 0, runes = undefined) {
    return longText(this, "saved", place, runes, short(tag));
  }

  get snarfLen() {
    return one(this, "snarf_len", u32);
  }

  snarf(place = 0, runes = undefined) {
    return longText(this, "snarf", place, runes);
  }
}

/** The side with the windows. */
export class Terminal extends Stepping(Screened(Side)) {
  get [PREFIX]() {
    return "sam_term";
  }

  type(tag, text) {
    makeOfText(this, "type", [short(tag)], text);
  }

  typeText(tag, text) {
    const bytes = module.bytesOf(text);
    if (bytes === null) throw errorOf(isFreed(this) ? Status.NO_HANDLE : Status.NOT_TEXT);
    put(0);
    try {
      makeOfBytes(this, "type_text", [short(tag)], bytes, result(0));
    } catch (error) {
      error.taken = u64(0);
      throw error;
    }
  }

  edit(tag, start, end, text) {
    makeOfText(this, "edit", [short(tag), long(start), long(end)], text);
  }

  select(tag, start, end) {
    make(this, "select", short(tag), long(start), long(end));
  }

  dclick(tag, place) {
    make(this, "dclick", short(tag), long(place));
  }

  scroll(tag, lines) {
    make(this, "scroll", short(tag), long(lines));
  }

  view(tag, place, length) {
    make(this, "view", short(tag), long(place), long(length));
  }

  load(tag, place, length) {
    make(this, "load", short(tag), long(place), long(length));
  }

  setSnarf(text) {
    makeOfText(this, "set_snarf", [], text);
  }

  offerVersion(version) {
    make(this, "offer_version", short(version));
  }

  nextFrame() {
    return ifAny(() => {
      make(this, "next_frame", result(0));
      return { kind: didKind(), tag: didTag(), start: u32(4), gone: u32(4, 4), loads: didLoads() };
    });
  }

  stepEdits(first, most) {
    const length = counted(this, "step_edits", long(first), space(), BigInt(least(most, Math.floor(PIECE / (4 * DID)))));
    const words = module.numbersOut(DID * length);
    return Array.from({ length }, (_, at) => {
      const [start, gone, came, , last] = words.slice(DID * at + 8);
      return { kind: (last >>> 16) & 0xff, tag: last & 0xffff, change: { start, gone, came } };
    });
  }

  isKnown(tag) {
    return one(this, "is_known", truth, short(tag));
  }

  files() {
    return Array.from({ length: this.tags }, (_, tag) => tag).filter((tag) => this.isKnown(tag));
  }

  isChanged(tag) {
    return one(this, "is_changed", truth, short(tag));
  }

  isOpen(tag) {
    return one(this, "is_open", truth, short(tag));
  }

  bytes(tag, start, end) {
    make(this, "bytes", short(tag), long(start), long(end), result(0), result(1));
    return { bytes: u64(0), gaps: u32(1) };
  }

  place(tag, start, bytes) {
    return one(this, "place", u32, short(tag), long(start), size(bytes));
  }

  units(tag, start, end) {
    make(this, "units", short(tag), long(start), long(end), result(0), result(1));
    return { units: u32(0), gaps: u32(1) };
  }

  unitPlace(tag, start, units) {
    return one(this, "unit_place", u32, short(tag), long(start), long(units));
  }

  line(tag, start, lines) {
    return ifAny(() => one(this, "line", u32, short(tag), long(start), long(lines)));
  }

  lineBefore(tag, start, lines) {
    return ifAny(() => one(this, "line_before", u32, short(tag), long(start), long(lines)));
  }

  lines(tag, start, end) {
    make(this, "lines", short(tag), long(start), long(end), result(0), result(1));
    return { lines: u32(0), gaps: u32(1) };
  }

  changed(tag) {
    make(this, "changed", short(tag), result(0), result(1), result(2));
    return { start: u32(0), gone: u32(1), came: u32(2) };
  }

  viewOf(tag) {
    return range(this, "view_of", tag);
  }

  locked(tag) {
    return one(this, "locked", truth, short(tag));
  }
}

/** Gives a class a method, or a reader, for each of these calls. */
function define(kind, calls, descriptor) {
  for (const name of calls) {
    const word = name.replace(/_(\w)/g, (_, letter) => letter.toUpperCase());
    Object.defineProperty(kind.prototype, word, { configurable: true, ...descriptor(name) });
  }
}

const EVENTS_OF_A_FILE = ["cut", "paste", "snarf", "look", "search", "send", "open", "write", "close", "work", "check"];
const EVENTS = ["open_cmd", "new_file", "get_snarf", "flush", "exit", "flush_now"];
const COUNTS = ["events", "decided", "held", "sent", "under_way"];

function method(value) {
  return { writable: true, value };
}

define(Terminal, EVENTS_OF_A_FILE, (name) =>
  method(function (tag) {
    make(this, name, short(tag));
  }),
);
define(Terminal, EVENTS, (name) =>
  method(function () {
    make(this, name);
  }),
);
for (const [calls, as] of [
  [COUNTS, u64],
  [["unsent", "snarf_len"], u32],
  [["command_locked", "exited"], truth],
]) {
  define(Terminal, calls, (name) => ({
    get() {
      return one(this, name, as);
    },
  }));
}
