/* The user's side of a session in one handle: an overlay, and its line to the host. */
import { editsOut, isFollowed, lendRoom, lendReplacements } from "./edits.js";
import { PREFIX, bytesBy, counted, make, makeOfBytes, one } from "./held.js";
import { Clocked } from "./line.js";
import { MOST_NOTE, bytesIn } from "./link.js";
import { NO_TEXT, bytesOf, long, result, short, size, truth, u32, u64 } from "./module.js";
import { Shown } from "./overlay.js";
import { Texts, terminalStep } from "./sides.js";

// enum sam_client_event of sulgrevad.h
const TOLD = ["idle", "busy", "stepped", "refused", "note", "answered", "unanswered", "ran", "lapsed"];
const WITHOUT_STEP = ["idle", "busy", "note"];
const TOLD_PLACE = 8; // a result behind a sam_did
const NO_PATH = new Uint8Array(0);

/** Returns the event that a call has handed out. */
function toldOut() {
  const kind = TOLD[u32(TOLD_PLACE)];
  return { kind, did: WITHOUT_STEP.includes(kind) ? null : terminalStep() };
}

/** The user's side of a session, for a front end whose user never waits, over connections that may break. */
export class Client extends Clocked(Shown(Texts)) {
  get [PREFIX]() {
    return "sam_client";
  }

  nextEvent(now) {
    make(this, "next_event", size(now), result(TOLD_PLACE), result(0));
    return toldOut();
  }

  stepEdits(now, into, gap = "\ufffd") {
    const room = lendRoom(TOLD_PLACE + 1);
    try {
      make(this, "step_edits", size(now), room, result(TOLD_PLACE), result(0));
    } finally {
      into.push(...editsOut(TOLD_PLACE + 1, gap));
    }
    const told = toldOut();
    if (!isFollowed(told)) return told;
    for (const splice of this.splices()) into.push({ ...splice, text: this.#brought(splice, gap) });
    return { kind: "busy", did: null }; // there was no room for the rest of a step
  }

  #brought({ kind, tag, place, count }, gap) {
    const runes = kind === "went" ? [] : this.read(tag, place, count);
    return runes.map((rune) => rune ?? gap).join("");
  }

  *goOn(now) {
    yield* this.splices();
    for (let told = this.nextEvent(now); told.kind !== "idle"; told = this.nextEvent(now)) {
      if (told.kind !== "busy") yield told;
      yield* this.splices();
    }
  }

  get note() {
    return bytesBy(this, "note", MOST_NOTE);
  }

  replaceEach(tag, replacements) {
    return lendReplacements(this, replacements, (...words) => counted(this, "replace_each", short(tag), ...words));
  }

  begin(kind, { path = NO_PATH, tag = 0 }, now) {
    makeOfBytes(this, "begin", [long(kind), short(tag)], bytesIn(path), size(now), result(0));
    return u32(0);
  }

  write(tag) {
    return one(this, "write", u32, short(tag));
  }

  run(tag, line) {
    makeOfBytes(this, "run", [short(tag)], bytesOf(line) ?? NO_TEXT, result(0));
    return u64(0);
  }

  see(tag, start, end) {
    make(this, "see", short(tag), long(start), long(end));
  }

  forget(tag) {
    make(this, "forget", short(tag));
  }

  rest(now) {
    make(this, "rest", size(now));
  }

  get hasAll() {
    return one(this, "has_all", truth);
  }

  isUnsaved(tag) {
    return one(this, "is_unsaved", truth, short(tag));
  }
}
