/* The status codes that calls answer, and the errors that carry them. */
import { call, library, textAt } from "./module.js";

/** The status of a call (enum sam_status of sulgrevad.h). */
export const Status = Object.freeze({
  OK: 0,
  NO_MEMORY: 1,
  UNFINISHED: 2,
  COUNT_FULL: 3,
  NO_HANDLE: 4,
  MADE: 5,
  NOT_TEXT: 6,
  NONE: 7,
  WAITING: 8,
  NO_ROOM: 9,
  TOO_MANY: 10,
  ADD_TOO_LONG: 19,
  ADD_NO_TAG: 20,
  BAD_KIND: 33,
  BAD_LENGTH: 34,
  BAD_TEXT: 35,
  TRUNCATED: 36,
  MARK_COMMAND_FILE: 50,
  MARK_NOT_ANNOUNCED: 51,
  HOST_NO_FILE: 65,
  HOST_NOT_OPEN: 66,
  HOST_BAD_POSITION: 67,
  HOST_TOO_LONG: 68,
  HOST_BAD_VERSION: 69,
  HOST_COUNT_FULL: 70,
  HOST_COMMAND_FILE: 72,
  TERM_FROM_THE_FUTURE: 97,
  TERM_NO_FILE: 98,
  TERM_NOT_OPEN: 99,
  TERM_ALREADY_BOUND: 100,
  TERM_BAD_POSITION: 101,
  TERM_TOO_LONG: 102,
  TERM_LOCK_NOT_HELD: 103,
  TERM_COUNT_FULL: 104,
  REFUSAL_EXITED: 129,
  REFUSAL_NO_FILE: 130,
  REFUSAL_NOT_OPEN: 131,
  REFUSAL_BAD_POSITION: 132,
  REFUSAL_TOO_LONG: 133,
  REFUSAL_TEXT_TOO_LONG: 134,
  REFUSAL_COMMAND_FILE: 135,
  REFUSAL_BAD_VERSION: 136,
  SCRIPT_LINE: 161,
  SCRIPT_COUNT_FULL: 162,
  LINK_NOT_A_LINK: 193,
  LINK_OTHER_VERSION: 194,
  LINK_BAD_HELLO: 195,
  LINK_NO_SESSION: 196,
  LINK_OTHER_SESSION: 197,
  LINK_OLD_ATTEMPT: 198,
  LINK_WRONG_COUNT: 199,
  LINK_WRONG_ROLE: 200,
  LINK_NOT_OPEN: 201,
  LINK_TOO_LONG: 202,
  LINK_BAD_KIND: 203,
  LINK_BAD_LENGTH: 204,
  LINK_ACK_AHEAD: 205,
  LINK_NO_ROOM: 206,
  LINK_TOO_MANY_WORDS: 207,
  LINK_TOO_MANY_ANSWERS: 208,
  LINK_WRONG_HELLO: 209,
  NOTE_BAD_KIND: 225,
  NOTE_BAD_FIELD: 226,
  NOTE_BAD_LENGTH: 227,
  NOTE_BAD_PATH: 228,
  NOTE_BAD_TEXT: 229,
  JOURNAL_SHORT: 257,
  JOURNAL_NOT_A_JOURNAL: 258,
  JOURNAL_OTHER_VERSION: 259,
  JOURNAL_DAMAGED_HEAD: 260,
  JOURNAL_DAMAGED: 261,
  JOURNAL_TORN: 262,
  JOURNAL_TOO_LONG: 263,
  SERVER_COUNT_FULL: 289,
  SERVER_NO_RECORD: 290,
  SERVER_NOT_TAKEN: 291,
  SERVER_EFFECT_WAITS: 292,
});

/** The kinds of messages and frames (enum sam_kind of sulgrevad.h); docs/reference/PROTOCOL.md says what each means. */
export const Kind = Object.freeze({
  TVERSION: 1,
  TSTARTCMDFILE: 2,
  TCHECK: 3,
  TREQUEST: 4,
  TORIGIN: 5,
  TSTARTFILE: 6,
  TWORKFILE: 7,
  TTYPE: 8,
  TCUT: 9,
  TPASTE: 10,
  TSNARF: 11,
  TSTARTNEWFILE: 12,
  TWRITE: 13,
  TCLOSE: 14,
  TLOOK: 15,
  TSEARCH: 16,
  TSEND: 17,
  TDCLICK: 18,
  TSTARTSNARF: 19,
  TSETSNARF: 20,
  TACK: 21,
  TEXIT: 22,
  HVERSION: 65,
  HBINDNAME: 66,
  HCURRENT: 67,
  HNEWNAME: 68,
  HMOVNAME: 69,
  HGROW: 70,
  HCHECK: 71,
  HUNLOCK: 72,
  HDATA: 73,
  HORIGIN: 74,
  HUNLOCKFILE: 75,
  HSETDOT: 76,
  HGROWDATA: 77,
  HMOVETO: 78,
  HCLEAN: 79,
  HDIRTY: 80,
  HCUT: 81,
  HSETPAT: 82,
  HDELNAME: 83,
  HCLOSE: 84,
  HSETSNARF: 85,
  HSNARFLEN: 86,
  HACK: 87,
  HEXIT: 88,
});

/** Returns the name of a status and a sentence about it, as "SAM_NOT_TEXT: the bytes are not UTF-8", or "unknown status" for any other
 * number. */
export function statusText(code) {
  if (!Number.isInteger(code) || code < 0 || code >= 2 ** 32) throw new RangeError(`${code} is not from 0 to ${2 ** 32 - 1}`);
  return textAt(call("sam_status_text", code));
}

/** Returns the version of the library: the major, the minor and the patch number. */
export function libraryVersion() {
  const number = library.sam_library_version();
  return [number >>> 16, (number >>> 8) & 0xff, number & 0xff];
}

/** A call that did not answer SAM_OK; `code` is its status. `taken` is how many bytes of a text `typeText` typed all the same. */
export class SamError extends Error {
  taken = 0;

  constructor(code) {
    super(statusText(code));
    this.code = code;
  }

  /** Returns whether the host or terminal has stopped for good: the other side's stream is wrong, or was refused. */
  get isStop() {
    return Boolean(library.sam_is_stop(this.code));
  }
}

/** Out of memory, and the input of the call was not taken: make the call again (SAM_NO_MEMORY). */
export class NoMemory extends SamError {}

/** Out of memory, but the input of the call was taken: the next feed, event or `flushNow` goes on with the work that waits
 * (SAM_UNFINISHED). */
export class Unfinished extends SamError {}

/** A stream of 2^64 bytes, or 2^64 events or connections (SAM_COUNT_FULL). */
export class CountFull extends SamError {}

/** The host, terminal or link was freed (SAM_NO_HANDLE), or was made twice (SAM_MADE). */
export class HandleFault extends SamError {}

/** The text is not UTF-8, or has a surrogate that stands alone (SAM_NOT_TEXT). */
export class NotText extends SamError {}

/** There is no such file, it is not open, or it was never written (SAM_NONE). */
export class Missing extends SamError {}

/** A file can't be added: its name or text is too long, or no tag is left (SAM_ADD_..). The host is as it was. */
export class AddRefused extends SamError {}

/** A file can't be marked as dirty: it is the command file, or the terminal was not told its name yet (SAM_MARK_..). The host is as it
 * was. */
export class MarkRefused extends SamError {}

/** The other side's stream is wrong, and this side has stopped (SAM_BAD_..); or `finish` found that it ends inside a message or frame
 * (SAM_TRUNCATED). */
export class StreamFault extends SamError {}

/** The host refused a message, and has stopped (SAM_HOST_..). */
export class HostRefused extends SamError {}

/** The terminal refused a frame, and has stopped (SAM_TERM_..). */
export class TerminalRefused extends SamError {}

/** An overlay refused an edit of the user (SAM_REFUSAL_..). The overlay is as it was. */
export class EditRefused extends SamError {}

/** A call of a link was refused, or bytes are no hello (SAM_LINK_..). The link goes on. */
export class LinkFault extends SamError {}

/** Bytes are no message of a session, or a message can't be written (SAM_NOTE_..). */
export class NoteFault extends SamError {}

/** A script can't be replayed (SAM_SCRIPT_..). `line` is its first wrong line, counted from 1, or if none is wrong the line at which
 * nothing is there to take; null if a count is full. */
export class ScriptFault extends SamError {
  line = null;
}

const KINDS = {
  SamError,
  NoMemory,
  Unfinished,
  CountFull,
  HandleFault,
  NotText,
  Missing,
  AddRefused,
  MarkRefused,
  StreamFault,
  HostRefused,
  TerminalRefused,
  EditRefused,
  LinkFault,
  NoteFault,
  ScriptFault,
};
for (const [name, kind] of Object.entries(KINDS)) kind.prototype.name = name;

const SINGLE = [undefined, NoMemory, Unfinished, CountFull, HandleFault, HandleFault, NotText, Missing];
// The first number of each family, and the first after it.
const FAMILIES = [
  [16, 32, AddRefused],
  [32, 48, StreamFault],
  [48, 64, MarkRefused],
  [64, 96, HostRefused],
  [96, 128, TerminalRefused],
  [128, 160, EditRefused],
  [160, 192, ScriptFault],
  [192, 224, LinkFault],
  [224, 256, NoteFault],
];

/** Returns the error of a status code. */
export function errorOf(code) {
  const kind = SINGLE[code] ?? FAMILIES.find(([first, end]) => first <= code && code < end)?.[2] ?? SamError;
  return new kind(code);
}
