/* The messages of a session, which samhost and its front ends exchange as the notes of a link: docs/reference/SESSION.md. */
import { MOST_NOTE, bytesIn, callOf } from "./link.js";
import { byte, bytesOf, call, lend, long, part, result, short, size, sizesAt, textOf, u16, u32, u64, u8 } from "./module.js";
import { Status, errorOf } from "./status.js";

const RECORD_SIZE = 64; // bytes of a sam_note
const NOTHING = new Uint8Array(0);

// What follows is written by tools/session_messages, from the tables of docs/reference/SESSION.md.
/** The kinds of messages, with their fields: up to 64 those from the terminal. */
export const NoteKind = Object.freeze({
  OPEN: 1, // request, path: joins the file, or the folder, at the path
  COMPLETE: 2, // request, path: asks for the names that complete the path
  RELOAD: 3, // request, tag: reads a file anew from its disk
  RELOADED: 4, // tag, number: the user's edits have made the file what the file `number` has
  WRITE: 5, // request, tag: asks what becomes of the Twrite of this file that comes next
  SESSION: 65, // number, path, text: the first message: version of the messages, name of the session, machine
  SAID: 66, // text: words for people
  SHOWN: 67, // tag, number: another program wants the file shown at the line `number`, if not 0
  TAKEN_OVER: 68, // text: another terminal, at the machine that the text names, has the session now
  ENDED: 69, // code, number: the session is over, with this exit status: the last message
  OPENED: 70, // request, tag: the file of an Open
  REFUSED: 71, // request, code, text: what was asked for is not done, and why
  NAMES: 72, // request, code, path: names, each with a newline behind it; those of folders end in `/`
  ANEW: 73, // request, number: the file of the tag `number` is hidden; that of an answer has what stands on the disk
  SAVED: 74, // request, tag, code, path, copy, text: a write went to the disk, at the path
  NOT_SAVED: 75, // request, tag, code, path, copy, text: a write failed, and why; its text is in the copy, if not empty
  CHANGED: 76, // tag, code, path, text: another program changed the file, or removed it
  DATED: 77, // tag, number, path: the file was written last at this time, in seconds since 1970
  EARLIER: 78, // tag, code, number, path, copy, text: an earlier session left a text in the copy, of the time `number`
  ASIDE: 79, // tag, code, path, copy, text: a text that is on no disk under its name is in the copy
  LOST: 80, // tag, code, path, text: a text could be saved nowhere, and why
  NO_JOURNAL: 81, // code, text: what is done from now on survives no crash, and why
});

/** What happened, or why. A number that isn't here comes from a later version, and counts as OTHER. */
export const NoteCode = Object.freeze({
  NO_CODE: 0, // nothing to say
  NO_SPACE: 1, // the disk is full
  NO_PERMISSION: 2, // the system allows it not
  READ_ONLY: 3, // it can only be read
  NOT_FOUND: 4, // it is not there
  IS_FOLDER: 5, // it is a folder
  NOT_TEXT: 6, // it is no UTF-8, or has a zero byte
  TOO_LONG: 7, // it has too many characters
  TOO_MANY: 8, // there are too many files
  NO_MEMORY: 9, // out of memory
  NO_NAME: 10, // the file has no name
  CHANGED_SINCE: 11, // another program changed the file; the next write replaces it, and keeps what it has
  EXISTS_ALREADY: 12, // it is there, and this session hasn't read it; the next write replaces it, and keeps what it has
  TAKEN_UNSAVED: 13, // it was not written before this terminal took the session over
  NO_SUCH_FILE: 14, // no file has this tag
  OTHER: 15, // the text says what
  HAS_MORE: 16, // there are more
  REPLACED: 17, // what another program had written there is in the copy
  BROKEN: 18, // a write broke off, and what the file was is in the copy
  NEWER: 19, // the copy is newer than the file
  OLDER: 20, // the copy is older than the file
  CUT: 21, // of what was cut last
  UNNAMED: 22, // of a file without a name
  FAILED: 23, // the disk failed
  UNREADABLE: 24, // it can't be read, so another program may have changed it; the next write replaces it, and keeps what it has
});
// Up to here by tools/session_messages.

const KNOWN = new Set(Object.values(NoteCode));

/** The message that the bytes spell, all of them. */
export function readNote(bytes) {
  callOf(bytes, (place, length) => call("sam_note_read", place, length, result(0)));
  const [kind, code, tag, request, number] = [u8(0), u8(0, 1), u16(0, 2), u32(0, 4), u64(1)];
  const places = sizesAt(result(2), 6);
  const [path, copy, text] = [0, 2, 4].map((at) => bytes.slice(places[at], places[at] + places[at + 1]));
  return { kind, request, tag, code: KNOWN.has(code) ? code : NoteCode.OTHER, number, path, copy, text: textOf(text) };
}

/** The UTF-8 of a text. One that has none, because a surrogate stands alone, gets bytes that are refused, as many as it would take. */
function textBytes(text) {
  const bytes = bytesOf(text);
  if (bytes !== null) return bytes;
  const refused = new TextEncoder().encode(text);
  refused[0] = 0xff;
  return refused;
}

/** The bytes of a message. */
export function writeNote({ kind, request = 0, tag = 0, code = 0, number = 0, path = NOTHING, copy = NOTHING, text = "" }) {
  const pieces = [bytesIn(path), bytesIn(copy), textBytes(text)];
  const record = new DataView(new ArrayBuffer(RECORD_SIZE));
  record.setUint8(0, byte(kind));
  record.setUint8(1, byte(code));
  record.setUint16(2, short(tag), true);
  record.setUint32(4, long(request), true);
  record.setBigUint64(8, size(number), true);
  pieces.forEach((piece, at) => record.setBigUint64(24 + 16 * at, BigInt(piece.length), true));
  return lend([new Uint8Array(record.buffer), ...pieces, new Uint8Array(MOST_NOTE)], (places) => {
    if (places === null) throw errorOf(Status.NO_MEMORY);
    const status = call("sam_note_write", ...places, BigInt(MOST_NOTE), result(0));
    if (status !== Status.OK) throw errorOf(status);
    return part(places[4], u64(0)).slice();
  });
}
