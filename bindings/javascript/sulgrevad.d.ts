/// <reference lib="esnext.disposable" />
/* The types of the package. A Host is the server: it holds whole texts and runs commands. A Terminal is the client: it holds windows, and
 * of each open text the parts that it has loaded. The dot is the selection, a place an offset in runes, the snarf buffer the clipboard.
 *
 * Places and lengths count runes (Unicode scalar values): a character outside the first plane is one rune, and two of a string's units. A
 * text is a string, or its UTF-8. Once an object was freed, each call of it but `free` throws HandleFault. A call with more than 65,536
 * bytes may throw NoMemory before the faults that its comment names, because the library's memory has no room for them. */

export type Text = string | Uint8Array;
export type Range = { start: number; end: number };

/** The kinds of messages and frames; docs/reference/PROTOCOL.md says what each means. */
export declare const Kind: {
  readonly TVERSION: 1;
  readonly TSTARTCMDFILE: 2;
  readonly TCHECK: 3;
  readonly TREQUEST: 4;
  readonly TORIGIN: 5;
  readonly TSTARTFILE: 6;
  readonly TWORKFILE: 7;
  readonly TTYPE: 8;
  readonly TCUT: 9;
  readonly TPASTE: 10;
  readonly TSNARF: 11;
  readonly TSTARTNEWFILE: 12;
  readonly TWRITE: 13;
  readonly TCLOSE: 14;
  readonly TLOOK: 15;
  readonly TSEARCH: 16;
  readonly TSEND: 17;
  readonly TDCLICK: 18;
  readonly TSTARTSNARF: 19;
  readonly TSETSNARF: 20;
  readonly TACK: 21;
  readonly TEXIT: 22;
  readonly HVERSION: 65;
  readonly HBINDNAME: 66;
  readonly HCURRENT: 67;
  readonly HNEWNAME: 68;
  readonly HMOVNAME: 69;
  readonly HGROW: 70;
  readonly HCHECK: 71;
  readonly HUNLOCK: 72;
  readonly HDATA: 73;
  readonly HORIGIN: 74;
  readonly HUNLOCKFILE: 75;
  readonly HSETDOT: 76;
  readonly HGROWDATA: 77;
  readonly HMOVETO: 78;
  readonly HCLEAN: 79;
  readonly HDIRTY: 80;
  readonly HCUT: 81;
  readonly HSETPAT: 82;
  readonly HDELNAME: 83;
  readonly HCLOSE: 84;
  readonly HSETSNARF: 85;
  readonly HSNARFLEN: 86;
  readonly HACK: 87;
  readonly HEXIT: 88;
};

/** The status of a call (enum sam_status of sulgrevad.h). */
export declare const Status: {
  readonly OK: 0;
  readonly NO_MEMORY: 1;
  readonly UNFINISHED: 2;
  readonly COUNT_FULL: 3;
  readonly NO_HANDLE: 4;
  readonly MADE: 5;
  readonly NOT_TEXT: 6;
  readonly NONE: 7;
  readonly WAITING: 8;
  readonly NO_ROOM: 9;
  readonly TOO_MANY: 10;
  readonly ADD_TOO_LONG: 19;
  readonly ADD_NO_TAG: 20;
  readonly BAD_KIND: 33;
  readonly BAD_LENGTH: 34;
  readonly BAD_TEXT: 35;
  readonly TRUNCATED: 36;
  readonly MARK_COMMAND_FILE: 50;
  readonly MARK_NOT_ANNOUNCED: 51;
  readonly HOST_NO_FILE: 65;
  readonly HOST_NOT_OPEN: 66;
  readonly HOST_BAD_POSITION: 67;
  readonly HOST_TOO_LONG: 68;
  readonly HOST_BAD_VERSION: 69;
  readonly HOST_COUNT_FULL: 70;
  readonly HOST_COMMAND_FILE: 72;
  readonly TERM_FROM_THE_FUTURE: 97;
  readonly TERM_NO_FILE: 98;
  readonly TERM_NOT_OPEN: 99;
  readonly TERM_ALREADY_BOUND: 100;
  readonly TERM_BAD_POSITION: 101;
  readonly TERM_TOO_LONG: 102;
  readonly TERM_LOCK_NOT_HELD: 103;
  readonly TERM_COUNT_FULL: 104;
  readonly REFUSAL_EXITED: 129;
  readonly REFUSAL_NO_FILE: 130;
  readonly REFUSAL_NOT_OPEN: 131;
  readonly REFUSAL_BAD_POSITION: 132;
  readonly REFUSAL_TOO_LONG: 133;
  readonly REFUSAL_TEXT_TOO_LONG: 134;
  readonly REFUSAL_COMMAND_FILE: 135;
  readonly REFUSAL_BAD_VERSION: 136;
  readonly SCRIPT_LINE: 161;
  readonly SCRIPT_COUNT_FULL: 162;
  readonly LINK_NOT_A_LINK: 193;
  readonly LINK_OTHER_VERSION: 194;
  readonly LINK_BAD_HELLO: 195;
  readonly LINK_NO_SESSION: 196;
  readonly LINK_OTHER_SESSION: 197;
  readonly LINK_OLD_ATTEMPT: 198;
  readonly LINK_WRONG_COUNT: 199;
  readonly LINK_WRONG_ROLE: 200;
  readonly LINK_NOT_OPEN: 201;
  readonly LINK_TOO_LONG: 202;
  readonly LINK_BAD_KIND: 203;
  readonly LINK_BAD_LENGTH: 204;
  readonly LINK_ACK_AHEAD: 205;
  readonly LINK_NO_ROOM: 206;
  readonly LINK_TOO_MANY_WORDS: 207;
  readonly LINK_TOO_MANY_ANSWERS: 208;
  readonly LINK_WRONG_HELLO: 209;
  readonly NOTE_BAD_KIND: 225;
  readonly NOTE_BAD_FIELD: 226;
  readonly NOTE_BAD_LENGTH: 227;
  readonly NOTE_BAD_PATH: 228;
  readonly NOTE_BAD_TEXT: 229;
  readonly JOURNAL_SHORT: 257;
  readonly JOURNAL_NOT_A_JOURNAL: 258;
  readonly JOURNAL_OTHER_VERSION: 259;
  readonly JOURNAL_DAMAGED_HEAD: 260;
  readonly JOURNAL_DAMAGED: 261;
  readonly JOURNAL_TORN: 262;
  readonly JOURNAL_TOO_LONG: 263;
  readonly SERVER_COUNT_FULL: 289;
  readonly SERVER_NO_RECORD: 290;
  readonly SERVER_NOT_TAKEN: 291;
  readonly SERVER_EFFECT_WAITS: 292;
};

/** Returns the name of a status and a sentence about it, or "unknown status" for any other number. */
export declare function statusText(code: number): string;
/** Returns the version of the library: the major, the minor and the patch number. */
export declare function libraryVersion(): [number, number, number];
/** Runs a script over a host and a terminal of its own, and returns the output of its `show` lines. Throws ScriptFault, NotText or
 * NoMemory. */
export declare function replay(script: Text): Uint8Array;

/** The memory of the library, which all hosts and terminals share. */
export declare const memory: {
  /** Limits the bytes that the library takes for all that it holds: a call that needs more throws NoMemory or Unfinished. */
  limit(bytes: number): void;
  /** Returns the number of bytes that the library has taken, which it keeps. */
  readonly taken: number;
  /** Returns the number of them that are in use. */
  readonly used: number;
};

/** A call that did not answer SAM_OK; `code` is its status. `taken` is how many bytes of a text `typeText` typed all the same. */
export declare class SamError extends Error {
  code: number;
  taken: number;
  /** Returns whether the host or terminal has stopped for good: the other side's stream is wrong, or was refused. */
  readonly isStop: boolean;
}
/** Out of memory, and the input of the call was not taken: make the call again. */
export declare class NoMemory extends SamError {}
/** Out of memory, but the input of the call was taken: the next feed, event or `flushNow` goes on with the work that waits. */
export declare class Unfinished extends SamError {}
/** A stream of 2^64 bytes, or 2^64 events or connections. */
export declare class CountFull extends SamError {}
/** The host, terminal or link was freed. */
export declare class HandleFault extends SamError {}
/** The text is not UTF-8, or has a surrogate that stands alone. */
export declare class NotText extends SamError {}
/** There is no such file, it is not open, or it was never written. */
export declare class Missing extends SamError {}
/** A file can't be added. The host is as it was. */
export declare class AddRefused extends SamError {}
/** A file can't be marked as dirty: it is the command file, or the terminal was not told its name yet. The host is as it was. */
export declare class MarkRefused extends SamError {}
/** The other side's stream is wrong, and this side has stopped; or `finish` found that it ends inside a message or frame. */
export declare class StreamFault extends SamError {}
/** The result of a step of a host. A field that is not of its step is 0. */
export type HostStep = { step: "idle" | "wrote" | "edited" | "answered"; kind: number; tag: number; count: number };
/** The host refused a message, and has stopped. */
export declare class HostRefused extends SamError {}
/** The terminal refused a frame, and has stopped. */
export declare class TerminalRefused extends SamError {}
/** An overlay refused an edit of the user. The overlay is as it was. */
export declare class EditRefused extends SamError {}
/** A call of a link was refused, or bytes are no hello. The link goes on. */
export declare class LinkFault extends SamError {}
/** Bytes are no message of a session, or a message can't be written. */
export declare class NoteFault extends SamError {}
/** A script can't be replayed; `line` is the line that is wrong or can't be done, counted from 1; null if a count is full. */
export declare class ScriptFault extends SamError {
  line: number | null;
}
/** Returns the error of a status code. */
export declare function errorOf(code: number): SamError;

/** A handle, which host, terminal, overlay, link, line and client share. */
declare class Held {
  /** Frees it, with all the bytes that are pending or kept. Any later call but this one throws HandleFault. */
  free(): void;
  [Symbol.dispose](): void;
}

/** The calls that host and terminal share. */
declare class Side extends Held {
  /** Takes bytes of the other side, in pieces of any length. A host answers each message that is whole; a terminal receives each frame that
   * is whole, and then held events act. Without bytes it goes on with the work that waits after `Unfinished`. Throws, in this order, and
   * the bytes are then not taken: the fault by which this side has stopped before; NoMemory, or a fault, as it goes on with earlier input;
   * CountFull; NoMemory. Two come after the bytes were taken: Unfinished, and the fault by which this side stops. */
  feed(bytes?: Uint8Array): void;
  /** Takes bytes of the other side as `feed` does, but goes no further: `step` does the work. Throws, in this order, and the bytes are then
   * not taken: the fault by which this side has stopped before; a SamError with the code WAITING until a step was idle, or at a terminal
   * locked; CountFull; NoMemory. */
  bring(bytes: Uint8Array): void;
  /** Tests whether the other side's stream may end here. Call it once the input has ended. It changes nothing. Throws, in this order: the
   * fault by which this side has stopped before; Unfinished if some input, or a message that was composed, still waits for memory;
   * StreamFault with the code TRUNCATED if the stream ends inside a message or frame. */
  finish(): void;
  /** Returns the number of bytes of the other side's stream before the frame that is wrong, if this side has stopped by StreamFault; null
   * if it goes on, or has stopped because of a refusal. */
  readonly faultPlace: number | null;
  /** Returns the number of bytes that are pending for the other side. */
  readonly pending: number;
  /** Moves out the pending bytes, all or the first `most`, and returns them. */
  takeOut(most?: number): Uint8Array;
  /** Returns the version of the protocol: 1 or 2. */
  readonly version: number;
  /** Returns a number above the tag of each file: at a host the number of tags that were given. */
  readonly tags: number;
  /** Returns the tags of all files that this side knows, ascending. */
  files(): number[];
  /** Returns the name of a file. Throws Missing if this side knows no file of this tag. */
  name(tag: number): string;
  /** Returns whether a file was edited since it was made or written; at a terminal, as the host said last. Throws Missing if this side
   * knows no file of this tag. */
  isDirty(tag: number): boolean;
  /** Returns the length of a file's text in runes. Throws Missing if there is no such file, or at a terminal if it is not open. */
  len(tag: number): number;
  /** Returns the text of a file from the place `place` on: at most `runes` runes, or all; at a terminal up to the first rune that is not
   * loaded. Throws Missing if there is no such file, or at a terminal if it is not open. */
  text(tag: number, place?: number, runes?: number): string;
  /** Returns the dot of a file: the places where its selection begins and ends. Throws Missing if there is no such file, or at a terminal
   * if it is not open. */
  dot(tag: number): Range;
}

/** The side that holds whole texts and runs commands. It begins with the command file alone, whose tag is 0. */
export declare class Host extends Side {
  /** Adds a file, clean and closed, and returns its tag: 1 for the first, 2 for the next, and so on. A program may call it at any time: the
   * answer to the terminal's next Tversion has the name. Throws, in this order: NotText; AddRefused for a name of more than 64 runes or a
   * text of more than 1,000,000, and then if no tag is left; NoMemory. The host is then as it was. */
  addFile(name: Text, text?: Text): number;
  /** Returns the kind of the oldest message that waits, by the numbers of docs/reference/PROTOCOL.md, and the tag of the file that it
   * names, or 0; null if no message waits. The next step that takes a message begins with this one. */
  nextMessage(): { kind: number; tag: number } | null;
  /** Makes one step with the messages that wait, and returns its result. If frames of the last answer are left over, the step makes them
   * pending. Else the host takes edits of one file that follow each other, with the checks (Tcheck) among them; or, if no edit is next, it
   * answers the oldest message. `feed` makes steps until one is idle. Throws, in this order: the fault by which the host has stopped
   * before; Unfinished if memory is short, and nothing has changed; the fault by which the host stops at this step. */
  step(): HostStep;
  /** Returns the tag of the next file that the terminal asked the host to write (Twrite); null if none is left. Write `saved` of it now.
   * Each Twrite gives its tag once, in order. Ask after each feed, because the saved text is gone once the file is closed. */
  nextWritten(): number | null;
  /** Yields the tags of `nextWritten`, up to the last. */
  written(): Generator<number, void>;
  /** Marks a file as dirty, open or not: for a program whose write of it failed, or that has another text on disk. If the file was clean,
   * the frame that says so (Hdirty) is then pending, behind all answers of before. No text, dot or name changes. A program may call it at
   * any time. Throws, in this order: Missing if the tag has no file; MarkRefused for the command file, and then if the terminal was not
   * told the file's name yet; NoMemory. The host is then as it was. */
  markDirty(tag: number): void;
  /** Returns whether the session is over: the terminal has sent Texit, or a command line was `q`. */
  readonly isDone: boolean;
  /** Returns the number of messages that the host has answered. */
  readonly taken: number;
  /** Returns whether the tag has a file now. The tag of a closed file has none. */
  hasFile(tag: number): boolean;
  /** Returns the length in runes of the text that a file had when it was written last (Twrite); null if it never was, or if the tag has no
   * file. */
  savedLen(tag: number): number | null;
  /** Returns the text that a file had when it was written last (Twrite), from the place `place` on: at most `runes` runes, or all. Throws
   * Missing if the tag has no file, or if the file was never written. */
  saved(tag: number, place?: number, runes?: number): string;
  /** Returns the length of the snarf buffer in runes. */
  readonly snarfLen: number;
  /** Returns the text of the snarf buffer from the place `place` on: at most `runes` runes, or all. */
  snarf(place?: number, runes?: number): string;
}

/** An event of the user that was refused: its number, counted from 1 over all event calls, and the reason (Status.REFUSAL_..). */
export type Refusal = { event: number; why: number };
/** A change of a text: from the place `start` on, `gone` runes or gaps of the old text gave way to `came` of the new one. */
export type Change = { start: number; gone: number; came: number };
/** The state of a terminal. Each field is the result of the reader of its name. */
export type TerminalState = {
  events: number;
  decided: number;
  held: number;
  sent: number;
  underWay: number;
  pending: number;
  tags: number;
  unsent: number;
  snarfLen: number;
  version: number;
  commandLocked: boolean;
  exited: boolean;
};
/** The state of a terminal's file. If there is no such file, or it is not open, the fields that need it are 0 or false. */
export type FileState = {
  isKnown: boolean;
  isOpen: boolean;
  isDirty: boolean;
  isChanged: boolean;
  isLocked: boolean;
  /** Whether an edit would act at once: the file is open and not locked, no frame waits, no event is held, not even one of another file,
   * and the session goes on. */
  isFree: boolean;
  len: number;
  dot: { start: number; end: number };
  view: { start: number; end: number };
};
/** The result of a step of a terminal: `event` is the number of an event that acted or was refused, and `why` the status of a refusal.
 * `loads` says whether a frame loaded runes in the place of gaps: more of the text is known then, and nothing changed. `request` is the
 * number of the request of a client or an overlay that acted or was refused, as `ask` returned it, `task` that of the task of a client that
 * ends by this, as `begin` or `write` returned it. A field that is not of its step is 0 or false. */
export type TerminalStep = {
  step: "idle" | "locked" | "wrote" | "received" | "acted" | "refused";
  kind: number;
  tag: number;
  change: Change;
  loads: boolean;
  event: number;
  request: number;
  task: number;
  why: number;
};

/** The side with the windows. It begins without any file.
 *
 * An event of the user acts at once if it can. Else it is held until the locks that it waits for are free and the events before it have
 * acted. The call of an event throws, in this order, and the event is then not taken: NotText, and then NoMemory, if it brings a text; the
 * fault by which the terminal has stopped before; NoMemory, or a fault, as the terminal goes on with earlier input; CountFull; NoMemory.
 * Two come after the event was taken: Unfinished, and the fault by which the terminal stops.
 *
 * An event that was taken may be refused, at once or later: it does nothing, and `refusals` reports its number and the reason. The reasons
 * of all events come first, in this order (Status.REFUSAL_..): EXITED if the session is over; and of an event that names a file NO_FILE if
 * the terminal doesn't know it, and NOT_OPEN if it is not open. */
export declare class Terminal extends Side {
  /** Types a text in the place of the selection, which is then empty and after the text. Refused, in this order: EXITED; NO_FILE; NOT_OPEN;
   * TEXT_TOO_LONG for more than 512 runes; TOO_LONG if the file would have more than 1,000,000. Throws NotText, too. */
  type(tag: number, text: Text): void;
  /** Types a text of any length, in events of 512 runes each, but for the last. The first event that isn't answered well is the last: what
   * was taken before it stays, and the error's `taken` is how many bytes of the text, in UTF-8, that is. After Unfinished the event's own
   * bytes count, too. Each event may be refused as one of `type`. Throws NotText, too. */
  typeText(tag: number, text: Text): void;
  /** Replaces the runes from the place `start` to the place `end` by a text of any length, all or nothing. An empty text takes the runes
   * out. The places are those of the file's text when the event acts. The dot moves as other places do. Refused, in this order: EXITED;
   * NO_FILE; COMMAND_FILE for tag 0; NOT_OPEN; BAD_POSITION for a range that the file's text doesn't have; TOO_LONG if the file would have
   * more than 1,000,000 runes. Throws NotText, too. */
  edit(tag: number, start: number, end: number, text: Text): void;
  /** Selects the runes from the place `start` to the place `end`: they are the dot. Refused, after the reasons of all events: BAD_POSITION
   * for a range that the file's text doesn't have. */
  select(tag: number, start: number, end: number): void;
  /** Selects the word round a place. Refused, after the reasons of all events: BAD_POSITION if the place is after the end. */
  dclick(tag: number, place: number): void;
  /** Cuts the selection into the snarf buffer. Nothing changes if the selection is empty. */
  cut(tag: number): void;
  /** Copies the selection into the snarf buffer. Nothing changes if the selection is empty. */
  snarf(tag: number): void;
  /** Pastes the snarf buffer in the place of the selection, and selects it. If the buffer is empty, or the file would have more than
   * 1,000,000 runes, the selection goes and nothing comes, and nothing is refused. */
  paste(tag: number): void;
  /** Selects the next occurrence of the selected text, which becomes the pattern. Nothing changes if the selection is empty or has more
   * than 128 runes. */
  look(tag: number): void;
  /** Selects the next occurrence of the pattern. Nothing changes if there is no pattern or no occurrence. */
  search(tag: number): void;
  /** Prints the selected text in the command file, and runs its last line as a command line. Nothing changes if the selection is empty, or
   * if the command file would have more than 1,000,000 runes. */
  send(tag: number): void;
  /** Scrolls the view of the file up by `lines` lines. */
  scroll(tag: number, lines: number): void;
  /** Shows at most `length` runes of the file from the place `place` on, and asks for those that are not loaded: for at most 512 at a time,
   * and then for the next. Refused, after the reasons of all events: BAD_POSITION if the place is after the end. */
  view(tag: number, place: number, length: number): void;
  /** Shows the same runes as `view`, and asks at once for all that are not loaded. Refused as `view` is. */
  load(tag: number, place: number, length: number): void;
  /** Asks for the first gap that the view shows. The host answers, and no text changes. */
  check(tag: number): void;
  /** Opens a file. Command lines work on it then. All other events of a file need it open. Refused, in this order: EXITED; NO_FILE;
   * COMMAND_FILE for tag 0. */
  open(tag: number): void;
  /** Opens the command file. */
  openCmd(): void;
  /** Makes an empty file, and opens it. Command lines work on it then. If all tags are given it makes none. */
  newFile(): void;
  /** Asks the host to write a file: the host keeps a copy of its text, and the file is then clean. Refused as `close` is. */
  write(tag: number): void;
  /** Closes a file for good: the host drops its text, written or not. Refused, in this order: EXITED; NO_FILE; COMMAND_FILE for tag 0;
   * NOT_OPEN. */
  close(tag: number): void;
  /** Makes a file, with its dot, the one that command lines work on. Refused as `close` is. */
  work(tag: number): void;
  /** Asks for the host's snarf buffer: `snarfed` returns it once the answer has come. */
  getSnarf(): void;
  /** Gives the host another snarf buffer: at most 4,096 bytes, or 32,000 in version 2. Refused, in this order: EXITED; TEXT_TOO_LONG for a
   * longer text. Throws NotText, too. */
  setSnarf(text: Text): void;
  /** Offers a version of the protocol, and asks for the names of all files. Before it the terminal knows none of them, and refuses each
   * event on one. Events after it wait for the answer. Offer the version again to learn of files that joined the host since. Refused, in
   * this order: EXITED; BAD_VERSION for version 0. */
  offerVersion(version: number): void;
  /** Sends the typed runes, once the events before this one have acted. */
  flush(): void;
  /** Ends the session. */
  exit(): void;
  /** Composes the typed runes that are not sent yet. Call it when the user pauses. Throws, in this order: the fault by which the terminal
   * has stopped before; NoMemory, or a fault, as it goes on with earlier input; TerminalRefused with the code TERM_COUNT_FULL after 2^64-1
   * messages, and then NoMemory: the runes are as they were. Two come after the runes were composed: Unfinished, and the fault by which
   * the terminal stops. */
  flushNow(): void;
  /** Returns the oldest frame that waits, as the step that receives it will say it: its kind, its file or 0, and the place in its text from
   * which on `gone` runes or gaps will give way; null if no frame waits. So a program can read the runes that will go. */
  nextFrame(): { kind: number; tag: number; start: number; gone: number; loads: boolean } | null;
  /** Makes steps as long as the next frame edits a text, at most `most` and never more than 1,170, and returns their results. All edits are
   * of one file. None begins before the place `first`, and none ends after the place where the one before it began. So a program can read
   * the runes that go before the call, and the runes that came after it. If no edit was received it throws as `step` does; else the next
   * step does. */
  stepEdits(first: number, most: number): { kind: number; tag: number; change: Change }[];
  /** Makes one step with the frames and events that wait, and returns its result. If messages that were composed last are left over, the
   * step makes them pending. Else the terminal receives the oldest frame. If no frame waits, the oldest event acts or is refused. `feed`
   * makes steps until one is idle or locked. Throws, in this order: the fault by which the terminal has stopped before; Unfinished if
   * memory is short, and nothing has changed; the fault by which the terminal stops at this step. */
  step(): TerminalStep;
  /** Returns the state of the terminal by one call. */
  state(): TerminalState;
  /** Returns the state of a file by one call. A tag without a file is no error. */
  file(tag: number): FileState;
  /** Returns the oldest refused event that was not handed out yet; null if there is none. */
  nextRefusal(): Refusal | null;
  /** Yields the refused events that were not handed out yet, oldest first. */
  refusals(): Generator<Refusal, void>;
  /** Returns the number of event calls that were taken. Right after one it is the number of its event, by which a refusal names it. */
  readonly events: number;
  /** Returns the number of events that have acted or were refused. Events are done in order, so the event that was made last is held if
   * this is below `events`. */
  readonly decided: number;
  /** Returns the number of held events. */
  readonly held: number;
  /** Returns whether the terminal knows a file of this tag. */
  isKnown(tag: number): boolean;
  /** Returns whether a file is open. */
  isOpen(tag: number): boolean;
  /** Returns whether a file may differ from the text that was written last: the host said that it is dirty, or the user changed it here
   * since. */
  isChanged(tag: number): boolean;
  /** Returns the tag of the file that the host's answer to `work` or `newFile` named last; null before the first. */
  readonly current: number | null;
  /** Returns the runes of an open file from the place `place` on, at most `count`; null stands for one that is not loaded. Throws Missing
   * if the file is not open. */
  read(tag: number, place: number, count: number): (string | null)[];
  /** Counts the bytes that the loaded runes of an open file take in UTF-8 from the place `start` to the place `end`, and the runes there
   * that are not loaded. Throws Missing if the file is not open. */
  bytes(tag: number, start: number, end: number): { bytes: number; gaps: number };
  /** Returns the place after the loaded runes of an open file that `bytes` bytes of UTF-8 hold whole, from the place `start` on. It is at
   * the latest the first gap, or the end of the text. Throws Missing if the file is not open. */
  place(tag: number, start: number, bytes: number): number;
  /** Counts the code units that the loaded runes of an open file take in UTF-16, as a string of JavaScript has them, from the place `start`
   * to the place `end`, and the runes there that are not loaded. Throws Missing if the file is not open. */
  units(tag: number, start: number, end: number): { units: number; gaps: number };
  /** Returns the place after the loaded runes of an open file that `units` code units of UTF-16 hold whole, from the place `start` on. It
   * is at the latest the first gap, or the end of the text. Throws Missing if the file is not open. */
  unitPlace(tag: number, start: number, units: number): number;
  /** Returns the place after the next `lines` line ends of an open file, from the place `start` on; null if a gap or the end comes before,
   * or if the file is not open. */
  line(tag: number, start: number, lines: number): number | null;
  /** Returns the place where a line of an open file begins: the line that is `lines` lines before the line of the place `start`, or that
   * line itself for 0. Returns null if a gap comes first, if there are fewer lines, if the place is after the end, or if the file is not
   * open. */
  lineBefore(tag: number, start: number, lines: number): number | null;
  /** Counts the line ends among the loaded runes of an open file from the place `start` to the place `end`, and the runes there that are
   * not loaded. Throws Missing if the file is not open. */
  lines(tag: number, start: number, end: number): { lines: number; gaps: number };
  /** Returns the change of an open file's text since the last call for this file: the smallest stretch that holds all that each frame and
   * each event touched, loading included. On the first call its text was empty before. Throws, in this order: Missing if the file is not
   * open; NoMemory, on the first call for a file alone. */
  changed(tag: number): Change;
  /** Returns the first place of an open file, at or after `place`, whose rune is not loaded; null if there is none, or if the file is not
   * open. */
  firstGap(tag: number, place?: number): number | null;
  /** Returns the view of an open file: the places where it begins and ends. Throws Missing if the file is not open. */
  viewOf(tag: number): Range;
  /** Returns whether an edit of the file would wait for the command lock, or for a lock of the file. */
  locked(tag: number): boolean;
  /** Returns whether the command lock is held. */
  readonly commandLocked: boolean;
  /** Returns the number of typed runes that are not sent yet. */
  readonly unsent: number;
  /** Returns the number of messages that were composed. */
  readonly sent: number;
  /** Returns the number of messages in flight: those that were composed and that the host has not taken, as far as its frames say. It is an
   * upper bound, and 0 if the host has taken all. */
  readonly underWay: number;
  /** Returns the pattern that the host reported last. */
  readonly pattern: string;
  /** Returns the snarfed text that the host sent last (`getSnarf`), from the place `place` on: at most `runes` runes, or all. */
  snarfed(place?: number, runes?: number): string;
  /** Returns the length of the host's snarf buffer in runes, as the host said last. */
  readonly snarfLen: number;
  /** Returns whether the host has ended the session. */
  readonly exited: boolean;
}

/** The events that an overlay or a client takes: those that leave each text but that of the command file. Each does what the method of a
 * terminal does that has its name; those of _CMD do it at the command file. */
export declare const EventKind: {
  readonly SELECT: 1;
  readonly DCLICK: 2;
  readonly LOOK: 3;
  readonly SEARCH: 4;
  readonly FLUSH: 5;
  readonly SNARF: 6;
  readonly GET_SNARF: 7;
  readonly SET_SNARF: 8;
  readonly VIEW: 9;
  readonly LOAD: 10;
  readonly SCROLL: 11;
  readonly CHECK: 12;
  readonly OPEN: 13;
  readonly NEW_FILE: 14;
  readonly WRITE: 15;
  readonly CLOSE: 16;
  readonly OPEN_CMD: 17;
  readonly WORK: 18;
  readonly SEND: 19;
  readonly OFFER_VERSION: 20;
  readonly EXIT: 21;
  readonly TYPE_CMD: 22;
  readonly CUT_CMD: 23;
  readonly PASTE_CMD: 24;
};

/** The fields of an event: 0 or empty if they are not given. */
export type EventFields = { tag?: number; start?: number; number?: number; version?: number; text?: Text };

/** A change of the shown text of a file. `came`: `count` runes or gaps came in at the place; `went`: so many from the place on went;
 * `filled`: the runes from the place on are loaded now, and nothing moved; `emptied`: the text is empty, because the file was opened or
 * closed. Of several by one step each is made in the text that the ones before it left. */
export type Splice = { kind: "came" | "went" | "filled" | "emptied"; tag: number; place: number; count: number };

/** A change of the shown text of a file with the runes that came or were loaded, in which a sign stands for each that is not loaded; an
 * empty text for `went`. */
export type ShownEdit = Splice & { text: string };

/** One of several replacements: the shown runes from the place `start` to the place `end` give way to a text. */
export type Replacement = { start: number; end: number; text: Text };

/** Runes that an overlay or a client gives back, because the host left no room for them: `count` of them went of the shown text at the
 * place, which is 0 if a later edit had taken them out, and `text` is all of them. */
export type Dropped = { tag: number; place: number; count: number; text: string };

/** What overlay and client share: the shown texts, how they change, and what can be read of the terminal. */
declare class Shown extends Held {
  /** Asks for what is no edit, by its number in EventKind. It stands in one order with the edits: it acts as a client goes on, or by
   * `actNext` of an overlay, once all edits before it are put, and finds the text that is shown now, with the host's changes since. The
   * fields are those of `bringEvent` of an overlay. Returns the number of the request, by which `nextEvent` of a client or `step` of an
   * overlay tells once that it acted or was refused; a write that would find the same text as one that waits is that one, and has its
   * number. Throws, in this order, and all is then as it was: NotText; NoMemory; Missing if no event has this kind; CountFull after 2^64-1
   * requests; a SamError with the code WAITING while an edit was put that has not acted: go on first; one with the code TOO_MANY if 1,000
   * requests wait; CountFull; NoMemory. */
  ask(kind: number, fields?: EventFields): number;
  /** Returns the number of requests that wait, those not among them that the terminal has. */
  readonly requests: number;
  /** Returns the next change of the shown text by the last step; null if none is left. */
  nextSplice(): Splice | null;
  /** Yields the changes of the shown text by the last step that were not handed out yet. */
  splices(): Generator<Splice, void>;
  /** Takes back the next insertion that waits over a file, if an edit could act at once and the file has no room for this one: that is
   * where `putNext` of an overlay throws EditRefused (REFUSAL_TOO_LONG). Returns it; null if nothing is to be taken back. Throws, in this
   * order, and all is then as it was: a SamError with the code WAITING if splices are left; NoMemory. */
  dropNext(tag: number): Dropped | null;
  /** Returns the state of the terminal by one call. */
  state(): TerminalState;
  /** Returns the state of a file by one call. A tag without a file is no error. Length, dot and view are those of the terminal's text. */
  file(tag: number): FileState;
  /** Returns the name of a file. Throws Missing if the terminal knows no file of this tag. */
  name(tag: number): string;
  /** Returns the tag of the file that the host's answer to WORK or NEW_FILE named last; null before the first. */
  readonly current: number | null;
  /** Returns the pattern that the host reported last. */
  readonly pattern: string;
  /** Returns the snarfed text that the host sent last (GET_SNARF), from the place `place` on: at most `runes` runes, or all. */
  snarfed(place?: number, runes?: number): string;
  /** Returns the number of bytes of the host's stream before the frame that is wrong, if the terminal has stopped by StreamFault; null
   * if it goes on, or has stopped because of a refusal. */
  readonly faultPlace: number | null;
  /** Returns the number of runes that wait over a file, those that a later edit takes out among them. It is 0 if the file is not open,
   * or if only what takes runes out waits. */
  waiting(tag: number): number;
  /** Returns the first file from the tag `from` on over which an edit waits, also one that only takes runes out; null if there is none. */
  nextWaiting(from?: number): number | null;
  /** Returns whether an edit waits over a file, also one that only takes runes out. */
  isWaiting(tag: number): boolean;
  /** Returns the length of the shown text of an open file in runes, gaps counted. Throws Missing if the file is not open. */
  len(tag: number): number;
  /** Returns the first place of the shown text of a file, at or after `place`, whose rune is not loaded; null if the file is not open,
   * or if all are loaded from there on. */
  firstGap(tag: number, place?: number): number | null;
  /** Returns the shown runes of an open file from the place `place` on, at most `count`; null stands for one that is not loaded. Throws
   * Missing if the file is not open. */
  read(tag: number, place: number, count: number): (string | null)[];
  /** Returns the shown text of an open file from the place `place` on, up to the first rune that is not loaded: at most `runes` runes, or
   * all. Throws Missing if the file is not open. */
  text(tag: number, place?: number, runes?: number): string;
}

/** A terminal for an editor that has a text of its own and takes each key at once. What the user does is shown at once, also while the file
 * is locked. Until the file is free it waits over the terminal's text, and the host's changes go through it.
 *
 *     overlay.replace(tag, 5, 5, "!");              the user typed: it is shown from now on
 *     overlay.bring(bytes);                         bytes of the host
 *     for (const splice of overlay.goOn(tag)) ..    it goes on as far as it can, and puts what waits over this file
 *     socket.send(overlay.takeOut());               bytes for the host
 *
 * Places count runes and gaps of the shown text. An editor that takes each splice before it tells of an edit has the shown text as its own,
 * and its places are always right. A replacement makes no splice. */
export declare class Overlay extends Shown {
  /** Replaces the shown runes from the place `start` to the place `end` by a text of any length, all or nothing. The new runes stand behind
   * what is shown before `start`. They are shown at once, and wait for `putNext`; no lock refuses them, and no request that was asked for
   * before finds them. Throws, in this order, and the overlay is then as it was: NotText; NoMemory; a SamError with the code WAITING if
   * splices are left; EditRefused (REFUSAL_EXITED) if a request waits that ends the session, (REFUSAL_NOT_OPEN) if one waits that closes
   * the file, (REFUSAL_EXITED) if the session is over; the fault by which the terminal has stopped; EditRefused (REFUSAL_NO_FILE,
   * REFUSAL_COMMAND_FILE for tag 0, REFUSAL_NOT_OPEN, REFUSAL_BAD_POSITION for a range that the shown text doesn't have, REFUSAL_TOO_LONG
   * if these runes, the terminal's text and all that waits over it are more than 1,000,000); NoMemory, also while an edit of the file was
   * put that has not acted. */
  replace(tag: number, start: number, end: number, text: Text): void;
  /** Puts the next edit of those that wait over a file as an event, if it can act at once and stands behind no request of the file or of
   * the command lock, and returns what became of it: `nothing` if none waits; `not free` if it waits on; `edit` if it was put: the next
   * step has it act. Throws, in this order, and the overlay is then as it was: the fault by which the terminal has stopped; EditRefused
   * (REFUSAL_TOO_LONG) if the file would have more than 1,000,000 runes, because the host put more in meanwhile; CountFull; NoMemory. */
  putNext(tag: number): "nothing" | "not free" | "edit";
  /** Has the oldest request act, if all edits before it are put and it can act at once, and returns what became of it: `nothing` if none
   * waits; `not yet` if it waits on; `request` if the terminal has it: the next step has it act. Call it before `putNext`. Throws, in this
   * order, and the overlay is then as it was: the fault by which the terminal has stopped; CountFull; NoMemory. */
  actNext(): "nothing" | "not yet" | "request";
  /** Takes an event beside the requests that wait, by its number in EventKind; `step` has it act. `start` and `number` are the range of
   * SELECT; for DCLICK, VIEW and LOAD the place and how many runes; for SCROLL `number` is how many lines. `version` is that of
   * OFFER_VERSION, `text` that of SET_SNARF and TYPE_CMD. An event acts on the terminal's text, so put all that waits over its file first,
   * or `ask` for it. Throws, in this order, and the overlay is then as it was: NotText; NoMemory; Missing if no event has this kind; the
   * fault by which the terminal has stopped; a SamError with the code WAITING until a step was idle or locked, and while an edit was put
   * that has not acted; CountFull; NoMemory. */
  bringEvent(kind: number, fields?: EventFields): void;
  /** Takes bytes of the host, in pieces of any length, and goes no further: `step` does the work. Throws, in this order, and the bytes are
   * then not taken: the fault by which the terminal has stopped before; a SamError with the code WAITING until a step was idle or locked,
   * and while an edit was put that has not acted; CountFull; NoMemory. */
  bring(bytes: Uint8Array): void;
  /** Makes one step with the frames and events that wait, as that of a terminal, and returns its result, whose change is that of the
   * terminal's text. `splices` then has the changes of the shown text. Throws, in this order: a SamError with the code WAITING if
   * splices of an earlier step are left; the fault by which the terminal has stopped; Unfinished if memory is short, and nothing has
   * changed; the fault by which the terminal stops at this step. */
  step(): TerminalStep;
  /** Makes all steps that can be made without the host, has requests act, puts what waits over these files as they are free, and yields
   * each change of the shown text. Take all: it goes no further than they are taken. Throws as `step`, `actNext` and `putNext` do. */
  goOn(...tags: number[]): Generator<Splice, void>;
  /** Tests whether the host's stream may end here, as that of a terminal does. It changes nothing. */
  finish(): void;
  /** Returns the number of bytes that are pending for the host. */
  readonly pending: number;
  /** Moves out the pending bytes, all or the first `most`, and returns them. */
  takeOut(most?: number): Uint8Array;
  /** Returns the oldest refused event that was not handed out yet, by its number among all events and all edits that were put; null if
   * there is none. */
  nextRefusal(): Refusal | null;
  /** Yields the refused events that were not handed out yet, oldest first. */
  refusals(): Generator<Refusal, void>;
}

/** The kinds of a hello: a terminal says one of the first three, a host one of the others. */
export declare const What: {
  readonly BEGIN: 1;
  readonly RESUME: 2;
  readonly TAKE_OVER: 3;
  readonly WELCOME: 4;
  readonly NOT_A_LINK: 17;
  readonly OTHER_VERSION: 18;
  readonly BAD_HELLO: 19;
  readonly NO_SESSION: 20;
  readonly OTHER_SESSION: 21;
  readonly OLD_ATTEMPT: 22;
  readonly WRONG_COUNT: 23;
};

/** A hello: its kind, the id of its session, and the number of its connection. */
export type Hello = { what: number; id: Uint8Array; attempt: number };

/** Reads the hello with which the bytes begin, and returns it; null if nothing is wrong so far, but there are fewer than 42. Throws
 * LinkFault, in this order: LINK_NOT_A_LINK as soon as the bytes differ from the mark; LINK_OTHER_VERSION with the ninth byte;
 * LINK_BAD_HELLO with the tenth. */
export declare function readHello(bytes: Uint8Array): Hello | null;

/** Returns the hello by which a host refuses a connection, for one of Status.LINK_NOT_A_LINK to LINK_WRONG_COUNT. It names the session and
 * the connection of the hello with which the bytes begin; if `readHello` reads none, it names all zeros. Throws Missing for any other
 * status. */
export declare function writeRefusal(status: number, bytes: Uint8Array): Uint8Array;

/** The place of bytes of the other side's program in a piece: `len` of them, behind its first `start`. */
export type Place = { start: number; len: number };

/** One end of a link, which carries bytes and notes over connections that may break at any byte: each comes out at the other side once and
 * in order. It opens no connection and knows no clock. The terminal's side opens a connection and calls, the host's answers:
 *
 *     const attempt = link.call();          a connection was opened; it has this number
 *     socket.send(link.takeOut(attempt));   the hello first
 *     link.welcomed(first42Bytes);          and then the rest
 *     link.feed(attempt, bytes);
 *     link.takeIn();                        the program's bytes among them, until there are none; then nextNote()
 *
 * A put, a note, a piece and a hello are taken whole or not at all: if a call throws nothing has changed, but that after LINK_BAD_KIND,
 * LINK_BAD_LENGTH and LINK_ACK_AHEAD of `feed`, `feedInto` and `feedPlaces` the connection is over. */
export declare class Link extends Held {
  /** The roles: a terminal's end calls, and a host's answers. */
  static readonly TERMINAL: 0;
  static readonly HOST: 1;
  /** The states of a connection, which `phase` has. */
  static readonly DOWN: 0;
  static readonly ASKING: 1;
  static readonly OPEN: 2;

  /** Makes the end of one side, TERMINAL or HOST, before its first connection. The id is the session's name: 16 bytes that the terminal
   * chose at random. It is no secret. Throws RangeError for an id of another length, LinkFault for another role, NoMemory. */
  constructor(role: number, id: Uint8Array);
  /** Begins a connection that the program has opened, at the terminal's end: the connection before is over. Returns its number, counted
   * from 1, which names it in the calls below. With `takeOver`, the session is to begin with the texts of another, as long as no host has
   * welcomed this end. Throws, in this order: LinkFault (LINK_WRONG_ROLE); CountFull. */
  call(takeOver?: boolean): number;
  /** Takes the host's hello at the terminal's end: the first 42 bytes that came on the newest connection. Throws the faults of `readHello`,
   * and Missing for fewer bytes; then LinkFault, in this order: LINK_WRONG_ROLE; LINK_NOT_OPEN if no call waits for a welcome; the host's
   * reason, if the host refuses; LINK_BAD_HELLO; LINK_OTHER_SESSION; LINK_OLD_ATTEMPT; LINK_WRONG_COUNT. */
  welcomed(hello: Uint8Array): void;
  /** Takes a connection at the host's end by its first 42 bytes, the terminal's hello: the connection before is over. Its number is the one
   * that `readHello` returns. Throws the faults of `readHello`, and Missing for fewer bytes; then LinkFault, in this order:
   * LINK_WRONG_ROLE; LINK_BAD_HELLO; LINK_NO_SESSION; LINK_OTHER_SESSION; LINK_OLD_ATTEMPT; LINK_WRONG_COUNT. The older connection goes on
   * then. */
  answer(hello: Uint8Array): void;
  /** Ends a connection at this end, because it broke or because the program gives it up. Nothing changes if it isn't the newest. */
  broken(attempt: number): void;
  /** Puts bytes for the other side's program, all or none, with or without a connection. Throws, in this order: CountFull if the stream
   * would have more than 2^64-1 bytes; NoMemory. */
  put(bytes: Uint8Array): void;
  /** Puts a note behind all bytes that were put: it comes out after these bytes and before later ones. Throws, in this order: LinkFault
   * (LINK_TOO_LONG) for more than 4,096 bytes; CountFull; NoMemory. */
  putNote(bytes: Uint8Array): void;
  /** Asks the other side to acknowledge now: if no byte comes, the line is broken. Throws, in this order: CountFull; NoMemory. */
  ask(): void;
  /** Acknowledges all bytes that have come. The end does so by itself when it is asked, and after each 16,384 bytes. Throws, in this order:
   * CountFull; NoMemory. */
  acknowledge(): void;
  /** Returns the next bytes for a connection, at most `most`, and never more than 65,536; none if there are none: first the hello, and then
   * the stream from the place where this connection goes on. Before the welcome, a terminal's end hands out bytes of the stream on the
   * first connection alone. Throws LinkFault (LINK_NOT_OPEN) if the connection is over or isn't the newest. */
  takeOut(attempt: number, most?: number): Uint8Array;
  /** Takes bytes that came on a connection after the hello, in pieces of any length, all or none. Throws, in this order: LinkFault
   * (LINK_NOT_OPEN) if the connection is over, isn't the newest, or has no hello yet; CountFull; NoMemory, and the piece may be fed again.
   * Three other faults end the connection: LINK_BAD_KIND or LINK_BAD_LENGTH if the piece has a wrong packet; else LINK_ACK_AHEAD if it
   * acknowledges bytes that this connection wasn't given. */
  feed(attempt: number, bytes: Uint8Array): void;
  /** Takes bytes that came as `feed` does, and returns the next bytes of the other side's program, at most `most`, never more than 65,536,
   * and none behind a note: `takeIn` has those after them. Throws as `feed` does. */
  feedInto(attempt: number, bytes: Uint8Array, most?: number): Uint8Array;
  /** Takes bytes that came as `feed` does, and returns the places in `bytes` of the next bytes of the other side's program:
   * `bytes.subarray(start, start + len)` has them. There are such places only if nothing is left of earlier pieces, no note and no part of
   * a packet: then they are those of whole packets, at most `most`, never more than 256, and none behind a note. `takeIn` has all other
   * bytes. Throws as `feed` does. */
  feedPlaces(attempt: number, bytes: Uint8Array, most?: number): Place[];
  /** Returns the next bytes of the other side's program, at most `most` and of one packet. Call it until it returns none: then a note is
   * next, or nothing. */
  takeIn(most?: number): Uint8Array;
  /** Returns the note that is next; null if bytes before it are not taken in yet, or if none has come. */
  nextNote(): Uint8Array | null;
  /** Returns the state of the newest connection: DOWN if there is none, or it is over; ASKING if the terminal has called; OPEN if both
   * sides have said hello. */
  readonly phase: number;
  /** Returns the number of the newest connection, or 0 before the first. */
  readonly attempt: number;
  /** Returns the number of bytes of this side's stream, heads of packets included. */
  readonly putCount: number;
  /** Returns the number of bytes of this side's stream that the other side has acknowledged. All bytes that were put by some time have come
   * once this number is at least that of `putCount` at that time. */
  readonly acknowledged: number;
  /** Returns the number of bytes of this side's stream that the newest connection has not been given. */
  readonly unsent: number;
  /** Returns the number of bytes of the other side's stream that have come. */
  readonly received: number;
}

/** What a program is to do for its line or its client (enum sam_tick of sulgrevad.h). */
export declare const Tick: {
  readonly NOTHING: 0;
  readonly CONNECT: 1;
  readonly DROP: 2;
  readonly ASK: 3;
};

/** The state, the counts and the times of a line. `state` is one of Line.DOWN to Line.LOST. `why` is the status of the host's reason if the
 * line is lost, else Status.OK. Times are in milliseconds: `silence` is that for which nothing has come, though something was due, and
 * `roundTrip` that of the last question. After `overdueAfter` of silence the user is to know that an answer is overdue. Counts are in
 * bytes, but for `failures`, the connections that failed one after another, up to 6, and `attempt`, the number of the newest one.
 * `isKnown` says whether a host has welcomed the line, `isBroken` whether there is no connection, though there was one, or one has failed,
 * and `hasAll` whether the host has acknowledged all that was put. */
export type LineDetails = {
  silence: number;
  roundTrip: number;
  overdueAfter: number;
  failures: number;
  attempt: number;
  putCount: number;
  acknowledged: number;
  received: number;
  state: number;
  why: number;
  isKnown: boolean;
  isBroken: boolean;
  hasAll: boolean;
};

/** What line and client share: their connections, what comes on these, and how they stand. */
declare class Clocked extends Held {
  /** The states of a line: there is no connection; one is being made, or waits for the host's hello; a host has welcomed the newest; it
   * has, but nothing has come for long, though an answer is due; the host has refused for good. */
  static readonly DOWN: 0;
  static readonly CONNECTING: 1;
  static readonly OPEN: 2;
  static readonly LATE: 3;
  static readonly LOST: 4;

  /** Returns what the program is to do at this time, by the numbers of Tick. What it returns counts as begun: another call at the same time
   * returns something else, so call it until it returns NOTHING. DROP means that the connection, or the attempt to make one, is over for
   * the line. */
  tick(now: number): number;
  /** Returns the number of milliseconds until `tick` has something to say, if no other call comes before; null if it never has. */
  dueIn(now: number): number | null;
  /** Takes a connection that the program has opened: the connection before is over. Returns its number, counted from 1, which names it in
   * the calls below. Throws CountFull after 2^64-1 connections. */
  connected(now: number): number;
  /** Gives up the connection for which CONNECT asked, because it can't be made: another is tried after a pause. At any other time it
   * changes nothing. */
  notConnected(now: number): void;
  /** Ends a connection, because it broke or because the program gives it up: another is tried after a pause. Nothing changes if it isn't
   * the newest, or is over already. */
  broken(attempt: number, now: number): void;
  /** Doubts an open connection, because an address of the machine came or went: it is late, so call `ask`, and if no byte comes it is given
   * up after 2 seconds. A connection that is to be made is tried after 1 second at most. */
  addressChanged(now: number): void;
  /** Notes whether the program waits for an answer of the host's program, as to a request: that holds over all connections, until another
   * call says otherwise. While the program waits an answer is due, though the host has acknowledged all that was put: if no byte comes for
   * 15 seconds, the connection is late, so call `ask`, and if none comes for 15 more, it is given up. */
  expect(expects: boolean, now: number): void;
  /** Puts a note behind all bytes that were put: it comes out after these bytes and before later ones. Throws, in this order: LinkFault
   * (LINK_TOO_LONG) for more than 4,096 bytes; CountFull; NoMemory. */
  putNote(bytes: Uint8Array, now: number): void;
  /** Acknowledges all bytes that have come. The line does so by itself when it is asked, and after each 16,384 bytes. Throws, in this
   * order: CountFull; NoMemory. */
  acknowledge(): void;
  /** Returns the next bytes for a connection, at most `most`, and never more than 65,536; none if there are none: first the hello, and then
   * the stream from the place where this connection goes on. Call it after each put, question and piece. Throws LinkFault (LINK_NOT_OPEN)
   * if the connection is over or isn't the newest. */
  takeOut(attempt: number, most?: number): Uint8Array;
  /** Takes bytes that came on a connection, from its first one on, in pieces of any length, all or none. Throws, in this order: LinkFault
   * (LINK_NOT_OPEN) if the connection is over or isn't the newest; LINK_TOO_MANY_ANSWERS; before the host's welcome LINK_TOO_MANY_WORDS,
   * LINK_WRONG_HELLO, and the host's reason, if it refuses; then CountFull, LINK_BAD_KIND, LINK_BAD_LENGTH and LINK_ACK_AHEAD. After each
   * of these but the first the connection is over. Throws NoMemory at any place: the connection stays, and the same bytes are to be given
   * again. */
  receive(attempt: number, bytes: Uint8Array, now: number): void;
  /** Returns the state, the counts and the times of the line. */
  describe(now: number): LineDetails;
  /** Returns the words that came on the newest connection before the host's hello, perhaps of a login. They need be no text. */
  readonly words: Uint8Array;
}

/** The terminal's end of a link, which also decides when a connection is to be made, when the host is to be asked, and when the connection
 * is to be given up. It opens no connection and has no clock: calls take the time, in whole milliseconds of any clock that doesn't jump, as
 * `Math.floor(performance.now())`. A time below the greatest that was handed in counts as the greatest:
 *
 *     line.tick(now);                             CONNECT: open a connection; DROP: close it; ASK: line.ask(now); until NOTHING
 *     const attempt = line.connected(now);        it is open; or line.notConnected(now)
 *     socket.send(line.takeOut(attempt));         the hello first; again after each put, question and piece
 *     line.receive(attempt, bytes, now);          all bytes that came
 *     line.takeIn();                              the program's bytes among them, until there are none; then nextNote()
 *     line.dueIn(now);                            for so long nothing is to be done
 *
 * A put, a note and a piece are taken whole or not at all. */
export declare class Line extends Clocked {
  /** Makes a line, whose first connection is due at once. The id is the session's name: 16 bytes that the terminal chose at random. It is
   * no secret. With `takeOver`, the session is to begin with the texts of another, as long as no host has welcomed this line. Throws
   * RangeError for an id of another length, NoMemory. */
  constructor(id: Uint8Array, takeOver: boolean, now: number);
  /** Puts bytes for the host's program, all or none, with or without a connection. Throws, in this order: CountFull if the stream would
   * have more than 2^64-1 bytes; NoMemory. */
  put(bytes: Uint8Array, now: number): void;
  /** Asks the host whether all has come, if something that was put is not acknowledged, or the line is late; but not while such a question
   * is under way. So it may be called after each put and each piece. Throws, in this order: CountFull; NoMemory. */
  ask(now: number): void;
  /** Returns the next bytes of the host's program, at most `most` and of one packet. Call it until it returns none: then a note is next, or
   * nothing. */
  takeIn(most?: number): Uint8Array;
  /** Returns the note that is next; null if bytes before it are not taken in yet, or if none has come. */
  nextNote(): Uint8Array | null;
}

/** What a client tells as it goes on. `idle`: nothing moves until the host or the user does something, or the time comes; `busy`: 1,000
 * things moved that are not told, and more may; `stepped`: `did` says which frame was received or which event acted, and the splices are
 * to be taken; `refused`: an event was refused, whose number and reason `did` has; `note`: a note came, which `note` of the client has;
 * `answered`: a note came, which `note` has, and it answers the task `did.task`; `unanswered`: the session is over, and no answer comes to
 * that task; `ran`: the command line `did.request` has run, and `did.change` says where in the command file stands what it printed;
 * `lapsed`: the session is over, and the request `did.request` never acts, or its command line has no answer. */
export type ClientEvent =
  | { kind: "idle" | "busy" | "note"; did: null }
  | { kind: "stepped" | "refused" | "answered" | "unanswered" | "ran" | "lapsed"; did: TerminalStep };

/** The user's side of a session in one handle, for a front end whose user never waits, over connections that may break: an overlay, and its
 * line to the host. It moves all between the two by itself. It opens no connection and has no clock: calls take the time, as those of a
 * line. `Session` is the same over WebSockets, with promises.
 *
 *     client.tick(now);                               CONNECT: open a connection; DROP: close it; until NOTHING
 *     const attempt = client.connected(now);          it is open; or client.notConnected(now)
 *     client.receive(attempt, bytes, now);            all bytes that came on it; or client.broken(attempt, now)
 *     client.replace(tag, 5, 5, "!");                 the user typed: it is shown from now on
 *     client.begin(NoteKind.OPEN, { path }, now);     the host's program is asked for a file
 *     client.write(tag);                              a file is to be written as it is shown now
 *     client.ask(EventKind.LOOK, { tag });            the user asked for something else
 *     client.see(tag, 0, 2000);                       a window shows this: it is loaded first, and then the rest
 *     for (const told of client.goOn(now)) ..         after any of these: a Splice goes into the editor's own text, a ClientEvent tells
 *                                                     of steps, refusals, notes and answers
 *     socket.send(client.takeOut(attempt));           bytes for the connection
 *     client.dueIn(now);                              for so long nothing is to be done
 *
 * Places count runes and gaps of the shown text. An editor that takes each splice before it tells of an edit has the shown text as its own.
 * A replacement makes no splice. A connection that breaks takes nothing of what the user did. */
export declare class Client extends Clocked {
  /** Makes a client that knows no file, and whose first connection is due at once. The id is the session's name: 16 bytes that the terminal
   * chose at random. It is no secret. With `takeOver`, the session is to begin with the texts of another, as long as no host has welcomed
   * this client. Then ask for OFFER_VERSION. Throws RangeError for an id of another length, NoMemory. */
  constructor(id: Uint8Array, takeOver: boolean, now: number);
  /** Goes on until there is something to tell, and returns it. Call it after each call that brought something, until its kind is `idle`,
   * and take all splices before each call. Throws, in this order: a SamError with the code WAITING if splices are left, and all is as it
   * was. Else some of what waited may be done, and nothing is lost: the fault by which the terminal has stopped, at this call or before;
   * CountFull; Unfinished if memory is short: call it again later. */
  nextEvent(now: number): ClientEvent;
  /** Goes on as `nextEvent` does, but over each step that is an edit of the host's, loads runes, or is an edit of the user's that acted, at
   * most 1,024: puts their splices behind those that are in the list, each with the runes that it brought, `gap` for one that is not
   * loaded (U+FFFD if it isn't given). Returns what is told else, whose splices are to be taken; it is `idle` only if no step was made.
   * That takes less time if there are thousands. Throws as `nextEvent` does; the splices before are in the list then. */
  stepEdits(now: number, into: ShownEdit[], gap?: string): ClientEvent;
  /** Goes on until nothing moves, and yields what is told, but for `idle` and `busy`, and behind each step the changes of the shown text.
   * Take all: it goes no further than they are taken. Throws as `nextEvent` does. */
  goOn(now: number): Generator<ClientEvent | Splice, void>;
  /** Returns the note that was told last; none before the first. */
  readonly note: Uint8Array;
  /** Replaces the shown runes from the place `start` to the place `end` by a text of any length, all or nothing. The new runes stand behind
   * what is shown before `start`. They are shown at once, whatever is locked, and go to the host as the client goes on; no request that was
   * asked for before finds them. Throws as `replace` of an overlay does, in its order. */
  replace(tag: number, start: number, end: number, text: Text): void;
  /** Makes replacements one after another, each as `replace` does, by one call: the places of each are those of the text that the ones
   * before it have left. So from the last place to the first, all are places of the text before. Returns how many were made: all, or
   * those before one that is refused, for which `replace` says why. Throws, in this order, and none is made then: RangeError for a place
   * that can be none; NotText; NoMemory; a SamError with the code WAITING if splices are left; what refuses the first one. */
  replaceEach(tag: number, replacements: Replacement[]): number;
  /** Has the host's program do something, and returns the number of the task, counted from 1: NoteKind.OPEN, to join the file or the folder
   * at `path`; COMPLETE, to tell the names that complete a path; or RELOAD, to read the file `tag` anew from its disk. The message goes
   * behind all that acted, as a note does. `nextEvent` tells once that the answer came (`answered`), or that none comes
   * (`unanswered`). Throws, in this order, and no task is begun then: NoteFault (NOTE_BAD_KIND) for another kind; a SamError with the code
   * TOO_MANY if 1,000 tasks are open; CountFull; NoMemory; NoteFault (NOTE_BAD_FIELD) if the kind has no tag and the tag is not 0, or no
   * path and the path is not empty, (NOTE_BAD_LENGTH) if the message would have more than 4,096 bytes, (NOTE_BAD_PATH) for a zero byte;
   * CountFull; NoMemory. */
  begin(kind: number, fields: { path?: Uint8Array; tag?: number }, now: number): number;
  /** Asks for a file to be written as it is shown now, as `ask` does by WRITE, and returns the number of the task. Its answer is
   * NoteKind.SAVED or NOT_SAVED; if the write is refused, no answer comes, and `did.task` is its number. A write that would find the same
   * text as one that waits is that task. Throws, in this order, and no task is begun then: a SamError with the code TOO_MANY if 1,000 tasks
   * are open; CountFull; NoMemory; then as `ask` does. */
  write(tag: number): number;
  /** Has the host run a command line on an open file, from the file's dot on, as it is shown now: behind all that was asked for before.
   * Returns the number of the request that types its newline. `nextEvent` tells once that the line has run (`ran`), and then all is loaded
   * that is told of what it printed: at most 65,536 runes, from `did.change.start` of the command file on, which has tag 0. Or it tells by
   * that number that the line was refused, or lapsed. The command file is opened for it, and emptied at 100,000 runes. Throws, in this
   * order, and the client is then as it was: NotText if the line is not UTF-8; NoMemory; NotText if it has a newline; EditRefused
   * (REFUSAL_NOT_OPEN) if the file is not open, a close of it waits, it is the command file, or the user has left, (REFUSAL_TEXT_TOO_LONG)
   * if the line has more than 400,000 runes; a SamError with the code TOO_MANY if 1,000 lines are open, or 1,000 requests would wait: it
   * has one for each 512 runes, and three more. Or as `ask` does, in its order: the line doesn't run then, though some of its runes may
   * come to stand in the command file. */
  run(tag: number, line: Text): number;
  /** Notes what a window shows of a file, from the place `start` to the place `end`, in the place of what it showed before. While nothing
   * else waits, the client loads that by itself, then what is behind it and the rest of the file, in slices, but these only once nobody has
   * pressed a key for a second (`rest`). Of several files, the one that was told last is first. Any tag and any place may be told, also
   * before the file is open. Throws NoMemory, and all is as it was. */
  see(tag: number, start: number, end: number): void;
  /** Leaves out a file that no window shows: the client loads no more of it by itself. */
  forget(tag: number): void;
  /** Counts a key of the user that edits nothing, as one that moves the caret: for a second only what windows show is loaded, so what the
   * key asks for waits for no slice. A replacement counts by itself. */
  rest(now: number): void;
  /** Returns whether the host has all that the user did, and all notes: nothing waits here, and the host's end of the link has acknowledged
   * all. */
  readonly hasAll: boolean;
  /** Returns whether the shown text of a file may differ from the text that was written last. It is false for a tag without a file, and for
   * tag 0. */
  isUnsaved(tag: number): boolean;
}
export interface Client extends Shown {}

/** The session is over: it was left here, or its host has ended it. `status` is the exit status that the host told; else null. */
export declare class SessionOver extends Error {
  status: number | null;
}

/** The session is lost: its host doesn't know it any more, another terminal has taken it over (LINK_OTHER_SESSION; `by` names its machine),
 * or the host's bytes or messages are wrong. `code` is the status that says which. The texts can still be read. */
export declare class SessionLost extends SamError {
  by: string;
}

/** The host didn't do what was asked for: `note` is its answer, with a `code` of NoteCode and a `text` for people. */
export declare class RequestRefused extends Error {
  note: Note;
}

/** What a session needs of a WebSocket. */
export type Socket = {
  binaryType: string;
  readonly readyState: number;
  readonly bufferedAmount: number;
  onopen: ((event: any) => any) | null;
  onmessage: ((event: any) => any) | null;
  onclose: ((event: any) => any) | null;
  send(bytes: any): void;
  close(): void;
};

/** How a session begins: its id, 16 random bytes if none is given; whether it begins with the texts of another terminal's session, if the
 * host has one; and how many of its connections count as failed already, which makes the pauses between the next ones longer. */
export type SessionOptions = { id?: Uint8Array; takeOver?: boolean; failures?: number };

/** A splice as a session tells it: `isGap` says that nothing of what came is loaded. */
export type ToldSplice = Splice & { isGap: boolean };

/** What the events of a session have as their `detail`. `splice`: a change of a shown text, which goes into the editor's own text before
 * the handler returns; `dropped`: runes that the user typed, and for which the host left no room: their splice was told before; `note`:
 * a message of the host; `line`: the state of the line is another; `fault`: what came has ended a connection, as a host's word that it
 * doesn't find the session, which may be there a little later; `rest`: all has moved that can; `over`: the session is over, and why. */
export type SessionEvents = {
  splice: ToldSplice;
  dropped: Dropped;
  note: Note;
  line: LineDetails;
  fault: SamError;
  rest: null;
  over: SessionOver | SessionLost;
};

/** A session at a host, over WebSockets that may break: each carries a link, and its messages are pieces of that. It connects again by
 * itself, and edits show at once with or without a connection.
 *
 *     const session = new Session("wss://box.example/line");
 *     session.addEventListener("splice", ({ detail }) => ..);    a change by the host goes into the editor's own text
 *     const notes = await session.open("notes");
 *     notes.insert(0, "Shopping\n");
 *     await notes.write();
 *
 * Each promise is answered once: by an answer, or by SessionOver or SessionLost if none can come. A request may wait as long as the line is
 * broken. If memory is out, a call that throws NoMemory has changed nothing; what was taken is kept, and tried again after a tenth of a
 * second. The host speaks the messages of docs/reference/SESSION.md, as samhost does, and `serve` of Python. */
export declare class Session extends EventTarget {
  /** Begins a session: over WebSockets to an address, or over what a function returns for each connection. If that throws, the session is
   * over. Throws RangeError for an id of another length, NoMemory. */
  constructor(connect: string | URL | (() => Socket), options?: SessionOptions);
  /** Calls a listener for each event of a type: `event.detail` is what SessionEvents says. */
  addEventListener<Type extends keyof SessionEvents>(
    type: Type,
    listener: (event: CustomEvent<SessionEvents[Type]>) => void,
    options?: any,
  ): void;
  /** Calls a listener for each event of any other type. */
  addEventListener(type: string, listener: any, options?: any): void;
  /** Returns the id of the session: a name and no secret. The first 8 bytes in hex are samhost's name of it. */
  readonly id: Uint8Array;
  /** Returns the client, for its readers. The session makes all other calls of it. */
  readonly client: Client;
  /** Returns a promise of why the session is over. It is never rejected. */
  readonly over: Promise<SessionOver | SessionLost>;
  /** Returns whether the session is over. */
  readonly isOver: boolean;
  /** Returns why the session is over; null while it goes on. */
  readonly why: SessionOver | SessionLost | null;
  /** Returns the state of the line, for a status line: `state` is Line.OPEN while the host answers, `silence` the time for which it should
   * have, and didn't. */
  readonly line: LineDetails;
  /** Returns the bytes that have gone each way, those that the socket has not sent, and whether there is a socket, open or not. */
  readonly traffic: { up: number; down: number; waiting: number; isConnecting: boolean };
  /** Returns the number of milliseconds until the line does something by itself; null if it never does. */
  readonly dueIn: number | null;
  /** Returns whether the host has all that was done here, and all that was asked for. */
  readonly hasAll: boolean;
  /** Returns whether the shown text of a file may differ from the text that was written last. */
  isUnsaved(tag: number): boolean;
  /** Returns whether a promise of this session is not answered yet. */
  readonly isWaiting: boolean;
  /** Returns the documents that are open. */
  readonly documents: Document[];
  /** Opens a text by its name, at samhost by its path, and returns it once all of it has come; a second time the same document. A path that
   * is no UTF-8 is given by its bytes. Rejects with NotText for a lone surrogate, RequestRefused if the host has no such text, NoteFault
   * for a name that no message can have, NoMemory, SessionOver and SessionLost. */
  open(path: Text): Promise<Document>;
  /** Has the host join a text, and returns its tag once its name is known here. Rejects as `open` does. */
  join(path: Text): Promise<number>;
  /** Asks for the names of files that joined the host since, if that of this one is not known. Rejects with Missing if the host has no such
   * file, with what `request` rejects, SessionOver and SessionLost. */
  know(tag: number): Promise<void>;
  /** Returns the document of a known file, which is opened if it is not. Its first page is loaded, and the rest in slices, once nobody has
   * pressed a key for a second. Throws NoMemory. */
  document(tag: number): Document;
  /** Loads what is not loaded of a file from the place `start` to the place `end`, and returns once all of it is there. Rejects with
   * EditRefused, NoMemory, SessionOver and SessionLost. */
  load(tag: number, start?: number, end?: number): Promise<void>;
  /** Tells what a window shows of a file, in the place of what it showed before: that is loaded first. It may be told at each `rest`, too.
   * Throws NoMemory. */
  see(tag: number, start: number, end: number): void;
  /** Counts a key of the user that edits nothing, as `rest` of a client does: slices wait for a second. */
  noteKey(): void;
  /** Replaces shown runes of a file, as that of a client does, and throws as that does; SessionOver and SessionLost, too. */
  replace(tag: number, start: number, end: number, text: Text): void;
  /** Asks for an event of EventKind, as `ask` of a client does, and returns once it has acted. Rejects with EditRefused if the terminal
   * refuses it, with what `ask` of a client throws, SessionOver and SessionLost. */
  request(kind: number, fields?: EventFields): Promise<void>;
  /** Has the host's program do something, as `begin` of a client does, and returns its answer: NoteKind.OPEN or COMPLETE of a `path`, or
   * RELOAD of a `tag`. Rejects with RequestRefused if the host refuses it, with what `begin` of a client throws, SessionOver and
   * SessionLost. */
  begin(kind: number, fields?: { path?: Uint8Array; tag?: number }): Promise<Note>;
  /** Tells the host a message that has no answer. Throws NoteFault, NoMemory, SessionOver and SessionLost. */
  tell(kind: number, fields?: Partial<Note>): void;
  /** Has a file written as it is shown now, and returns the host's answer: a note of the kind SAVED, whose `path` and `text` say where.
   * Rejects with RequestRefused if the host could not write the text, and then the file is unsaved; EditRefused if it is closed;
   * NoMemory, SessionOver and SessionLost. */
  write(tag: number): Promise<Note>;
  /** Runs a command line on an open file as it is shown now, and returns what the line printed, at most 65,536 runes of it: one that is
   * wrong prints `?` and why. docs/reference/COMMANDS.md has the lines. Rejects with what `run` of a client throws, with EditRefused for
   * one for which the command file has no room, and with SessionOver and SessionLost. */
  run(tag: number, line: string): Promise<string>;
  /** Closes a document, after all edits that were made before: what is not written is lost. Rejects as `request` does. */
  closeDocument(document: Document): Promise<void>;
  /** Doubts the line, because the machine is in another network, as where a page hears `online`: the host is asked, and if it doesn't
   * answer within 2 seconds another connection is made. One that is to be made is tried after 1 second at most. */
  addressChanged(): void;
  /** Ends the session at the host, after all that was asked for before, command lines with their answers, and returns once the host has
   * ended it. What is not written is lost, unless the host saves it aside. Rejects with SessionLost if it is lost before, and with what
   * `request` rejects. */
  close(): Promise<void>;
  /** Ends this end alone, at once: the session stays at the host, as after a crash of this program. */
  leave(): void;
}

/** A file of a session, which is open here. Each call is that of the session, for this file, and rejects or throws as that does. */
export declare class Document {
  /** Returns the file's tag. */
  readonly tag: number;
  /** Returns a promise that the document is open. It is rejected if the terminal refuses that, or the session is over before. */
  readonly opened: Promise<void>;
  /** Returns the name of the file. Throws Missing if the host has it no more. */
  readonly name: string;
  /** Returns whether the document is open. */
  readonly isOpen: boolean;
  /** Returns whether its shown text may differ from the text that was written last. */
  readonly isUnsaved: boolean;
  /** Returns the length of the shown text in runes. Throws Missing if the document is not open. */
  readonly length: number;
  /** Returns the shown text from the place `place` on, up to the first rune that is not loaded: at most `runes` runes, or all. Throws
   * Missing if the document is not open. */
  text(place?: number, runes?: number): string;
  /** Returns the first place, at or after `place`, whose rune is not loaded; null if there is none. */
  firstGap(place?: number): number | null;
  /** Replaces shown runes: they show at once. Throws as `replace` of the session does. */
  replace(start: number, end: number, text: Text): void;
  /** Inserts a text at a place, as `replace` does. */
  insert(place: number, text: Text): void;
  /** Loads what is not loaded from the place `start` to the place `end`, or of all. */
  load(start?: number, end?: number): Promise<void>;
  /** Writes the text as it is shown now, and returns the host's answer. */
  write(): Promise<Note>;
  /** Runs a command line on the text as it is shown now, and returns what it printed. */
  run(line: string): Promise<string>;
  /** Closes the document: what is not written is lost. */
  close(): Promise<void>;
}

// What follows is written by tools/session_messages, from the tables of docs/reference/SESSION.md.
/** The kinds of messages: up to 64 those from the terminal. */
export declare const NoteKind: {
  readonly OPEN: 1;
  readonly COMPLETE: 2;
  readonly RELOAD: 3;
  readonly RELOADED: 4;
  readonly WRITE: 5;
  readonly SESSION: 65;
  readonly SAID: 66;
  readonly SHOWN: 67;
  readonly TAKEN_OVER: 68;
  readonly ENDED: 69;
  readonly OPENED: 70;
  readonly REFUSED: 71;
  readonly NAMES: 72;
  readonly ANEW: 73;
  readonly SAVED: 74;
  readonly NOT_SAVED: 75;
  readonly CHANGED: 76;
  readonly DATED: 77;
  readonly EARLIER: 78;
  readonly ASIDE: 79;
  readonly LOST: 80;
  readonly NO_JOURNAL: 81;
};

/** What happened, or why. A number that isn't here comes from a later version, and counts as OTHER. */
export declare const NoteCode: {
  readonly NO_CODE: 0;
  readonly NO_SPACE: 1;
  readonly NO_PERMISSION: 2;
  readonly READ_ONLY: 3;
  readonly NOT_FOUND: 4;
  readonly IS_FOLDER: 5;
  readonly NOT_TEXT: 6;
  readonly TOO_LONG: 7;
  readonly TOO_MANY: 8;
  readonly NO_MEMORY: 9;
  readonly NO_NAME: 10;
  readonly CHANGED_SINCE: 11;
  readonly EXISTS_ALREADY: 12;
  readonly TAKEN_UNSAVED: 13;
  readonly NO_SUCH_FILE: 14;
  readonly OTHER: 15;
  readonly HAS_MORE: 16;
  readonly REPLACED: 17;
  readonly BROKEN: 18;
  readonly NEWER: 19;
  readonly OLDER: 20;
  readonly CUT: 21;
  readonly UNNAMED: 22;
  readonly FAILED: 23;
  readonly UNREADABLE: 24;
};
// Up to here by tools/session_messages.

/** A message of a session, which samhost and its front ends exchange as a note of a link. A field that its kind has not is 0 or empty. A
 * number of 64 bits is exact up to 2^53. */
export type Note = {
  kind: number;
  request: number;
  tag: number;
  code: number;
  number: number;
  path: Uint8Array;
  copy: Uint8Array;
  text: string;
};

/** Reads the message that the bytes spell, all of them, and returns it. Throws NoteFault, with the code NOTE_BAD_KIND for a kind that isn't
 * in the table (skip such a message: it comes from a later version), NOTE_BAD_LENGTH, NOTE_BAD_PATH or NOTE_BAD_TEXT; NoMemory. */
export declare function readNote(bytes: Uint8Array): Note;

/** Returns the bytes of a message. Throws NoteFault, with the code NOTE_BAD_KIND, NOTE_BAD_FIELD if a field that the kind has not is not 0
 * or not empty, NOTE_BAD_LENGTH for more than 4,096 bytes, NOTE_BAD_PATH for a zero byte in a path, or NOTE_BAD_TEXT for a lone surrogate
 * in the text; NoMemory. */
export declare function writeNote(note: Partial<Note> & { kind: number }): Uint8Array;
