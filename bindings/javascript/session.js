/* A session over WebSockets: it connects again by itself, tells how the shown texts change, and answers what is asked for by promises. */
import { Answers, ByNumber } from "./answers.js";
import { Client } from "./client.js";
import { Document } from "./document.js";
import { bytesOf } from "./module.js";
import { NoteKind, readNote, writeNote } from "./note.js";
import { EventKind } from "./overlay.js";
import { Kind, Missing, NoMemory, SamError, Status, Unfinished, errorOf } from "./status.js";
import { Wire, now } from "./wire.js";

const ID_BYTES = 16;
const VERSION = 2; // of the protocol
const MESSAGES = 1; // the version of the session's messages
const MOST_RUNES = 1_000_000; // of a text
const PAGE = 4096; // runes
const ALL_TAGS = 65_536;
const COMMAND_FILE = 0; // its tag
const NOT_DONE = [NoteKind.REFUSED, NoteKind.NOT_SAVED];
const NOBODY = { resolve() {}, reject() {} };

// Milliseconds.
const RETRY = 100; // until a call is made again for which memory was out
const LOOK_AGAIN = 50; // until a socket is looked at again in which much waits

const OTHER_MESSAGES = "the host is of another version: both sides have to be of one release";

/** The session is over: it was left here, or its host has ended it, with the exit status `status`. */
export class SessionOver extends Error {
  name = "SessionOver";

  constructor(message, { status = null, cause = undefined } = {}) {
    super(message, { cause });
    this.status = status;
  }
}

/** The session is lost: `code` says why. */
export class SessionLost extends SamError {
  name = "SessionLost";

  constructor(code, by = "") {
    super(code);
    this.by = by;
  }
}

/** The host didn't do what was asked for: `note` is its answer. */
export class RequestRefused extends Error {
  name = "RequestRefused";

  constructor(note) {
    super(note.text);
    this.note = note;
  }
}

/** A message of the host; null for one that only a later version knows. Any other that can't be read is a fault of the host, which ends
 * the session. */
function read(bytes) {
  try {
    return readNote(bytes);
  } catch (error) {
    if (error.code === Status.NOTE_BAD_KIND) return null;
    throw error;
  }
}

export class Session extends EventTarget {
  #client;
  #wire;
  #answers = new Answers(() => this.#goSoon());
  #requests = new ByNumber(); // those who wait until a request has acted
  #tasks = new ByNumber(); // those who wait until the host has answered a message
  #runs = new ByNumber(); // those who wait until a command line has run
  #documents = new Map(); // by their tags
  #seen = new Map(); // the stretch that a window shows of each file, by its tag
  #isGreeted = false; // the first message has come
  #isMoving = false;
  #isWanted = false; // something is to move
  #isDue = false; // and it will soon
  #isShort = false; // memory was out
  #expects = false; // the line knows that promises wait
  #state = Client.DOWN;
  #timer = 0;
  #why = null; // the session is over
  #finish; // answers `over`

  constructor(connect, { id = crypto.getRandomValues(new Uint8Array(ID_BYTES)), takeOver = false, failures = 0 } = {}) {
    super();
    this.id = id;
    this.over = new Promise((resolve) => (this.#finish = resolve));
    this.#client = new Client(id, takeOver, now());
    for (let failed = 0; failed < failures; failed++) this.#client.broken(this.#client.connected(now()), now());
    const heard = { moved: () => this.#goOn(), failed: (error) => this.#tell("fault", error) };
    this.#wire = new Wire(this.#client, typeof connect === "function" ? connect : () => new WebSocket(connect), heard);
    this.#request(EventKind.OFFER_VERSION, { version: VERSION });
  }

  // ---- Readers

  get client() {
    return this.#client;
  }

  get line() {
    return this.#client.describe(now());
  }

  get traffic() {
    return { up: this.#wire.up, down: this.#wire.down, waiting: this.#wire.waiting, isConnecting: this.#wire.isConnecting };
  }

  get dueIn() {
    return this.#client.dueIn(now());
  }

  get hasAll() {
    return this.#client.hasAll;
  }

  isUnsaved(tag) {
    return this.#client.isUnsaved(tag);
  }

  get isWaiting() {
    return this.#answers.size > 0;
  }

  get isOver() {
    return this.#why !== null;
  }

  get why() {
    return this.#why;
  }

  get documents() {
    return [...this.#documents.values()].filter((document) => document.isOpen);
  }

  // ---- Files

  async open(path) {
    const document = this.document(await this.join(path));
    await document.opened;
    await document.load();
    return document;
  }

  async join(path) {
    const bytes = bytesOf(path);
    if (bytes === null) throw errorOf(Status.NOT_TEXT); // to encode it would name another file
    const { tag } = await this.begin(NoteKind.OPEN, { path: bytes });
    await this.know(tag);
    return tag;
  }

  async know(tag) {
    if (this.#client.file(tag).isKnown) return;
    await this.request(EventKind.OFFER_VERSION, { version: VERSION });
    await this.#answers.until(() => this.#client.file(tag).isKnown || !this.#client.state().commandLocked);
    if (!this.#client.file(tag).isKnown) throw new Missing(Status.NONE);
  }

  document(tag) {
    const known = this.#documents.get(tag);
    if (known) return known;
    this.see(tag, 0, PAGE);
    const opened = this.#client.file(tag).isOpen ? Promise.resolve() : this.#opened(tag);
    this.#loadGap(tag, 0, PAGE).catch(() => {}); // asked for at once, the first page comes a round trip sooner
    const document = new Document(this, tag, opened);
    this.#documents.set(tag, document);
    opened.catch(() => this.#forget(tag));
    return document;
  }

  async #opened(tag) {
    await this.request(EventKind.OPEN, { tag });
    await this.#answers.until(() => this.#client.file(tag).isOpen);
  }

  #forget(tag) {
    this.#client.forget(tag);
    this.#seen.delete(tag);
    this.#documents.delete(tag);
  }

  async load(tag, start = 0, end = MOST_RUNES) {
    for (let asked = false; ; asked = true) {
      const gap = this.#client.firstGap(tag, start);
      if (gap !== null && gap < end) await this.#loadGap(tag, gap, end);
      else if (asked) this.request(EventKind.VIEW, { tag }).catch(() => {}); // later gaps are not asked for one by one
      if (gap === null || gap >= end) return;
    }
  }

  /** Loads what is not loaded of a stretch. The host may have made the text shorter meanwhile. */
  async #loadGap(tag, start, end) {
    try {
      await this.request(EventKind.LOAD, { tag, start, number: end - start });
      await this.#answers.until(() => !this.#client.file(tag).isLocked);
    } catch (error) {
      if (error.code !== Status.REFUSAL_BAD_POSITION) throw error;
      await new Promise((resolve) => setTimeout(resolve, RETRY));
    }
  }

  /** Only another stretch has something move: who is told that all rests may say each time what windows show. */
  see(tag, start, end) {
    this.#client.see(tag, start, end);
    const last = this.#seen.get(tag);
    if (last?.start === start && last.end === end) return;
    this.#seen.set(tag, { start, end });
    this.#goSoon();
  }

  noteKey() {
    this.#client.rest(now());
  }

  // ---- What the user does

  replace(tag, start, end, text) {
    this.#check();
    this.#client.replace(tag, start, end, text);
    this.#goSoon();
  }

  request(kind, fields) {
    return this.#answers.promise((answer) => this.#request(kind, fields, answer));
  }

  /** Asks for an event, and has `answer` know once it has acted or was refused. */
  #request(kind, fields, answer = NOBODY) {
    this.#check();
    this.#requests.add(this.#client.ask(kind, fields), answer);
    this.#goSoon();
  }

  begin(kind, fields = {}) {
    return this.#begun(() => this.#client.begin(kind, fields, now()));
  }

  write(tag) {
    return this.#begun(() => this.#client.write(tag));
  }

  /** Returns a promise of the host's answer to the task whose number `begin` returns. */
  #begun(begin) {
    return this.#answers.promise((answer) => {
      this.#check();
      this.#tasks.add(begin(), answer);
    });
  }

  tell(kind, fields = {}) {
    this.#check();
    this.#client.putNote(writeNote({ ...fields, kind }), now());
    this.#goSoon();
  }

  run(tag, line) {
    return this.#answers.promise((answer) => {
      this.#check();
      this.#runs.add(this.#client.run(tag, line), answer);
    });
  }

  async closeDocument(document) {
    await this.request(EventKind.CLOSE, { tag: document.tag });
    await this.#answers.until(() => !document.isOpen);
    this.#forget(document.tag);
  }

  async close() {
    try {
      await this.#answers.until(() => this.isOver || this.#runs.isEmpty); // what lines print doesn't come once the user has left
      if (!this.isOver) await this.request(EventKind.EXIT);
    } catch (error) {
      if (!this.isOver) throw error;
    }
    const why = await this.over;
    if (why instanceof SessionLost) throw why;
  }

  leave() {
    this.#end(new SessionOver("the session was left"));
  }

  addressChanged() {
    if (this.isOver) return;
    this.#wire.addressChanged();
    this.#goSoon();
  }

  #check() {
    if (this.#why !== null) throw this.#why;
  }

  // ---- What moves

  /** Has all move that can, once what runs now is through: so what is asked for together goes together. */
  #goSoon() {
    this.#isWanted = true;
    if (this.#isDue || this.#isMoving) return;
    this.#isDue = true;
    queueMicrotask(() => {
      this.#isDue = false;
      this.#goOn();
    });
  }

  /** Has all move that can, and then sends what goes: also what was asked for meanwhile by who was told of something. */
  #goOn() {
    this.#isWanted = true;
    if (this.#isMoving || this.isOver) return;
    this.#isMoving = true;
    this.#isShort = false;
    while (this.#isWanted && !this.#isShort && !this.isOver) {
      this.#isWanted = false;
      this.#try(() => this.#move());
      if (this.isOver) break;
      this.#tell("rest");
    }
    this.#try(() => this.#send());
    this.#isMoving = false;
    if (!this.isOver) this.#setTimer();
  }

  /** Does something that goes on later if memory is out; what else is wrong ends the session. */
  #try(work) {
    if (this.isOver) return;
    try {
      work();
    } catch (error) {
      if (error instanceof NoMemory || error instanceof Unfinished) this.#isShort = true;
      else this.#end(error);
    }
  }

  #move() {
    this.#wire.meetTime();
    this.#tellSplices();
    for (let told = this.#client.nextEvent(now()); told.kind !== "idle"; told = this.#client.nextEvent(now())) {
      this.#meet(told);
      this.#answers.settle();
    }
    this.#takeBack();
    this.#answers.settle();
  }

  #send() {
    this.#expect();
    this.#wire.send();
    this.#tellState();
  }

  /** Meets what the client tells. Who waits for what it leaves unanswered is rejected by the end of the session. */
  #meet({ kind, did }) {
    if (kind === "stepped") this.#requests.take(did.request).forEach((answer) => answer.resolve());
    if (kind === "refused") this.#meetRefusal(did);
    if (kind === "ran") this.#meetRun(did);
    if (kind === "note") this.#hear(read(this.#client.note));
    if (kind === "answered") this.#hear(read(this.#client.note), this.#tasks.take(did.task));
    this.#tellSplices(kind === "stepped" && did.kind === Kind.HGROW);
  }

  #meetRefusal({ request, task, why }) {
    for (const waiting of [this.#requests.take(request), this.#tasks.take(task), this.#runs.take(request)]) {
      for (const answer of waiting) answer.reject(errorOf(why));
    }
  }

  #meetRun({ request, change: { start, came } }) {
    const printed = this.#client.text(COMMAND_FILE, start, came);
    for (const answer of this.#runs.take(request)) answer.resolve(printed);
  }

  #tellSplices(isGap = false) {
    for (const splice of this.#client.splices()) this.#tell("splice", { ...splice, isGap });
  }

  /** Takes back what the host has left no room for. */
  #takeBack() {
    for (let tag = this.#client.nextWaiting(); tag !== null; tag = tag + 1 < ALL_TAGS ? this.#client.nextWaiting(tag + 1) : null) {
      const dropped = this.#client.file(tag).isFree ? this.#client.dropNext(tag) : null;
      if (dropped === null) continue;
      this.#tell("splice", { kind: "went", tag, place: dropped.place, count: dropped.count, isGap: false });
      this.#tell("dropped", dropped);
      this.#isWanted = true;
    }
  }

  /** A promise may wait for more than the client does: of a write that failed, for the mark behind the answer. */
  #expect() {
    if (this.isWaiting === this.#expects) return;
    this.#expects = this.isWaiting;
    this.#client.expect(this.#expects, now());
  }

  #tellState() {
    const { state, why } = this.line;
    if (state === Client.LOST) throw this.#client.state().exited ? new SessionOver("the session has ended") : new SessionLost(why);
    if (state !== this.#state) this.#tell("line", this.line);
    this.#state = state;
  }

  #tell(type, detail = null) {
    this.dispatchEvent(new CustomEvent(type, { detail }));
  }

  /** Has the clock wake this when the next thing is due. Where memory was out that may be at once, for ever: so it waits a while. */
  #setTimer() {
    clearTimeout(this.#timer);
    const delay = this.#isShort ? RETRY : Math.min(this.dueIn ?? Infinity, this.#wire.isFull ? LOOK_AGAIN : Infinity);
    if (delay < Infinity) this.#timer = setTimeout(() => this.#goOn(), delay);
  }

  // ---- What the host tells

  #hear(note, answers = []) {
    if (!this.#isGreeted && (note?.kind !== NoteKind.SESSION || note.number !== MESSAGES)) {
      throw new SessionOver(OTHER_MESSAGES);
    }
    this.#isGreeted = true;
    if (note === null) return;
    for (const answer of answers) this.#answer(answer, note);
    this.#tell("note", note);
    if (note.kind === NoteKind.TAKEN_OVER) throw new SessionLost(Status.LINK_OTHER_SESSION, note.text);
    if (note.kind === NoteKind.ENDED) this.#meetEnd(note);
  }

  #answer(answer, note) {
    const end = () => (NOT_DONE.includes(note.kind) ? answer.reject(new RequestRefused(note)) : answer.resolve(note));
    this.#answers.hold(answer, () => this.#isWhole(note), end);
  }

  /** Whether all has come of which a message is the answer: behind that of a write stands whether the file is dirty. */
  #isWhole({ kind, tag }) {
    if (kind !== NoteKind.SAVED && kind !== NoteKind.NOT_SAVED) return true;
    const { isOpen, isLocked, isChanged } = this.#client.file(tag);
    return !isOpen || (!isLocked && (kind === NoteKind.SAVED || isChanged));
  }

  /** The last message: the host goes once it knows that this has come. */
  #meetEnd({ number }) {
    try {
      this.#client.acknowledge();
    } catch (error) {
      if (!(error instanceof NoMemory)) throw error;
    }
    this.#wire.send();
    this.#wire.release();
    throw new SessionOver("the host has ended the session", { status: number });
  }

  #end(error) {
    if (this.isOver) return;
    if (error instanceof SessionOver || error instanceof SessionLost) this.#why = error;
    else if (error instanceof SamError) this.#why = new SessionLost(error.code);
    else this.#why = new SessionOver(`the session can't go on: ${error.message}`, { cause: error });
    clearTimeout(this.#timer);
    this.#wire.drop();
    this.#answers.rejectAll(this.#why);
    this.#tell("over", this.#why);
    this.#finish(this.#why);
  }
}
