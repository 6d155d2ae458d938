/* The editor: the session, what CodeMirror shows of its files, and what the user does. */
import { NoteCode, NoteKind, RequestRefused, SamError, Status } from "./sulgrevad/sulgrevad.js";
import { Input } from "./input.js";
import { runesOf } from "./shown_text.js";
import { Undo } from "./undo.js";
import { View } from "./view.js";
import { AGAIN, READ_AFTER, Waiting } from "./key_queue.js";

const COMMAND = 0; // the tag of the command file
const ALL_TAGS = 65_536; // of a session
const REACH = 4096; // runes that are loaded for a key that goes by text which isn't
// Why a write failed that would have replaced another program's text.
const REPLACING = [NoteCode.CHANGED_SINCE, NoteCode.EXISTS_ALREADY, NoteCode.UNREADABLE];

// Milliseconds.
const AT_REST = 1000; // after the last key
const TICK = 1000; // until it is seen how the line is, while something is due

const WHY = {
  [Status.NO_MEMORY]: "there is not enough memory",
  [Status.REFUSAL_TOO_LONG]: "the file would have more than 1,000,000 characters",
  [Status.REFUSAL_NO_FILE]: "there is no such file any more",
  [Status.REFUSAL_NOT_OPEN]: "the file is not open",
  [Status.REFUSAL_EXITED]: "the session is over",
};

/** What kind of step of undo a change belongs to. */
function kindOf(origin) {
  if (origin === "+input" || origin === "*compose") return "type";
  return origin === "+delete" ? "erase" : "";
}

export class Editor {
  views = new Map(); // of each open file, by its tag
  active = null; // the view that CodeMirror shows
  session = null;
  keyAt = -Infinity; // when the last key came
  isOver = false; // nothing can be changed any more
  message = "";
  #saidAt = 0; // when it came
  #hidden = new Set(); // files that are none of the user's
  #undos = new Map();
  #writes = new Map(); // of each file of which a write is not answered, whether another one is to follow
  #warnedAt = new Map(); // when the user was told of each file that its next write replaces another program's text
  #isLoading = false; // text is asked for that a key needs
  #hasChanged = false; // the user has changed or written a text since the host was known to have all
  #isUpdating = false;
  #timer = 0;
  #wakesAt = Infinity;

  /** `page` is told what to draw: its `draw` after each change, its `say` of a word for the user. */
  constructor(CodeMirror, cm, page) {
    Object.assign(this, { CodeMirror, cm, page });
    this.waiting = new Waiting(this);
    this.input = new Input(CodeMirror, cm, this);
    cm.on("scroll", () => this.#wake(0));
    cm.on("cursorActivity", () => page.draw());
  }

  /** Goes on with a session, of which nothing is shown yet. */
  begin(session) {
    this.session = session;
    session.addEventListener("splice", ({ detail }) => this.#meetSplice(detail));
    session.addEventListener("dropped", ({ detail }) => this.#meetDropped(detail));
    session.addEventListener("rest", () => this.#meetRest());
    session.addEventListener("over", () => this.#meetRest());
    this.update();
  }

  // ---- How it stands

  get client() {
    return this.session.client;
  }

  /** Whether a file is shown, and can be changed. */
  get isShowing() {
    return !this.isOver && this.active !== null;
  }

  /** The user's files. */
  get tags() {
    const tags = Array.from({ length: this.client.state().tags }, (_, tag) => tag);
    return tags.filter((tag) => tag !== COMMAND && !this.#hidden.has(tag) && this.client.file(tag).isKnown);
  }

  /** The host has told that it keeps a file for terminals. */
  hide(tag) {
    if (tag < ALL_TAGS) this.#hidden.add(tag);
  }

  nameOf(tag) {
    return this.client.file(tag).isKnown ? this.client.name(tag) : "(closed)";
  }

  /** Whether a file was not written since it was changed, or its last write failed. */
  isChanged(tag) {
    return this.session.isUnsaved(tag);
  }

  /** Whether there is no line, though there was one. */
  get isBroken() {
    return this.session.line.isBroken;
  }

  /** Whether there is no line, or an answer is late. */
  get isLate() {
    if (this.session === null || this.isOver) return false;
    const { silence, overdueAfter, isBroken } = this.session.line;
    return isBroken || silence >= overdueAfter;
  }

  /** Whether something that was done here may not be at the host yet. */
  get lacks() {
    return this.#hasWaitingKeys || this.#isWriteHeld || !this.session.hasAll;
  }

  get #hasWaitingKeys() {
    return this.waiting.count > 0 || this.page.opening.hasWaitingKeys;
  }

  /** Whether a write is to follow one that is not answered. */
  get #isWriteHeld() {
    return [...this.#writes.values()].includes(true);
  }

  /** Whether that may be a change of the user's, a write of one, or a key that waits. */
  get lacksChanges() {
    this.#hasChanged &&= this.lacks;
    return this.#hasChanged || this.#hasWaitingKeys;
  }

  /** Whether the user rests, and nothing is under way. */
  get isAtRest() {
    const isQuiet = !this.isOver && !this.session.isWaiting && this.waiting.count === 0 && !this.input.isComposing && !this.isLate;
    return isQuiet && performance.now() - this.keyAt >= AT_REST;
  }

  isLoaded(from, to) {
    const { active } = this;
    if (active === null || !active.hasGap(from, to)) return active !== null;
    this.load(active.tag, active.shown.placeOf(from), active.shown.placeOf(to));
    return false;
  }

  /** Loads the part of a gap that is next to where a key goes. */
  reach({ start, end, isAfter }) {
    if (isAfter) this.load(this.active.tag, start, Math.min(end, start + REACH));
    else this.load(this.active.tag, Math.max(start, end - REACH), end);
  }

  /** Asks for text that a key needs, unless some is asked for already: then the key looks again. */
  async load(tag, start, end) {
    const first = Math.max(0, start);
    const gap = this.client.firstGap(tag, first);
    if (this.#isLoading || this.isOver || gap === null || gap >= end) return;
    this.#isLoading = true;
    try {
      await this.session.load(tag, first, end);
    } catch (error) {
      this.#sayWhy(error);
    }
    this.#isLoading = false;
    this.#wake(0);
  }

  /** A key was pressed. A message that has stood so long goes, since it may not be true any more. */
  noteKey() {
    this.keyAt = performance.now();
    this.session?.noteKey();
    if (this.keyAt - this.#saidAt >= READ_AFTER) this.message = "";
    this.#wake(0);
  }

  // ---- What comes from the session

  /** A text has changed, or more of it is loaded. Steps of undo from before a change would go elsewhere. */
  #meetSplice(splice) {
    this.views.get(splice.tag)?.note(splice);
    if (splice.kind !== "filled") this.#undos.delete(splice.tag);
  }

  /** All has moved that can: CodeMirror shows what that has changed. A file that is not seen is shown later, once what goes to the host is
   * sent: the shade of a long text takes a while, and its first page is asked for. */
  #meetRest() {
    if (this.active?.hasChanges) this.#show(this.active);
    this.update();
    if ([...this.views.values()].some((view) => view.hasChanges)) setTimeout(() => this.showChanges());
  }

  showChanges() {
    for (const view of this.views.values()) {
      if (view.hasChanges) this.#show(view);
    }
    this.update();
  }

  #show(view) {
    const show = () => this.cm.operation(() => view.showChanges());
    if (view === this.active) view.keepingInPlace(show);
    else show();
  }

  /** The host has left no room for what the user typed: he gets it back. */
  #meetDropped({ tag, text }) {
    this.page.giveBack(`${this.nameOf(tag)} has no room for what you typed there, which is taken out again`, text);
  }

  // ---- What the user does

  /** A change of the user's that CodeMirror shows already is made in the session. */
  take(change) {
    const { active: view } = this;
    const { start, end, gone, came } = view.take(change);
    if (this.#edit(view, start, end, came)) {
      this.#undoOf(view.tag).note(kindOf(change.origin), start, gone, came);
    } else {
      view.renew(start, end);
      this.input.putOffComposition();
    }
    this.#wake(0);
  }

  /** Makes a change that CodeMirror doesn't show yet: of undo. The caret goes behind it. Returns whether it is made. */
  replace({ start, end, text }) {
    const { active: view } = this;
    if (!this.#edit(view, start, end, text)) return false;
    const came = runesOf(text);
    this.cm.operation(() => view.apply([{ start, gone: end - start, came }]));
    view.select(start + came, start + came);
    this.cm.scrollIntoView(null);
    return true;
  }

  /** Makes a change in the session. Returns whether it is made; else the user is told why not. */
  #edit(view, start, end, text) {
    this.#hasChanged = true;
    try {
      this.session.replace(view.tag, start, end, text);
      return true;
    } catch (error) {
      this.#sayWhy(error);
      return false;
    }
  }

  /** Tells why something is not done. */
  #sayWhy(error) {
    if (!(error instanceof SamError || this.session.isOver)) throw error;
    this.say(this.session.isOver ? WHY[Status.REFUSAL_EXITED] : (WHY[error.code] ?? error.message));
  }

  #undoOf(tag) {
    if (!this.#undos.has(tag)) this.#undos.set(tag, new Undo());
    return this.#undos.get(tag);
  }

  /** Presses a key of the editor's own, which acts in its order. */
  press(name, act, more = {}) {
    this.noteKey();
    this.waiting.press({ name, act, ...more });
  }

  undo() {
    this.#turn("undo", (undo, make) => undo.back(make), "nothing more to take back");
  }

  redo() {
    this.#turn("redo", (undo, make) => undo.again(make), "nothing was taken back");
  }

  #turn(name, turn, nothing) {
    this.press(name, () => {
      const isThere = turn(this.#undoOf(this.active.tag), (change) => this.replace(change));
      if (!isThere) this.say(nothing);
    });
  }

  save() {
    const pressedAt = performance.now();
    this.press("saving", () => {
      const { tag } = this.active;
      this.#undoOf(tag).stop();
      if (pressedAt - (this.#warnedAt.get(tag) ?? -Infinity) < READ_AFTER) {
        this.#warnedAt.set(tag, Math.max(pressedAt, this.#warnedAt.get(tag))); // a key that is held down never replaces it
        this.say(`${this.nameOf(tag)} is not written: another program's text stands there`);
      } else {
        if (this.isLate) this.say(`${this.nameOf(tag)} is written when the line is back`);
        this.#write(tag);
      }
    });
  }

  /** A message of the host: it may tell that the next write of a file replaces another program's text. */
  meet({ kind, code, tag }) {
    if (kind === NoteKind.NOT_SAVED && REPLACING.includes(code)) this.#warnedAt.set(tag, performance.now());
  }

  /** Has a file written. What the host answers, the page tells. While a write is not answered the next one waits, since it would replace
   * what the first may be refused for. */
  async #write(tag) {
    if (this.#writes.has(tag)) {
      this.#writes.set(tag, true);
      return;
    }
    this.#hasChanged = true;
    this.#writes.set(tag, false);
    let isWarned = false;
    try {
      await this.session.write(tag);
    } catch (error) {
      isWarned = error instanceof RequestRefused && REPLACING.includes(error.note.code);
      if (!(error instanceof RequestRefused)) this.#sayWhy(error);
    }
    const isNext = this.#writes.get(tag);
    this.#writes.delete(tag);
    if (isNext && !isWarned) this.#write(tag);
    this.#wake(0);
  }

  /** Shows a file, which is opened before. */
  show(tag) {
    this.press(this.nameOf(tag), () => (this.open(tag) ? undefined : AGAIN), { isOfNoFile: true });
  }

  /** Opens a file. Returns whether it is shown, or can't be any more; else it will be open once the host has answered. */
  open(tag) {
    if (!this.client.file(tag).isKnown) {
      this.say("there is no such file any more");
      return true;
    }
    const view = this.views.get(tag) ?? this.#view(tag);
    if (!this.client.file(tag).isOpen || view.hasChanges) return false;
    this.#putUp(view);
    return true;
  }

  /** Has a file opened that is known, and its first page loaded, without showing it. */
  async prepare(tag) {
    if (!this.views.has(tag)) this.#view(tag);
    const file = this.session.document(tag);
    await file.opened;
    await file.load(0, REACH);
    this.showChanges();
  }

  #view(tag) {
    const view = new View(this.client, tag, this.cm, this.CodeMirror.Doc("", null, 0, "\n"));
    this.views.set(tag, view);
    this.#openFile(tag);
    return view;
  }

  /** Has a file opened. Where that fails its view goes: another try makes another. */
  async #openFile(tag) {
    try {
      await this.session.document(tag).opened;
    } catch (error) {
      this.views.delete(tag);
      this.#sayWhy(error);
    }
  }

  #putUp(view) {
    if (this.active === view) return;
    this.active = view;
    this.cm.swapDoc(view.doc);
    view.measure();
    this.page.draw();
  }

  /** Has the user asked whether the session is to end, behind the keys that wait and the writes that are to follow others. */
  end(ask) {
    this.press("ending", ask, { isOfNoFile: true, isReady: () => !this.isOver && !this.#isWriteHeld });
  }

  /** The user leaves: the session ends. */
  async leave() {
    try {
      await this.session.close();
    } catch (error) {
      this.#sayWhy(error);
    }
  }

  // ---- What goes on by itself

  /** After keys or bytes: does what can be done now, and what is due. */
  update() {
    if (this.#isUpdating || this.session === null) return;
    this.#isUpdating = true;
    try {
      if (this.isOver) this.waiting.goOn();
      else this.#goOn();
    } catch (error) {
      this.#sayWhy(error);
    } finally {
      this.#isUpdating = false;
    }
    this.page.draw();
  }

  #goOn() {
    if (this.active === null) this.#showFirst();
    this.waiting.goOn();
    this.page.opening.goOn();
    const unloaded = this.active?.unloaded ?? null;
    if (unloaded !== null && !this.input.isComposing) this.session.see(this.active.tag, unloaded.start, unloaded.end);
    if (this.waiting.count > 0) this.#wake(READ_AFTER);
    else if (this.#isLineWatched) this.#wake(TICK);
  }

  /** Whether the host owes something, by which it is seen how the line is: the rest of a load, too, for which no promise waits. */
  get #isLineWatched() {
    const isLocked = this.active !== null && this.client.file(this.active.tag).isLocked;
    return isLocked || !this.session.hasAll || this.isLate || this.session.isWaiting;
  }

  /** The names of the files are known: opens the first one. */
  #showFirst() {
    const isKnown = this.client.requests === 0 && !this.client.state().commandLocked;
    const [first] = isKnown ? this.tags : [];
    if (first !== undefined) this.open(first);
  }

  /** What becomes of a promise: its `value` or its `error`, once it `isThere`. Then the keys that wait go on. */
  awaited(promise) {
    const answer = { isThere: false, value: null, error: null };
    const meet = (what) => {
      Object.assign(answer, what, { isThere: true });
      this.update();
    };
    promise.then((value) => meet({ value }), (error) => meet({ error }));
    return answer;
  }

  /** Something waits until the user rests. */
  lookAtRest() {
    this.#wake(AT_REST);
  }

  /** Has the clock call `update` after so many milliseconds, if not before. */
  #wake(after) {
    const at = performance.now() + after;
    if (at >= this.#wakesAt) return;
    clearTimeout(this.#timer);
    this.#wakesAt = at;
    this.#timer = setTimeout(() => {
      this.#wakesAt = Infinity;
      this.update();
    }, after);
  }

  /** A file doesn't come: what was typed for it is put in nowhere, and given back. */
  refuse(why) {
    const { typed, hadMore } = this.waiting.giveUpFile();
    const line = hadMore ? `${why}; other keys for it are not done` : why;
    if (typed === "") this.page.tell(line);
    else this.page.giveBack(`${line}; what you typed for it is put in nowhere`, typed);
  }

  say(message) {
    this.message = message;
    this.#saidAt = performance.now();
    this.page.draw();
  }

  /** The session can't go on. What is loaded can still be read and copied. */
  lose(why) {
    if (this.isOver) return;
    const { typed } = this.waiting;
    this.isOver = true;
    this.waiting = new Waiting(this);
    if (typed !== "") this.page.giveBack("what you typed at last is put in nowhere", typed);
    this.showChanges();
    this.page.lose(why);
  }
}
