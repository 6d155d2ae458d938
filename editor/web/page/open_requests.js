/* The menu of files: those of the session, and what the host has whose path begins as it is typed. */
import { isPasting, isText, replayIn } from "./input.js";
import { AGAIN } from "./key_queue.js";
import { NoteCode, NoteKind, RequestRefused } from "./sulgrevad/sulgrevad.js";

const ENCODER = new TextEncoder();
const DECODER = new TextDecoder();
const BY_NAMES = ["Enter", "Tab", "ArrowDown", "ArrowUp"]; // keys that go by the names
const LOOK_AGAIN = 200; // milliseconds until it is seen whether the line is late, so that keys wait no longer

export class Opening {
  #wanted = ""; // the path that is typed, until its names come
  #asking = 0; // questions for names that are not answered
  #held = []; // keys that wait for names, with all after them: so the same keys open the same file over any line
  #isReplaying = false;
  #before = null; // the path, while an input method composes behind keys that wait
  #timer = 0;
  #names = [];
  #hasMore = false;
  #chosen = 0;
  #wishes = []; // files that the host wishes shown: the tag of each, and a line, or 0
  #isPreparing = false; // the first of them is opened

  constructor(editor, find, box, field, list) {
    Object.assign(this, { editor, find, box, field, list });
    field.addEventListener("input", () => this.#before === null && this.#narrow());
    field.addEventListener("compositionstart", () => (this.#before = this.hasWaitingKeys ? field.value : null));
    field.addEventListener("compositionend", ({ data }) => this.#meetComposed(data));
    field.addEventListener("keydown", (event) => this.#meetKey(event));
    field.addEventListener("paste", (event) => this.#meetPaste(event));
    field.addEventListener("blur", () => this.#meetBlur());
    list.addEventListener("click", ({ target }) => this.#meetClick([...list.children].indexOf(target)));
  }

  begin() {
    this.box.hidden = false;
    this.field.value = "";
    this.#narrow();
    this.field.focus();
  }

  end() {
    this.box.hidden = true;
    this.editor.cm.focus();
  }

  // ---- Keys

  /** Whether keys wait for names. */
  get hasWaitingKeys() {
    return this.#held.length > 0;
  }

  #meetKey(event) {
    if (event.isComposing) return;
    if (this.#isReplaying || (this.#held.length === 0 && !this.#waits(event))) {
      if (this.#press(event)) event.preventDefault();
      return;
    }
    if (isPasting(event)) return; // what comes by it waits
    event.preventDefault();
    this.#held.push(event);
    clearInterval(this.#timer);
    this.#timer = setInterval(() => this.#replay(), LOOK_AGAIN);
  }

  /** What is pasted behind keys that wait goes where they lead. */
  #meetPaste(event) {
    if (this.#held.length === 0) return;
    event.preventDefault();
    this.#held.push({ key: event.clipboardData.getData("text/plain").replaceAll("\r\n", "\n"), isPasted: true });
  }

  /** So does what an input method has composed: the path is as it was. */
  #meetComposed(text) {
    if (this.#before === null) return;
    this.field.value = this.#before;
    this.#before = null;
    this.#held.push({ key: text, isPasted: true });
    this.#replay();
  }

  /** Whether a key goes by names that are still to come. */
  #waits({ key }) {
    const { box, editor } = this;
    return !box.hidden && BY_NAMES.includes(key) && this.#wanted !== "" && !editor.isOver && !editor.isLate;
  }

  /** Does the keys that wait, as far as names are there: each where the one before leaves the keyboard. */
  #replay() {
    this.#isReplaying = true;
    try {
      while (this.#held.length > 0 && this.#before === null && !this.#waits(this.#held[0])) this.#do(this.#held.shift());
    } finally {
      this.#isReplaying = false;
    }
    if (this.#held.length === 0) clearInterval(this.#timer);
  }

  /** The keyboard goes elsewhere, and not by a key that waited: the others are not meant for there. Where the whole window loses it, the
   * field stays the active one. */
  #meetBlur() {
    if (!this.#isReplaying && document.activeElement !== this.field) this.giveUp();
  }

  #meetClick(at) {
    if (this.#entries[at]) this.giveUp();
    this.#choose(at, true);
  }

  /** Drops the keys that wait. What was typed behind a path, for its file, is given back. */
  giveUp() {
    clearInterval(this.#timer);
    this.#before = null;
    const keys = this.#held.splice(0);
    const opens = keys.findIndex(({ key }) => key === "Enter");
    const behind = opens < 0 ? [] : keys.slice(opens + 1).filter((event) => event.key === "Enter" || isText(event));
    const typed = behind.map(({ key }) => (key === "Enter" ? "\n" : key)).join("");
    if (typed.trim() !== "") this.editor.page.giveBack(`what you typed behind ${this.field.value} is put in nowhere`, typed);
  }

  #do(event) {
    const { activeElement } = document;
    if (activeElement.tagName === "INPUT") replayIn(activeElement, event);
    else this.editor.input.replay(event);
  }

  /** Does what a key means here, if it means something. */
  #press({ key }) {
    const keys = {
      Enter: () => this.#choose(this.#chosen, true),
      Tab: () => this.#choose(this.#chosen, false),
      Escape: () => this.end(),
      ArrowDown: () => this.#move(1),
      ArrowUp: () => this.#move(-1),
    };
    keys[key]?.();
    return key in keys;
  }

  #move(by) {
    this.#chosen = Math.max(0, Math.min(this.#chosen + by, this.#entries.length - 1));
    this.#draw();
  }

  /** The folder of the path that is typed, up to its slash. */
  get #folder() {
    const { value } = this.field;
    return value.slice(0, value.lastIndexOf("/") + 1);
  }

  /** What may be chosen: files of the session, and paths. A path that isn't there comes last, unless it names a folder. */
  get #entries() {
    const { editor, field } = this;
    const typed = field.value;
    const files = editor.tags.map((tag) => ({ tag, name: editor.nameOf(tag), mark: editor.isChanged(tag) ? "*" : "" }));
    const known = new Set(files.map(({ name }) => name));
    const paths = this.#names.map((name) => this.#folder + name).filter((path) => path.startsWith(typed) && !known.has(path));
    if (typed && !typed.endsWith("/") && !known.has(typed) && !paths.includes(typed)) paths.push(typed);
    return [...files.filter(({ name }) => name.includes(typed)), ...paths.map((path) => ({ path, name: path, mark: "+" }))];
  }

  #narrow() {
    this.#names = [];
    this.#hasMore = false;
    this.#chosen = 0;
    this.#wanted = this.editor.isOver ? "" : this.field.value;
    this.#askNames();
    this.#draw();
  }

  /** Asks the host for names that complete the path that is typed. A path that is too long has none. While answers are late only one
   * question waits: else a key that is held down would take up all that may wait, and a write would be refused. */
  async #askNames() {
    const wanted = this.#wanted;
    if (wanted === "" || (this.#asking > 0 && this.editor.isLate)) return;
    this.#asking += 1;
    const asked = this.editor.session.begin(NoteKind.COMPLETE, { path: ENCODER.encode(wanted) });
    const { path, code } = await asked.catch(() => ({ path: new Uint8Array(0), code: NoteCode.NO_CODE }));
    this.#asking -= 1;
    if (wanted === this.#wanted) this.#meetNames(DECODER.decode(path), code === NoteCode.HAS_MORE);
    else if (this.#asking === 0) this.#askNames();
  }

  #draw() {
    const entries = this.#entries.map(({ name, mark }, at) => {
      const item = document.createElement("li");
      item.textContent = `${mark || " "} ${name}`;
      item.setAttribute("aria-selected", at === this.#chosen);
      return item;
    });
    if (this.#hasMore) entries.push(Object.assign(document.createElement("li"), { textContent: "  .. and more" }));
    this.list.replaceChildren(...entries);
    this.list.children[this.#chosen]?.scrollIntoView({ block: "nearest" });
  }

  /** Shows a file, opens a path, or goes into a folder; without `opens` it takes the path into the field alone. */
  #choose(at, opens) {
    const entry = this.#entries[at];
    if (!entry) return;
    if (entry.path === undefined && opens) {
      this.end();
      this.editor.show(entry.tag);
    } else if (entry.path === undefined || entry.path.endsWith("/") || !opens) {
      this.field.value = entry.name;
      this.#narrow();
    } else {
      this.end();
      this.open(entry.path);
    }
  }

  /** Has the host open a file of its machine. Keys that come meanwhile wait: they are for that file. */
  open(path) {
    const { editor } = this;
    let opening = null; // what becomes of it: the tag of its file, or why it isn't opened
    const act = () => {
      if (opening !== null) return this.#goOn(path, opening);
      if (editor.isLate) return AGAIN;
      opening = editor.awaited(editor.session.join(path));
      return AGAIN;
    };
    editor.press(`opening ${path}`, act, { isOfNoFile: true });
  }

  /** What became of a path: its file is shown, a folder is gone into, or the user is told why it isn't opened. */
  #goOn(path, { isThere, value: tag, error }) {
    const { editor } = this;
    if (!isThere) return AGAIN;
    if (error === null) return editor.open(tag) ? undefined : AGAIN;
    if (error instanceof RequestRefused && error.note.code === NoteCode.IS_FOLDER) this.#enter(path);
    else editor.refuse(`${path} is not opened: ${error.message}`);
    return undefined;
  }

  /** A path turns out to be a folder: what was typed behind it goes on with the path, unless it has lines, which a field can't hold. */
  #enter(path) {
    const { editor, field } = this;
    const { typed } = editor.waiting.giveUpFile();
    const isOfPath = !typed.includes("\n");
    if (!isOfPath) editor.page.giveBack(`${path} is a folder; what you typed for it is put in nowhere`, typed);
    this.begin();
    field.value = `${path.replace(/\/+$/, "")}/${isOfPath ? typed : ""}`;
    this.#narrow();
  }

  /** Another program on the host's machine wishes a file shown. Of what is prepared for that, `keyAt` is when the last key had come, and
   * `place` where the line begins. */
  wish({ tag, number }) {
    this.#wishes.push({ tag, line: number, keyAt: null, place: null });
    this.editor.update();
  }

  #meetNames(names, hasMore) {
    this.#names = names.split("\n").filter((name) => name !== "" && !name.includes("\ufffd")); // others can't be asked for
    this.#hasMore = hasMore;
    const typed = this.#entries.findIndex(({ path }) => path === this.field.value);
    if (typed >= 0 && this.#names.includes(this.field.value.slice(this.#folder.length))) this.#chosen = typed;
    this.#wanted = "";
    this.#draw();
    this.#replay();
  }

  /** Shows files that the host wishes shown, where the user rests. Keys that he presses while one is opened are for the file that he sees:
   * they don't wait for it, and it waits until he rests again. */
  goOn() {
    const { editor } = this;
    const [wish] = this.#wishes;
    if (wish === undefined || this.#isPreparing) return;
    if (document.activeElement === this.field || !editor.isAtRest) editor.lookAtRest();
    else if (wish.keyAt !== editor.keyAt) this.#prepare(wish);
    else if (!editor.views.get(wish.tag)?.hasChanges) this.#show(this.#wishes.shift());
  }

  /** Opens a file that is to be shown, and finds its line: anew where keys have come since, which may have changed it. */
  async #prepare(wish) {
    const { editor, find } = this;
    const { keyAt } = editor;
    this.#isPreparing = true;
    try {
      await editor.session.know(wish.tag);
      await editor.prepare(wish.tag);
      if (wish.line > 0) wish.place = await find.placeOfLine(wish.tag, wish.line);
      wish.keyAt = keyAt;
    } catch (error) {
      this.#wishes.shift();
      if (!editor.isOver) editor.say(`a file that the host shows can't be opened: ${error.message}`);
    }
    this.#isPreparing = false;
    editor.update();
  }

  #show({ tag, line, place }) {
    const act = () => {
      this.editor.open(tag);
      if (line > 0 && this.editor.active?.tag === tag) this.find.goToLine(line, place);
    };
    this.editor.press("the file that the host shows", act, { isOfNoFile: true });
  }
}
