/* The page: its parts, its keys, and the session that its address has. */
import { keepNames } from "./connection.js";
import { Copies } from "./local_backup.js";
import { Editor } from "./editor.js";
import { Find } from "./search.js";
import { Opening } from "./open_requests.js";
import { finder } from "./session_finder.js";
import { statusOf } from "./status.js";
import { Client, NoteCode, NoteKind, SessionLost, SessionOver, Status } from "./sulgrevad/sulgrevad.js";

const { CodeMirror } = globalThis;
const MOST_TOLD = 20; // lines of the host that stand in the page
const MOST_IN_LINE = 4096; // characters of one
const MOST_UNOPENED = 8; // files of which all have a button
const STATUS_LOST = 5; // of samhost, which could save a text nowhere
const UNTOLD = [NoteKind.SESSION, NoteKind.ENDED, NoteKind.TAKEN_OVER]; // messages whose texts are no words for people
const GONE = [Status.LINK_NO_SESSION, Status.LINK_WRONG_COUNT]; // reasons of a host that lacks the session, or some of it
/** Why no connection comes any more, by the host's reason. */
const LOST = {
  [Status.LINK_OTHER_VERSION]: "the host knows another version of the link",
  [Status.LINK_NO_SESSION]: "the session is not there any more",
  [Status.LINK_OTHER_SESSION]: "another page has the session",
  [Status.LINK_WRONG_COUNT]: "the host has begun again, and lacks some of what it said",
};
const COPY_AFTER = 2000; // milliseconds between two looks whether copies are due
const ASKING = ["open", "find"]; // actions that go on with a field of their own
const WITH_KEYS = "textarea, input, button, a"; // elements that have the keyboard for keys of their own
const IN_FIELDS = /-[ZY]$|^Esc$/; // keys that a field has a meaning of its own for

/** Why a session is over, in words. */
function wordsOf(why) {
  if (!(why instanceof SessionLost)) return why.message;
  if (why.by !== "") return `another page or terminal has taken the session over: ${why.by}`;
  return LOST[why.code] ?? `the session can't go on (${why.message})`;
}

const part = (id) => document.getElementById(id);

/** The page, as the editor sees it. */
class Page {
  #isDrawing = false;
  #height = 0; // of the text's window

  constructor() {
    const options = {
      inputStyle: "textarea",
      lineNumbers: true,
      lineNumberFormatter: (line) => this.#numberOf(line),
      lineSeparator: "\n",
      lineWrapping: true,
      lineWiseCopyCut: false,
      dragDrop: false,
      undoDepth: 0,
      mode: null,
      configureMouse: (_, repeat) => ({ addNew: false, unit: { single: "char", double: "word", triple: "line" }[repeat] }),
    };
    this.cm = CodeMirror(part("text"), options);
    this.keys = this.#keys();
    this.editor = new Editor(CodeMirror, this.cm, this);
    this.find = new Find(this.editor, part("finding"), part("pattern"));
    this.opening = new Opening(this.editor, this.find, part("opening"), part("path"), part("paths"));
    this.copies = new Copies(this.editor);
    document.addEventListener("click", ({ target }) => this.#meetClick(target));
    for (const box of [part("finding"), part("opening")]) box.addEventListener("mousedown", (event) => this.#meetClickBeside(event));
    document.addEventListener("keydown", (event) => this.#meetKey(event));
    addEventListener("beforeunload", (event) => this.#meetLeaving(event));
    document.addEventListener("visibilitychange", () => document.hidden && this.copies.keep()); // it may be the last thing heard
    addEventListener("pagehide", () => this.copies.keep());
    new ResizeObserver(() => this.#meetSize()).observe(part("text"));
    addEventListener("online", () => this.editor.session?.addressChanged());
    addEventListener("focus", () => this.#meetFocus());
    setInterval(() => this.copies.keepAgain(), COPY_AFTER);
  }

  /** The text has more room now, or less: the caret is to be seen where it was. */
  #meetSize() {
    const { top, clientHeight } = this.cm.getScrollInfo();
    const before = this.#height;
    this.#height = clientHeight;
    if (before === 0 || before === clientHeight) return;
    const caret = this.cm.cursorCoords(true, "local");
    this.cm.refresh();
    if (caret.bottom > top && caret.top < top + before) this.cm.scrollIntoView(null);
  }

  /** The number of a line, where it is known: after a gap it isn't. */
  #numberOf(line) {
    const number = String(line);
    const last = this.editor?.active?.shown.firstGapLine ?? Infinity;
    return line - 1 <= last ? number : "\u00a0".repeat(number.length); // as wide as it would be
  }

  // ---- The session

  /** Shows the session of this address. */
  begin() {
    finder.hear({
      begun: (session) => this.editor.begin(session),
      note: (note) => this.#meet(note),
      told: (words) => this.tell(words),
      over: (why) => this.#meetEnd(why),
    });
    this.#offerLeft();
    this.cm.focus();
  }

  async #offerLeft() {
    for (const copy of await this.copies.left()) {
      this.#offer(copy, `${copy.name}: the host may lack what this browser kept of it at ${new Date(copy.when).toLocaleString()}`);
    }
  }

  /** A message of the host: what became of a text, say, whose words are shown unless all went well. */
  #meet(note) {
    const { kind, code, tag, number, text } = note;
    if (UNTOLD.includes(kind)) return;
    if (kind === NoteKind.SAVED) this.editor.say(`${this.editor.nameOf(tag)} is written`);
    if (kind === NoteKind.ANEW) this.editor.hide(number);
    if (kind === NoteKind.SHOWN) this.opening.wish(note);
    this.editor.meet(note);
    this.copies.meet(note);
    const isPlain = kind === NoteKind.REFUSED || (kind === NoteKind.SAVED && code === NoteCode.NO_CODE);
    if (text !== "" && !isPlain) this.tell(`samhost: ${text}`);
    this.draw();
  }

  #meetEnd(why) {
    const { status = null, code = null } = why;
    if (why instanceof SessionOver && status !== null) keepNames();
    if (GONE.includes(code) || status === STATUS_LOST) this.copies.isLast = true;
    this.editor.lose(wordsOf(why));
  }

  /** The user comes back to this window: a connection that is waited for is tried soon. */
  #meetFocus() {
    const { session } = this.editor;
    if (session?.line.state === Client.DOWN) session.addressChanged();
  }

  /** Asks before the page goes where the host may lack something that it can still get, or where the browser has no copy that is due. */
  #meetLeaving(event) {
    const { editor, copies } = this;
    copies.keep();
    const isLacking = !editor.isOver && editor.session !== null && editor.lacksChanges;
    if (!isLacking && !copies.isLacking) return;
    event.preventDefault();
    event.returnValue = ""; // for browsers that go by this
  }

  // ---- What the user does

  /** A button, or a link, does its part, and gives the keyboard back to the text. */
  #meetClick(target) {
    if (!target.matches("button, a")) return;
    const { action } = target.dataset;
    this.#do(action);
    if (!ASKING.includes(action)) this.cm.focus();
  }

  /** A click beside a field leaves it the keyboard. */
  #meetClickBeside(event) {
    if (event.target.tagName !== "INPUT") event.preventDefault();
  }

  /** A key that the text doesn't have means the same as there; but a field undoes by itself. */
  #meetKey(event) {
    if (!event.target.matches(WITH_KEYS)) {
      this.#meetLooseKey(event);
      return;
    }
    const key = CodeMirror.keyName(event);
    if (event.defaultPrevented || !(key in this.keys) || (event.target.tagName === "INPUT" && IN_FIELDS.test(key))) return;
    event.preventDefault();
    this.keys[key]();
  }

  /** A key that nothing has, as behind a click beside the text or on a shade, is one of the text. What the browser does by it, a paste say,
   * it does there; but it copies words that are selected elsewhere. */
  #meetLooseKey(event) {
    const isDone = this.editor.input.replay(event);
    if (isDone) event.preventDefault();
    const isInField = document.activeElement.matches(WITH_KEYS); // which the key has shown
    if (!isInField && (isDone || getSelection().isCollapsed)) this.cm.focus();
  }

  #keys() {
    const keys = { "Shift-Ctrl-G": "previous", F3: "next", "Shift-F3": "previous", Esc: "escape" };
    for (const front of ["Ctrl", "Cmd"]) {
      const own = { S: "save", O: "open", F: "find", G: "next", Z: "undo", Y: "redo" };
      for (const [letter, action] of Object.entries(own)) keys[`${front}-${letter}`] = action;
      keys[`Shift-${front}-Z`] = "redo";
    }
    return Object.fromEntries(Object.entries(keys).map(([key, action]) => [key, () => this.#do(action)]));
  }

  #do(action) {
    const { editor } = this;
    const actions = {
      open: () => this.opening.begin(),
      save: () => editor.save(),
      find: () => this.find.begin(),
      next: () => this.find.next(),
      previous: () => this.find.previous(),
      undo: () => editor.undo(),
      redo: () => editor.redo(),
      escape: () => this.find.end(),
      leave: () => editor.end(() => this.#leave()),
      begin: () => location.reload(),
      read: () => (part("over").hidden = true),
    };
    actions[action]?.();
  }

  #leave() {
    const { editor } = this;
    const unwritten = editor.tags.filter((tag) => editor.isChanged(tag)).map((tag) => editor.nameOf(tag));
    const question = unwritten.length > 0 ? `Not written: ${unwritten.join(", ")}. End the session without them?` : "End the session?";
    if (confirm(question)) editor.leave();
  }

  // ---- What is drawn

  /** Draws what stands round the text, before the next frame. */
  draw() {
    if (this.#isDrawing || this.editor.session === null) return;
    this.#isDrawing = true;
    requestAnimationFrame(() => {
      this.#isDrawing = false;
      part("status").textContent = statusOf(this.editor);
      part("message").textContent = this.editor.message;
      this.#drawFiles();
    });
  }

  /** Draws a button for each file of a few, else for those that are open. */
  #drawFiles() {
    const { editor } = this;
    const { tags } = editor;
    const files = tags.length <= MOST_UNOPENED ? tags : tags.filter((tag) => editor.views.has(tag));
    const words = files.map((tag) => `${tag} ${editor.active?.tag === tag} ${editor.isChanged(tag)} ${editor.nameOf(tag)}`).join("\n");
    if (words === this.filesDrawn) return;
    this.filesDrawn = words;
    part("files").replaceChildren(...files.map((tag) => this.#fileButton(tag)));
    if (editor.active !== null) document.title = `${this.#marked(editor.active.tag)} - Sulgrevad`;
  }

  #marked(tag) {
    return `${this.editor.nameOf(tag)}${this.editor.isChanged(tag) ? " *" : ""}`;
  }

  #fileButton(tag) {
    const { editor } = this;
    const button = this.#button(this.#marked(tag), () => editor.show(tag));
    button.setAttribute("aria-current", editor.active?.tag === tag);
    return button;
  }

  /** A line that stands until the user has read it. */
  tell(line, ...buttons) {
    const item = document.createElement("li");
    const words = document.createElement("span");
    words.textContent = line.slice(0, MOST_IN_LINE);
    item.append(words, ...buttons, this.#button("Dismiss", () => item.remove()));
    part("told").append(item);
    const plain = part("told").querySelectorAll("li:not(:has(a))"); // a text that is offered stays
    if (plain.length > MOST_TOLD) plain[0].remove();
  }

  #button(text, act) {
    const button = Object.assign(document.createElement("button"), { type: "button", textContent: text });
    button.addEventListener("click", act);
    return button;
  }

  /** What was typed is in no file: the line has its front, and a copy has all. */
  giveBack(line, typed) {
    this.#offer(this.copies.setAside(typed), `${line}: ${typed}`);
  }

  /** Tells of a copy, which the user may save as a file of his own, or drop. A blob has it: no address can have half of a pair of
   * surrogates, as what was typed may. */
  #offer(copy, line) {
    const href = URL.createObjectURL(new Blob([copy.text], { type: "text/plain;charset=utf-8" }));
    const download = Object.assign(document.createElement("a"), { href, download: copy.name.split("/").at(-1) });
    download.textContent = "Save it as a file";
    const drop = this.#button("Drop it", () => {
      this.copies.drop(copy);
      drop.closest("li").remove();
    });
    this.tell(line, download, drop);
  }

  /** The session can't go on here. */
  lose(why) {
    this.opening.giveUp();
    this.copies.keep();
    part("why").textContent = `${why}. What is loaded can still be read and copied.`;
    part("over").hidden = false;
    this.draw();
  }
}

const page = new Page();
page.begin();
globalThis.sulgrevad = page.editor; // for tests, and for whoever looks into a page
