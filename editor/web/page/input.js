/* What the user does in CodeMirror: keys, texts and the mouse. Where nothing has to wait CodeMirror does it, and the session is told; else
 * it waits, and is done in its order. */
import { OURS } from "./view.js";

/** Commands of CodeMirror's keys that go by the lines beside the caret, and those that go by a page. */
const BY_LINES = /^(go(Char|Column|Line|Group|Word|Doc)|del|newline|insertTab|transposeChars|killLine|openLine)/;
const BY_PAGE = /^goPage/;
const ANYWHERE = /^(goDoc|selectAll|insertTab|newline)/; // what needs no text beside the caret

/** The names of CodeMirror's keys in the page: those that move, erase and select. Others are the editor's own, or the browser's. */
const KEPT = /^(go|del|newline|insertTab|selectAll|killLine|openLine|transposeChars)/;
const REPLACED = { defaultTab: "insertTab", newlineAndIndent: "newlineAsAbove", goLineStartSmart: "goLineStart" };

const AT_CARET = /^(del|newline|insertTab|killLine|openLine|transposeChars)/; // what changes the text there

const NAMES = { del: "erasing", go: "that move" };

function nameOf(command) {
  return NAMES[Object.keys(NAMES).find((front) => command.startsWith(front))] ?? "that key";
}

/** All keys of a map of CodeMirror's, with those that it falls through to. */
function allKeys(CodeMirror, name, found = {}) {
  const map = CodeMirror.keyMap[name];
  for (const other of [map.fallthrough ?? []].flat()) allKeys(CodeMirror, other, found);
  for (const [key, command] of Object.entries(map)) {
    if (typeof command === "string" && key !== "fallthrough") found[key] = command;
  }
  return found;
}

export function isPasting({ key, ctrlKey, metaKey, shiftKey }) {
  return ((ctrlKey || metaKey) && key.toLowerCase() === "v") || (shiftKey && key === "Insert");
}

/** Whether a key's event is that of a sign, or what was pasted. */
export function isText(event) {
  if (event.isPasted) return true;
  const isAlone = !event.ctrlKey && !event.altKey && !event.metaKey;
  return [...event.key].length === 1 && (isAlone || event.getModifierState("AltGraph"));
}

/** Does what a key means in a field that was pressed before the field had the keyboard. */
export function replayIn(field, event) {
  if (!field.dispatchEvent(new KeyboardEvent("keydown", event))) return; // what hears it has done it
  const { selectionStart: start, selectionEnd: end, value } = field;
  const [before, behind] = start === end ? [Math.max(0, start - 1), Math.min(value.length, end + 1)] : [start, end];
  const place = { ArrowLeft: before, ArrowRight: behind, Home: 0, End: value.length }[event.key];
  if (place !== undefined) field.setSelectionRange(place, place);
  else if (event.key === "Backspace") field.setRangeText("", before, end, "end");
  else if (event.key === "Delete") field.setRangeText("", start, behind, "end");
  else if (isText(event)) field.setRangeText(event.key, start, end, "end");
  if (field.value !== value) field.dispatchEvent(new Event("input"));
}

const HIGH = /[\ud800-\udbff]$/; // the first half of a pair of surrogates
const LOW = /^[\udc00-\udfff]/; // and the second

/** Has a change take a pair of surrogates whole. CodeMirror goes by units where a composition changes, and keeps the first half of a sign
 * whose second half alone is another one. */
function widen(cm, change) {
  const { from, to, text: [first, ...others] } = change;
  const before = cm.getLine(from.line).slice(0, from.ch);
  if (LOW.test(first) && HIGH.test(before)) change.update({ ...from, ch: from.ch - 1 }, to, [before.at(-1) + first, ...others]);
}

/** Begins a line with the blanks of the one above, as far as they stand before the caret. */
function newlineAsAbove(cm) {
  const { line, ch } = cm.getCursor("from");
  const [blanks] = cm.getLine(line).slice(0, ch).match(/^[ \t]*/);
  cm.replaceSelection(`\n${blanks}`, "end", "+input");
}

export class Input {
  isComposing = false;
  #isClicking = false; // a button of the mouse is being met
  #composesAside = false; // what is being composed waits, until it is whole
  #clip = null; // what was copied or cut last while keys waited: its text once it is known, and whether the clipboard has it

  constructor(CodeMirror, cm, editor) {
    Object.assign(this, { CodeMirror, cm, editor });
    CodeMirror.commands.newlineAsAbove = newlineAsAbove;
    CodeMirror.keyMap.sulgrevad = { ...this.#keys, ...editor.page.keys };
    cm.setOption("keyMap", "sulgrevad");
    cm.on("beforeChange", (_, change) => this.#meetChange(change));
    cm.on("change", (_, change) => change.origin !== OURS && editor.take(change));
    cm.on("beforeSelectionChange", (_, selection) => this.#meetSelection(selection));
    for (const name of ["mousedown", "contextmenu"]) cm.on(name, () => this.#meetButton());
    for (const name of ["copy", "cut"]) cm.on(name, (_, event) => this.#meetCopy(event, name === "cut"));
    cm.on("paste", (_, event) => this.#meetPaste(event));
    cm.on("keydown", () => editor.noteKey());
    this.#hearCompositions(cm.getInputField());
  }

  /** The keys of CodeMirror, each of which waits its turn. */
  get #keys() {
    const keys = {};
    for (const [key, name] of Object.entries(allKeys(this.CodeMirror, "default"))) {
      const command = REPLACED[name] ?? name;
      if (!KEPT.test(command)) continue;
      keys[key] = () => this.press(command);
      if (command.startsWith("go")) keys[`Shift-${key}`] ??= () => this.press(command, true);
    }
    return keys;
  }

  /** A command of CodeMirror's; a move may extend the selection. */
  press(command, isExtending = false) {
    const { editor } = this;
    editor.noteKey();
    const [isReady, isAtCaret] = [() => this.#hasText(command), AT_CARET.test(command)];
    editor.waiting.press({ name: nameOf(command), isReady, isAtCaret, act: () => this.#run(command, isExtending) });
  }

  /** Does what a key means that was pressed where the text didn't have the keyboard. Returns whether it means something. */
  replay(event) {
    const { CodeMirror, cm } = this;
    const run = (act) => {
      act(cm);
      return true;
    };
    if (CodeMirror.lookupKey(CodeMirror.keyName(event), "sulgrevad", run) === "handled") return true;
    if (isText(event)) this.type(event.key, "+input");
    return isText(event);
  }

  /** Runs a command as if Shift were held down as it was when its key was pressed, whatever is held down by now. */
  #run(command, isExtending) {
    const { display } = this.cm;
    const { shift } = display;
    display.shift = isExtending;
    try {
      this.cm.execCommand(command);
    } finally {
      display.shift = shift;
    }
  }

  /** Whether the text is loaded by which a command goes; else it is asked for. */
  #hasText(command) {
    if (ANYWHERE.test(command) || !(BY_LINES.test(command) || BY_PAGE.test(command))) return this.#hasSelected(command);
    const { cm, editor } = this;
    const { line } = cm.getCursor("head");
    const reach = BY_PAGE.test(command) ? Math.ceil(cm.getScrollInfo().clientHeight / cm.defaultTextHeight()) : 1;
    const place = editor.active.shown.placeOf(cm.getCursor("head"));
    const gap = editor.active.gapInLines(line - reach, line + reach, place);
    if (gap !== null) editor.reach(gap);
    return gap === null && this.#hasSelected(command);
  }

  /** Whether all is loaded that a command would take out: what went can be brought back then. */
  #hasSelected(command) {
    return command.startsWith("go") || command.startsWith("select") || this.#isSelectedLoaded;
  }

  // ---- Texts

  #meetChange(change) {
    const { editor } = this;
    if (change.origin === OURS) return;
    widen(this.cm, change);
    if (!this.#composesAside && !change.text.every((line) => line.isWellFormed() && !line.includes("\0"))) {
      change.cancel(); // places are no places in half of a pair of surrogates, and the host opens no file that has a zero
      editor.say("that is no text");
      return;
    }
    const { from, to } = change;
    change.update(from, to, change.text.map((line) => line.replace(/\r+$/, ""))); // they end as the lines do where they come
    const isOpen = editor.waiting.isOpenTo && !this.#composesAside;
    if (isOpen && editor.isLoaded(from, to)) return;
    change.cancel();
    if (change.origin === "*compose" || this.isComposing) this.#composesAside = true;
    else this.type(change.text.join("\n"), change.origin);
  }

  /** A text in the place of the selection, once its turn comes. */
  type(text, origin) {
    const { cm, editor } = this;
    if (editor.isOver) {
      editor.say("nothing can be changed any more");
      return;
    }
    const act = () => cm.replaceSelection(text, "end", origin);
    editor.waiting.press({ name: "typing", text, isReady: () => this.#isSelectedLoaded, act });
  }

  /** What an input method composes is shown as it grows, where nothing has to wait; else it comes when it is whole. */
  #hearCompositions(field) {
    field.addEventListener("compositionstart", () => {
      this.isComposing = true;
      this.#composesAside = !this.editor.waiting.isOpenTo;
    });
    field.addEventListener("compositionend", ({ data }) => {
      const isAside = this.#composesAside;
      this.isComposing = this.#composesAside = false;
      if (isAside && data) this.type(data, "+input");
      this.editor.noteKey();
    });
  }

  /** A step of what is composed was refused. CodeMirror counts it as shown, and would take text before the caret out for it. */
  putOffComposition() {
    this.#composesAside ||= this.isComposing;
  }

  // ---- The mouse

  /** Of other buttons than the first CodeMirror doesn't say that a selection comes by them. */
  #meetButton() {
    this.#isClicking = true;
    queueMicrotask(() => (this.#isClicking = false));
  }

  /** A place that is clicked while keys wait is gone to after them: as it stands in the text then. */
  #meetSelection(selection) {
    const { cm, editor } = this;
    if (!(this.#isClicking || selection.origin === "*mouse") || editor.waiting.isOpenTo || editor.waiting.count === 0) return;
    const [{ anchor, head }] = selection.ranges;
    const marks = [anchor, head].map((position) => cm.setBookmark(position));
    const { doc } = cm;
    selection.update(cm.listSelections());
    const last = editor.waiting.last("click");
    if (last) Object.assign(last, { marks, doc });
    else this.#waitForClick({ kind: "click", name: "the mouse", marks, doc });
  }

  #waitForClick(click) {
    const { cm, editor } = this;
    click.act = () => {
      const [anchor, head] = click.marks.map((mark) => mark.find());
      if (anchor && head && cm.doc === click.doc) cm.setSelection(anchor, head);
      for (const mark of click.marks) mark.clear();
    };
    editor.waiting.press(click);
  }

  // ---- The clipboard

  /** What is copied or cut while keys wait is what these select: so it waits, too. A selection that isn't all loaded is loaded first. */
  #meetCopy(event, isCut) {
    const { editor } = this;
    const isBehind = editor.waiting.count > 0;
    if (!isBehind) this.#clip = null; // the clipboard has what comes now
    if (!isBehind && this.#isSelectedLoaded) return;
    event.preventDefault();
    event.codemirrorIgnore = true;
    if (isBehind) this.#copyLater(isCut);
    else editor.say("what is selected is being loaded: copy or cut it again");
  }

  #copyLater(isCut) {
    const { cm, editor } = this;
    const clip = { text: null, isKept: false };
    this.#clip = clip;
    const act = () => {
      const text = cm.getSelection();
      if (text !== "") this.#copy(clip, text);
      else clip.isKept = true;
      if (isCut && text !== "") cm.replaceSelection("", "end", "cut");
    };
    editor.waiting.press({ name: isCut ? "cutting" : "copying", isReady: () => this.#isSelectedLoaded, isAtCaret: true, act });
  }

  get #isSelectedLoaded() {
    return this.editor.isLoaded(this.cm.getCursor("from"), this.cm.getCursor("to"));
  }

  /** Has the clipboard hold a text. Where the browser doesn't let it, it is pasted here all the same, until the user turns to another
   * program, from which he may bring something. */
  #copy(clip, text) {
    clip.text = text;
    const kept = navigator.clipboard?.writeText(text) ?? Promise.reject(new Error("there is no clipboard"));
    const isKept = () => (clip.isKept = true);
    kept.then(isKept).catch(() => {
      this.editor.say("other programs can't paste this: the browser didn't copy it");
      addEventListener("blur", isKept, { once: true });
    });
  }

  /** What is pasted behind a copy that waits is what that takes. */
  #meetPaste(event) {
    const { cm, editor } = this;
    const clip = this.#clip;
    if (clip === null || clip.isKept) return;
    const pasted = event.clipboardData?.getData("text/plain") ?? "";
    event.preventDefault();
    event.codemirrorIgnore = true;
    const act = () => cm.replaceSelection(clip.text ?? pasted, "end", "paste");
    editor.waiting.press({ name: "pasting", text: pasted, isReady: () => this.#isSelectedLoaded, act });
  }
}
