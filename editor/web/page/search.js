/* Finding: as the user types, in what is loaded; and where that doesn't have it, by the host. */
import { AGAIN } from "./key_queue.js";
import { runesOf } from "./shown_text.js";
import { EventKind } from "./sulgrevad/sulgrevad.js";

const PAGE = 4096; // runes that are loaded round a place that is found
const SIGNS = /[!-/:-@[-`{-~]/g; // what a pattern of a command line has a backslash before
const NOWHERE = ["? search\n", "? address\n"]; // what the host prints where a text, or a line, is not there
const TOO_LONG = "? pattern\n"; // and where a pattern is one that it doesn't take

/** A pattern of a command line that stands for a text. */
function escaped(text) {
  return text.replace(SIGNS, "\\$&").replaceAll("\n", "\\n");
}

export class Find {
  #origin = { start: 0, end: 0 }; // what was selected when the search began

  constructor(editor, bar, field) {
    Object.assign(this, { editor, bar, field });
    field.addEventListener("input", () => this.#seek());
    field.addEventListener("keydown", (event) => this.#key(event));
  }

  /** Shows the field at once; where the search begins is where the keys before it lead. */
  begin() {
    const { editor } = this;
    const { cm } = editor;
    if (editor.waiting.count === 0 && cm.somethingSelected() && !cm.getSelection().includes("\n")) this.field.value = cm.getSelection();
    this.bar.hidden = false;
    this.field.focus();
    this.field.select();
    editor.press("finding", () => {
      this.#origin = editor.active.selection;
    });
  }

  end() {
    this.bar.hidden = true;
    this.editor.say("");
    this.editor.cm.focus();
  }

  #key(event) {
    const keys = { Enter: event.shiftKey ? () => this.previous() : () => this.next(), Escape: () => this.end() };
    keys.ArrowDown = () => this.next();
    keys.ArrowUp = () => this.previous();
    if (!(event.key in keys) || event.isComposing) return;
    event.preventDefault();
    keys[event.key]();
  }

  /** Shows the first place from where the search began, if it is loaded. */
  #seek() {
    const act = () => {
      const { value } = this.field;
      const place = value ? this.#after(this.#origin.start, value) : null;
      if (place !== null) this.#select(place, value);
      this.editor.say(value && place === null ? "not in what is loaded below; Enter looks in all of it" : "");
    };
    this.editor.press("finding", act, { isReady: () => this.#isThere });
  }

  /** Whether the text is there that was asked for: so the same keys find the same over any line. */
  get #isThere() {
    const { client, active } = this.editor;
    return this.#isAllLoaded || !client.file(active.tag).isLocked;
  }

  /** Goes to the next place: in what is loaded up to the next gap, else the host looks; where it can't, from the top of what is loaded. */
  next() {
    const { value } = this.field;
    if (value === "") return;
    let asked = null; // what the host was asked
    let isLacking = false; // what is loaded doesn't have it
    const act = () => {
      if (asked !== null) return this.#meetAnswer(asked, value);
      if (isLacking && this.editor.isLate) return AGAIN;
      const { start, end } = this.editor.active.selection;
      const place = this.#after(start === end ? start : start + 1, value);
      if (place !== null) return this.#select(place, value);
      if (this.#isAllLoaded) return giveUp();
      isLacking = true;
      if (!this.editor.isLate) asked = this.#askHost(value);
      return AGAIN;
    };
    const giveUp = () => this.#wrap(this.#after(0, value), value);
    this.editor.press("finding", act, { giveUp, isReady: () => this.#isThere });
  }

  /** Goes to the place before, in what is loaded. */
  previous() {
    const { value } = this.field;
    if (value === "") return;
    const act = () => {
      const { shown, selection } = this.editor.active;
      const place = this.#before(selection.start, value);
      if (place !== null) this.#select(place, value);
      else this.#wrap(this.#before(shown.runes, value), value);
    };
    this.editor.press("finding", act, { isReady: () => this.#isThere });
  }

  get #isAllLoaded() {
    const { client, active } = this.editor;
    return client.firstGap(active.tag) === null;
  }

  #wrap(place, value) {
    if (place !== null) this.#select(place, value);
    const where = this.#isAllLoaded ? "" : " in what is loaded";
    this.editor.say(place === null ? `it stands nowhere${where}` : "");
  }

  /** The first place from there on, up to the next gap. */
  #after(place, value) {
    const { client, active } = this.editor;
    const text = client.text(active.tag, place);
    const found = text.indexOf(value);
    return found < 0 ? null : place + runesOf(text.slice(0, found));
  }

  /** The last place before, down to the next gap. */
  #before(place, value) {
    const { client, active } = this.editor;
    const gaps = [...active.shown.gaps(0, place)].map(({ gap, start }) => start + gap.runes).filter((end) => end <= place);
    const first = gaps.at(-1) ?? 0;
    const text = client.text(active.tag, first, place - first);
    const found = text.lastIndexOf(value);
    return found < 0 ? null : first + runesOf(text.slice(0, found));
  }

  #select(place, value) {
    const { active, cm } = this.editor;
    active.select(place, place + runesOf(value));
    cm.scrollIntoView({ from: cm.getCursor("from"), to: cm.getCursor("to") }, cm.defaultTextHeight() * 3);
    this.editor.say("");
  }

  /** Finds where a line of an open file begins, counted from 1: in what is loaded from its start on, else by the host. Returns the place,
   * round which text is loaded then; null where the line is not there. */
  async placeOfLine(tag, number) {
    const { client, session, views } = this.editor;
    const { shown, doc, selection } = views.get(tag);
    const from = selection.end;
    if (number - 1 <= Math.min(shown.firstGapLine, doc.lastLine())) return shown.placeOf({ line: number - 1, ch: 0 });
    if (client.firstGap(tag) === null) return null;
    const dot = await this.#ask(tag, from, String(number));
    if (dot === null) return null;
    await session.load(tag, Math.max(0, dot.start - PAGE), dot.start + PAGE);
    return dot.start;
  }

  /** Goes to a line of the file that is shown, which was found at a place, or not. */
  goToLine(number, place) {
    if (place === null) this.editor.say(`line ${number} is not there`);
    else this.#select(place, "");
  }

  /** Has the host look for a text from the end of the selection on. Returns what becomes of that. */
  #askHost(value) {
    const { editor } = this;
    const { tag, selection } = editor.active;
    editor.say("the host looks for it");
    return editor.awaited(this.#ask(tag, selection.end, `/${escaped(value)}/`));
  }

  /** Has the host run a command line from a place on. Returns what that selects; null where it is nowhere. */
  async #ask(tag, from, command) {
    const { session } = this.editor;
    const selected = session.request(EventKind.SELECT, { tag, start: from, number: from });
    const [, printed] = await Promise.all([selected, session.run(tag, command)]);
    if (NOWHERE.includes(printed)) return null;
    if (printed !== "") throw new Error(printed === TOO_LONG ? "the host looks for 128 characters at most" : printed);
    return session.client.file(tag).dot;
  }

  /** The host has selected the place, or none. */
  #meetAnswer({ isThere, value: dot, error }, value) {
    if (!isThere) return AGAIN;
    if (error !== null) return this.editor.say(error.message);
    return dot === null ? this.#wrap(null, value) : this.#selectLoaded(dot.start, value);
  }

  /** Selects a text at a place, once that is loaded. */
  #selectLoaded(place, value) {
    const { client, active } = this.editor;
    const end = Math.min(place + Math.max(1, runesOf(value)), client.len(active.tag));
    const gap = client.firstGap(active.tag, place);
    if (gap === null || gap >= end) return this.#select(place, value);
    this.editor.load(active.tag, place - PAGE, place + PAGE);
    return AGAIN;
  }
}
