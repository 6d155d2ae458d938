/* A file as CodeMirror shows it: its document is made to say what the session shows, change by change. */
import { Gap, SHADE, Shown, piecesOf } from "./shown_text.js";

export const OURS = "session"; // the origin of changes that say what the session shows already
const RUNES_IN_LINE = 40; // of a line that isn't loaded, as long as no other number is known
const MOST_READ = 16_384; // runes that are looked at together for the end of a gap
const PAGE = 4096; // runes that are loaded with what a window shows

/** The pieces of a stretch of a shown text. */
function read(client, tag, start, end) {
  const pieces = [];
  for (let place = start; place < end; ) {
    const gap = Math.min(end, client.firstGap(tag, place) ?? end);
    pieces.push(...piecesOf(client.text(tag, place, gap - place)));
    place = gap < end ? endOfGap(client, tag, gap, end) : end;
    if (place > gap) pieces.push(new Gap(place - gap));
  }
  return pieces;
}

/** Where a gap ends, or the stretch does in which it is sought. */
function endOfGap(client, tag, start, end) {
  for (let place = start; place < end; place += MOST_READ) {
    const at = client.read(tag, place, Math.min(MOST_READ, end - place)).findIndex((rune) => rune !== null);
    if (at >= 0) return place + at;
  }
  return end;
}

/** The smallest change that holds two, the one after the other. */
function hull(first, second) {
  const start = Math.min(first.start, second.start);
  const end = Math.max(first.start + first.came, second.start + second.gone); // in the text between
  return { start, gone: end - start - first.came + first.gone, came: end - start - second.gone + second.came };
}

/** Where a place stands after a change. */
function moved(place, { start, gone, came }) {
  if (place <= start || gone === came) return place;
  return place < start + gone ? start : place + came - gone;
}

export class View {
  #changes = []; // that are told, and not shown yet

  constructor(client, tag, cm, doc) {
    Object.assign(this, { client, tag, cm, doc });
    this.shown = new Shown();
  }

  /** Notes a change of the shown text. */
  note({ kind, place, count, isGap }) {
    const before = this.#changes.reduce((runes, { gone, came }) => runes - gone + came, this.shown.runes);
    const changes = {
      came: { start: place, gone: 0, came: count, isGap },
      went: { start: place, gone: count, came: 0 },
      filled: { start: place, gone: count, came: count },
      emptied: { start: 0, gone: before, came: 0 },
    };
    const change = changes[kind];
    if (change.gone > 0 || change.came > 0) this.#changes.push(change);
  }

  get hasChanges() {
    return this.#changes.length > 0;
  }

  /** Shows all that is noted. */
  showChanges() {
    this.apply(this.#changes.splice(0));
  }

  /** Shows changes, each in the places of the text after the one before. One that is known to be a gap is not read, which would take long
   * for a long one. */
  apply(changes) {
    const { start, gone, came, isGap } = this.#withPairs(changes.reduce(hull));
    if (gone === 0 && came === 0) return;
    const [from, to] = this.shown.widened(start, start + gone);
    const pieces = isGap ? [new Gap(came)] : read(this.client, this.tag, start, start + came);
    if (from < start) pieces.unshift(new Gap(start - from));
    if (to > start + gone) pieces.push(new Gap(to - start - gone));
    this.#put(from, to - from, pieces, (place) => changes.reduce(moved, place));
  }

  #hasAt(place, text) {
    return place >= 0 && this.client.text(this.tag, place, text.length) === text;
  }

  /** A change, with a CR before it and an LF behind it: these may be shown otherwise by now. */
  #withPairs({ start, gone, came, isGap }) {
    const isBehind = start + gone < this.shown.runes; // else the file may be closed
    const [before, behind] = [this.#hasAt(start - 1, "\r"), isBehind && this.#hasAt(start + came, "\n")].map(Number);
    const more = before + behind;
    return { start: start - before, gone: gone + more, came: came + more, isGap: isGap && more === 0 };
  }

  /** Shows all of the text anew, and selects a stretch. */
  renew(start, end) {
    this.#put(0, this.shown.runes, read(this.client, this.tag, 0, this.client.len(this.tag)), () => 0);
    this.select(start, end);
  }

  /** Puts pieces in the place of a stretch. Both ends of the selection go where `moved` says: CodeMirror would move one that stands at the
   * start of the stretch, too. */
  #put(start, gone, pieces, moved) {
    const [{ anchor, head }] = this.doc.listSelections();
    const ends = [anchor, head].map((position) => moved(this.shown.placeOf(position)));
    const [from, to] = [start, start + gone].map((place) => this.shown.positionOf(place));
    for (const { gap, start: at } of this.shown.gaps(start, start + gone)) {
      if (at >= start && at + gap.runes <= start + gone) gap.shade?.clear();
    }
    this.shown.replace(start, gone, pieces);
    this.doc.replaceRange(pieces.map((piece) => piece.shown).join(""), from, to, OURS);
    this.doc.setSelection(...ends.map((place) => this.shown.positionOf(place)), { origin: OURS, scroll: false });
    this.#spareField();
    this.#shadeAll();
  }

  /** A selection that isn't all loaded can't be copied: CodeMirror need not write it into its field, which takes seconds for a long one. */
  #spareField() {
    const isShown = this.doc.getEditor() && this.cm.curOp;
    if (isShown && this.hasGap(this.doc.getCursor("from"), this.doc.getCursor("to"))) this.cm.curOp.updateInput = 0;
  }

  /** Has each gap show as a shade below its line, as high as its lines may be. */
  #shadeAll() {
    for (const { gap, start } of this.shown.gaps()) {
      const { line, ch } = this.shown.positionOf(start);
      if (gap.shade === null) this.#mark(line, ch);
      if (gap.shade?.line === this.doc.getLineHandle(line)) continue; // else the line was parted above it
      gap.shade?.clear();
      const element = document.createElement("div");
      element.className = "shade";
      element.title = `${gap.runes} characters that are not loaded`;
      element.style.height = `${this.#heightOf(gap.runes)}px`;
      gap.shade = this.doc.addLineWidget(line, element);
    }
  }

  /** Has the caret pass a gap in one step. */
  #mark(line, ch) {
    this.doc.markText({ line, ch }, { line: line + 1, ch: 0 }, { atomic: true });
    this.doc.markText({ line, ch }, { line, ch: ch + 1 }, { replacedWith: document.createElement("span") });
  }

  /** Has CodeMirror, which shows the file now, measure the shades. */
  measure() {
    for (const { gap } of this.shown.gaps()) {
      gap.shade.node.style.height = `${this.#heightOf(gap.runes)}px`;
      gap.shade.changed();
    }
  }

  #heightOf(runes) {
    const loaded = this.shown.pieces.reduce((sum, piece) => (piece.isGap ? sum : sum + piece.runes), 0);
    const lines = this.doc.lineCount() - 1;
    const inLine = lines > 10 ? Math.max(1, loaded / lines) : RUNES_IN_LINE;
    return Math.ceil(this.cm.defaultTextHeight() * Math.max(1, runes / inLine));
  }

  /** What the user changed in CodeMirror's document, which shows it already. Returns the stretch that went, its text, and that which
   * came. */
  take({ from, to, text }) {
    const [start, end] = [from, to].map((position) => this.shown.placeOf(position));
    const gone = this.client.text(this.tag, start, end - start);
    const came = text.length > 1 ? text.join(this.#lineEndAt(from.line)) : text[0];
    this.shown.replace(start, end - start, piecesOf(came));
    this.#shadeAll();
    return { start, end, gone, came };
  }

  /** How lines end there: as the one above does, or this one. */
  #lineEndAt(line) {
    const starts = [line, line + 1].map((each) => this.shown.placeOf({ line: each, ch: 0 }));
    return starts.some((start) => this.#hasAt(start - 2, "\r\n")) ? "\r\n" : "\n";
  }

  // ---- Where it stands in the window

  /** Where the shade of a gap stands: from its top on, in pixels of the document. */
  #boxOf(gap, start) {
    const { line } = this.shown.positionOf(start);
    const height = Math.max(1, gap.shade.height);
    return { y: this.cm.heightAtLine(line + 1, "local") - height, height };
  }

  /** The gaps of which a part stands between two heights, and the boxes of their shades. */
  *gapsBetween(top, bottom) {
    for (const { gap, start } of this.shown.gaps()) {
      const box = this.#boxOf(gap, start);
      if (box.y < bottom && box.y + box.height > top) yield { gap, start, ...box };
    }
  }

  /** The place that stands at a height; in a shade that which would. */
  placeAt(height) {
    for (const { gap, start, y, height: most } of this.gapsBetween(height, height + 1)) {
      return start + Math.floor(((height - y) / most) * gap.runes);
    }
    return this.shown.placeOf(this.cm.coordsChar({ left: 0, top: height }, "local"));
  }

  /** At which height a place stands. */
  heightOf(place) {
    for (const { gap, start } of this.shown.gaps(place, place)) {
      if (place <= start || place >= start + gap.runes) continue;
      const { y, height } = this.#boxOf(gap, start);
      return y + (height * (place - start)) / gap.runes;
    }
    return this.cm.charCoords(this.shown.positionOf(place), "local").top;
  }

  /** Does something that changes the document, and has the window show what it showed: the caret, if it was to be seen, else the text at
   * the top. */
  keepingInPlace(act) {
    const { top, clientHeight } = this.cm.getScrollInfo();
    const caret = this.cm.cursorCoords(true, "local");
    const isCaretShown = caret.bottom > top && caret.top < top + clientHeight;
    const place = isCaretShown ? null : this.placeAt(top);
    const before = isCaretShown ? caret.top : this.heightOf(place);
    act();
    const after = place === null ? this.cm.cursorCoords(true, "local").top : this.heightOf(place);
    if (Math.abs(after - before) >= 1) this.cm.scrollTo(null, top + after - before);
  }

  /** What the window shows of the text that isn't loaded, and a page beside it; null where it shows no shade. */
  get unloaded() {
    if (this.shown.firstGapLine === Infinity) return null;
    const { top, clientHeight } = this.cm.getScrollInfo();
    for (const { gap, start, y, height } of this.gapsBetween(top, top + clientHeight)) {
      const runesOf = (pixels) => Math.floor((Math.max(0, Math.min(height, pixels)) / height) * gap.runes);
      const from = start + Math.max(0, runesOf(top - y) - PAGE);
      return { start: from, end: Math.min(start + gap.runes, start + runesOf(top + clientHeight - y) + PAGE) };
    }
    return null;
  }

  // ---- The selection

  get selection() {
    const [start, end] = [this.doc.getCursor("from"), this.doc.getCursor("to")].map((position) => this.shown.placeOf(position));
    return { start, end };
  }

  select(start, end) {
    this.doc.setSelection(this.shown.positionOf(start), this.shown.positionOf(end), { origin: OURS });
  }

  /** The first gap that touches the lines from one to another, and whether it stands after this place; null where all of them is loaded. */
  gapInLines(first, last, place) {
    const start = this.shown.placeOf({ line: Math.max(0, first), ch: 0 });
    const lastLine = Math.min(last, this.doc.lastLine());
    const end = this.shown.placeOf({ line: lastLine, ch: this.doc.getLine(lastLine).length });
    for (const { gap, start: at } of this.shown.gaps(start, end)) {
      return { start: at, end: at + gap.runes, isAfter: at >= place };
    }
    return null;
  }

  hasGap(from, to) {
    return this.doc.getRange(from, to).includes(SHADE) && !this.shown.gaps(this.shown.placeOf(from), this.shown.placeOf(to)).next().done;
  }
}
