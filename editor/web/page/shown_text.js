/* What a page shows of a file: pieces of its text, and gaps where it isn't loaded. Places of the session, which count runes, and positions
 * of CodeMirror, which count lines and UTF-16 units, are found by each other here. CodeMirror has no CR of a CR LF: a caret behind it would
 * put what is typed between the two. */

export const SHADE = "\ufffc"; // stands in CodeMirror's text for a gap, however long that is, and a line end after it
const MOST_UNITS = 4096; // of a piece of text

/** How many runes a string has; the first half of a pair of surrogates alone is none. */
export function runesOf(text) {
  let pairs = 0;
  for (let at = 0; at < text.length; at++) {
    if ((text.charCodeAt(at) & 0xfc00) === 0xd800) pairs++;
  }
  return text.length - pairs;
}

function linesOf(text) {
  let lines = 0;
  for (let at = text.indexOf("\n"); at >= 0; at = text.indexOf("\n", at + 1)) lines++;
  return lines;
}

/** How many units so many runes of a text have. */
function unitsOf(text, runes) {
  let units = 0;
  for (; runes > 0; runes--) units += text.codePointAt(units) > 0xffff ? 2 : 1;
  return units;
}

/** A stretch of loaded text, which isn't empty, and how CodeMirror shows it. */
class Piece {
  isGap = false;

  constructor(text) {
    this.text = text;
    this.shown = text.replaceAll("\r\n", "\n");
    this.runes = runesOf(text);
    this.lines = linesOf(text);
    this.isPlain = this.runes === text.length && this.units === text.length;
  }

  get units() {
    return this.shown.length;
  }

  /** How many units are shown of so many of its runes. */
  unitsOf(runes) {
    if (this.isPlain) return runes;
    const units = unitsOf(this.text, runes);
    return units - (this.text.slice(0, units + 1).split("\r\n").length - 1);
  }

  /** How many runes are shown as so many units; where a line ends there, those before its CR. */
  runesOf(units) {
    if (this.isPlain) return units;
    let end = units;
    for (let at = this.text.indexOf("\r\n"); at >= 0 && at < end; at = this.text.indexOf("\r\n", at + 2)) end++;
    return runesOf(this.text.slice(0, end));
  }

  /** What stands from one of its runes to another. */
  cut(from, to) {
    if (from === 0 && to === this.runes) return [this];
    return piecesOf(this.text.slice(unitsOf(this.text, from), unitsOf(this.text, to)));
  }
}

/** A stretch that isn't loaded. */
export class Gap {
  isGap = true;
  shown = `${SHADE}\n`;
  lines = 1;
  units = 2;
  shade = null; // what CodeMirror shows for it

  constructor(runes) {
    this.runes = runes;
  }

  unitsOf(runes) {
    return runes > 0 ? this.units : 0;
  }

  runesOf(units) {
    return units < this.units ? 0 : this.runes;
  }

  cut(from, to) {
    if (from === 0 && to === this.runes) return [this];
    return to > from ? [new Gap(to - from)] : [];
  }
}

/** A text as pieces of no great length. */
export function piecesOf(text) {
  const pieces = [];
  for (let at = 0; at < text.length; ) {
    let end = Math.min(text.length, at + MOST_UNITS);
    if (text.codePointAt(end - 1) > 0xffff || text.slice(end - 1, end + 1) === "\r\n") end++; // neither pair is parted
    pieces.push(new Piece(text.slice(at, end)));
    at = end;
  }
  return pieces;
}

/** Short pieces of text beside each other, put together, but for a CR and an LF that CodeMirror shows both. */
function merged(pieces) {
  const all = [];
  for (const piece of pieces) {
    const last = all.at(-1);
    const fits = last && !last.isGap && !piece.isGap && last.units + piece.units <= MOST_UNITS;
    if (fits && !(last.text.endsWith("\r") && piece.text.startsWith("\n"))) all[all.length - 1] = new Piece(last.text + piece.text);
    else all.push(piece);
  }
  return all;
}

export class Shown {
  pieces = [];
  runes = 0;

  /** The piece in which a place stands, and where that piece begins; at the border of two the latter one, at the end the last. */
  #find(place) {
    let [runes, units, lines] = [0, 0, 0];
    for (let at = 0; at < this.pieces.length; at++) {
      const piece = this.pieces[at];
      if (place < runes + piece.runes) return { at, piece, runes, units, lines };
      runes += piece.runes;
      units += piece.units;
      lines += piece.lines;
    }
    return { at: this.pieces.length, piece: null, runes, units, lines };
  }

  /** The position { line, ch } of a place. One in a gap stands before its shade. */
  positionOf(place) {
    const { at, piece, runes, lines } = this.#find(Math.min(place, this.runes));
    const units = piece === null || piece.isGap ? 0 : piece.unitsOf(place - runes);
    const text = piece === null ? "" : piece.shown.slice(0, units);
    const end = text.lastIndexOf("\n");
    if (end >= 0) return { line: lines + linesOf(text), ch: units - end - 1 };
    return { line: lines, ch: units + this.#unitsOfLineBefore(at) };
  }

  /** How many units of the line in which a piece begins stand before it. */
  #unitsOfLineBefore(at) {
    let units = 0;
    while (at-- > 0) {
      const piece = this.pieces[at];
      if (piece.lines > 0) return units + piece.units - piece.shown.lastIndexOf("\n") - 1;
      units += piece.units;
    }
    return units;
  }

  /** The place of a position. One within a pair of surrogates is the place before it. */
  placeOf({ line, ch }) {
    let [runes, lines] = [0, 0];
    let left = ch;
    let isInLine = line === 0;
    for (const piece of this.pieces) {
      if (!isInLine && lines + piece.lines < line) {
        runes += piece.runes;
        lines += piece.lines;
        continue;
      }
      let start = 0;
      for (; !isInLine && lines < line; lines++) start = piece.shown.indexOf("\n", start) + 1;
      isInLine = true;
      if (start + left < piece.units || (start + left === piece.units && !piece.isGap)) {
        return runes + piece.runesOf(start + left);
      }
      left -= piece.units - start;
      runes += piece.runes;
      if (left <= 0) return runes;
    }
    return runes;
  }

  /** Puts pieces in the place of so many runes from a place on. */
  replace(start, gone, pieces) {
    const first = this.#find(start);
    const last = this.#find(start + gone);
    const before = first.piece === null ? [] : first.piece.cut(0, start - first.runes);
    const after = last.piece === null ? [] : last.piece.cut(start + gone - last.runes, last.piece.runes);
    const end = last.at + (last.piece === null ? 0 : 1);
    const beside = first.at > 0 ? [this.pieces[first.at - 1]] : [];
    const all = merged([...beside, ...before, ...pieces, ...after]);
    this.pieces.splice(first.at - beside.length, end - first.at + beside.length, ...all);
    this.runes += pieces.reduce((sum, piece) => sum + piece.runes, 0) - gone;
  }

  /** The gaps that touch a stretch, each with the place where it begins. */
  *gaps(start = 0, end = this.runes) {
    let runes = 0;
    for (const piece of this.pieces) {
      if (runes > end) return;
      if (piece.isGap && runes + piece.runes >= start) yield { gap: piece, start: runes };
      runes += piece.runes;
    }
  }

  /** The stretch that a gap change concerns: all of the gaps in which it begins and ends. */
  widened(start, end) {
    const [first, last] = [this.#find(start), this.#find(end)];
    const from = first.piece?.isGap ? first.runes : start;
    const to = last.piece?.isGap && end > last.runes ? last.runes + last.piece.runes : end;
    return [from, to];
  }

  /** The line in which the first gap stands; Infinity where there is none. */
  get firstGapLine() {
    let lines = 0;
    for (const piece of this.pieces) {
      if (piece.isGap) return lines;
      lines += piece.lines;
    }
    return Infinity;
  }
}
