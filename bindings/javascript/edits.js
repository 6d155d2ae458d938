/* Many edits by one call of a client: those that are handed out, and those that are made. */
import { lendTo } from "./held.js";
import { NO_TEXT, bytesOf, long, numbersOut, put, result, space, u64 } from "./module.js";
import { SPLICES } from "./overlay.js";
import { shownRune } from "./sides.js";
import { Kind } from "./status.js";

const MOST_EDITS = 1024; // steps that one call makes
const MOST_RUNES = 12_288; // that they bring
const SPLICE_WORDS = 4; // words of 32 bits of a sam_splice
const RUNES_AFTER = 4 * SPLICE_WORDS * MOST_EDITS; // bytes: the runes stand behind the splices in the space of a call
const REPLACEMENT_WORDS = 3; // of a sam_replacement
const FOLLOWED = [Kind.HDATA, Kind.HGROWDATA, Kind.HCUT]; // frames that edit a text or load it

/** Writes a sam_changes at a result, which lends a call the space, and returns its place. */
export function lendRoom(number) {
  const words = [space(), BigInt(MOST_EDITS), 0n, space() + BigInt(RUNES_AFTER), BigInt(MOST_RUNES), 0n];
  words.forEach((word, at) => put(number + at, word));
  return result(number);
}

/** Returns the edits that a call has handed out there, each with the runes that it brought. */
export function editsOut(number, gap) {
  const words = numbersOut(SPLICE_WORDS * u64(number + 2));
  const runes = numbersOut(u64(number + 5), RUNES_AFTER);
  const edits = [];
  for (let [at, rune] = [0, 0]; at < words.length; at += SPLICE_WORDS) {
    const [kind, place, count, tag] = words.slice(at, at + SPLICE_WORDS);
    const end = rune + (SPLICES[kind] === "went" ? 0 : count);
    const text = runes.slice(rune, end).map((each) => shownRune(each, gap)).join("");
    edits.push({ kind: SPLICES[kind], tag: tag & 0xffff, place, count, text });
    rune = end;
  }
  return edits;
}

/** Returns whether what is told is a step that edits a text or loads it: then there was no room for all of it. */
export function isFollowed({ kind, did }) {
  return kind === "stepped" && FOLLOWED.includes(did.kind);
}

/** How many runes a text has in UTF-8. */
function runesIn(bytes) {
  return bytes.reduce((runes, byte) => runes + ((byte & 0xc0) === 0x80 ? 0 : 1), 0);
}

/** Lends a call replacements, and gives `use` its words: the place of the sam_replacements, how many, and the place and the length of
 * their texts. */
export function lendReplacements(side, replacements, use) {
  const texts = replacements.map(({ text }) => bytesOf(text) ?? NO_TEXT);
  const rows = new DataView(new ArrayBuffer(4 * REPLACEMENT_WORDS * replacements.length));
  const words = replacements.flatMap(({ start, end }, at) => [long(start), long(end), runesIn(texts[at])]);
  words.forEach((word, at) => rows.setUint32(4 * at, word, true));
  const length = texts.reduce((sum, text) => sum + text.length, 0);
  return lendTo(side, [new Uint8Array(rows.buffer), ...texts], ([first, second = first]) =>
    use(first, BigInt(replacements.length), second, BigInt(length)),
  );
}
