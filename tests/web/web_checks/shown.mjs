/* shown.mjs COUNT SEED: places and positions of editor/web/page/shown_text.js, beside a plain list of runes: after each of COUNT changes at
 * random every place has the position, and every position the place, that the list says. */
import { chance, expect, seed } from "./checking.mjs";
import { Gap, SHADE, Shown, piecesOf } from "../../../editor/web/page/shown_text.js";

const [count, first] = process.argv.slice(2).map(Number);
seed(first);
const RUNES = ["a", "b", "\n", "é", "𝄞", "\r", "\r\n", SHADE];
const MOST_IN_GAP = 9;
const LONG = "x𝄞\r\n𝄞".repeat(1500); // takes several pieces, which begin anywhere in it
const GAP = null;
const SHADED = `${SHADE}\n`;

function isInPair(runes, place) {
  return runes[place - 1] === "\r" && runes[place] === "\n";
}

/** What CodeMirror would have for a list of runes: of a gap a shade and a line end, of a CR LF a line end; and where each place is. */
function laidOut(runes) {
  const positions = [];
  let [line, ch, text] = [0, 0, ""];
  runes.forEach((rune, at) => {
    if (rune === GAP && at > 0 && runes[at - 1] === GAP) {
      positions.push(positions.at(-1));
      return;
    }
    positions.push({ line, ch });
    if (isInPair(runes, at + 1)) return;
    text += rune ?? SHADED;
    [line, ch] = rune === "\n" || rune === GAP ? [line + 1, 0] : [line, ch + rune.length];
  });
  positions.push({ line, ch });
  return { positions, text };
}

function anyText(most) {
  return Array.from({ length: chance(most) }, () => RUNES[chance(RUNES.length)]);
}

/** Gaps beside each other are one in the list, so a new one goes where none is. A CR before the change goes and comes with it, and an LF
 * behind it: so CodeMirror never has half of a pair. */
function change(runes, shown) {
  const place = chance(runes.length + 1);
  const count = chance(Math.min(20, runes.length - place + 1));
  const [before, behind] = [runes[place - 1] === "\r" ? "\r" : "", runes[place + count] === "\n" ? "\n" : ""];
  const [start, gone] = [place - before.length, before.length + count + behind.length];
  const isInGap = [start, start + gone].some((place) => runes[place - 1] === GAP || runes[place] === GAP);
  const came = chance(150) === 0 ? [LONG] : anyText(12);
  if (isInGap) return;
  const gap = chance(4) === 0 ? 1 + chance(MOST_IN_GAP) : 0;
  const text = before + came.join("");
  const pieces = gap > 0 ? [...piecesOf(text), new Gap(gap), ...piecesOf(behind)] : piecesOf(text + behind);
  shown.replace(start, gone, pieces);
  runes.splice(start, gone, ...text, ...Array(gap).fill(GAP), ...behind);
}

function compare(runes, shown) {
  const { positions, text } = laidOut(runes);
  expect([shown.runes, shown.pieces.map((piece) => piece.shown).join("") === text], [runes.length, true], "the text");
  const step = 1 + Math.floor(positions.length / 60);
  for (let place = 0; place < positions.length; place += step) {
    expect(shown.positionOf(place), positions[place], `the position of ${place}`);
    const isWithin = isInPair(runes, place) || (runes[place - 1] === GAP && runes[place] === GAP);
    if (!isWithin) expect(shown.placeOf(positions[place]), place, `the place of ${place}`);
    const { line, ch } = positions[place];
    if (runes[place]?.length === 2) expect(shown.placeOf({ line, ch: ch + 1 }), place, `the place within the pair at ${place}`);
  }
}

let [runes, shown] = [[], new Shown()];
for (let made = 0; made < count; made++) {
  if (chance(100) === 0) [runes, shown] = [[], new Shown()];
  change(runes, shown);
  compare(runes, shown);
}
console.log(`${count} changes compared`);
