/* undo.mjs COUNT SEED: steps of editor/web/page/undo.js, beside a plain list of the texts that they lead to: of COUNT actions at random
 * some are refused, as where a file is full; the next one finds the steps where they were. */
import { chance, expect, seed } from "./checking.mjs";
import { Undo } from "../../../editor/web/page/undo.js";

const [count, first] = process.argv.slice(2).map(Number);
seed(first);
const RUNES = ["a", "b", "\n", "é", "𝄞"];

const undo = new Undo();
const texts = [""]; // after each step, oldest first
let [at, runes] = [0, []]; // which of them the text is, and its runes

function edit() {
  const start = chance(runes.length + 1);
  const gone = runes.slice(start, start + chance(4));
  const came = Array.from({ length: chance(4) }, () => RUNES[chance(RUNES.length)]);
  runes.splice(start, gone.length, ...came);
  undo.note("", start, gone.join(""), came.join(""));
  undo.stop();
  texts.splice(at + 1, Infinity, runes.join(""));
  at += 1;
}

function turn(turned, by) {
  const isRefused = chance(3) === 0;
  const isThere = turned(({ start, end, text }) => {
    if (!isRefused) runes.splice(start, end - start, ...text);
    return !isRefused;
  });
  expect(isThere, texts[at + by] !== undefined, "whether there is a step");
  if (isThere && !isRefused) at += by;
}

for (let made = 0; made < count; made++) {
  const drawn = chance(5);
  if (drawn < 2) edit();
  else if (drawn < 4) turn((make) => undo.back(make), -1);
  else turn((make) => undo.again(make), 1);
  expect(runes.join(""), texts[at], `the text after ${made + 1} actions`);
}
console.log(`${count} actions compared`);
