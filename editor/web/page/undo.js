/* Undo: the changes of one file, oldest first. Nothing is kept of its text but what came and what went. */
import { runesOf } from "./shown_text.js";

const MOST_STEPS = 10000;
const MOST_TYPED = 80; // units that are taken back at once, of those typed one after the other

/** Two changes beside each other as one. */
function joined(first, second) {
  if (second.start < first.start) return { ...first, start: second.start, gone: second.gone + first.gone };
  return { ...first, gone: first.gone + second.gone, came: first.came + second.came };
}

export class Undo {
  #past = []; // steps, each with its changes; one of a kind may grow
  #future = [];

  /** Notes a change of the user: at `start` the text `gone` gave way to `came`. What is of a kind and goes on where the last change stopped
   * belongs to the same step. */
  note(kind, start, gone, came) {
    this.#future = [];
    const last = this.#past.at(-1);
    const change = { start, gone, came };
    if (last && last.kind === kind && this.#goesOn(kind, last.change, change)) last.change = joined(last.change, change);
    else this.#past.push({ kind, change });
    if (kind === "type" && came.includes("\n")) this.stop();
    if (this.#past.length > MOST_STEPS) this.#past.shift();
  }

  #goesOn(kind, last, { start, gone, came }) {
    if (last.came.length >= MOST_TYPED) return false;
    if (kind === "type") return gone === "" && start === last.start + runesOf(last.came);
    return kind === "erase" && came === "" && (start === last.start || start + runesOf(gone) === last.start);
  }

  /** The next change begins a step of its own. */
  stop() {
    const last = this.#past.at(-1);
    if (last) last.kind = "";
  }

  /** Takes the last step back. `make` is given a stretch and its new text, and returns whether it made that change: else the step stays,
   * since the places of those before it are of the text without it. Returns whether there is such a step. */
  back(make) {
    return this.#turn(this.#past, this.#future, "came", "gone", make);
  }

  /** Makes the last step again that was taken back, likewise. */
  again(make) {
    return this.#turn(this.#future, this.#past, "gone", "came", make);
  }

  #turn(steps, others, stands, comes, make) {
    const change = steps.at(-1)?.change;
    if (!change) return false;
    const { start, [stands]: gone, [comes]: text } = change;
    if (make({ start, end: start + runesOf(gone), text })) others.push({ ...steps.pop(), kind: "" });
    return true;
  }
}
