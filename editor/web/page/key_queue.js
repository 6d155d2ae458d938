/* The keys that wait: for text that isn't loaded, or for an answer of the host. They act in the order in which they came; so the same keys
 * do the same over any line. */

export const AGAIN = Symbol("again"); // what an action returns that goes on once the host has answered
export const READ_AFTER = 500; // milliseconds after which a message counts as read
const KNOWN_AFTER = 3000; // milliseconds for which answers are late until the user is told of an action that needs them

/** What is pressed: `act` does it. Before that a file has to be shown, unless it `isOfNoFile`; and `isReady`, where there is one, has to
 * hold, which may ask the host for text. `text` is what the user has typed or pasted; `isAtCaret` says of another action that it takes out
 * or copies text at the caret. `name` is what the user is told where it can't be done, and `giveUp` is called then. */
export class Waiting {
  #actions = [];
  #isActing = false;
  #lateSince = null;
  #told = { words: "", at: Infinity }; // of which action it was told last that it can't be done, and since when

  constructor(editor) {
    this.editor = editor;
  }

  get count() {
    return this.#actions.length;
  }

  /** Whether a change of the document is one of an action, or may be one because nothing waits. */
  get isOpenTo() {
    return this.editor.isShowing && (this.#isActing || this.#actions.length === 0);
  }

  /** What was pressed last, if it waits and is of this kind: more of the same may be added to it. */
  last(kind) {
    const last = this.#actions.at(-1);
    return last?.kind === kind ? last : null;
  }

  /** Adds an action, which acts once the event that it comes of is over: CodeMirror takes a key's event for one operation, and tells of
   * changes at its end, and the session has to know of each before the next. */
  press(action) {
    action.pressedAt = performance.now();
    this.#actions.push(action);
    queueMicrotask(() => this.editor.update());
  }

  /** Does what was pressed, up to the first action that has to wait. Once the session is over none waits: what can't be done never will. */
  goOn() {
    if (this.#isActing) return;
    this.#lateSince = this.editor.isLate ? (this.#lateSince ?? performance.now()) : null;
    while (this.#actions.length > 0) {
      const [action] = this.#actions;
      if (this.#mayAct(action)) {
        this.#actions.shift();
        if (this.#act(action) !== AGAIN) continue;
        this.#actions.unshift(action);
      }
      if (this.editor.isOver) this.editor.say(`${action.name} can't be done any more`);
      else if (!this.#isKnownLate || this.#isNeeded(action) || !this.#isTold(action)) return;
      this.#actions.shift();
      action.giveUp?.();
    }
  }

  #mayAct({ isOfNoFile, isReady }) {
    return (isOfNoFile || this.editor.active !== null) && (isReady?.() ?? true);
  }

  /** What was typed and waits. */
  get typed() {
    return this.#actions.map(({ text }) => text ?? "").join("");
  }

  /** A file doesn't come: nothing is done any more of what was pressed for it, up to the next action that needs no file to be shown, and
   * so may choose another. Returns what was typed of that, and whether there was more. */
  giveUpFile() {
    const next = this.#actions.findIndex(({ isOfNoFile }) => isOfNoFile);
    const given = this.#actions.splice(0, next < 0 ? this.#actions.length : next);
    return { typed: given.map(({ text }) => text ?? "").join(""), hadMore: given.some(({ text }) => text === undefined) };
  }

  #act(action) {
    this.#isActing = true;
    try {
      return action.act();
    } finally {
      this.#isActing = false;
    }
  }

  get #isKnownLate() {
    return this.#lateSince !== null && performance.now() - this.#lateSince >= KNOWN_AFTER;
  }

  /** Whether the first action has to be done, because what is typed or erased behind it would else go elsewhere. */
  #isNeeded(first) {
    return this.#actions.some(({ text, isAtCaret }) => text || (isAtCaret && !first.isAtCaret));
  }

  /** Tells, once, that an action can't be done. Returns whether the user has had the time to read that: a key that comes then isn't meant
   * to come behind it. Of a key that is held down he has read it when it was told of the first press. */
  #isTold(action) {
    const now = performance.now();
    if (action.toldAt === undefined) {
      const words = `${action.name} can't be done until the line is back`;
      const isKnown = words === this.#told.words && action.pressedAt >= this.#told.at;
      action.toldAt = isKnown ? action.pressedAt : now;
      if (!isKnown) this.#told = { words, at: now };
      this.editor.say(words);
    }
    return now - action.toldAt >= READ_AFTER;
  }
}
