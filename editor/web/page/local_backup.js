/* Copies of changed texts in this browser, as long as the host may lack some of what was done here, or could save a text nowhere: so that
 * not even a browser that ends loses them. */
import { NoteCode, NoteKind } from "./sulgrevad/sulgrevad.js";

const GAP = "\u2591\n"; // stands in a copy for text that isn't loaded
const COPIES = "copies"; // the browser's database, and its one store
const TYPED = "typed.txt"; // the name of a copy of what was typed, and is in no file
const EARLIER = "sulgrevad "; // begins the keys of copies that earlier versions of the page have put in localStorage
const SINCE = " since"; // behind such a key: how the text has changed since
const OF_TEXTS = [NoteKind.SAVED, NoteKind.NOT_SAVED, NoteKind.ASIDE, NoteKind.LOST];

function opened() {
  return new Promise((resolve, reject) => {
    const request = indexedDB.open(COPIES, 1);
    request.onupgradeneeded = () => request.result.createObjectStore(COPIES, { keyPath: "key" });
    request.onsuccess = () => resolve(request.result);
    request.onerror = () => reject(request.error);
  });
}

/** Returns a request to the store of a database, once it is answered, and on the disk. */
function answered(database, mode, ask) {
  return new Promise((resolve, reject) => {
    const transaction = database.transaction(COPIES, mode, { durability: "strict" });
    const request = ask(transaction.objectStore(COPIES));
    transaction.oncomplete = () => resolve(request);
    transaction.onabort = () => reject(transaction.error);
    if (mode === "readwrite") transaction.commit(); // so that it comes to its end though the page goes
  });
}

/** A copy that an earlier version of the page has left; null where the key has none. */
function earlier(key) {
  try {
    const copy = { ...JSON.parse(localStorage.getItem(key)), key };
    const since = JSON.parse(localStorage.getItem(key + SINCE));
    if (since?.of === copy.when) {
      const { start, end, came, when } = since;
      Object.assign(copy, { when, text: copy.text.slice(0, start) + came + copy.text.slice(end) });
    }
    return typeof copy.name === "string" && typeof copy.text === "string" ? copy : null;
  } catch {
    return null;
  }
}

export class Copies {
  #database = this.#opened();
  #due = new Map(); // copies that are to be in the browser, by their keys; one `isKept` once it is
  #asideCount = 0; // texts that were set aside
  #unsaved = new Set(); // files whose text the host could save nowhere
  #putting = 0; // copies that the disk is still to take
  isLast = false; // the host is gone, or could save some texts nowhere: copies of all changed ones are made, and stay

  /** The keys of this page begin with a word of its own: what another page keeps of the same file is another text. */
  constructor(editor) {
    this.editor = editor;
    this.own = `${crypto.randomUUID()} `;
  }

  /** Opens the database. Where the user has the browser forget all that it keeps it is closed: the copies that are due are put anew. */
  async #opened() {
    const database = await opened();
    database.onclose = () => this.#due.forEach((copy) => (copy.isKept = false));
    return database;
  }

  /** A message of the host. It may tell that the text of a file is saved, in the file or beside it; or that it is nowhere. */
  meet({ kind, tag, code, copy }) {
    if (!OF_TEXTS.includes(kind) || code === NoteCode.BROKEN) return; // that is of what the file was
    if (kind === NoteKind.SAVED || copy.length > 0) this.#unsaved.delete(tag);
    else this.#unsaved.add(tag);
  }

  /** Keeps what was typed and is in no file, until the user drops it. Returns the copy. */
  setAside(text) {
    this.#asideCount += 1;
    const copy = { key: `${this.own}aside ${this.#asideCount}`, name: TYPED, when: Date.now(), text, isAside: true };
    this.#due.set(copy.key, copy);
    this.#put(copy);
    return copy;
  }

  /** Whether the browser lacks a copy that is due. */
  get isLacking() {
    return [...this.#due.values()].some(({ isKept }) => !isKept);
  }

  /** Keeps, as the clock does: not before the disk has what was put last. More and more would wait before a slow one. */
  keepAgain() {
    if (this.#putting === 0) this.keep();
  }

  /** Makes copies of all changed texts, and of what was typed and waits, if the host may lack something; else of those alone that it could
   * save nowhere. Others of this page go. */
  keep() {
    const copies = this.#ofNow();
    for (const due of this.#due.values()) if (!due.isAside && !copies.some(({ key }) => key === due.key)) this.drop(due);
    for (const copy of copies) if (copy.text !== this.#due.get(copy.key)?.text) this.#due.set(copy.key, copy);
    for (const copy of this.#due.values()) if (!copy.isKept) this.#put(copy);
  }

  #ofNow() {
    const { editor } = this;
    const isOfAll = this.isLast || (editor.session !== null && editor.lacksChanges);
    const [when, copies] = [Date.now(), []];
    for (const [tag, view] of editor.views) {
      if (!editor.isChanged(tag) || !(isOfAll || this.#unsaved.has(tag))) continue;
      const text = view.shown.pieces.map((piece) => (piece.isGap ? GAP : piece.text)).join("");
      copies.push({ key: `${this.own}file ${tag}`, name: editor.nameOf(tag), when, text });
    }
    const { typed } = editor.waiting;
    if (isOfAll && typed !== "") copies.push({ key: `${this.own}typed`, name: TYPED, when, text: typed });
    return copies;
  }

  /** Puts a copy in the place of the one before. */
  async #put(copy) {
    this.#putting += 1;
    try {
      await this.#ask("readwrite", (store) => store.put(copy));
      copy.isKept = true;
    } catch ({ name }) {
      if (name !== "QuotaExceededError") this.#database = this.#opened();
      this.editor.say("this browser keeps no copy of what the host may lack");
    } finally {
      this.#putting -= 1;
    }
  }

  async #ask(mode, ask) {
    return answered(await this.#database, mode, ask);
  }

  /** The copies that other pages left, those of other sessions and earlier versions among them, oldest first: of each its name, when it was
   * made, and its text. They stay until the user drops them. */
  async left() {
    const { result: copies } = await this.#ask("readonly", (store) => store.getAll()).catch(() => ({ result: [] }));
    const keys = Object.keys(localStorage).filter((key) => key.startsWith(EARLIER));
    const all = [...copies.filter(({ key }) => !key.startsWith(this.own)), ...keys.map(earlier).filter((copy) => copy !== null)];
    return all.sort((one, other) => one.when - other.when);
  }

  drop({ key }) {
    this.#due.delete(key);
    for (const item of [key, key + SINCE]) localStorage.removeItem(item);
    this.#ask("readwrite", (store) => store.delete(key)).catch(() => {}); // what stays is offered again
  }
}
