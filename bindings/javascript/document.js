/* A file of a session, which is open here. */

const MOST_RUNES = 1_000_000; // of a text

export class Document {
  #session;
  #opened;

  /** `opened` is a promise that it is open; null if it is. */
  constructor(session, tag, opened) {
    this.#session = session;
    this.tag = tag;
    this.#opened = opened;
  }

  get opened() {
    return this.#opened;
  }

  get #client() {
    return this.#session.client;
  }

  get name() {
    return this.#client.name(this.tag);
  }

  get isOpen() {
    return this.#client.file(this.tag).isOpen;
  }

  get isUnsaved() {
    return this.#client.isUnsaved(this.tag);
  }

  get length() {
    return this.#client.len(this.tag);
  }

  text(place = 0, runes = undefined) {
    return this.#client.text(this.tag, place, runes);
  }

  firstGap(place = 0) {
    return this.#client.firstGap(this.tag, place);
  }

  replace(start, end, text) {
    this.#session.replace(this.tag, start, end, text);
  }

  insert(place, text) {
    this.replace(place, place, text);
  }

  load(start = 0, end = MOST_RUNES) {
    return this.#session.load(this.tag, start, end);
  }

  write() {
    return this.#session.write(this.tag);
  }

  run(line) {
    return this.#session.run(this.tag, line);
  }

  close() {
    return this.#session.closeDocument(this);
  }
}
