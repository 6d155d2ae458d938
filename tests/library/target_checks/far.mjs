/* The far side of a session: a host and its end of the link, which answers the messages of a terminal as a host's program does. */
import { Host, Link, NoteCode, NoteKind, readHello, readNote, writeNote } from "../../../bindings/javascript/sulgrevad.js";
import { joined } from "./expecting.mjs";

const HELLO_BYTES = 42;
const DECODER = new TextDecoder();

export class Far {
  host = new Host();
  notes = []; // of the terminal's program
  fails = false; // writes fail
  #attempt = null; // the number of the connection that stands
  #head = new Uint8Array(0); // what came of its hello
  #writes = []; // requests for writes that have not come

  constructor(id, files = {}) {
    this.link = new Link(Link.HOST, id);
    for (const [name, text] of Object.entries(files)) this.host.addFile(name, text);
  }

  /** Another connection begins. */
  begin() {
    this.#attempt = null;
    this.#head = new Uint8Array(0);
  }

  /** Takes bytes of the connection. */
  take(piece) {
    let bytes = piece;
    if (this.#attempt === null) {
      this.#head = joined(this.#head, bytes);
      if (this.#head.length < HELLO_BYTES) return;
      this.link.answer(this.#head.subarray(0, HELLO_BYTES));
      this.#attempt = readHello(this.#head).attempt;
      bytes = this.#head.subarray(HELLO_BYTES);
    }
    this.link.feed(this.#attempt, bytes);
    this.goOn();
  }

  /** Answers all that has come. */
  goOn() {
    for (;;) {
      const bytes = this.link.takeIn();
      const note = bytes.length > 0 ? null : this.link.nextNote();
      if (bytes.length > 0) this.host.feed(bytes);
      else if (note !== null) this.#hear(note);
      else break;
      for (const tag of this.host.written()) this.#meetWrite(tag);
      this.link.put(this.host.takeOut());
    }
  }

  /** The bytes that go back. */
  out() {
    return this.#attempt === null ? new Uint8Array(0) : this.link.takeOut(this.#attempt);
  }

  tell(note) {
    this.link.putNote(writeNote(note));
  }

  #hear(bytes) {
    this.notes.push(bytes);
    if (bytes.length === 0 || bytes[0] > NoteKind.WRITE) return;
    const { kind, request, tag, path } = readNote(bytes);
    if (kind === NoteKind.WRITE) this.#writes.push({ request, tag });
    if (kind === NoteKind.OPEN) this.#open(request, DECODER.decode(path));
    if (kind === NoteKind.COMPLETE) this.tell({ kind: NoteKind.NAMES, request, path });
  }

  #open(request, name) {
    const tag = this.host.files().find((each) => each > 0 && this.host.name(each) === name);
    if (tag !== undefined) this.tell({ kind: NoteKind.OPENED, request, tag });
    else this.tell({ kind: NoteKind.REFUSED, request, code: NoteCode.NOT_FOUND, text: `there is no ${name}` });
  }

  /** The disk takes a write, or not. Its answer stands before the frames of the write, and a mark behind them. */
  #meetWrite(tag) {
    const at = this.#writes.findIndex((write) => write.tag === tag);
    const request = at < 0 ? 0 : this.#writes.splice(at, 1)[0].request;
    if (!this.fails) {
      this.tell({ kind: NoteKind.SAVED, request, tag, text: "saved" });
      return;
    }
    this.tell({ kind: NoteKind.NOT_SAVED, request, tag, code: NoteCode.NO_SPACE, text: "full" });
    this.link.put(this.host.takeOut());
    this.host.markDirty(tag);
  }
}
