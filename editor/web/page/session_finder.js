/* The session of this address: it begins, or the one that was here before is taken over; where the host has it no more another begins. */
import { Connection, Teller, UNKNOWN, first, keepNames, nameOf, newId } from "./connection.js";
import { NoteKind, Session, SessionLost, Status } from "./sulgrevad/sulgrevad.js";

const SESSION_NAME = /^[0-9a-f]{16}$/; // what the host says becomes a word of a command
const CLOSED_WITH = 4000; // the code with which samweb closes a socket: this, and the status of the host
const MOST_STATUS = 127; // of the host; what ssh says is above
const PASSING = [6, 7]; // statuses of a host whose line broke, or that found no session: another connection may do
const MOST_FAILURES = 6; // that make a difference to the pauses
const CANT_BEGIN = "the host can't begin";
const GONE = "samweb: the session is not there any more; another one begins";
const NOT_FOUND = "samweb: the host doesn't find the session. It is tried for a minute";
const MOVED = "samweb: it has another address by now: open the one that it prints";

const DECODER = new TextDecoder();

/** It tells of each session as it begins (`begun`), each message of its host (`note`), each line for people (`told`), and why there is no
 * session any more (`over`). */
class SessionFinder extends Teller {
  #names = []; // of sessions that may be taken over, the likeliest first
  #verb = ""; // by which the newest connection of this session was asked for; "" before the first
  #failures = 0; // of sessions, one after another, whose first connection broke, and which the host doesn't have
  #made = first.connection; // a connection that nobody has used
  #whyNot = ""; // why the host can't begin
  #lastTold = "";
  session = null;
  name = "";

  /** Goes on with the first connection. */
  constructor() {
    super();
    this.#begin(first.id, first.names);
  }

  #tellOnce(words) {
    if (words !== this.#lastTold) this.tell("told", words);
    this.#lastTold = words;
  }

  /** Begins another session, which may take one of these names over. So many connections count as failed before. */
  #begin(id, names, failures = 0) {
    const session = new Session(() => this.#connect(), { id, takeOver: names.length > 0, failures });
    this.name = nameOf(id);
    this.#names = names;
    this.#verb = "";
    this.session = session;
    session.addEventListener("note", ({ detail }) => this.#meet(detail));
    session.addEventListener("fault", ({ detail }) => this.#meetFault(detail));
    session.addEventListener("over", ({ detail }) => this.#meetEnd(detail));
    this.tell("begun", session);
  }

  #beginAnew(names, failures) {
    this.#begin(newId(), names, failures);
    keepNames(this.name, ...names); // the session may be named anew before the page hears of it
  }

  #connect() {
    const [name] = this.#names;
    if (this.#verb !== "") this.#verb = "attach";
    else this.#verb = name === undefined ? "serve" : "take";
    const connection = this.#made ?? new Connection(this.#verb, this.#verb === "take" ? name : this.name);
    this.#made = null;
    connection.hear({ told: (words) => this.#tellOnce(words), ended: (code) => this.#meetCode(code) });
    return connection;
  }

  /** The code with which a connection was closed: it may tell that the host can't begin. */
  #meetCode(code) {
    const status = code - CLOSED_WITH;
    if (code === UNKNOWN) this.#tellOnce(MOVED);
    if (this.session.line.isKnown || status <= 0 || status > MOST_STATUS || PASSING.includes(status)) return;
    this.#whyNot = CANT_BEGIN;
    this.session.leave();
  }

  #meetFault({ code }) {
    if (code === Status.LINK_NO_SESSION && this.session.line.isKnown) this.#tellOnce(NOT_FOUND);
  }

  /** The first message has the session's name, which may be another after a takeover. */
  #meet(note) {
    this.#lastTold = "";
    this.tell("note", note);
    const name = note.kind === NoteKind.SESSION ? DECODER.decode(note.path) : "";
    if (!SESSION_NAME.test(name)) return;
    this.name = name;
    keepNames(name);
  }

  /** The session is over. If the host has none of its name it is sought by the next one; if its first connection broke, what that asked for
   * may still be about to begin, and is sought first. */
  #meetEnd(why) {
    const isMissing = why instanceof SessionLost && why.code === Status.LINK_NO_SESSION && !this.session.line.isKnown;
    if (!isMissing || this.#verb === "serve") {
      this.tell("over", this.#whyNot === "" && !isMissing ? why : new Error(CANT_BEGIN));
    } else if (this.#verb === "take") {
      this.#beginAnew(this.#names.slice(1));
      if (this.#names.length === 0 && first.names.length > 0) this.tell("told", GONE);
    } else {
      this.#failures = Math.min(this.#failures + 1, MOST_FAILURES);
      this.#beginAnew([this.name, ...this.#names], this.#failures);
    }
  }
}

/** It asks for the names of the files while the rest of the page still comes. */
export const finder = new SessionFinder();
