/* What bindings/javascript promises of a session, over sockets of this process that break: promises, events, and texts beside plain
 * ones. */
import * as sulgrevad from "../../../bindings/javascript/sulgrevad.js";
import { Answers } from "../../../bindings/javascript/answers.js";
import { library } from "../../../bindings/javascript/module.js";
import { bytes, expect, isError, rejection, same, throws } from "./expecting.mjs";
import { Far } from "./far.mjs";

const { Client, EventKind, NoMemory, NoteKind, RequestRefused, Session, SessionLost, SessionOver, Status } = sulgrevad;
const { Unfinished, writeRefusal } = sulgrevad;
export const ID = bytes(16, 7);
const SECONDS = 300; // that something may take
const BREAKS = 40;

const pause = (milliseconds = 0) => new Promise((resolve) => setTimeout(resolve, milliseconds));

async function until(holds, told) {
  const last = performance.now() + 1000 * SECONDS;
  while (!holds()) {
    expect(performance.now() < last, `not within ${SECONDS} s: ${told}`);
    await pause(1);
  }
}

/** A socket to the far side, as a WebSocket looks. */
class Socket {
  readyState = 0;
  bufferedAmount = 0;
  onopen = null;
  onmessage = null;
  onclose = null;

  constructor(net) {
    this.net = net;
    setTimeout(() => this.#open());
  }

  #open() {
    if (this.readyState !== 0) return;
    if (this.net.refuses) {
      this.end();
      return;
    }
    this.readyState = 1;
    this.net.far.begin();
    this.onopen?.();
  }

  send(piece) {
    expect(this.readyState === 1, "a socket that isn't open sends");
    setTimeout(() => this.#carry(piece));
  }

  #carry(piece) {
    if (this.readyState !== 1 || this.net.swallows) return;
    this.net.apart(() => this.net.far.take(piece));
    this.flush();
  }

  /** What the far side has comes back. */
  flush() {
    const back = this.net.apart(() => this.net.far.out());
    for (let at = 0; at < back.length; at += this.net.most) {
      const { buffer } = back.slice(at, at + this.net.most);
      if (back.length <= this.net.most) this.onmessage?.({ data: buffer });
      else setTimeout(() => this.onmessage?.({ data: buffer }));
    }
  }

  close() {
    this.readyState = 3;
  }

  /** It breaks. */
  end() {
    if (this.readyState === 3) return;
    this.readyState = 3;
    this.onclose?.();
  }
}

/** A network of one host. */
export class Net {
  refuses = false; // it makes no connection
  swallows = false; // it takes all and brings nothing
  most = 65_536; // bytes that it brings together
  apart = (work) => work(); // does what the far side does
  sockets = [];

  constructor(files) {
    this.far = new Far(ID, files);
    this.far.tell({ kind: NoteKind.SESSION, number: 1, path: bytes(1, 65), text: "box" });
  }

  connect = () => {
    const socket = new Socket(this);
    this.sockets.push(socket);
    return socket;
  };

  cut() {
    this.sockets.at(-1)?.end();
  }

  /** The host's program has told something. */
  flush() {
    this.sockets.at(-1).flush();
  }
}

/** An editor's own text, which takes splices, and tells of edits; a gap is a sign of its own. */
class Editor {
  runes = [];

  constructor(session, tag) {
    Object.assign(this, { session, tag });
    session.addEventListener("splice", ({ detail }) => detail.tag === tag && this.#take(detail));
  }

  #take({ kind, place, count }) {
    const came = kind === "came" || kind === "filled" ? this.session.client.read(this.tag, place, count) : [];
    if (kind === "emptied") this.runes = [];
    else this.runes.splice(place, kind === "came" ? 0 : count, ...came);
  }

  replace(start, end, text) {
    this.session.replace(this.tag, start, end, text);
    this.runes.splice(start, end - start, ...text);
  }

  get text() {
    return this.runes.join("");
  }
}

async function begun(files, options = {}) {
  const net = new Net(files);
  const session = new Session(net.connect, { id: ID, ...options });
  const editor = new Editor(session, 1);
  const document = await session.open(Object.keys(files)[0]);
  return { net, session, editor, document };
}

async function checkSession() {
  const { net, session, editor, document } = await begun({ notes: "hëllo 𝄞", other: "" });
  same([document.tag, document.name, document.isOpen, document.length, document.text()], [1, "notes", true, 7, "hëllo 𝄞"]);
  same([editor.text, await session.open("notes") === document, session.documents.length], ["hëllo 𝄞", true, 1]);
  same([document.firstGap(), document.text(1, 2), session.line.state, session.id === ID], [null, "ël", Client.OPEN, true]);
  editor.replace(0, 1, "J");
  document.insert(7, "!");
  document.replace(5, 6, "");
  same([document.text(), document.isUnsaved, session.isUnsaved(1), session.hasAll], ["Jëllo𝄞!", true, true, false]);
  await until(() => session.hasAll, "the host has all");
  same(net.far.host.text(1), "Jëllo𝄞!");
  const { kind, tag, text } = await document.write();
  same([kind, tag, text, document.isUnsaved, net.far.host.saved(1)], [NoteKind.SAVED, 1, "saved", false, "Jëllo𝄞!"]);
  const { up, down, waiting, isConnecting } = session.traffic;
  same([up > 0, down > 0, waiting, isConnecting, session.isWaiting, session.dueIn], [true, true, 0, true, false, null]);
  await session.closeDocument(document);
  same([document.isOpen, session.documents.length], [false, 0]);
  net.far.host.addFile("late", "x".repeat(9000));
  await session.know(3);
  isError(await rejection(session.know(9)), "Missing", "NONE");
  const late = session.document(3);
  await late.opened;
  await Promise.all([late.load(0, 5000), session.load(3, 8000, 9000)]);
  same([late.name, late.text(0, 5000).length, late.text(8000).length], ["late", 5000, 1000]);
  session.leave();
}

/** A write has the text that is shown when it is asked for, and what is typed behind it shows at once. Two of one text are one. */
async function checkWrites() {
  const { net, session, document } = await begun({ a: "one" });
  const first = document.write();
  document.insert(3, " two");
  const [second, third] = [document.write(), document.write()];
  document.insert(7, " three");
  same(document.text(), "one two three");
  await first;
  await second;
  same([net.far.host.saved(1), (await third) === (await second), document.isUnsaved], ["one two", true, true]);
  net.far.fails = true;
  const error = await rejection(document.write());
  same([error instanceof RequestRefused, error.note.kind, error.message, document.isUnsaved], [true, NoteKind.NOT_SAVED, "full", true]);
  net.far.fails = false;
  net.most = 5; // so that the frames of a write come after its message
  await document.write();
  same([net.far.host.saved(1), document.isUnsaved], ["one two three", false]);
  const written = new Promise((resolve) => session.addEventListener("note", () => resolve(document.write()), { once: true }));
  await session.begin(NoteKind.COMPLETE, { path: bytes(1, 65) });
  same((await written).kind, NoteKind.SAVED); // it was asked for while the session went on
  session.leave();
}

/** What a command line prints is its answer; it finds the text that is shown. */
async function checkRuns() {
  const { net, session, editor, document } = await begun({ a: "hello\n" });
  editor.replace(0, 0, "> ");
  same([await document.run(",x/l/c/L/"), document.text(), editor.text], ["", "> heLLo\n", "> heLLo\n"]);
  same([await document.run("/heLL/p"), await document.run(",p")], ["heLL", "> heLLo\n"]);
  const [long, wrong] = await Promise.all([document.run(`,x/L/c/${"l".repeat(700)}/`), document.run("nonsense")]);
  same([long, wrong.startsWith("?"), net.far.host.text(1)], ["", true, `> he${"l".repeat(1400)}o\n`]);
  await document.load();
  const all = document.text();
  for (let run = 0; run < 100; run++) expect((await document.run(",p")) === all, `run ${run} prints something else`);
  expect(session.client.len(0) < 102_000, "what was printed is kept for good");
  isError(await rejection(document.run("a\nb")), "NotText", "NOT_TEXT");
  isError(await rejection(session.run(2, "1")), "EditRefused", "REFUSAL_NOT_OPEN");
  session.leave();
}

async function checkRefusedRequests() {
  const { session, document } = await begun({ a: "hello" });
  const error = await rejection(session.open("nowhere"));
  same([error instanceof RequestRefused, error.message], [true, "there is no nowhere"]);
  isError(await rejection(session.open("a\u0000b")), "NoteFault", "NOTE_BAD_PATH");
  isError(await rejection(session.open("a\ud834")), "NotText", "NOT_TEXT");
  same(await session.open(new TextEncoder().encode("a")) === document, true);
  isError(await rejection(session.request(EventKind.SELECT, { tag: 1, start: 3, number: 9 })), "EditRefused", "REFUSAL_BAD_POSITION");
  isError(await rejection(session.document(9).opened), "EditRefused", "REFUSAL_NO_FILE");
  throws("EditRefused", "REFUSAL_BAD_POSITION", () => document.replace(3, 6, "x"));
  isError(await rejection(session.begin(NoteKind.SAID)), "NoteFault", "NOTE_BAD_KIND");
  const paths = ["a", "b"].map((path) => session.begin(NoteKind.COMPLETE, { path: new TextEncoder().encode(path) }));
  same((await Promise.all(paths)).map(({ kind, path }) => [kind, path[0]]), [[NoteKind.NAMES, 97], [NoteKind.NAMES, 98]]);
  session.tell(NoteKind.RELOADED, { tag: 1, number: 2 });
  const closing = document.close();
  isError(await rejection(document.run("1")), "EditRefused", "REFUSAL_NOT_OPEN");
  isError(await rejection(document.write()), "EditRefused", "REFUSAL_NO_FILE");
  await closing;
  session.leave();
}

let state = 1;
function chance(below) {
  state = (Math.imul(state, 1103515245) + 12345) >>> 0;
  return (state >>> 8) % below;
}

/** Connections break at any moment, and edits go on: at the end both sides have what the same edits make of a plain text. */
async function checkBreaks() {
  const { net, session, editor } = await begun({ a: "0123456789\n".repeat(50) });
  const plain = [...editor.text];
  const states = new Set();
  session.addEventListener("line", ({ detail }) => states.add(detail.state));
  let writes = 0;
  for (let breaks = 0; breaks < BREAKS; breaks++) {
    for (let edits = chance(6); edits > 0; edits--) {
      const [start, text] = [chance(plain.length), ["a", "é𝄞", "", "long ".repeat(30)][chance(4)]];
      const end = Math.min(plain.length, start + chance(5));
      plain.splice(start, end - start, ...text);
      editor.replace(start, end, text);
      if (chance(3) === 0) await pause();
    }
    if (chance(4) === 0) session.write(1).then(() => writes++);
    if (chance(2)) await pause(chance(4));
    net.cut();
    session.addressChanged(); // so that the pause is short
  }
  await session.write(1);
  await until(() => session.hasAll, "the host has all");
  same([editor.text === plain.join(""), net.far.host.text(1) === editor.text, net.far.host.saved(1) === editor.text], [true, true, true]);
  same([session.client.text(1) === editor.text, states.has(Client.DOWN), states.has(Client.OPEN)], [true, true, true]);
  session.leave();
}

/** A long text is loaded by itself while nobody types, and first what a window shows; also one of which no window shows anything. */
async function checkLoading() {
  const net = new Net({ long: "a line of text\n".repeat(8000), other: "x".repeat(9000) });
  const session = new Session(net.connect, { id: ID });
  const editor = new Editor(session, 1);
  const tag = await session.join("long");
  const document = session.document(tag);
  await document.opened;
  const see = () => {
    session.see(9, 0, 10); // another window, whose file isn't known
    session.see(tag, 60_000, 64_000);
  };
  session.addEventListener("rest", see); // as a page does
  see();
  session.noteKey(); // slices wait for a while
  await until(() => document.firstGap(60_000) !== 60_000, "what is seen is loaded");
  expect(document.firstGap() < 60_000, "what is seen is loaded last");
  await until(() => document.firstGap() === null, "the rest is loaded");
  same(editor.text === net.far.host.text(tag), true);
  const other = session.document(await session.join("other"));
  await other.opened;
  await until(() => other.firstGap() === null, "a text that no window shows is loaded");
  session.leave();
}

/** Where there is no memory to ask for the first page of a text it is loaded with the rest, and where there is none to note what is seen
 * the text isn't opened. What a window shows is noted behind that. */
async function checkFirstPage() {
  const net = new Net({ first: "x".repeat(9000), second: "y".repeat(9000) });
  const session = new Session(net.connect, { id: ID });
  const { client } = session;
  const [tag, other] = [await session.join("first"), await session.join("second")];
  const refuse = () => {
    throw new NoMemory(Status.NO_MEMORY);
  };
  client.see = refuse;
  throws("NoMemory", "NO_MEMORY", () => session.document(tag));
  delete client.see;
  client.ask = (kind, fields) => (kind === EventKind.LOAD ? refuse() : Client.prototype.ask.call(client, kind, fields));
  const document = session.document(tag);
  delete client.ask;
  await document.opened;
  await until(() => document.firstGap() === null, "the text is loaded");
  const seen = [];
  client.see = (...words) => seen.push(words);
  const shown = session.document(other);
  session.see(other, 8000, 9000);
  await shown.opened;
  await until(() => shown.firstGap() !== 0, "the first page is loaded");
  same(seen, [[other, 0, 4096], [other, 8000, 9000]]);
  session.leave();
}

async function checkDropped() {
  const { net, session, editor } = await begun({ a: "hello" });
  const dropped = [];
  session.addEventListener("dropped", ({ detail }) => dropped.push(detail));
  net.swallows = true;
  const running = session.run(1, `,x/hello/c/${"w".repeat(100)}/`);
  await pause(5);
  for (let at = 0; at < 10; at++) editor.replace(0, 0, "x".repeat(99_999)); // with the line there is no room for all
  const shown = editor.runes.length;
  net.swallows = false;
  net.cut();
  await running;
  await until(() => session.hasAll && dropped.length > 0, "what has no room is given back");
  same([shown, editor.text === net.far.host.text(1), dropped.map(({ text }) => text.length)], [999_995, true, [99_999]]);
  session.leave();
}

async function ends(told, net = new Net({ a: "hello" })) {
  const session = new Session(net.connect, { id: ID });
  const document = await session.open("a");
  net.swallows = true;
  const waiting = [document.write(), session.begin(NoteKind.RELOAD, { tag: 1 })].map(rejection);
  const heard = [];
  session.addEventListener("over", ({ detail }) => heard.push(detail));
  net.far.tell(told);
  net.flush();
  const why = await session.over;
  same([(await Promise.all(waiting)).every((error) => error === why), session.why === why, session.isOver], [true, true, true]);
  same([heard.length, heard[0] === why, (await rejection(session.open("a"))) === why, document.text()], [1, true, true, "hello"]);
  session.leave();
  session.addressChanged();
  return why;
}

async function checkEnds() {
  const ended = await ends({ kind: NoteKind.ENDED, number: 5 });
  same([ended instanceof SessionOver, ended.status, ended.message], [true, 5, "the host has ended the session"]);
  const taken = await ends({ kind: NoteKind.TAKEN_OVER, text: "attic" });
  same([taken instanceof SessionLost, taken.code, taken.by], [true, Status.LINK_OTHER_SESSION, "attic"]);
  const unmade = new Session(() => {
    throw new TypeError("no address");
  });
  const { message, cause } = await unmade.over;
  same([message, cause.message], ["the session can't go on: no address", "no address"]);
  same(await rejection(unmade.close().then(() => Promise.reject(1))), 1);
  const answers = new Answers(() => {});
  answers.rejectAll(ended);
  same([await answers.until(() => true), (await rejection(answers.until(() => false))) === ended], [undefined, true]); // once it is over
  const early = new Session(() => {
    const socket = new Net({}).connect();
    socket.send = (hello) => setTimeout(() => socket.onmessage({ data: writeRefusal(Status.LINK_NO_SESSION, hello).buffer }));
    return socket;
  });
  const lost = await early.over;
  same([lost instanceof SessionLost, lost.code], [true, Status.LINK_NO_SESSION]);
  const other = new Net({});
  other.far = new Far(ID, {});
  other.far.tell({ kind: NoteKind.SAID, text: "hello" });
  same((await new Session(other.connect, { id: ID }).over).message, "the host is of another version: both sides have to be of one release");
}

/** A message of a later version is skipped. Any other that can't be read is a fault of the host, by which the session is lost. */
async function checkWrongMessages() {
  const { net, session, document } = await begun({ a: "hello" });
  const said = [];
  session.addEventListener("note", ({ detail }) => said.push(detail.text));
  net.far.link.putNote(Uint8Array.of(127));
  net.far.tell({ kind: NoteKind.SAID, text: "one" });
  net.flush();
  await until(() => said.length === 1, "the message behind it is told");
  net.swallows = true;
  const written = rejection(document.write());
  net.far.link.putNote(Uint8Array.of(NoteKind.SAID, 0, 1, 0xff)); // its text is no UTF-8
  net.far.tell({ kind: NoteKind.SAID, text: "two" });
  net.flush();
  await until(() => session.isOver || said.length === 2, "it is heard");
  isError(session.why, "SessionLost", "NOTE_BAD_TEXT");
  same([(await written) === session.why, said, document.text()], [true, ["one"], "hello"]);
}

/** A session ends behind all that was asked for before: what a command line prints comes first. */
async function checkClose() {
  const { net, session, editor, document } = await begun({ a: "hello" });
  editor.replace(0, 0, "typed ");
  const printed = document.run(",p");
  const closing = session.close();
  same(await printed, "typed hello");
  await until(() => net.far.host.isDone, "the host is done");
  net.far.tell({ kind: NoteKind.ENDED });
  net.flush();
  await closing;
  same([net.far.host.text(1), (await session.over).status], ["typed hello", 0]);
  await until(() => net.far.link.acknowledged === net.far.link.putCount, "the host knows that its last message has come");
  await session.close();
}

/** A line that takes all and brings nothing is given up within seconds of a change of the network. */
async function checkAddressChanged() {
  const { net, session, editor } = await begun({ a: "hello" });
  net.swallows = true;
  editor.replace(0, 0, "typed ");
  session.addressChanged();
  await until(() => net.sockets.length > 1, "another connection is made");
  net.swallows = false;
  await until(() => session.hasAll, "the host has all");
  same([net.far.host.text(1), net.sockets[0].readyState], ["typed hello", 3]);
  session.leave();
}

/** A line is watched while a promise waits, also for what nothing but that waits for: the mark behind the answer of a write that failed. */
async function checkWatched() {
  const { net, session, document } = await begun({ a: "hello" });
  const { host, link } = net.far;
  net.far.fails = true;
  host.markDirty = () => {}; // the mark is late
  const told = new Promise((resolve) => session.addEventListener("note", resolve, { once: true }));
  const refused = rejection(document.write());
  await told;
  await until(() => session.hasAll && !session.client.file(1).isLocked, "all else has come");
  same([session.isWaiting, session.dueIn !== null], [true, true]);
  delete host.markDirty;
  host.markDirty(1);
  link.put(host.takeOut());
  net.flush();
  same([(await refused) instanceof RequestRefused, session.isWaiting, session.dueIn], [true, false, null]);
  session.leave();
}

/** While memory is out what is due is tried again after a while, and not at once for ever. */
async function checkTries() {
  const { net, session, editor } = await begun({ a: "hello" });
  const { client } = session;
  let tries = 0;
  client.dueIn = () => 0;
  client.nextEvent = () => {
    tries += 1;
    throw new Unfinished(Status.UNFINISHED);
  };
  editor.replace(0, 0, "typed ");
  await pause(350);
  delete client.dueIn;
  delete client.nextEvent;
  expect(tries > 0 && tries < 8, `${tries} tries within 350 ms`);
  await until(() => session.hasAll, "the host has all");
  same(net.far.host.text(1), "typed hello");
  session.leave();
}

/** Memory that is out for a while loses nothing: what was taken goes on later, and a piece that wasn't comes over another connection. */
async function checkSessionsMemory() {
  const { net, session, editor, document } = await begun({ a: "hello" });
  const isTyped = (text) => {
    try {
      editor.replace(0, 0, text);
      return true;
    } catch (error) {
      return !isError(error, "NoMemory", "NO_MEMORY");
    }
  };
  let refuse = () => library.heap_refuse(0n, 0n);
  net.apart = (work) => {
    library.heap_refuse(0n, 0n);
    const done = work();
    refuse();
    return done;
  };
  for (let round = 0; round < 30; round++) {
    await until(() => isTyped(`${round} `), "there is memory again");
    refuse = () => library.heap_refuse(BigInt(1 + (round % 7)), 3n);
    refuse();
    await pause(2);
    refuse = () => library.heap_refuse(0n, 0n);
    refuse();
  }
  await until(() => session.hasAll, "the host has all");
  same([net.far.host.text(1) === editor.text, document.text() === editor.text], [true, true]);
  session.leave();
}

export const SESSION_CHECKS = [
  ...[checkSession, checkWrites, checkRuns, checkRefusedRequests, checkBreaks, checkLoading, checkFirstPage, checkDropped],
  ...[checkEnds, checkWrongMessages, checkClose, checkAddressChanged, checkWatched, checkTries, checkSessionsMemory],
];
