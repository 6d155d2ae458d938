/* What bindings/javascript promises of a client: each call where it does its work, and each refusal. The texts are worked out by hand. */
import { library } from "../../../bindings/javascript/module.js";
import { Client, EventKind, NoteKind, Status, Tick, memory, readNote, writeRefusal } from "../../../bindings/javascript/sulgrevad.js";
import { bytes, expect, joined, same, spelled, throws, throwsPlain } from "./expecting.mjs";
import { Far } from "./far.mjs";

const ID = spelled("a session's name");
const HGROWDATA = 77; // kinds of frames, as docs/reference/PROTOCOL.md has them
const HGROW = 70;
const HUNLOCK = 72;
const HUNLOCKFILE = 75;
const MOST_WORDS = 65_536;
const MOST_ANSWERS = 65_536; // bytes that are not acknowledged
const ANSWER = 11;
const MOST_WAITING = 1000;
const MANY = 600;
const UNLOADED = "\ufffe";

/** Goes on, and returns what is told. */
function told(client) {
  return [...client.goOn(1000)];
}

const ofKind = (kind, all) => all.filter((each) => each.kind === kind);

/** Carries bytes both ways until neither side has any, and returns what is told. */
function settle(client, far) {
  const all = told(client);
  const { attempt } = client.describe(1000);
  for (let moves = true; moves; ) {
    const up = client.takeOut(attempt);
    far.take(up);
    const down = far.out();
    client.receive(attempt, down, 1000);
    all.push(...told(client));
    moves = up.length + down.length > 0;
  }
  return all;
}

/** A host with one file, and a client that has opened it and loaded so much of it. */
function begun(text, loaded = 100) {
  const [client, far] = [new Client(ID, false, 1000), new Far(ID, { a: text })];
  client.connected(1000);
  for (const [kind, fields] of [["OFFER_VERSION", { version: 2 }], ["OPEN", { tag: 1 }], ["LOAD", { tag: 1, number: loaded }]]) {
    client.ask(EventKind[kind], fields);
    settle(client, far);
  }
  return { client, far };
}

function checkClientsLine() {
  const [client, far] = [new Client(ID, false, 1000), new Far(ID)];
  same([client.dueIn(1000), client.tick(1000), client.tick(1000)], [0, Tick.CONNECT, Tick.NOTHING]);
  client.notConnected(1000);
  same([client.tick(1000), client.describe(1000).failures, client.hasAll], [Tick.CONNECT, 1, true]);
  client.putNote(spelled("note"), 1000);
  same([client.hasAll, client.note.length], [false, 0]);
  const first = client.connected(1000);
  throws("LinkFault", "LINK_NOT_OPEN", () => client.takeOut(2));
  far.take(client.takeOut(first));
  same(far.notes.map((note) => new TextDecoder().decode(note)), ["note"]);
  throws("LinkFault", "LINK_NOT_OPEN", () => client.receive(2, bytes(1), 1020));
  far.link.putNote(spelled("back"));
  far.link.putNote(bytes(0));
  client.receive(first, joined(spelled("a login\n"), far.out()), 1020);
  same(new TextDecoder().decode(client.words), "a login\n");
  same([client.nextEvent(1020), new TextDecoder().decode(client.note)], [{ kind: "note", did: null }, "back"]);
  same([client.nextEvent(1020).kind, client.note.length, client.nextEvent(1020).kind], ["note", 0, "idle"]);
  const { state, isKnown, attempt, received, why } = client.describe(1020);
  same([state, isKnown, attempt, received, why], [Client.OPEN, true, 1, 10, Status.OK]);
  far.take(client.takeOut(first));
  client.receive(first, far.out(), 1050);
  same([client.nextEvent(1050).kind, client.hasAll, client.describe(1050).roundTrip], ["idle", true, 30]);
  client.acknowledge();
  expect(client.takeOut(first).length > 0, "an acknowledgement goes out");
  client.expect(true, 1150);
  same(client.dueIn(1150), 15000);
  client.expect(false, 1160);
  client.addressChanged(1200);
  same([client.describe(1200).state, client.dueIn(1200), client.tick(3200)], [Client.LATE, 2000, Tick.DROP]);
  client.broken(first, 3200);
  same(client.describe(3200).state, Client.DOWN);
  throws("LinkFault", "LINK_TOO_LONG", () => client.putNote(bytes(4097), 3200));
  client.free();
  throws("HandleFault", "NO_HANDLE", () => client.tick(3200));
}

/** What a host may send that ends a connection, or the line. */
function checkRefusedPieces() {
  const welcome = () => {
    const [client, far] = [new Client(ID, false, 1000), new Far(ID)];
    client.connected(1000);
    far.take(client.takeOut(1));
    return [client, far.out()];
  };
  const pieces = [
    ["LINK_BAD_KIND", Uint8Array.of(5)],
    ["LINK_BAD_LENGTH", Uint8Array.of(1, 0, 0)],
    ["LINK_ACK_AHEAD", Uint8Array.of(3, 0, 8, 0, 0, 0, 0, 0, 0, 0, 9)],
  ];
  for (const [code, piece] of pieces) {
    const [client, hello] = welcome();
    throws("LinkFault", code, () => client.receive(1, joined(hello, piece), 1000));
    throws("LinkFault", "LINK_NOT_OPEN", () => client.receive(1, piece, 1000));
    same(client.describe(1000).state, Client.DOWN);
  }
  const [lost] = welcome();
  throws("LinkFault", "LINK_OTHER_SESSION", () => lost.receive(1, writeRefusal(Status.LINK_OTHER_SESSION, bytes(0)), 1000));
  same([lost.describe(1000).state, lost.describe(1000).why, lost.dueIn(1000)], [Client.LOST, Status.LINK_OTHER_SESSION, null]);
  const [talked] = welcome();
  const answer = joined(Uint8Array.of(0x89), spelled("samlink\x01\x05")); // no hello begins so
  throws("LinkFault", "LINK_WRONG_HELLO", () => talked.receive(1, answer, 1000));
  const [loud] = welcome();
  loud.receive(1, bytes(MOST_WORDS), 1000);
  throws("LinkFault", "LINK_TOO_MANY_WORDS", () => loud.receive(1, bytes(1), 1000));
  const [asked, hello] = welcome();
  const ask = Uint8Array.of(4, 0, 0);
  asked.receive(1, hello, 1000);
  for (let kept = 0; kept < MOST_ANSWERS; kept += ANSWER) asked.receive(1, ask, 1000);
  throws("LinkFault", "LINK_TOO_MANY_ANSWERS", () => asked.receive(1, ask, 1000));
}

/** A write locks the file. What is typed meanwhile shows at once, also where no connection stands, and comes to the host. */
function checkTypedUnderALock() {
  const { client, far } = begun("hello");
  same([client.hasAll, client.isUnsaved(1), client.nextWaiting(), client.text(1)], [true, false, null, "hello"]);
  const write = client.ask(EventKind.WRITE, { tag: 1 });
  const [acted] = ofKind("stepped", told(client));
  same([acted.did.step, acted.did.request, client.file(1).isLocked, client.requests], ["acted", write, true, 0]);
  client.replace(1, 5, 5, " w\u{1D11E}rld");
  client.broken(1, 1000);
  client.replace(1, 0, 1, "J");
  same([client.text(1), client.read(1, 6, 2), client.len(1)], ["Jello w\u{1D11E}rld", ["w", "\u{1D11E}"], 11]);
  same([client.waiting(1), client.nextWaiting(), client.nextWaiting(2), client.isWaiting(1)], [7, 1, null, true]);
  same([client.ask(EventKind.WRITE, { tag: 1 }), client.ask(EventKind.WRITE, { tag: 1 })], [write + 1, write + 1]);
  client.replace(1, 0, 1, "H");
  same([client.requests, client.hasAll, client.isUnsaved(1), far.host.text(1)], [1, false, true, "hello"]);
  far.begin();
  client.connected(1000);
  same(ofKind("came", settle(client, far)), []);
  same([far.host.text(1), far.host.saved(1), client.text(1)], ["Hello w\u{1D11E}rld", "Jello w\u{1D11E}rld", "Hello w\u{1D11E}rld"]);
  same([client.hasAll, client.isUnsaved(1), client.requests, client.waiting(1)], [true, true, 0, 0]);
  client.ask(EventKind.WRITE, { tag: 1 });
  settle(client, far);
  same([client.isUnsaved(1), client.isUnsaved(9)], [false, false]);
}

function checkClientsReaders() {
  const { client, far } = begun("hello");
  client.ask(EventKind.SET_SNARF, { text: "snarf" });
  client.ask(EventKind.GET_SNARF);
  client.ask(EventKind.SELECT, { tag: 1, start: 0, number: 2 });
  client.ask(EventKind.LOOK, { tag: 1 });
  client.ask(EventKind.NEW_FILE);
  settle(client, far);
  same([client.snarfed(1), client.pattern, client.current, client.name(1), client.state().version], ["narf", "he", 2, "a", 2]);
  same([client.faultPlace, client.firstGap(1), client.file(1).dot], [null, null, { start: 0, end: 2 }]);
  client.ask(EventKind.OPEN_CMD);
  client.ask(EventKind.WORK, { tag: 1 });
  client.ask(EventKind.TYPE_CMD, { text: ",x/l/c/L/\n" });
  settle(client, far);
  same([client.text(1), far.host.text(1), client.isUnsaved(0)], ["heLLo", "heLLo", false]);
  client.ask(EventKind.CLOSE, { tag: 1 });
  throws("EditRefused", "REFUSAL_NOT_OPEN", () => client.replace(1, 0, 0, "x"));
  same(ofKind("emptied", settle(client, far))[0], { kind: "emptied", tag: 1, place: 0, count: 0 });
  throws("Missing", "NONE", () => client.text(1));
  client.ask(EventKind.EXIT);
  throws("EditRefused", "REFUSAL_EXITED", () => client.replace(2, 0, 0, "x"));
}

/** The bytes of a frame for the file 1 that answers all messages: docs/reference/PROTOCOL.md has its form. */
function frame(client, kind, ...fields) {
  const stamp = new DataView(new ArrayBuffer(8));
  stamp.setBigUint64(0, BigInt(client.state().sent));
  const body = joined(new Uint8Array(stamp.buffer), Uint8Array.of(0, 1), ...fields);
  return joined(Uint8Array.of(kind, body.length >> 8, body.length & 255), body);
}

const place = (number) => Uint8Array.of(number >>> 24, (number >>> 16) & 255, (number >>> 8) & 255, number & 255);

function tell(client, far, ...words) {
  far.link.put(frame(client, ...words));
  client.receive(1, far.out(), 1000);
}

/** While splices are left nothing is done, and the host's changes go through what waits. */
function checkSplicesAreTakenFirst() {
  const { client, far } = begun("hello");
  client.ask(EventKind.WRITE, { tag: 1 });
  told(client);
  client.replace(1, 5, 5, "!");
  client.replace(1, 2, 2, "?");
  throws("SamError", "WAITING", () => {
    tell(client, far, HGROWDATA, place(5), spelled("<->"));
    same(client.nextEvent(1000).did.kind, HGROWDATA);
    client.nextEvent(1000);
  });
  throws("SamError", "WAITING", () => client.replace(1, 0, 0, "x"));
  throws("SamError", "WAITING", () => client.dropNext(1));
  same([...client.splices()], [{ kind: "came", tag: 1, place: 6, count: 3 }]);
  same([client.nextSplice(), client.text(1)], [null, "he?llo<->!"]);
}

/** The host leaves no room for what waits: it comes back. */
function checkClientsTakenBack() {
  const { client, far } = begun("hello");
  client.ask(EventKind.VIEW, { tag: 1 });
  settle(client, far);
  client.ask(EventKind.WRITE, { tag: 1 });
  told(client);
  client.replace(1, 5, 5, "wö");
  same(client.dropNext(1), null);
  tell(client, far, HGROW, place(2), place(999_995));
  same(ofKind("came", told(client)), [{ kind: "came", tag: 1, place: 2, count: 999_995 }]);
  same([client.firstGap(1), client.firstGap(1, 999_997)], [2, null]);
  tell(client, far, HUNLOCKFILE);
  told(client);
  same(client.dropNext(1), { tag: 1, place: 1_000_000, count: 2, text: "wö" });
  same([client.len(1), client.waiting(1)], [1_000_000, 0]);
}

/** Many replacements by one call, one after another: those before one that is refused are made. */
function checkManyReplacements() {
  const { client, far } = begun("hello \u{1D11E}");
  client.ask(EventKind.WRITE, { tag: 1 });
  told(client);
  const rows = [[6, 7, ""], [4, 5, "\u{1D11F}!"], [1, 2, spelled("é")], [0, 0, "J"]];
  const each = (...of) => client.replaceEach(1, of.map(([start, end, text]) => ({ start, end, text })));
  same([each(...rows), client.text(1)], [4, "Jhéll\u{1D11F}! "]);
  same([each([0, 1, ""], [8, 9, "x"], [0, 0, "y"]), each(), client.text(1)], [1, 0, "héll\u{1D11F}! "]);
  throws("EditRefused", "REFUSAL_BAD_POSITION", () => each([8, 9, "x"], [0, 0, "y"]));
  throws("NotText", "NOT_TEXT", () => each([0, 0, "x"], [0, 0, "\ud834"], [0, 0, "\udd1e"]));
  throwsPlain(RangeError, () => each([0, 0, "x"], [-1, 0, "y"]));
  throwsPlain(TypeError, () => each([0, 0, "x"], [0, 0]));
  const long = Array.from({ length: MANY }, (_, at) => [MANY - at - 1, MANY - at, "x".repeat(at % 3)]);
  each([0, 7, "m".repeat(MANY)]);
  same([each(...long), client.text(1)], [MANY, long.map(([, , text]) => text).reverse().join("")]);
  settle(client, far);
  same([far.host.text(1), client.hasAll], [client.text(1), true]);
  client.free();
  throws("HandleFault", "NO_HANDLE", () => each([0, 0, "x"]));
}

/** What a client asks of its host's program, told once each: by an answer, by the refusal of a write, or by the session's end. */
function checkTasks() {
  const { client, far } = begun("hello");
  const path = spelled("/tmp/é");
  same(client.begin(NoteKind.OPEN, { path }, 1000), 1);
  same([client.begin(NoteKind.RELOAD, { tag: 1 }, 1000), client.write(1), client.write(1), client.write(9)], [2, 3, 3, 4]);
  const tells = settle(client, far);
  const [refused] = ofKind("refused", tells);
  same([refused.did.task, refused.did.why, far.host.saved(1)], [4, Status.REFUSAL_NO_FILE, "hello"]);
  same(ofKind("answered", tells).map(({ did }) => did.task), [1, 3]);
  same(readNote(client.note).kind, NoteKind.SAVED);
  const heard = far.notes.map((note) => readNote(note));
  same(heard.slice(0, 3).map(({ kind, request, tag }) => [kind, request, tag]), [
    [NoteKind.OPEN, 1, 0],
    [NoteKind.RELOAD, 2, 1],
    [NoteKind.WRITE, 3, 1],
  ]);
  same([...heard[0].path], [...path]);
  for (const note of [{ kind: NoteKind.OPENED, request: 1 }, { kind: NoteKind.ENDED }]) far.tell(note);
  const last = settle(client, far).map(({ kind, did }) => [kind, did?.task ?? 0]);
  same(last.slice(-3), [["note", 0], ["note", 0], ["unanswered", 2]]);
  same(readNote(client.note).kind, NoteKind.ENDED);
}

/** A command line is told once: that it has run, and what it printed; or that it lapsed, where the session is over. */
function checkRuns() {
  const { client, far } = begun("one\ntwo\n");
  const lines = ["2p", ",x/o/c/ö/", ",p"].map((line) => client.run(1, line));
  const runs = ofKind("ran", settle(client, far)).map(({ did }) => did);
  same(runs.map(({ request }) => request), lines);
  same(runs.map(({ change: { start, came } }) => client.text(0, start, came)), ["two\n", "", "öne\ntwö\n"]);
  throws("NotText", "NOT_TEXT", () => client.run(1, "1p\n2p"));
  throws("NotText", "NOT_TEXT", () => client.run(1, "\ud800"));
  throws("EditRefused", "REFUSAL_NOT_OPEN", () => client.run(9, "1p"));
  throws("EditRefused", "REFUSAL_TEXT_TOO_LONG", () => client.run(1, " ".repeat(400_001)));
  far.tell({ kind: NoteKind.ENDED });
  settle(client, far);
  const line = client.run(1, "1p");
  same(ofKind("lapsed", settle(client, far)).map(({ did }) => did.request), [line]);
}

/** A task that is refused is not begun. */
function checkRefusedTasks() {
  const { client } = begun("hello");
  for (const [code, kind, fields] of [
    ["NOTE_BAD_KIND", NoteKind.WRITE, { tag: 1 }],
    ["NOTE_BAD_FIELD", NoteKind.OPEN, { path: spelled("a"), tag: 1 }],
    ["NOTE_BAD_LENGTH", NoteKind.OPEN, { path: bytes(4090) }],
    ["NOTE_BAD_PATH", NoteKind.COMPLETE, { path: bytes(1) }],
  ]) {
    throws("NoteFault", code, () => client.begin(kind, fields, 1000));
  }
  throwsPlain(TypeError, () => client.begin(NoteKind.OPEN, { path: "a" }, 1000));
  for (let number = 1; number <= MOST_WAITING; number++) same(client.begin(NoteKind.RELOAD, { tag: 1 }, 1000), number);
  throws("SamError", "TOO_MANY", () => client.begin(NoteKind.RELOAD, { tag: 1 }, 1000));
  throws("SamError", "TOO_MANY", () => client.write(1));
}

/** What a window shows of a file is loaded, and then the rest, but while nobody types. */
function checkWindows() {
  const text = "line\n".repeat(MANY);
  const { client, far } = begun(text, 0);
  client.see(1, 1000, 1005);
  client.replace(1, 0, 0, "x");
  settle(client, far);
  same([client.read(1, 999, 7), client.dueIn(1000)], [[null, ...text.slice(999, 1004), null], 1000]);
  client.rest(1500);
  same([[...client.goOn(1500)], client.dueIn(1500)], [[], 1000]);
  client.forget(1);
  same([[...client.goOn(2500)], client.dueIn(2500), client.firstGap(1)], [[], null, 1]);
  client.see(1, 0, 0);
  same(client.nextEvent(2500).kind, "busy");
  settle(client, far);
  same([client.text(1), client.dueIn(2500)], [`x${text}`, null]); // all in one slice
}

/** Makes edits in a text of runes, in which null stands for one that is not loaded. */
function makeEdits(runes, edits) {
  for (const { kind, tag, place, count, text } of edits.splice(0)) {
    if (tag !== 1) continue;
    const came = [...text].map((rune) => (rune === UNLOADED ? null : rune));
    runes.splice(place, kind === "came" ? 0 : count, ...came);
    expect(kind !== "filled" || came.length === count, "each rune that is loaded comes");
  }
}

/** Has all come that the host has, and goes over the edits in it. Returns what is told else. */
function takeEdits(client, far, runes) {
  const [all, edits] = [[], []];
  for (let down = far.out(); down.length > 0; down = far.out()) {
    client.receive(client.describe(1000).attempt, down, 1000);
    for (let event = { kind: "busy" }; event.kind !== "idle"; makeEdits(runes, edits)) {
      event = client.stepEdits(1000, edits, UNLOADED);
      if (event.did !== null) all.push(event.did.kind, ...[...client.splices()].map(({ tag }) => `splice ${tag}`));
    }
  }
  return all;
}

/** A session in which the host has been told of a command line that changes the file, whose whole text is loaded. */
function commanded(text, line) {
  const { client, far } = begun(text, text.length);
  for (const kind of ["OPEN_CMD", "WORK"]) client.ask(EventKind[kind], { tag: 1 });
  settle(client, far);
  client.ask(EventKind.TYPE_CMD, { text: `${line}\n` });
  told(client);
  far.take(client.takeOut(1));
  return { client, far };
}

/** The edits of a command line come by few calls, each with what came: made in a text of one's own they lead to what is shown. */
function checkManyEdits() {
  const text = "a line\n".repeat(MANY);
  const { client, far } = commanded(text, ",x/a/c/é\u{1D11E}/");
  const runes = [...text];
  const kinds = takeEdits(client, far, runes);
  same([runes.join(""), client.text(1)], [far.host.text(1), far.host.text(1)]);
  expect(kinds.includes(HUNLOCK) && !kinds.includes(HGROWDATA) && !kinds.includes("splice 1"), `${kinds}`);
}

/** Where the room of a call ends within a step, the rest comes, too: each step but the first has two removals, round what is typed. */
function checkRoomEndsWithinAStep() {
  const { client, far } = commanded("ab".repeat(MANY), ",x/ab/d");
  const places = Array.from({ length: MANY - 1 }, (_, at) => 2 * at + 1).reverse();
  same(client.replaceEach(1, places.map((place) => ({ start: place, end: place, text: "x" }))), MANY - 1);
  const runes = [...client.text(1)];
  takeEdits(client, far, runes);
  same([runes.join(""), client.text(1)], ["x".repeat(MANY - 1), "x".repeat(MANY - 1)]);
}

/** What is loaded comes with its runes, also where what is typed stands between. */
function checkManyLoads() {
  const { client, far } = begun("abc".repeat(MANY), 0);
  client.ask(EventKind.LOAD, { tag: 1, number: 3 * MANY });
  told(client);
  client.replace(1, MANY, MANY, "\u{1D11E}");
  const runes = client.read(1, 0, 4 * MANY);
  same(runes.filter((rune) => rune === null).length, 3 * MANY);
  for (let up = client.takeOut(1); up.length > 0; up = client.takeOut(1)) {
    far.take(up);
    takeEdits(client, far, runes);
  }
  same([runes.join(""), client.firstGap(1)], [client.text(1), null]);
}

function checkRefusedClient() {
  const { client, far } = begun("hello");
  throwsPlain(RangeError, () => new Client(bytes(15), false, 0));
  throwsPlain(TypeError, () => new Client("x".repeat(16), false, 0));
  throwsPlain(RangeError, () => client.tick(-1));
  throws("NotText", "NOT_TEXT", () => client.replace(9, 0, 0, "\ud834"));
  throws("EditRefused", "REFUSAL_NO_FILE", () => client.replace(9, 0, 0, "x"));
  client.ask(EventKind.OPEN_CMD);
  settle(client, far);
  throws("EditRefused", "REFUSAL_COMMAND_FILE", () => client.replace(0, 0, 0, "x"));
  throws("EditRefused", "REFUSAL_BAD_POSITION", () => client.replace(1, 3, 6, "x"));
  throws("EditRefused", "REFUSAL_TOO_LONG", () => client.replace(1, 0, 5, "m".repeat(1_000_000)));
  throws("NotText", "NOT_TEXT", () => client.ask(EventKind.SET_SNARF, { text: "\ud834" }));
  throws("Missing", "NONE", () => client.ask(25));
  throws("Missing", "NONE", () => client.name(9));
  const { events } = client.state();
  const asked = client.ask(EventKind.SELECT, { tag: 1, start: 3, number: 9 });
  const [{ did }] = ofKind("refused", told(client));
  same([did.event, did.request, did.why], [events + 1, asked, Status.REFUSAL_BAD_POSITION]);
  client.ask(EventKind.EXIT);
  for (let asked = client.requests; asked < MOST_WAITING; asked++) client.ask(EventKind.SEARCH, { tag: 1 });
  throws("SamError", "TOO_MANY", () => client.ask(EventKind.SEARCH, { tag: 1 }));
  const { client: other, far: theirs } = begun("hello");
  theirs.link.put(Uint8Array.of(255, 0, 0));
  other.receive(1, theirs.out(), 1000);
  throws("StreamFault", "BAD_KIND", () => told(other));
  throws("StreamFault", "BAD_KIND", () => other.replace(1, 0, 0, "x"));
  same([other.faultPlace > 0, other.text(1), far.notes], [true, "hello", []]);
}

/** Has a call be refused memory, each of its requests in turn, and returns the codes of what it throws. */
function refusedInTurn(call) {
  const codes = new Set();
  for (let request = 1; ; request++) {
    library.heap_refuse(BigInt(request), 1n);
    const before = library.heap_asked();
    try {
      call();
      if (library.heap_asked() - before < BigInt(request)) return [...codes];
    } catch (error) {
      codes.add(error.code);
    } finally {
      library.heap_refuse(0n, 0n);
    }
  }
}

function checkClientsMemory() {
  const { client, far } = begun("hello");
  same(refusedInTurn(() => client.replace(1, 0, 0, "x".repeat(1000))), [Status.NO_MEMORY]);
  same(refusedInTurn(() => client.ask(EventKind.SET_SNARF, { text: "y".repeat(1000) })), [Status.NO_MEMORY]);
  same(refusedInTurn(() => client.putNote(bytes(4096, 255), 1000)), [Status.NO_MEMORY]);
  same(refusedInTurn(() => told(client)), [Status.UNFINISHED]);
  const text = client.text(1);
  settle(client, far);
  same([client.hasAll, far.host.text(1) === text, far.notes.length > 0], [true, true, true]);
  far.tell({ kind: NoteKind.SAID, text: "z".repeat(4000) });
  const piece = far.out();
  same(refusedInTurn(() => client.receive(1, piece, 1000)), [Status.NO_MEMORY]);
  memory.limit(Number.MAX_SAFE_INTEGER);
}

export const CLIENT_CHECKS = [
  ...[checkClientsLine, checkRefusedPieces, checkTypedUnderALock, checkClientsReaders, checkSplicesAreTakenFirst],
  ...[checkManyReplacements, checkManyEdits, checkRoomEndsWithinAStep, checkManyLoads, checkTasks, checkRuns, checkRefusedTasks],
  ...[checkWindows, checkClientsTakenBack, checkRefusedClient, checkClientsMemory],
];
