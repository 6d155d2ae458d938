/* What bindings/javascript promises: results, errors by code, texts, ends, numbers. Node and a page of a browser run it. */
import * as sulgrevad from "../../../bindings/javascript/sulgrevad.js";
import { CLIENT_CHECKS } from "./clients.mjs";
import { bytes, expect, same, throws, throwsPlain } from "./expecting.mjs";
import { SESSION_CHECKS } from "./sessions.mjs";

const { EventKind, Host, Line, Link, NoteCode, NoteKind, Overlay, Terminal, Status, Tick, What, memory, readHello, readNote } = sulgrevad;
const { libraryVersion, replay, statusText, writeNote, writeRefusal } = sulgrevad;
const KEYS = 20000;

/** Carries bytes both ways until neither side has any. */
function carry(terminal, host) {
  terminal.flushNow();
  while (terminal.pending > 0) {
    host.feed(terminal.takeOut());
    terminal.feed(host.takeOut());
    terminal.flushNow();
  }
}

function opened(...files) {
  const host = new Host();
  const terminal = new Terminal();
  const tags = files.map(([name, text]) => host.addFile(name, text));
  terminal.offerVersion(2);
  for (const tag of tags) {
    terminal.open(tag);
    terminal.load(tag, 0, 30000);
  }
  carry(terminal, host);
  return [host, terminal, ...tags];
}

function checkTexts() {
  const text = "hello, wörld 𝄞\u0000\ufeff\n";
  const [host, terminal, tag] = opened(["notes", text]);
  same([tag, host.text(tag), terminal.text(tag)], [1, text, text]);
  same([host.len(tag), host.name(tag), terminal.name(tag)], [17, "notes", "notes"]);
  same(terminal.read(tag, 12, 3), [" ", "𝄞", "\u0000"].slice(0, 3));
  same([host.text(tag, 13, 1), host.text(tag, 16), host.text(tag, 99), host.text(tag, 0, 0)], ["𝄞", "\n", "", ""]);
  same(terminal.bytes(tag, 0, 14), { bytes: 18, gaps: 0 });
  same([terminal.place(tag, 0, 18), terminal.line(tag, 0, 1), terminal.line(tag, 0, 2)], [14, 17, null]);
  same([terminal.units(tag, 0, 14), terminal.units(tag, 0, 13)], [{ units: 15, gaps: 0 }, { units: 13, gaps: 0 }]);
  same([terminal.unitPlace(tag, 0, 15), terminal.unitPlace(tag, 0, 14)], [14, 13]);
  same([terminal.lineBefore(tag, 17, 0), terminal.lineBefore(tag, 17, 1), terminal.lineBefore(tag, 17, 2)], [17, 0, null]);
  same([terminal.lines(tag, 0, 17), terminal.lines(tag, 0, 16)], [{ lines: 1, gaps: 0 }, { lines: 0, gaps: 0 }]);
  same([host.faultPlace, terminal.faultPlace], [null, null]);
  terminal.select(tag, 0, 5);
  terminal.type(tag, new TextEncoder().encode("Ἑλλάς"));
  same(terminal.dot(tag), { start: 5, end: 5 });
  carry(terminal, host);
  same([host.text(tag), host.dot(tag)], ["Ἑλλάς, wörld 𝄞\u0000\ufeff\n", { start: 5, end: 5 }]);
  terminal.edit(tag, 0, 17, "𝄞".repeat(100000));
  carry(terminal, host);
  same([host.len(tag), host.text(tag) === "𝄞".repeat(100000)], [100000, true]);
  same(terminal.isChanged(tag) && host.isDirty(tag), true);
  same([terminal.changed(tag).start, terminal.firstGap(tag)], [0, null]);
}

function checkFiles() {
  const [host, terminal, one, two] = opened(["one", "a\nb\n"], ["two", ""]);
  same([host.tags, host.files(), terminal.files()], [3, [0, 1, 2], [1, 2]]);
  same([host.hasFile(9), terminal.isKnown(two), terminal.isOpen(two), terminal.isOpen(9)], [false, true, true, false]);
  terminal.openCmd();
  terminal.work(one);
  terminal.type(0, ",x/b/c/B/\n");
  carry(terminal, host);
  same([host.text(one), terminal.text(one), terminal.current], ["a\nB\n", "a\nB\n", one]);
  terminal.write(one);
  carry(terminal, host);
  same([[...host.written()], host.nextWritten()], [[one], null]);
  host.markDirty(one);
  terminal.feed(host.takeOut());
  same([host.isDirty(one), terminal.isChanged(one)], [true, true]);
  same([host.saved(one), host.savedLen(one), host.savedLen(two)], ["a\nB\n", 4, null]);
  terminal.select(one, 0, 1);
  terminal.snarf(one);
  terminal.getSnarf();
  carry(terminal, host);
  same([terminal.snarfed(), terminal.snarfLen], ["a", 1]);
  terminal.look(one);
  carry(terminal, host);
  same(terminal.pattern, "a");
  terminal.view(one, 1, 2);
  same(terminal.viewOf(one), { start: 1, end: 3 });
  terminal.newFile();
  carry(terminal, host);
  same([terminal.current, host.tags], [3, 4]);
  terminal.close(two);
  terminal.exit();
  carry(terminal, host);
  same([host.hasFile(two), host.isDone, terminal.exited, terminal.underWay, terminal.held, terminal.unsent], [false, true, true, 0, 0, 0]);
  host.finish();
  terminal.finish();
  same([host.taken, terminal.sent], [terminal.sent, host.taken]);
}

function checkEditing() {
  const [host, terminal, tag] = opened(["one", "a word and a word\n"]);
  const dotAfter = (event) => {
    event();
    carry(terminal, host);
    const { start, end } = terminal.dot(tag);
    return [start, end];
  };
  same([host.version, terminal.version, terminal.isDirty(tag), terminal.len(tag), host.pending], [2, 2, false, 18, 0]);
  expect(terminal.tags > tag, `${terminal.tags} tags`);
  same(dotAfter(() => terminal.dclick(tag, 3)), [2, 6]);
  same(dotAfter(() => terminal.cut(tag)), [2, 2]);
  same(dotAfter(() => terminal.paste(tag)), [2, 6]);
  same(dotAfter(() => terminal.look(tag)), [13, 17]);
  same(dotAfter(() => terminal.search(tag)), [2, 6]);
  same([terminal.text(tag), host.isDirty(tag), terminal.isChanged(tag)], ["a word and a word\n", true, true]);
  terminal.openCmd();
  same(dotAfter(() => terminal.send(tag)), [2, 6]);
  expect(host.text(0).startsWith("word"), host.text(0));
  terminal.setSnarf("snärf");
  terminal.select(tag, 18, 18);
  same(dotAfter(() => terminal.paste(tag)), [18, 23]);
  same(host.text(tag), "a word and a word\nsnärf");
  terminal.type(tag, "x");
  terminal.flush();
  same(terminal.unsent, 0);
  terminal.view(tag, 18, 5);
  terminal.scroll(tag, 1);
  terminal.check(tag);
  carry(terminal, host);
  same([terminal.viewOf(tag).start, terminal.underWay, host.text(tag)], [0, 0, "a word and a word\nx"]);
}

function checkLongText() {
  const [host, terminal, tag] = opened(["one", ""]);
  const events = terminal.events;
  const text = "é".repeat(600) + "日".repeat(500);
  terminal.typeText(tag, text);
  same(terminal.events - events, 3);
  terminal.flush();
  carry(terminal, host);
  same(host.text(tag), text);
}

function checkRefusals() {
  const [host, terminal, tag] = opened(["one", "abc"]);
  terminal.select(tag, 9, 9);
  terminal.type(tag, "x".repeat(513));
  terminal.type(77, "x");
  const events = terminal.events;
  same([...terminal.refusals()], [
    { event: events - 2, why: Status.REFUSAL_BAD_POSITION },
    { event: events - 1, why: Status.REFUSAL_TEXT_TOO_LONG },
    { event: events, why: Status.REFUSAL_NO_FILE },
  ]);
  same([terminal.nextRefusal(), terminal.decided, terminal.locked(tag), terminal.commandLocked], [null, events, false, false]);
  throws("AddRefused", "ADD_TOO_LONG", () => host.addFile("n".repeat(65)));
  same([host.addFile("late", "x"), host.text(2)], [2, "x"]);
  throws("Missing", "NONE", () => host.markDirty(9));
  throws("MarkRefused", "MARK_COMMAND_FILE", () => host.markDirty(0));
  throws("MarkRefused", "MARK_NOT_ANNOUNCED", () => host.markDirty(2));
  throws("Missing", "NONE", () => host.text(9));
  throws("Missing", "NONE", () => host.saved(tag));
  throws("NotText", "NOT_TEXT", () => terminal.type(tag, "\ud834"));
  throws("NotText", "NOT_TEXT", () => terminal.type(tag, new Uint8Array([0xff])));
  same(throws("NotText", "NOT_TEXT", () => terminal.typeText(tag, "\ud834")).taken, 0);
  throws("NotText", "NOT_TEXT", () => new Host().addFile("a", "\udd1e"));
  throws("AddRefused", "ADD_TOO_LONG", () => new Host().addFile("n".repeat(65)));
  throws("StreamFault", "BAD_KIND", () => host.feed(new Uint8Array([0xff, 0, 0])));
  throws("StreamFault", "BAD_KIND", () => host.feed());
  const other = new Host();
  other.feed(new Terminal().takeOut());
  const piece = new Terminal();
  piece.offerVersion(2);
  other.feed(piece.takeOut(1));
  throws("StreamFault", "TRUNCATED", () => other.finish());
}

function checkSteps() {
  const [host, terminal, tag] = opened(["one", "abc"]);
  const none = { start: 0, gone: 0, came: 0 };
  terminal.check(tag);
  terminal.edit(tag, 1, 2, "xyz");
  host.bring(terminal.takeOut());
  throws("SamError", "WAITING", () => host.bring(new Uint8Array(0)));
  same(host.nextMessage(), { kind: 3, tag });
  same(host.step(), { step: "answered", kind: 3, tag, count: 1 });
  same([host.step().step, host.step()], ["wrote", { step: "edited", kind: 0, tag, count: 2 }]);
  same([host.step().step, host.nextMessage(), host.text(tag)], ["idle", null, "axyzc"]);
  terminal.bring(host.takeOut());
  same(terminal.nextFrame(), { kind: 71, tag, start: 0, gone: 0, loads: false });
  same(terminal.step(), { step: "received", kind: 71, tag, change: none, loads: false, event: 0, request: 0, task: 0, why: 0 });
  same([terminal.step().step, terminal.nextFrame()], ["idle", null]);
  terminal.openCmd();
  host.feed(terminal.takeOut());
  terminal.feed(host.takeOut());
  terminal.work(tag);
  terminal.type(0, ",x/x/c/w/\n");
  host.feed(terminal.takeOut());
  terminal.bring(host.takeOut());
  same([terminal.stepEdits(0, 9), terminal.step().kind], [[], 67]);
  const edits = [{ kind: 81, tag, change: { start: 1, gone: 1, came: 0 } }, { kind: 77, tag, change: { start: 1, gone: 0, came: 1 } }];
  same([terminal.stepEdits(0, 1), terminal.stepEdits(0, 9), terminal.stepEdits(0, 9)], [edits.slice(0, 1), edits.slice(1), []]);
  expect(terminal.len(tag) > 0, "a count stands where the next call has its own");
  throwsPlain(RangeError, () => terminal.stepEdits(-1, 9));
  expect(terminal.len(tag) > 0, "and again");
  terminal.free();
  throws("HandleFault", "NO_HANDLE", () => terminal.stepEdits(0, 9));
}

function checkStates() {
  const [host, terminal, tag] = opened(["one", "abc"]);
  terminal.select(tag, 1, 3);
  terminal.snarf(tag);
  carry(terminal, host);
  same([host.snarf(), host.snarf(1), host.snarfLen], ["bc", "c", 2]);
  terminal.type(tag, "xyz");
  terminal.write(tag + 7);
  for (const [name, value] of Object.entries(terminal.state())) same([name, value], [name, terminal[name]]);
  const isLocked = terminal.locked(tag);
  const [dot, view] = [terminal.dot(tag), terminal.viewOf(tag)];
  const isFree = !isLocked && terminal.held === 0;
  same(terminal.file(tag), { isKnown: true, isOpen: true, isDirty: false, isChanged: true, isLocked, isFree, len: 4, dot, view });
  same([terminal.file(tag + 7).isKnown, terminal.file(tag + 7).len], [false, 0]);
}

function checkNumbers() {
  const [host, terminal, tag] = opened(["one", "abc"]);
  for (const wrong of [-1, 65536, 0.5, NaN, Infinity]) throwsPlain(RangeError, () => host.text(wrong));
  for (const wrong of ["1", null, undefined, 1n, {}]) throwsPlain(TypeError, () => host.text(wrong));
  throwsPlain(RangeError, () => terminal.select(tag, 0, 2 ** 32));
  throwsPlain(RangeError, () => host.takeOut(-1));
  throwsPlain(TypeError, () => host.feed("text"));
  throwsPlain(TypeError, () => terminal.type(tag, 7));
  throwsPlain(RangeError, () => statusText(2 ** 32));
  same(statusText(99999), "unknown status");
  same(statusText(Status.NOT_TEXT), "SAM_NOT_TEXT: the bytes are not UTF-8");
  same(libraryVersion(), [0, 1, 0]);
}

function checkEnds() {
  const host = new Host();
  const used = memory.used;
  const terminal = new Terminal();
  terminal.free();
  terminal.free();
  same(memory.used, used);
  throws("HandleFault", "NO_HANDLE", () => terminal.type(1, "x"));
  throws("HandleFault", "NO_HANDLE", () => terminal.type(1, "\ud834"));
  throws("HandleFault", "NO_HANDLE", () => terminal.pending);
  throws("HandleFault", "NO_HANDLE", () => terminal.feed());
  host.free();
  throws("HandleFault", "NO_HANDLE", () => host.addFile("\ud834"));
}

/** Bytes and notes over two connections, the first of which breaks. */
function checkLink() {
  const id = new TextEncoder().encode("a session's name");
  const [link, host] = [new Link(Link.TERMINAL, id), new Link(Link.HOST, id)];
  link.put(bytes(5000, 120));
  link.putNote(new TextEncoder().encode("note"));
  same([link.putCount, link.phase, link.attempt], [5013, Link.DOWN, 0]);
  const first = link.call();
  const out = link.takeOut(first, 1000);
  same([first, out.length, readHello(out.subarray(0, 41)), link.unsent], [1, 1000, null, 4055]);
  const hello = readHello(out);
  same([hello.what, hello.id.join() === id.join(), hello.attempt], [What.BEGIN, true, 1]);
  host.answer(out.subarray(0, 42));
  host.feed(first, out.subarray(42));
  same([host.received, host.nextNote()], [958, null]);
  link.broken(first);
  const second = link.call(true);
  host.answer(link.takeOut(second));
  link.welcomed(host.takeOut(second));
  same([link.phase, link.acknowledged, link.unsent], [Link.OPEN, 958, link.putCount - 958]);
  link.ask();
  host.feed(second, link.takeOut(second));
  same([host.takeIn(4000).length, host.takeIn().length, host.takeIn().length, host.takeIn().length], [4000, 96, 904, 0]);
  same([new TextDecoder().decode(host.nextNote()), host.nextNote()], ["note", null]);
  host.acknowledge();
  link.feed(second, host.takeOut(second));
  same([link.acknowledged, link.received], [5016, 22]);
  link.put(new TextEncoder().encode("at once"));
  const piece = link.takeOut(second);
  throws("LinkFault", "LINK_NOT_OPEN", () => host.feedInto(first, piece));
  const front = host.feedInto(second, piece, 2);
  same([new TextDecoder().decode(front), new TextDecoder().decode(host.takeIn())], ["at", " once"]);
  link.put(new TextEncoder().encode("where it lies"));
  link.put(new TextEncoder().encode("twice"));
  const lying = link.takeOut(second);
  throws("LinkFault", "LINK_NOT_OPEN", () => host.feedPlaces(first, lying));
  const [place, ...others] = host.feedPlaces(second, lying, 1);
  same([new TextDecoder().decode(lying.subarray(place.start, place.start + place.len)), others.length], ["where it lies", 0]);
  same([new TextDecoder().decode(host.takeIn()), host.takeIn().length], ["twice", 0]);
  link.free();
  throws("HandleFault", "NO_HANDLE", () => link.ask());
}

/** What a link refuses, by its error and code, and what is refused before the library is called. */
function checkRefusedLink() {
  const link = new Link(Link.TERMINAL, bytes(16));
  throwsPlain(RangeError, () => new Link(Link.TERMINAL, bytes(15)));
  throwsPlain(TypeError, () => new Link(Link.TERMINAL, "x".repeat(16)));
  throwsPlain(RangeError, () => new Link(-1, bytes(16)));
  throwsPlain(RangeError, () => link.broken(-1));
  throwsPlain(RangeError, () => link.takeIn(-1));
  throwsPlain(RangeError, () => link.takeOut(0, -1));
  throwsPlain(TypeError, () => link.put("text"));
  throwsPlain(TypeError, () => readHello("text"));
  throws("LinkFault", "LINK_WRONG_ROLE", () => new Link(2, bytes(16)));
  throws("LinkFault", "LINK_NOT_A_LINK", () => readHello(new TextEncoder().encode("GET")));
  throws("LinkFault", "LINK_TOO_LONG", () => link.putNote(bytes(4097)));
  throws("LinkFault", "LINK_NOT_OPEN", () => link.takeOut(0));
  throws("LinkFault", "LINK_NOT_OPEN", () => link.feed(0, bytes(0)));
  throws("Missing", "NONE", () => link.welcomed(bytes(0)));
  throws("Missing", "NONE", () => writeRefusal(Status.LINK_WRONG_ROLE, bytes(0)));
  const hello = link.takeOut(link.call());
  throws("LinkFault", "LINK_WRONG_ROLE", () => link.answer(hello));
  const refusal = writeRefusal(Status.LINK_OTHER_SESSION, hello);
  same([refusal.length, readHello(refusal).what], [42, What.OTHER_SESSION]);
  throws("LinkFault", "LINK_OTHER_SESSION", () => link.welcomed(refusal));
  same(link.phase, Link.ASKING);
  memory.limit(memory.taken);
  throws("NoMemory", "NO_MEMORY", () => link.put(bytes(memory.taken)));
  memory.limit(Number.MAX_SAFE_INTEGER);
  same(link.putCount, 0);
}

/** A line whose first connection brings words and breaks, and whose second is asked and given up. */
function checkLine() {
  const id = new TextEncoder().encode("a session's name");
  const [line, host] = [new Line(id, false, 1000), new Link(Link.HOST, id)];
  line.put(bytes(2, 120), 1000);
  line.putNote(new TextEncoder().encode("note"), 1000);
  same([line.dueIn(1000), line.tick(1000), line.tick(1000)], [0, Tick.CONNECT, Tick.NOTHING]);
  line.notConnected(1000);
  same([line.tick(1000), line.describe(1000).failures], [Tick.CONNECT, 1]);
  const first = line.connected(1000);
  host.answer(line.takeOut(first, 42));
  host.feed(first, line.takeOut(first));
  host.put(new TextEncoder().encode("hello"));
  host.putNote(new TextEncoder().encode("back"));
  line.receive(first, new TextEncoder().encode("a login\n"), 1020);
  line.receive(first, host.takeOut(first), 1020);
  const text = (found) => new TextDecoder().decode(found);
  same([text(line.words), text(line.takeIn(3)), text(line.takeIn())], ["a login\n", "hel", "lo"]);
  same([text(line.nextNote()), line.nextNote()], ["back", null]);
  line.ask(1020);
  host.feed(first, line.takeOut(first));
  line.receive(first, host.takeOut(first), 1100);
  const wanted = {
    ...{ silence: 0, roundTrip: 80, overdueAfter: 1160, failures: 1, attempt: 1, putCount: 15, acknowledged: 15, received: 26 },
    ...{ state: Line.OPEN, why: Status.OK, isKnown: true, isBroken: false, hasAll: true },
  };
  same(line.describe(1100), wanted);
  line.acknowledge();
  same(line.takeOut(first).length, 11);
  line.expect(true, 1150);
  same(line.dueIn(1150), 15000);
  line.expect(false, 1160);
  same(line.dueIn(1160), null);
  line.addressChanged(1200);
  same([line.describe(1200).state, line.dueIn(1200), line.tick(3200)], [Line.LATE, 2000, Tick.DROP]);
  throws("LinkFault", "LINK_NOT_OPEN", () => line.takeOut(first));
  line.broken(first, 3200);
  const second = line.connected(3200);
  line.takeOut(second);
  throws("LinkFault", "LINK_OTHER_SESSION", () => line.receive(second, writeRefusal(Status.LINK_OTHER_SESSION, bytes(0)), 3200));
  same([line.describe(3200).state, line.describe(3200).why, line.dueIn(3200)], [Line.LOST, Status.LINK_OTHER_SESSION, null]);
  throws("LinkFault", "LINK_TOO_LONG", () => line.putNote(bytes(4097), 3200));
  throwsPlain(RangeError, () => new Line(bytes(15), false, 0));
  throwsPlain(RangeError, () => line.tick(-1));
  throwsPlain(TypeError, () => line.put("text", 3200));
  line.free();
  throws("HandleFault", "NO_HANDLE", () => line.tick(3200));
}

function checkNotes() {
  const bytes = (text) => new TextEncoder().encode(text);
  const shown = ({ kind, request = 0, tag = 0, code = 0, number = 0, path = [], copy = [], text = "" }) => {
    return [kind, request, tag, code, number, [...path], [...copy], text];
  };
  const spelled = Uint8Array.of(1, 0, 0, 0, 7, 0, 6, ...bytes("/tmp/a"));
  const open = { kind: NoteKind.OPEN, request: 7, path: bytes("/tmp/a") };
  same([...writeNote(open)], [...spelled]);
  same(shown(readNote(spelled)), shown(open));
  const numbers = { kind: NoteKind.EARLIER, tag: 65535, code: NoteCode.OLDER, number: 2 ** 53 - 1 };
  const earlier = { ...numbers, path: bytes("/é"), copy: bytes("/b"), text: "Ü\u0000\ufeff" };
  same(shown(readNote(writeNote(earlier))), shown(earlier));
  same(readNote(writeNote({ kind: NoteKind.ENDED, code: 255 })).code, NoteCode.OTHER);
  const aside = { kind: NoteKind.ASIDE, path: bytes("/\u0000"), copy: bytes("/\u0000"), text: "a\ud834" };
  throws("NoteFault", "NOTE_BAD_KIND", () => writeNote({ ...aside, kind: 6 }));
  throws("NoteFault", "NOTE_BAD_FIELD", () => writeNote({ ...aside, request: 1 }));
  throws("NoteFault", "NOTE_BAD_LENGTH", () => writeNote({ ...aside, text: "x".repeat(4097) }));
  throws("NoteFault", "NOTE_BAD_PATH", () => writeNote({ ...aside, path: bytes("/") }));
  throws("NoteFault", "NOTE_BAD_TEXT", () => writeNote({ ...aside, path: bytes("/"), copy: bytes("/") }));
  throws("NoteFault", "NOTE_BAD_KIND", () => readNote(Uint8Array.of(64)));
  throws("NoteFault", "NOTE_BAD_LENGTH", () => readNote(bytes("B")));
  throws("NoteFault", "NOTE_BAD_PATH", () => readNote(Uint8Array.of(2, 0, 0, 0, 0, 0, 1, 0)));
  throws("NoteFault", "NOTE_BAD_TEXT", () => readNote(Uint8Array.of(66, 0, 1, 0xff)));
  throwsPlain(RangeError, () => writeNote({ kind: 256 }));
  throwsPlain(TypeError, () => writeNote({ kind: NoteKind.OPEN, path: "/" }));
}

/** Carries bytes both ways until neither side has any, and returns each change of what is shown. */
function carried(overlay, host, ...tags) {
  const splices = [...overlay.goOn(...tags)];
  while (overlay.pending + host.pending > 0) {
    host.feed(overlay.takeOut());
    overlay.bring(host.takeOut());
    splices.push(...overlay.goOn(...tags));
  }
  return splices;
}

/** A host with one file, and an overlay that has opened and loaded it. */
function overlaid(text) {
  const [host, overlay] = [new Host(), new Overlay()];
  const tag = host.addFile("a", text);
  const events = [
    ["OFFER_VERSION", { version: 2 }],
    ["OPEN_CMD", {}],
    ["OPEN", { tag }],
    ["LOAD", { tag, number: 100 }],
  ];
  for (const [kind, fields] of events) {
    overlay.bringEvent(EventKind[kind], fields);
    carried(overlay, host);
  }
  return [host, overlay, tag];
}

function checkOverlay() {
  const [host, overlay, tag] = overlaid("hello");
  same([overlay.text(tag), overlay.len(tag), overlay.name(tag), overlay.putNext(tag)], ["hello", 5, "a", "nothing"]);
  overlay.bringEvent(EventKind.WRITE, { tag });
  same([...overlay.goOn(tag)], []);
  overlay.replace(tag, 5, 5, " w\u{1D11E}rld");
  overlay.replace(tag, 0, 1, "J");
  same([overlay.file(tag).isLocked, overlay.file(tag).len, overlay.waiting(tag), overlay.putNext(tag)], [true, 5, 7, "not free"]);
  same([overlay.read(tag, 6, 2), overlay.text(tag, 6, 2), overlay.nextWaiting()], [["w", "\u{1D11E}"], "w\u{1D11E}", tag]);
  same([overlay.isWaiting(tag), overlay.isWaiting(0), overlay.nextWaiting(tag + 1)], [true, false, null]);
  same(carried(overlay, host, tag), []);
  same([host.text(tag), overlay.waiting(tag)], ["Jello w\u{1D11E}rld", 0]);
  overlay.bringEvent(EventKind.SET_SNARF, { text: "snarf" });
  overlay.bringEvent(EventKind.GET_SNARF);
  overlay.bringEvent(EventKind.SELECT, { tag, start: 0, number: 2 });
  overlay.bringEvent(EventKind.LOOK, { tag });
  overlay.bringEvent(EventKind.NEW_FILE);
  carried(overlay, host);
  same([overlay.snarfed(1), overlay.pattern, overlay.current, overlay.state().version], ["narf", "Je", 2, 2]);
  same([overlay.finish(), overlay.faultPlace, overlay.nextRefusal()], [undefined, null, null]);
  overlay.bringEvent(EventKind.CLOSE, { tag });
  same(carried(overlay, host)[0], { kind: "emptied", tag, place: 0, count: 0 });
}

function checkOverlayRequests() {
  const [host, overlay, tag] = overlaid("hello");
  same([overlay.actNext(), overlay.requests], ["nothing", 0]);
  overlay.replace(tag, 5, 5, "!");
  same([overlay.ask(EventKind.SELECT, { tag, start: 4, number: 6 }), overlay.ask(EventKind.WRITE, { tag })], [1, 2]);
  same([overlay.ask(EventKind.WRITE, { tag }), overlay.requests], [2, 2]);
  same(overlay.ask(EventKind.DCLICK, { tag, start: 99 }), 3);
  overlay.replace(tag, 0, 1, "J");
  same([overlay.actNext(), overlay.putNext(tag)], ["not yet", "edit"]);
  throws("SamError", "WAITING", () => overlay.ask(EventKind.FLUSH));
  same([overlay.step().request, [...overlay.goOn(tag)], overlay.requests, overlay.actNext()], [0, [], 1, "not yet"]);
  host.feed(overlay.takeOut());
  same([host.saved(tag), overlay.text(tag), overlay.file(tag).dot], ["hello!", "Jello!", { start: 4, end: 6 }]);
  overlay.bring(host.takeOut());
  while (overlay.step().step !== "idle");
  same(overlay.actNext(), "request");
  const did = overlay.step();
  same([did.step, did.request, did.why], ["refused", 3, Status.REFUSAL_BAD_POSITION]);
  carried(overlay, host, tag);
  same([host.text(tag), overlay.requests], ["Jello!", 0]);
  overlay.ask(EventKind.CLOSE, { tag });
  throws("EditRefused", "REFUSAL_NOT_OPEN", () => overlay.replace(tag, 0, 0, "x"));
  throws("Missing", "NONE", () => overlay.ask(25));
  overlay.ask(EventKind.EXIT);
  throws("EditRefused", "REFUSAL_EXITED", () => overlay.replace(tag, 0, 0, "x"));
  overlay.bringEvent(EventKind.SNARF, { tag });
  same([overlay.requests, overlay.actNext()], [2, "not yet"]);
}

function checkCommandFile() {
  const [host, overlay] = overlaid("hello");
  overlay.bringEvent(EventKind.TYPE_CMD, { text: "abc" });
  overlay.step();
  same([overlay.nextSplice(), ...overlay.splices()].at(-1), { kind: "came", tag: 0, place: 0, count: 3 });
  for (const [kind, text] of [["SELECT"], ["CUT_CMD"], ["TYPE_CMD", "x"], ["PASTE_CMD"]]) {
    carried(overlay, host);
    overlay.bringEvent(EventKind[kind], { number: 2, text });
  }
  carried(overlay, host);
  same([overlay.text(0), host.text(0)], ["xabc", "xabc"]);
}

function checkTakenBack() {
  const [, overlay, tag] = overlaid("hello");
  overlay.replace(tag, 5, 5, "wö");
  same([overlay.dropNext(tag), overlay.firstGap(tag)], [null, null]);
  const frame = new DataView(new ArrayBuffer(21)); // the host says that runes come in
  frame.setUint8(0, 70);
  frame.setUint16(1, 18);
  frame.setBigUint64(3, BigInt(overlay.state().sent));
  frame.setUint16(11, tag);
  frame.setUint32(13, 2);
  frame.setUint32(17, 999995);
  overlay.bring(new Uint8Array(frame.buffer));
  overlay.step();
  throws("SamError", "WAITING", () => overlay.dropNext(tag));
  same([...overlay.goOn()], [{ kind: "came", tag, place: 2, count: 999995 }]);
  same([overlay.firstGap(tag), overlay.firstGap(tag, 999997)], [2, null]);
  throws("EditRefused", "REFUSAL_TOO_LONG", () => overlay.putNext(tag));
  same(overlay.dropNext(tag), { tag, place: 1000000, count: 2, text: "wö" });
  same([overlay.len(tag), overlay.waiting(tag)], [1000000, 0]);
}

function checkRefusedOverlay() {
  const [, overlay, tag] = overlaid("hello");
  throws("EditRefused", "REFUSAL_NO_FILE", () => overlay.replace(9, 0, 0, "x"));
  throws("EditRefused", "REFUSAL_COMMAND_FILE", () => overlay.replace(0, 0, 0, "x"));
  throws("EditRefused", "REFUSAL_BAD_POSITION", () => overlay.replace(tag, 3, 6, "x"));
  throws("NotText", "NOT_TEXT", () => overlay.replace(9, 0, 0, "\ud834"));
  throws("NotText", "NOT_TEXT", () => overlay.bringEvent(EventKind.SET_SNARF, { text: "\ud834" }));
  throws("Missing", "NONE", () => overlay.bringEvent(25));
  throws("Missing", "NONE", () => overlay.text(9));
  overlay.bringEvent(EventKind.DCLICK, { tag, start: 9 });
  same([...overlay.goOn()], []);
  same([[...overlay.refusals()].map(({ why }) => why)], [[Status.REFUSAL_BAD_POSITION]]);
  overlay.replace(tag, 0, 0, "x");
  same(overlay.putNext(tag), "edit");
  throws("SamError", "WAITING", () => overlay.bring(new Uint8Array(0)));
  same([...overlay.goOn(tag)], []);
  overlay.bring(Uint8Array.of(255, 0, 0));
  throws("StreamFault", "BAD_KIND", () => overlay.step());
  expect(overlay.faultPlace > 0, "it says where");
  overlay.free();
  throws("HandleFault", "NO_HANDLE", () => overlay.step());
}

function checkMemory() {
  const [host, terminal, tag] = opened(["one", "abc"]);
  memory.limit(memory.taken);
  throws("NoMemory", "NO_MEMORY", () => terminal.edit(tag, 0, 0, "x".repeat(900000)));
  throws("NoMemory", "NO_MEMORY", () => {
    for (let at = 0; at < 1000; at++) new Host().addFile("big", "x".repeat(50000));
  });
  same(host.text(tag), "abc");
  memory.limit(Number.MAX_SAFE_INTEGER);
  terminal.edit(tag, 0, 0, "x".repeat(900000));
  carry(terminal, host);
  same(host.len(tag), 900003);
}

function checkScripts() {
  const shown = (script) => new TextDecoder().decode(replay(script));
  same(shown(""), "");
  const error = throws("ScriptFault", "SCRIPT_LINE", () => replay("\nnonsense\n"));
  same(error.line, 2);
  throws("NotText", "NOT_TEXT", () => replay("\ud834"));
}

function keyTime() {
  const [, terminal, tag] = opened(["one", "abc"]);
  const start = performance.now();
  for (let key = 0; key < KEYS; key++) terminal.type(tag, "x");
  return `a key takes ${((1000 * (performance.now() - start)) / KEYS).toFixed(2)} microseconds`;
}

const CHECKS = [
  ...[checkTexts, checkFiles, checkEditing, checkLongText, checkRefusals, checkSteps, checkStates, checkNumbers, checkEnds],
  ...[checkOverlay, checkOverlayRequests, checkCommandFile, checkTakenBack, checkRefusedOverlay],
  ...[checkLink, checkRefusedLink, checkLine, checkNotes, checkMemory, checkScripts],
  ...CLIENT_CHECKS,
  ...SESSION_CHECKS,
];

/** Runs all checks. Throws where one fails; returns what was measured. */
export async function checkAll() {
  for (const check of CHECKS) {
    try {
      await check();
    } catch (error) {
      throw new Error(`${check.name}: ${error.message}`, { cause: error });
    }
  }
  return keyTime();
}
