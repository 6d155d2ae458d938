/* calls.mjs CALLS NATIVE SCRIPTS COUNT SEED: makes COUNT calls at random of the module for web pages, and by NATIVE the same of the native
 * library, and compares each status, all that is handed out, and each buffer whole. Then it refuses each request for memory of short
 * sessions in turn, in both. CALLS is what signatures.py knows, SCRIPTS a folder of scripts to replay. It prints what was compared. */
import { spawnSync } from "node:child_process";
import { readFileSync } from "node:fs";
import { library } from "../../../bindings/javascript/module.js";

const [callsFile, native, scriptsFile, countWord, seedWord] = process.argv.slice(2);
const CALLS = JSON.parse(readFileSync(callsFile, "utf8"));
const SCRIPTS = JSON.parse(readFileSync(scriptsFile, "utf8")).map((text) => new TextEncoder().encode(text));
const CODE = Object.fromEntries(CALLS.map(([name], code) => [name, code]));
const RESET = 65535; // orders that are no call of a number
const REFUSE = 65534;
const CARRY = 65533;
const ASKED = 65532;
const FILLER = 0xa5;
const TRIES = 3;
const NO_MEMORY = 1;
const BATCH = 1 << 23;
const PER_SESSION = 500;
const REFUSED_EVENTS = 25;
const NONE = 2 ** 32 - 1;
const SPACE_SIZE = 1 << 21;

// ---- Chance

let state = 0;

function seed(number) {
  state = (number * 2654435761 + 12345) >>> 0 || 1;
}

function chance(below) {
  state ^= state << 13;
  state ^= state >>> 17;
  state ^= state << 5;
  return (state >>> 0) % below;
}

function any(list) {
  return list[chance(list.length)];
}

// ---- What is written: the orders for the native program, and the answers of the module

class Bytes {
  constructor() {
    this.all = new Uint8Array(1 << 16);
    this.view = new DataView(this.all.buffer);
    this.length = 0;
  }

  make(more) {
    if (this.length + more <= this.all.length) return;
    const grown = new Uint8Array(2 * (this.length + more));
    grown.set(this.all);
    this.all = grown;
    this.view = new DataView(grown.buffer);
  }

  byte(value) {
    this.make(1);
    this.all[this.length++] = value;
  }

  number(value) {
    this.make(4);
    this.view.setUint32(this.length, value, true);
    this.length += 4;
  }

  longNumber(value) {
    this.make(8);
    this.view.setBigUint64(this.length, value, true);
    this.length += 8;
  }

  bytes(values) {
    this.make(values.length);
    this.all.set(values, this.length);
    this.length += values.length;
  }

  done() {
    return this.all.subarray(0, this.length);
  }
}

let orders = new Bytes();
let answers = new Bytes();
let begun = []; // of each order where its answer begins, and what it is

function note(told) {
  begun.push([answers.length, told]);
}

// ---- The module's side

const SPACE = library.malloc(BigInt(SPACE_SIZE));
const HANDLES_SIZE = 256;
const HANDLES = library.malloc(BigInt(HANDLES_SIZE));
// Where the two handles of a kind stand.
const HANDLE_OF = { host: 0, term: 32, link: 64, line: 96, overlay: 128, client: 160, server: 192, recovery: 224 };
// That are compared: of a struct all but what fills it up.
const OUT_BYTES = {
  ...{ did: 52, state: 68, file: 25, note: 64, record: 32, frame: 28, details: 66 },
  ...{ splice: 14, effect: 14, changes: 48, bytes16: 16, bytes24: 24, bytes42: 42 },
};
let baseline = 0n; // how many requests were made when the session began
part(HANDLES, HANDLES_SIZE).fill(0);

function part(place, length) {
  return new Uint8Array(library.memory.buffer, Number(place), length);
}

/** Gives out parts of the space of a call. */
let free = SPACE;
function room(length) {
  const at = free;
  free += BigInt((length + 31) & ~15);
  if (free > SPACE + BigInt(SPACE_SIZE)) throw new Error("a call wants more space than the test has");
  part(at, length).fill(FILLER);
  return at;
}

function handle(kind, which) {
  return which === 2 ? 0n : HANDLES + BigInt(HANDLE_OF[kind] + 16 * which);
}

/** Makes a call with these words, one for each kind, in both. Returns what the module handed out. */
function make(name, ...words) {
  const kinds = CALLS[CODE[name]][1];
  const given = [];
  const handedOut = [];
  let next = 0;
  note(`${name}(${words.map((word) => (word instanceof Uint8Array ? Buffer.from(word).toString() : word))})`);
  orders.number(CODE[name]);
  free = SPACE;
  for (const kind of kinds) {
    if (kind.startsWith("out ")) {
      const length = OUT_BYTES[kind.slice(4)] ?? 8;
      const at = room(length + 1);
      given.push(at);
      handedOut.push([at, length]);
      continue;
    }
    const word = words[next++];
    if (kind in HANDLE_OF) {
      orders.byte(word);
      given.push(handle(kind, word));
    } else if (kind.startsWith("lent")) {
      orders.number(word.length);
      orders.bytes(word);
      const at = room(word.length);
      part(at, word.length).set(word);
      given.push(at, ...(kind === "lent" ? [BigInt(word.length)] : []));
    } else if (kind.startsWith("room")) {
      orders.number(word);
      const length = word * Number(kind.slice(4));
      const at = room(length);
      given.push(at, BigInt(word));
      handedOut.push([at, length]);
    } else if (kind === "size" || kind === "u64") {
      orders.longNumber(BigInt(word));
      given.push(BigInt(word));
    } else {
      orders.number(word);
      given.push(word);
    }
  }
  answers.number(library[name](...given));
  for (const [at, length] of handedOut) answers.bytes(part(at, length));
  return handedOut.map(([at, length]) => part(at, length).slice());
}

/** Carries pending bytes to the other side, in both; one of them is changed if there are so many. */
function carry(isUp, length, spoiled = NONE, value = 0) {
  note(`carry ${isUp ? "up" : "down"} ${length} ${spoiled} ${value}`);
  orders.number(CARRY);
  orders.byte(isUp ? 1 : 0);
  orders.number(spoiled);
  orders.byte(value);
  orders.number(length);
  free = SPACE;
  const at = room(length);
  const counted = room(8);
  part(counted, 8).fill(0);
  const [host, term] = [handle("host", 0), handle("term", 0)];
  const takeOut = isUp ? library.sam_term_take_out : library.sam_host_take_out;
  answers.number(takeOut(isUp ? term : host, at, BigInt(length), counted));
  const count = new DataView(library.memory.buffer).getBigUint64(Number(counted), true);
  answers.number(Number(count));
  answers.bytes(part(at, length));
  if (spoiled < count) part(at, length)[spoiled] = value;
  const feed = isUp ? library.sam_host_feed : library.sam_term_feed;
  for (let tries = 0, status = NO_MEMORY; tries < TRIES && status === NO_MEMORY; tries++) {
    status = feed(isUp ? host : term, at, count);
    answers.number(status);
  }
}

function reset() {
  note("reset");
  orders.number(RESET);
  for (const which of [0, 1]) {
    library.sam_host_free(handle("host", which));
    library.sam_term_free(handle("term", which));
    library.sam_link_free(handle("link", which));
    library.sam_line_free(handle("line", which));
  }
  library.heap_refuse(0n, 0n);
  baseline = library.heap_asked();
}

function refuse(first, count) {
  orders.number(REFUSE);
  orders.number(first);
  orders.number(count);
  library.heap_refuse(BigInt(first), BigInt(count));
}

function asked() {
  note("asked");
  orders.number(ASKED);
  const number = Number(library.heap_asked() - baseline);
  answers.number(number);
  return number;
}

/** Has the native program obey, and compares. */
function compare() {
  const ended = spawnSync(native, { input: orders.done(), maxBuffer: 1 << 30 });
  if (ended.status !== 0) throw new Error(`the native program ends with ${ended.status ?? ended.signal ?? ended.error}`);
  const wanted = ended.stdout;
  const got = Buffer.from(answers.done());
  if (!got.equals(wanted)) {
    let at = 0;
    while (at < got.length && got[at] === wanted[at]) at++;
    const told = begun.filter(([start]) => start <= at).slice(-5);
    const [start] = told.at(-1);
    const bytes = (from) => from.subarray(start, start + 64).toString("hex");
    const shown = told.map(([, call]) => call.slice(0, 300)).join("\n");
    const both = `module ${bytes(got)}\nnative ${bytes(wanted)}`;
    throw new Error(`the answers differ in byte ${at - start} of the last of these:\n${shown}\n${both}`);
  }
  const compared = got.length;
  [orders, answers, begun] = [new Bytes(), new Bytes(), []];
  return compared;
}

// ---- Calls at random

const ENCODER = new TextEncoder();
const PIECES = ["a", "b", "word ", "\n", "line\n", "é", "€", "𝄞", "\u0000", "\ufeff", "x".repeat(100), "ab\n".repeat(60)];
const LINES = [
  ",x/a/c/b/", ",p", "=", "n", "s/a/b/", ",d", "0i/new\\n/", "/b/", "u", ",s/b/é/g", ",g/line/d", "b two", "x/.*\\n/-;p", "q1", ",m0",
  "$a/end\\n/",
];

function text() {
  let made = "";
  for (let pieces = chance(4); pieces >= 0; pieces--) made += any(PIECES);
  const bytes = ENCODER.encode(made);
  if (chance(40) === 0) bytes[chance(bytes.length)] = 0x80 + chance(128);
  return bytes;
}

function which() {
  const drawn = chance(200);
  return drawn < 2 ? 1 : drawn === 2 ? 2 : 0;
}

/** A word of a kind: most are such that the call does something. */
function word(kind) {
  if (kind === "host" || kind === "term") return which();
  if (kind === "link" || kind === "line") return chance(200) === 0 ? 2 : chance(2);
  if (kind === "truth") return chance(2);
  if (kind === "u64") return chance(4) ? attempt : chance(100) === 0 ? Number.MAX_SAFE_INTEGER : chance(8);
  if (kind === "lent16") return any(IDS);
  if (kind === "u16") return chance(60) === 0 ? chance(65536) : chance(4);
  if (kind === "u32") return chance(60) === 0 ? chance(2 ** 31) * 2 : chance(chance(3) === 0 ? 4000 : 60);
  if (kind === "size") return chance(3000);
  if (kind.startsWith("room")) return chance(10) === 0 ? chance(3000) : chance(80);
  return text();
}

const RARE = new Set([
  ...["host", "term", "link", "line"].flatMap((kind) => [`sam_${kind}_free`, `sam_${kind}_new`]),
  ...["sam_term_exit", "sam_term_close", "sam_replay"],
]);
const BAD_STREAMS = new Set(["sam_host_feed", "sam_term_feed"]);
const ELSEWHERE = /^sam_(overlay|client|link|line|note|server|recovery)_/;
const COMMON = CALLS.map(([name]) => name).filter((name) => !RARE.has(name) && !BAD_STREAMS.has(name) && !ELSEWHERE.test(name));
const LINK_CALLS = CALLS.map(([name]) => name).filter((name) => !RARE.has(name) && name.startsWith("sam_link_"));
const LINE_CALLS = CALLS.map(([name]) => name).filter((name) => !RARE.has(name) && name.startsWith("sam_line_"));

function common() {
  const name = any(COMMON);
  make(name, ...CALLS[CODE[name]][1].filter((kind) => !kind.startsWith("out ")).map(word));
}

function rare() {
  const name = any([...RARE]);
  if (name === "sam_replay") return make(name, any(SCRIPTS), chance(2) ? 20000 : chance(300));
  make(name, ...CALLS[CODE[name]][1].filter((kind) => !kind.startsWith("out ")).map(word));
}

function commandLine() {
  make("sam_term_type", 0, 0, ENCODER.encode(`${any(LINES)}\n`));
}

// ---- Links: end 0 is of the terminal's side, end 1 of the host's

const IDS = [1, 2].map((value) => new Uint8Array(16).fill(value));
const HELLO_BYTES = 42;
const MOST_OF_LINK = 3000; // bytes that are moved at a time
let attempt = 0; // the number of the newest connection

/** The bytes that a call handed out into a room, of which the second result has the count. */
function moved([bytes, count]) {
  return bytes.subarray(0, Math.min(bytes.length, Number(new DataView(count.buffer).getBigUint64(0, true))));
}

/** Some bytes, one of which is changed now and then. */
function spoiled(bytes) {
  if (bytes.length > 0 && chance(12) === 0) bytes[chance(bytes.length)] = chance(256);
  return bytes;
}

function takeOut(end, room) {
  return spoiled(moved(make("sam_link_take_out", end, attempt, room)));
}

function makeLinks() {
  make("sam_link_new", 0, 0, IDS[0]);
  make("sam_link_new", 1, 1, IDS[0]);
  attempt = 0;
}

/** The terminal's side opens a connection, and both say hello. A hello may be wrong, or be cut. */
function connect() {
  const [number] = make("sam_link_call", 0, chance(8) === 0 ? 1 : 0);
  attempt = Math.min(Number(new DataView(number.buffer).getBigUint64(0, true)), 2 ** 32 - 1);
  const hello = takeOut(0, chance(20) === 0 ? chance(HELLO_BYTES) : HELLO_BYTES);
  make("sam_link_read_hello", hello);
  make("sam_link_answer", 1, hello);
  if (chance(10) === 0) make("sam_link_write_refusal", 190 + chance(14), hello);
  make("sam_link_welcomed", 0, takeOut(1, HELLO_BYTES));
}

/** What one end has for the connection goes to the other, and what has come is taken in. */
function carryLink() {
  const from = chance(2);
  const piece = takeOut(from, 1 + chance(MOST_OF_LINK));
  const drawn = chance(3);
  if (drawn === 0) make("sam_link_feed", 1 - from, attempt, piece);
  else if (drawn === 1) make("sam_link_feed_into", 1 - from, attempt, piece, chance(MOST_OF_LINK));
  else make("sam_link_feed_places", 1 - from, attempt, piece, chance(8));
  for (let pieces = chance(4); pieces > 0; pieces--) make("sam_link_take_in", 1 - from, chance(MOST_OF_LINK));
  if (chance(2)) make("sam_link_next_note", 1 - from, chance(30) ? 4096 : 4095);
}

/** One or more calls of the two ends. */
function link() {
  const drawn = chance(20);
  if (drawn < 2) connect();
  else if (drawn < 10) carryLink();
  else if (drawn < 13) make(chance(3) ? "sam_link_put" : "sam_link_put_note", chance(2), ENCODER.encode(any(PIECES).repeat(chance(80))));
  else if (drawn < 14) make("sam_link_put", chance(2), new Uint8Array(chance(3 * 4096)).fill(chance(256)));
  else {
    const name = any(LINK_CALLS);
    make(name, ...CALLS[CODE[name]][1].filter((kind) => !kind.startsWith("out ")).map(word));
  }
}

// ---- Lines: what the host has for line 0 comes from end 1 of the links

let now = 0; // the time, in milliseconds

function makeLines() {
  now = 0;
  for (const which of [0, 1]) make("sam_line_new", which, IDS[0], which, now);
}

/** The line opens a connection, which may bring words first, and the host answers. */
function connectLine() {
  make("sam_line_tick", 0, now);
  const [number] = make("sam_line_connected", 0, now);
  attempt = Math.min(Number(new DataView(number.buffer).getBigUint64(0, true)), 2 ** 32 - 1);
  if (chance(2)) make("sam_line_receive", 0, attempt, spoiled(ENCODER.encode("a login\n")), now);
  make("sam_link_answer", 1, spoiled(moved(make("sam_line_take_out", 0, attempt, HELLO_BYTES))));
  make("sam_line_receive", 0, attempt, takeOut(1, 1 + chance(MOST_OF_LINK)), now);
}

/** What one side has for the connection goes to the other, and what has come is taken in. */
function carryLine() {
  if (chance(2)) make("sam_link_feed", 1, attempt, spoiled(moved(make("sam_line_take_out", 0, attempt, 1 + chance(MOST_OF_LINK)))));
  else make("sam_line_receive", 0, attempt, takeOut(1, 1 + chance(MOST_OF_LINK)), now);
  for (let pieces = chance(4); pieces > 0; pieces--) make("sam_line_take_in", 0, chance(MOST_OF_LINK));
  if (chance(2)) make("sam_line_next_note", 0, chance(30) ? 4096 : 4095);
}

/** One or more calls of the lines. */
function line() {
  const drawn = chance(20);
  now += chance(3) ? chance(2000) : chance(20000);
  if (drawn < 2) connectLine();
  else if (drawn < 10) carryLine();
  else if (drawn < 13) {
    make(chance(3) ? "sam_line_put" : "sam_line_put_note", chance(2), ENCODER.encode(any(PIECES).repeat(chance(80))), now);
  } else {
    const name = any(LINE_CALLS);
    const kinds = CALLS[CODE[name]][1].filter((kind) => !kind.startsWith("out "));
    make(name, ...kinds.map((kind) => (kind === "u64" && chance(2) ? now : word(kind))));
  }
}

// ---- Messages of a session

const KINDS = [1, 2, 3, 4, 5, ...Array.from({ length: 17 }, (_, at) => 65 + at)];
const HAS = [
  ...["rp", "rp", "rt", "tn", "rt", "npx", "x", "tn", "x", "cn", "rt", "rcx", "rcp", "rn", "rtcpyx", "rtcpyx", "tcpx", "tnp"],
  ...["tcnpyx", "tcpyx", "tcpx", "cx"],
];

/** A message, most often with the fields of its kind alone, is written; and what was written, perhaps with another byte, is read. */
function message() {
  const at = chance(KINDS.length);
  const has = (field) => (HAS[at].includes(field) ? chance(20) > 0 : chance(200) === 0);
  const record = new DataView(new ArrayBuffer(64));
  record.setUint8(0, chance(40) === 0 ? chance(256) : KINDS[at]);
  record.setUint8(1, has("c") ? chance(256) : 0);
  record.setUint16(2, has("t") ? chance(65536) : 0, true);
  record.setUint32(4, has("r") ? chance(2 ** 31) * 2 : 0, true);
  record.setBigUint64(8, has("n") ? BigInt(chance(2 ** 31)) * 8589934592n + BigInt(chance(2 ** 31)) : 0n, true);
  const pieces = [..."pyx"].map((field) => (has(field) ? text().slice(0, chance(100) === 0 ? 9000 : 60) : new Uint8Array(0)));
  pieces.forEach((piece, place) => record.setBigUint64(24 + 16 * place, BigInt(piece.length), true));
  const room = chance(10) === 0 ? chance(80) : chance(5000);
  make("sam_note_read", spoiled(moved(make("sam_note_write", new Uint8Array(record.buffer), ...pieces, room))));
}

function longEdit() {
  make("sam_term_edit", 0, 1 + chance(2), chance(50), 50 + chance(50), ENCODER.encode(any(PIECES).repeat(1 + chance(300))));
}

function one() {
  const drawn = chance(1000);
  if (drawn < 1) rare();
  else if (drawn < 2) carry(chance(2) === 1, 600, chance(40), chance(256));
  else if (drawn < 5) make(any([...BAD_STREAMS]), 0, chance(20) ? new Uint8Array(0) : text());
  else if (drawn < 15) longEdit();
  else if (drawn < 60) commandLine();
  else if (drawn < 350) carry(drawn % 2 === 1, 1 + chance(600));
  else if (drawn < 450) make("sam_term_type", 0, 1 + chance(2), text());
  else if (drawn < 550) link();
  else if (drawn < 650) line();
  else if (drawn < 680) message();
  else common();
}

/** A session with files that are open. It returns how many calls it made. */
function begin() {
  reset();
  make("sam_host_new", 0);
  make("sam_term_new", 0);
  makeLinks();
  makeLines();
  make("sam_host_add_file", 0, ENCODER.encode("one"), ENCODER.encode("some line of text\n".repeat(chance(200))));
  make("sam_host_add_file", 0, ENCODER.encode("two"), text());
  make("sam_term_offer_version", 0, 1 + chance(2));
  for (const isUp of [true, false, true, false]) carry(isUp, 600);
  for (const tag of [1, 2]) make("sam_term_open", 0, tag);
  make("sam_term_open_cmd", 0);
  for (const isUp of [true, false, true, false]) carry(isUp, 600);
  return 21;
}

/** Calls at random, in sessions. Returns how many were made, and how many bytes were compared. */
function randomCalls(count, first) {
  let made = 0;
  let compared = 0;
  for (let session = first; made < count; session++) {
    seed(session);
    made += begin();
    for (let calls = 0; calls < PER_SESSION; calls++) one();
    made += PER_SESSION;
    asked();
    if (orders.length > BATCH || answers.length > BATCH) compared += compare();
  }
  return [made, compared + compare()];
}

/** A session in which a request for memory is refused, and no other. Returns how many requests there were. */
function refusing(session, request) {
  seed(session);
  reset();
  if (request > 0) refuse(request, 1);
  refusedSession();
  return asked();
}

function refusedSession() {
  for (const name of ["sam_host_new", "sam_term_new"]) for (const _ of [1, 2]) make(name, 0);
  makeLinks();
  makeLines();
  make("sam_host_add_file", 0, ENCODER.encode("one"), ENCODER.encode("some line of text\n".repeat(20)));
  make("sam_term_offer_version", 0, 2);
  for (const isUp of [true, false, true, false]) carry(isUp, 600);
  for (let events = 0; events < REFUSED_EVENTS; events++) {
    one();
    link();
    line();
    if (chance(2)) carry(chance(2) === 1, 600);
  }
}

/** Each request for memory of a session is refused in turn. Returns how many there are, and how many bytes were compared. */
function refusedInTurn(session) {
  const requests = refusing(session, 0);
  let compared = 0;
  for (let request = 1; request <= requests; request++) {
    refusing(session, request);
    if (answers.length > BATCH) compared += compare();
  }
  return [requests, compared + compare()];
}

const [made, compared] = randomCalls(Number(countWord), Number(seedWord));
console.log(`${made} calls compared, ${compared} bytes of answers`);
const refused = [0, 0];
for (let session = 1; session <= Math.max(2, Number(countWord) / 50000); session++) {
  const [requests, bytes] = refusedInTurn(Number(seedWord) + session);
  refused[0] += requests;
  refused[1] += bytes;
}
console.log(`${refused[0]} requests for memory refused in turn, ${refused[1]} bytes of answers`);
console.log(`${library.heap_taken()} bytes taken`);
