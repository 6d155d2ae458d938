/* Connections to samweb. The first one is opened as soon as this is read, before the rest of the page is there: so the host begins
 * meanwhile. */

const ID_BYTES = 16; // of a session
const NAME_BYTES = 8; // of the id, whose digits name the session

const NONCE_BYTES = 32;
const TOKEN = location.hash.slice(1); // which never leaves the page: who listens at this address may be another program than samweb
const ENCODER = new TextEncoder();

addEventListener("hashchange", () => location.reload()); // another address was opened here

// Why the page doesn't come, as in a browser whose WebAssembly is too old, stands where its status would.
addEventListener("error", ({ error, message }) => {
  if (!globalThis.sulgrevad) document.getElementById("status").textContent = `this page can't be shown: ${error?.message ?? message}`;
});

if (!isSecureContext) throw new Error("its address has to begin with https://, or name this machine as localhost or 127.0.0.1");

function digits(bytes) {
  return [...new Uint8Array(bytes)].map((byte) => byte.toString(16).padStart(2, "0")).join("");
}

const KEY = await crypto.subtle.importKey("raw", ENCODER.encode(TOKEN || " "), { name: "HMAC", hash: "SHA-256" }, false, ["sign"]);

/** What nobody can say of these words who doesn't have the token. */
async function proof(...words) {
  return digits(await crypto.subtle.sign("HMAC", KEY, ENCODER.encode(words.join(" "))));
}

/** Where this browser keeps what the session of this address may be named: a word that doesn't tell the token. */
const NAMES_KEY = `session ${(await proof("place")).slice(0, 32)}`;

/** The names that the session of this address may have, the likeliest first: that of this tab, which another tab may have begun beside. */
function sessionNames() {
  const names = [sessionStorage, localStorage].flatMap((storage) => (storage.getItem(NAMES_KEY) ?? "").split(" "));
  return [...new Set(names)].filter((name) => name !== "");
}

/** Keeps them for this tab, and for the next one that opens this address, as far as the browser has room. */
export function keepNames(...names) {
  for (const storage of [sessionStorage, localStorage]) {
    try {
      storage.setItem(NAMES_KEY, names.join(" "));
    } catch {
      // the other one may have room
    }
  }
}

export function newId() {
  return crypto.getRandomValues(new Uint8Array(ID_BYTES));
}

export function nameOf(id) {
  return digits(id.subarray(0, NAME_BYTES));
}

/** Tells somebody what happens, by the name of one of his calls, and what has happened before he heard. */
export class Teller {
  #early = [];
  #heard = null;

  tell(event, what) {
    if (this.#heard === null) this.#early.push([event, what]);
    else this.#heard[event](what);
  }

  hear(heard) {
    this.#heard = heard;
    for (const [event, what] of this.#early.splice(0)) heard[event](what);
  }
}

/** The code with which samweb closes a socket whose page doesn't have its token. */
export const UNKNOWN = 1008;

/** One connection, as a WebSocket looks to a session. It is open once samweb and the page have proved to each other that they have the
 * token. It tells each line of samweb for people (`told`), and the code with which it was closed (`ended`). */
export class Connection extends Teller {
  #socket;
  #isKnown = false;
  #theirs = ""; // samweb's nonce
  #behind = null; // what came behind its proof, while that is looked at
  #nonce = digits(crypto.getRandomValues(new Uint8Array(NONCE_BYTES)));

  onopen = null;
  onmessage = null;
  onclose = null;

  /** For a session of this name: `verb` says whether it begins (serve), goes on (attach), or is taken over (take). */
  constructor(verb, name) {
    super();
    const address = new URL("line", location.href);
    address.protocol = address.protocol.replace("http", "ws");
    address.hash = "";
    this.#socket = new WebSocket(address);
    this.#socket.binaryType = "arraybuffer";
    this.#socket.onmessage = ({ data }) => {
      if (this.#isKnown) this.#take(data);
      else if (this.#theirs === "") this.#prove(String(data), verb, name);
      else if (this.#behind === null) this.#meetProof(data);
      else this.#behind.push(data);
    };
    this.#socket.onclose = ({ code }) => {
      this.tell("ended", code);
      this.onclose?.();
    };
  }

  /** The first message is a nonce of samweb: the page's proof goes back, with what it asks for. */
  async #prove(theirs, verb, name) {
    this.#theirs = theirs;
    const own = await proof("page", theirs, this.#nonce, verb, name);
    if (this.#socket.readyState === WebSocket.OPEN) this.#socket.send(`${this.#nonce} ${own} ${verb} ${name}`);
  }

  /** The second one is samweb's proof: nothing of a text goes out before it. */
  async #meetProof(theirs) {
    this.#behind = [];
    if (theirs !== (await proof("server", this.#nonce, this.#theirs))) {
      this.tell("told", "another program than samweb answers at this address; it gets no text");
      this.#socket.close();
      return;
    }
    this.#isKnown = true;
    this.onopen?.();
    for (const data of this.#behind) this.#take(data);
  }

  #take(data) {
    if (typeof data === "string") this.tell("told", data);
    else this.onmessage?.({ data });
  }

  get readyState() {
    const { readyState } = this.#socket;
    return readyState === WebSocket.OPEN && !this.#isKnown ? WebSocket.CONNECTING : readyState;
  }

  get bufferedAmount() {
    return this.#socket.bufferedAmount;
  }

  send(bytes) {
    this.#socket.send(bytes);
  }

  /** Ends it; nothing more of it is heard. */
  close() {
    this.hear({ told() {}, ended() {} });
    this.#socket.close();
  }
}

// A page that the browser only prepares, for who has typed the beginning of its address, leaves the session to the one that has it.
if (document.prerendering) await new Promise((shown) => document.addEventListener("prerenderingchange", shown, { once: true }));

const names = sessionNames();
const id = newId();

/** The first connection: the id of its session, the names that were known, and the connection. */
export const first = { id, names, connection: names.length > 0 ? new Connection("take", names[0]) : new Connection("serve", nameOf(id)) };
keepNames(nameOf(id), ...names); // the session may be named anew before the page hears of it
