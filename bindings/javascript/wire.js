/* The connections of a session: WebSockets, one after another, over which the bytes of its client go. */
import { Tick } from "./line.js";
import { LinkFault, NoMemory } from "./status.js";

const OPEN = 1; // states of a WebSocket
const CLOSED = 3;
const MOST_BUFFERED = 1 << 18; // bytes that wait in a socket, above which it is given no more
const TIME_TO_GO = 5000; // milliseconds that the last bytes may take, until the host closes the connection

/** Returns the time, in whole milliseconds of a clock that doesn't jump. */
export function now() {
  return Math.floor(performance.now());
}

export class Wire {
  #client;
  #connect; // makes a WebSocket
  #heard; // of which `moved` is called where something has come, or a connection stands otherwise; `failed` with what ended one
  #socket = null; // the newest one
  #attempt = 0; // its number, once it is open

  up = 0; // bytes that have gone each way
  down = 0;

  constructor(client, connect, heard) {
    this.#client = client;
    this.#connect = connect;
    this.#heard = heard;
  }

  /** Opens a connection, or gives one up, if that is due. */
  meetTime() {
    for (let tick = this.#client.tick(now()); tick !== Tick.NOTHING; tick = this.#client.tick(now())) {
      if (tick === Tick.CONNECT) this.#open();
      else if (tick === Tick.DROP) this.drop();
    }
  }

  #open() {
    this.#close();
    const socket = this.#connect();
    this.#socket = socket;
    socket.binaryType = "arraybuffer";
    socket.onmessage = ({ data }) => this.#take(data);
    socket.onclose = () => {
      this.drop();
      this.#heard.moved();
    };
    socket.onopen = () => this.#begin();
    if (socket.readyState === OPEN) this.#begin();
    else if (socket.readyState === CLOSED) this.drop();
  }

  #begin() {
    this.#attempt = this.#client.connected(now());
    this.#heard.moved();
  }

  /** Takes what came. What there is no memory for comes again, over another connection. */
  #take(data) {
    if (typeof data === "string") return; // of a server between here and the host
    this.down += data.byteLength;
    try {
      this.#client.receive(this.#attempt, new Uint8Array(data), now());
    } catch (error) {
      if (!(error instanceof LinkFault || error instanceof NoMemory)) throw error;
      this.drop();
      this.#heard.failed(error);
    }
    this.#heard.moved();
  }

  /** Sends what goes out now; the rest waits in the client. */
  send() {
    while (this.#attempt > 0 && this.#socket?.readyState === OPEN && !this.isFull) {
      const bytes = this.#nextBytes();
      if (bytes.length === 0) return;
      this.#socket.send(bytes);
      this.up += bytes.length;
    }
  }

  #nextBytes() {
    try {
      return this.#client.takeOut(this.#attempt);
    } catch (error) {
      if (!(error instanceof LinkFault)) throw error;
      this.drop(); // it is over for the client, too
      return new Uint8Array(0);
    }
  }

  /** Ends the newest connection, or the attempt to make one. */
  drop() {
    const attempt = this.#attempt;
    if (this.#socket === null) return;
    this.#close();
    if (attempt > 0) this.#client.broken(attempt, now());
    else this.#client.notConnected(now());
  }

  /** Leaves the newest connection to the bytes that it was given: the host closes it once they have come. To close it here at once would
   * cut them off where a program between here and the host holds them. */
  release() {
    const socket = this.#forget();
    if (socket !== null) setTimeout(() => socket.close(), TIME_TO_GO).unref?.(); // Node doesn't wait for that alone
  }

  #close() {
    this.#forget()?.close();
  }

  #forget() {
    const socket = this.#socket;
    this.#socket = null;
    this.#attempt = 0;
    if (socket !== null) socket.onopen = socket.onmessage = socket.onclose = null;
    return socket;
  }

  /** The machine is in another network: a connection that stands is doubted, and one that is being made is made anew. */
  addressChanged() {
    if (this.#attempt === 0) this.drop();
    this.#client.addressChanged(now());
  }

  /** Whether so much waits in the socket that it is given no more. */
  get isFull() {
    return this.waiting >= MOST_BUFFERED;
  }

  /** Bytes that the socket has not sent. */
  get waiting() {
    return this.#socket?.bufferedAmount ?? 0;
  }

  get isConnecting() {
    return this.#socket !== null;
  }
}
