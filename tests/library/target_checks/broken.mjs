/* Where the engine breaks a call off, no other call is made after it: each throws, and says why. */
import { call } from "../../../bindings/javascript/module.js";
import { Host, Terminal } from "../../../bindings/javascript/sulgrevad.js";

const OUTSIDE = 2n ** 60n; // a place that no memory has
const host = new Host();

function errorOf(made) {
  try {
    made();
  } catch (error) {
    return error;
  }
  throw new Error(`${made} throws nothing`);
}

const why = errorOf(() => call("sam_host_new", OUTSIDE));
if (!(why instanceof WebAssembly.RuntimeError)) throw why;
for (const made of [() => host.text(0), () => new Terminal(), () => host.pending, () => host.free()]) {
  const error = errorOf(made);
  if (error.cause !== why || !error.message.includes("broken off")) throw error;
}
