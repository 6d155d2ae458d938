/* Scripts, which are run over a host and a terminal of their own. */
import { PIECE, bytesOf, call, lend, part, result, u64 } from "./module.js";
import { ScriptFault, Status, errorOf } from "./status.js";

function failed(code) {
  const error = errorOf(code);
  if (error instanceof ScriptFault && code === Status.SCRIPT_LINE) error.line = u64(1);
  return error;
}

/** Runs a script over a host and a terminal of its own, and returns the output of its `show` lines, as bytes. Throws ScriptFault, NotText
 * or NoMemory. */
export function replay(script) {
  const bytes = bytesOf(script);
  if (bytes === null) throw errorOf(Status.NOT_TEXT);
  return lend([bytes], (places) => {
    for (let room = PIECE; places !== null; room = u64(0)) {
      const out = call("malloc", BigInt(room));
      if (out === 0n) break;
      try {
        const code = call("sam_replay", places[0], BigInt(bytes.length), out, BigInt(room), result(0), result(1));
        if (code !== Status.OK) throw failed(code);
        if (u64(0) <= room) return part(out, u64(0)).slice();
      } finally {
        call("free", out);
      }
    }
    throw errorOf(Status.NO_MEMORY);
  });
}
