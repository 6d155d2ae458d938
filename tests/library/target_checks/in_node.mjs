/* The checks of binding.mjs in Node; and that a host which nobody holds any more is freed. */
import { setTimeout } from "node:timers/promises";
import { setFlagsFromString } from "node:v8";
import { runInNewContext } from "node:vm";
import { Host, memory } from "../../../bindings/javascript/sulgrevad.js";
import { checkAll } from "./binding.mjs";

const SECONDS = 300;

async function checkCollected() {
  setFlagsFromString("--expose-gc");
  const collect = runInNewContext("gc");
  collect();
  const used = memory.used;
  for (let made = 0; made < 10; made++) new Host().addFile("name", "text".repeat(1000));
  const most = memory.used;
  if (most <= used) throw new Error("ten hosts take no memory");
  for (let waited = 0; memory.used > used; waited++) {
    if (waited > 100 * SECONDS) throw new Error(`${memory.used} bytes are in use, ${most} before, ${used} without ten hosts`);
    collect();
    await setTimeout(10);
  }
}

const told = await checkAll();
await checkCollected();
console.log(told);
