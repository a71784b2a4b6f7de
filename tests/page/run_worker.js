/** Runs page/worker.js beside it in Node: of each job of jobs.json it writes the replies in each message, the first bytes
 * of the image, and the rest of the last message. */
import { readFileSync } from "node:fs";

const posted = [], text = (it) => new TextDecoder().decode(it);
globalThis.fetch = async (url) => new Response(readFileSync(new URL(url)));
globalThis.onmessage = null;
globalThis.postMessage = (it) => posted.push(it);
await import("./worker.js");

const said = [];
for (const { script, length, ...job } of JSON.parse(readFileSync("jobs.json"))) {
  const bytes = script === undefined ? undefined : new TextEncoder().encode(script);
  await globalThis.onmessage({ data: { ...job, script: bytes, image: new Uint8Array(length ?? 64) } });
  const all = posted.splice(0), { rdram, ...ended } = all.at(-1).ended;
  const replies = all.slice(0, -1).map((it) => it.replies.map(text).join(""));
  said.push({ replies, image: rdram && [...rdram.subarray(0, 4)], ...ended });
}
console.log(JSON.stringify(said));
