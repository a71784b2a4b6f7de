/** Answers scripts by the library: in a worker, so no run freezes the page. It gets a script and an image, and gives
 * replies as they come. Its last message has the image that the script leaves, or says why there is none. It also gets
 * replies that are faults, with the lines that they answer, and says what is wrong there. */
import "./load_error.js";

/** How long replies are gathered, in milliseconds. */
const GATHERED = 50;
/** What `rsp run` says where it refuses a script. */
const REFUSED = { TOO_LONG: "rsp: fault 42 ScriptTooLong", NO_MEMORY: "rsp: fault 43 OutOfMemory" };

const LIBRARY = new URL("rsp/rsp.js", import.meta.url);
/** Each run says why the library isn't there, if it isn't. A browser that doesn't take a module says nothing of it. */
const library = import("./rsp/rsp.js").catch(async (fault) => {
  throw fault instanceof TypeError ? new Error(await why_not(LIBRARY)) : fault;
});
library.catch(() => {});

/** Answers a script, with `is_strict` up to the first fault, by the library. The image as it leaves it. */
async function answered({ script, image, is_strict }) {
  const { ScriptError, Session, Status } = await library, session = new Session(image);
  const { strict_replies } = await import("./rsp/strict.js");
  let replies = [], since = performance.now();
  try {
    for (const reply of is_strict ? strict_replies(session, script) : session.iter_feed(script)) {
      replies.push(reply);
      if (performance.now() - since < GATHERED) continue;
      postMessage({ replies });
      [replies, since] = [[], performance.now()];
    }
    if (!is_strict) replies.push(session.end());
    return session.rdram;
  } catch (fault) {
    if (fault instanceof ScriptError) return session.rdram;
    throw new Error(REFUSED[Status[fault.status]] ?? fault.message);
  } finally {
    postMessage({ replies });
    session.free();
  }
}

/** What is wrong with lines of a script that have a reply. */
async function said_of({ asked }) {
  const { explain_reply } = await library;
  return asked.map(({ lines, reply, before }) => explain_reply(lines, reply, before));
}

onmessage = async ({ data }) => {
  try {
    const ended = data.script ? { rdram: await answered(data) } : { said: await said_of(data) };
    postMessage({ ended });
  } catch (fault) {
    postMessage({ ended: { fault: fault.message } });
  }
};
