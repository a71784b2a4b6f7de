/** The replies to a script, of which none may be a fault. */

import { ScriptError } from "./errors.js";

const LATIN = new TextDecoder("latin1");

function text_of(bytes) { return LATIN.decode(bytes); }

/** Whether a line is a command `asm`. */
function opens(line) { return line.split("#")[0].trim().split(/\s/)[0] === "asm"; }

/** Replies one after the other. */
export function joined(replies) {
  const made = new Uint8Array(replies.reduce((sum, it) => sum + it.length, 0));
  let at = 0;
  for (const it of replies) {
    made.set(it, at);
    at += it.length;
  }
  return made;
}

/** The error of the last reply, to the line of this number. A fault of a block counts from the line `asm`, whose number
 * is `block`. */
function fault_of(lines, number, block, replies) {
  const reply = text_of(replies.at(-1)).trimEnd(), in_block = / line (\d+)$/.exec(reply);
  const line = in_block ? block + Number(in_block[1]) : number;
  return new ScriptError(line, (lines[line - 1] ?? "").trim(), reply, joined(replies));
}

/** Yields the replies of a session to a whole script: to each line, and to the script's end. After the first one that is
 * a fault it throws a ScriptError. */
export function * strict_replies(session, raw) {
  const lines = text_of(raw).split("\n"), replies = [];
  let block = 0;
  const check = (reply, number) => {
    replies.push(reply);
    if (text_of(reply.subarray(0, 6)) === "fault ") throw fault_of(lines, number, block, replies);
    if (reply.length) block = 0;
    else if (!block && opens(lines[number - 1])) block = number;
  };
  for (const reply of session.iter_feed(raw)) {
    yield reply;
    check(reply, replies.length + 1);
  }
  if (!block && opens(lines.at(-1))) block = lines.length;
  const last = session.end();
  yield last;
  check(last, lines.length);
}
