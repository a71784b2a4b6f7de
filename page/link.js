/** A link carries a script after the # of an address: how many bytes it has, and these, packed by the browser, in base64
 * with - and _ for + and /. By their number one sees that a link was cut off on its way. Older links have them unpacked. A
 * link of the help has the name of its block. */
import { grouped } from "./elements.js";
import { BLOCKS } from "./examples.js";
import { LONGEST } from "./script.js";

/** How many bytes of a packed script a link carries, and how many characters they become. */
const PACKED = 24000, MOST = PACKED / 3 * 4;
const CUT = "The link isn't whole, so its script can't be read: copy all of it, up to its end.";

/** The bytes that a stream makes of others, or null if they are more than so many, of which it reads no more.
 * @param {Uint8Array} bytes @param {CompressionStream | DecompressionStream} stream @param {number} most */
async function passed(bytes, stream, most) {
  const reader = new Blob([bytes]).stream().pipeThrough(stream).getReader(), parts = [];
  for (let count = 0; count <= most;) {
    const { value } = await reader.read();
    if (!value) return new Uint8Array(await new Blob(parts).arrayBuffer());
    parts.push(value);
    count += value.length;
  }
  reader.cancel().catch(() => {}); // what comes after them isn't of interest
  return null;
}

/** The part of an address that carries a script. @param {Uint8Array} script */
export async function fragment_of(script) {
  const packed = script.length <= LONGEST && await passed(script, new CompressionStream("deflate-raw"), PACKED);
  if (!packed) {
    throw new RangeError(`Packed, the script has more than ${grouped(PACKED)} bytes, which no link carries: save it.`);
  }
  const base64 = btoa(String.fromCharCode(...packed)).replaceAll("+", "-").replaceAll("/", "_");
  return `#bytes=${script.length}&packed=${base64.replaceAll("=", "")}`;
}

/** The script that such a part carries, or null if it carries none. @param {string} fragment */
export async function script_of(fragment) {
  const words = new URLSearchParams(fragment.slice(1)), block = BLOCKS.get(words.get("block") ?? "");
  const packed = words.get("packed"), base64 = packed ?? words.get("script");
  if (block) return new TextEncoder().encode(block);
  if (base64 === null) return null;
  if (base64.length > MOST) {
    const read = `at most ${grouped(MOST)} are read`;
    throw new RangeError(`The link has ${grouped(base64.length)} characters of a script, and ${read}.`);
  }
  const script = await unpacked(base64, packed !== null).catch(() => new Uint8Array()); // which has another length
  if (!script) throw new RangeError(`The link's script has more than ${grouped(LONGEST)} bytes: it isn't taken.`);
  if (words.get("bytes") !== String(script.length)) throw new RangeError(CUT);
  return script;
}

/** Fails if it isn't base64, or can't be unpacked. @param {string} base64 @param {boolean} is_packed */
async function unpacked(base64, is_packed) {
  const text = atob(base64.replaceAll("-", "+").replaceAll("_", "/"));
  const bytes = Uint8Array.from(text, (it) => it.charCodeAt(0));
  return is_packed ? passed(bytes, new DecompressionStream("deflate-raw"), LONGEST) : bytes;
}
