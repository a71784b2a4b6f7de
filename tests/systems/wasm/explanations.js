/** What the ES module says of the texts and the replies of a table, each with what the program says of it there. What
 * isn't a number is in hex. */

function bytes(hex) { return Uint8Array.from(hex.match(/../g) ?? [], (it) => parseInt(it, 16)); }

function text(hex) { return new TextDecoder().decode(bytes(hex)); }

export async function run(library, url) {
  const { explain_reply, explain_text } = await import(`${library}/rsp.js`), table = await (await fetch(url)).text();
  return JSON.stringify(table.trimEnd().split("\n").map((it) => it.split("\t")).map(([number, given, reply, said]) =>
    [reply ? explain_reply(bytes(given), text(reply), Number(number)) : explain_text(text(given), Number(number)), text(said)]));
}
