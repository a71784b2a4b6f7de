/** The replies to scripts, by the ES module: the replies of each, or the name of the status that refuses it; and whether
 * the image is as it was, of a script that must leave it so. */

function answered({ RspError, Status, run_script }, { script, length, is_counting, is_saved }) {
  const image = new Uint8Array(length);
  if (is_counting) image.forEach((_, n) => { image[n] = n; });
  try {
    const [replies, left] = run_script(Uint8Array.from(atob(script), (it) => it.charCodeAt(0)), image);
    return [new TextDecoder().decode(replies), !is_saved || left.every((it, n) => it === image[n])];
  } catch (fault) {
    if (fault instanceof RspError) return [Status[fault.status], true];
    throw fault;
  }
}

export async function run(library, url) {
  const rsp = await import(`${library}/rsp.js`), cases = await (await fetch(url)).json();
  return JSON.stringify(cases.map((it) => answered(rsp, it)));
}
