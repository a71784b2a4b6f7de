/** Why a file of the page isn't there. This is a script and no module: browsers take scripts also with a type with which
 * they refuse modules. The page loads it first, and the worker imports it. */

/** A sentence, without its full stop, on a module that the browser hasn't taken. */
globalThis.why_not = async (url) => {
  const name = String(url).split("/").at(-1);
  try {
    const answer = await fetch(url, { cache: "no-cache" }), { ok, status, statusText } = answer;
    const type = answer.headers.get("content-type") ?? "no type";
    if (!ok) return `${name} isn't served: ${status} ${statusText}. A newer page may be there: reload it`;
    if (/^\s*</.test(await answer.text())) return `${name} isn't served: the server has answered with HTML`;
    if (!/^(?:text|application)\/(?:x-)?(?:java|ecma)script\b/.test(type)) {
      const wanted = "browsers take modules as text/javascript: the server needs a type for .js";
      return `${name} is served as ${type}, and ${wanted}`;
    }
    return `${name} is served, but the browser hasn't taken it, or a module that it imports`;
  } catch {
    return `${name} isn't served: there is no answer`;
  }
};

/** The page says why page.js isn't there. From a folder no module is taken, as the page says already. */
globalThis.document?.addEventListener("error", async ({ target }) => {
  if (!target.src || location.protocol === "file:") return;
  const sentence = `${await why_not(target.src)}.`, absent = document.getElementById("absent");
  if (!absent) return;
  absent.textContent = sentence;
  absent.style.animation = "none";
  document.getElementById("ran").textContent = "";
}, true);
