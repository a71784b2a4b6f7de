/** What a module prints by console.log. */
export async function run(_, url) {
  const lines = [];
  console.log = (...words) => lines.push(words.join(" "));
  await import(url);
  return lines.map((it) => `${it}\n`).join("");
}
