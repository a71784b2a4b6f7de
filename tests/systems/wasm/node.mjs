/** Runs a test of this folder in Node, and writes what that says: its name, the library's folder, and its words. A test
 * fetches files. */

import { readFileSync } from "node:fs";

globalThis.fetch = async (url) => new Response(readFileSync(new URL(url)));

const [name, library, ...words] = process.argv.slice(2);
const { run } = await import(`./${name}`);
const said = await run(library, ...words);
process.stdout.write(said);
