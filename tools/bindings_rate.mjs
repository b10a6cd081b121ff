// tools/bindings_rate.mjs SCRIPT CALLS [ADDON]: how often a second Node runs a script, by the addon where one is named, by starting
// the program that CEPAGE names, and how long a line of a session takes.
import { readFileSync } from "node:fs";
import { Session, run } from "../bindings/node/index.js";

const [script, calls, library] = process.argv.slice(2);
const text = readFileSync(script, "utf8");
const starts = Math.max(20, calls / 20);

// How many calls a second.
async function rate(count, call) {
  await call();
  const begun = performance.now();
  for (let k = 0; k < count; k += 1) await call();
  return (count * 1000) / (performance.now() - begun);
}

async function session() {
  const page = new Session();
  await page.feed(text);
  await page.close();
}

run(text).expectStatus("Done");
const told = [];
if (library) {
  told.push(`${(await rate(calls, () => void run(text, { library }))).toFixed(0)} calls a second`);
  told.push(`${(await rate(calls, () => void run(text, { library }).lines)).toFixed(0)} with the lines read`);
}
told.push(`${(await rate(starts, () => void run(text, { library: false }))).toFixed(0)} starts`);
told.push(`${(await rate(starts, session)).toFixed(0)} sessions`);
const page = new Session({ fuel: 200_000 });
await page.command("create $a p");
told.push(`${(1e6 / (await rate(calls, () => page.command("setattr $a title x")))).toFixed(1)} microseconds a line of one`);
await page.close();
console.log(`rate from Node: ${told.join(", ")}`);
