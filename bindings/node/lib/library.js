// A script run by a call of the library, through an addon, where that was built.
import { existsSync } from "node:fs";
import { createRequire } from "node:module";
import { resolve } from "node:path";
import { fileURLToPath } from "node:url";
import { ProgramDied, unfit } from "./errors.js";
import { STATUSES } from "./status.js";

const BESIDE = fileURLToPath(new URL("../cepage.node", import.meta.url));
const FIRST_ROOM = 65_536;
const MORE_ROOM = 5;
const MOST_FUEL_SAID = 2 ** 32 - 1;
const require = createRequire(import.meta.url);

/** The addon: the one that is given, else that of the environment variable CEPAGE_ADDON, else the one beside this package.
 * Null where there is none, where the variable is empty, and where it is not wanted, by false. */
export function findLibrary(library) {
  if (library === false) return null;
  if (library !== undefined && library !== null && library !== true) {
    return { name: resolve(String(library)), askedBy: "the option library" };
  }
  const named = process.env.CEPAGE_ADDON;
  if (named !== undefined) return named ? { name: resolve(named), askedBy: "CEPAGE_ADDON" } : null;
  return existsSync(BESIDE) ? { name: BESIDE, askedBy: "the package's folder" } : null;
}

// The one call of an addon.
function callOf(library) {
  try {
    const { run } = require(library.name);
    if (typeof run !== "function") throw new TypeError("it has no function run");
    return run;
  } catch (error) {
    throw unfit("library", library, error);
  }
}

// The room that each call begins with.
const kept = Buffer.allocUnsafe(FIRST_ROOM);

/** The status and the transcript of a script. It is run again with more room where its transcript is longer. */
export function runLibrary(library, script, { fuel, trace, url, boundary }) {
  const run = callOf(library);
  const said = fuel >= 0 && fuel <= MOST_FUEL_SAID ? fuel : 0;
  for (let room = kept; ; room = Buffer.allocUnsafe(room.length * 8)) {
    const [status, written] = run(script, said, trace, Buffer.from(url), Buffer.from(boundary), room);
    if (status === MORE_ROOM) continue;
    if (STATUSES[status] === undefined) throw new ProgramDied(library.name, { code: status, signal: null });
    return { status: STATUSES[status], bytes: Buffer.from(room.subarray(0, written)) };
  }
}
