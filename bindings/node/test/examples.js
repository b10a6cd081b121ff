// The files of examples/.
import { readFileSync, readdirSync } from "node:fs";

const FOLDER = new URL("../../../examples/", import.meta.url);

export function example(name) {
  return readFileSync(new URL(name, FOLDER), "utf8");
}

/** The names of all files there with this end. */
export function examples(end) {
  return readdirSync(FOLDER, { recursive: true }).filter((name) => name.endsWith(end));
}
