// What may be said of a run, by name.
export const PLAIN_FUEL = 20_000;
// A word of a command line can't be of any length. What is longer than this is refused by the program in any case.
const LONGEST_WORD = 5_000;

/** The program's options, but for the one for made scripts. An empty text is the default. */
export function optionsOf({ fuel = PLAIN_FUEL, trace = false, url = "", boundary = "" } = {}) {
  if (!Number.isInteger(fuel)) throw new TypeError(`fuel is a whole number, and not ${String(fuel)}`);
  for (const [name, text] of [["url", url], ["boundary", boundary]]) {
    if (typeof text !== "string" || !text.isWellFormed()) throw new TypeError(`${name} is a string of Unicode scalar values`);
    if (text.includes("\0")) throw new TypeError(`${name} has a U+0000, which no word of a command line can have`);
  }
  return Object.freeze({ fuel, trace: Boolean(trace), url, boundary });
}

/** The words that say the same to the program. */
export function wordsOf({ fuel, trace, url, boundary }) {
  const words = ["--fuel", String(BigInt(fuel))];
  if (trace) words.push("--trace");
  if (url) words.push("--url", url.slice(0, LONGEST_WORD));
  if (boundary) words.push("--boundary", boundary.slice(0, LONGEST_WORD));
  return words;
}
