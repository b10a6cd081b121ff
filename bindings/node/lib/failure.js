// Failures that read well.
import { AssertionError } from "node:assert";

const MOST_LINES = 200;

/** A script did something else than was expected. */
export class Failure extends AssertionError {
  constructor(message, expected, actual) {
    super({ message, expected, actual, operator: "expect" });
    this.name = "Failure";
  }
}

/** The title, and the lines below it, set in; of very many the first ones, or those from a place on. */
export function block(title, lines, first = 0) {
  const shown = lines.slice(first, first + MOST_LINES).map((line) => `    ${line}`);
  const more = lines.length - first - MOST_LINES;
  const before = first > 0 ? [`    behind ${first} lines`] : [];
  return [title, ...before, ...(lines.length ? shown : ["    nothing"]), ...(more > 0 ? [`    and ${more} lines more`] : [])];
}

/** Where the first one stands that differs. */
export function place(expected, came) {
  const at = expected.findIndex((it, index) => it !== came[index]);
  return at < 0 ? expected.length : at;
}

/** From where on lines are told, so that those about a place are: from the first on, unless there are very many. */
export function toldFrom(at, ...lists) {
  return lists.some((lines) => lines.length > MOST_LINES) ? Math.max(0, at - MOST_LINES / 2) : 0;
}

/** What was expected and what came, with a sign before the first line that differs; of very many lines those about it. */
export function differing(expected, came) {
  const at = place(expected, came);
  const marked = (lines) => lines.map((line, index) => (index === at ? `> ${line}` : `  ${line}`));
  const first = toldFrom(at, expected, came);
  return [...block("expected:", marked(expected), first), ...block("came:", marked(came), first)];
}

/** A trace as an outline: what stands deeper ran within what stands around it. */
export function indented(trace) {
  let depth = 0;
  return trace.map((line) => {
    const word = line.startsWith("~ ") ? line.split(" ")[1] : "";
    if (["finish", "done", "threw", "close"].includes(word)) depth = Math.max(0, depth - 1);
    const shown = "  ".repeat(depth) + line;
    if (["open", "start", "up"].includes(word) || line === "~ drain 0") depth += 1;
    return shown;
  });
}
