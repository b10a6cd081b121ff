// What the text of a script tells before it is run: its lines, and which of them are answered.
const CLASS_PARTS = new Set(["class", "on", "observe", "has", "associate", "disable"]);

/** The bytes of a script that was given as a text, or as they are. */
export function scriptBytes(script) {
  if (script instanceof Uint8Array) return Buffer.from(script);
  if (typeof script === "string" && script.isWellFormed()) return Buffer.from(script);
  throw new TypeError("a script is a string of Unicode scalar values, or a Uint8Array");
}

/** The lines of a text: it is cut at each line feed alone, and what stands behind the last one counts where it is not empty. */
export function cutLines(text) {
  const lines = text.split("\n");
  if (lines.at(-1) === "") lines.pop();
  return lines;
}

/** Whether a line answers nothing where it is accepted: a blank one, a comment, and a part of a class. */
export function isUnanswered(line) {
  const rest = line.replace(/^ +/, "");
  return rest === "" || rest.startsWith("#") || CLASS_PARTS.has(rest.split(" ", 1)[0]);
}

/** The number of the first command behind a line: what a transcript has last, without a reply, belongs to it. */
export function nextCommand(lines, behind) {
  const index = lines.findIndex((line, at) => at >= behind && !isUnanswered(line));
  return index < 0 ? null : index + 1;
}
