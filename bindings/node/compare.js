// compare.js LIST CASES LINES [LIBRARY]: runs each case of the list, by the addon where one is named, and else by the program that
// CEPAGE names. A row of the list has its name, its status, its script and its words, with tabs between them; the bytes have to be
// those of CASES/NAME. Writes to LINES what the reader makes of each transcript, for the other languages to be held against.
import { readFileSync, writeFileSync } from "node:fs";
import { join } from "node:path";
import { STATUSES, run } from "cepage";

const [list, cases, lines, library] = process.argv.slice(2);

// The options that words say.
function optionsOf(words) {
  const said = {};
  for (let at = 0; at < words.length; at += 1) said[words[at].slice(2)] = words[at] === "--trace" || words[++at];
  return said.fuel === undefined ? said : { ...said, fuel: Number(said.fuel) };
}

const hex = (text) => Buffer.from(text).toString("hex");

// The number of its command, its kind, and what a form sent.
function told(line) {
  const sent = line.entries ? ` sent${line.entries.map(([name, value]) => ` ${hex(name)}=${hex(value)}`).join("")}` : "";
  return `${line.command ?? 0} ${line.kind}${sent}\n`;
}

// What is wrong with a case, or nothing; and what the reader makes of it.
function compare(row) {
  const [name, status, script, ...words] = row.split("\t");
  const came = run(readFileSync(script), { ...optionsOf(words), library: library ?? false });
  const other = came.lines.find((line) => line.kind === "other");
  let why = other && `a line is not known: ${other.text}`;
  if (!came.bytes.equals(readFileSync(join(cases, name)))) why = "the transcript differs";
  if (STATUSES.indexOf(came.status) !== Number(status)) why = `the status is ${came.status}`;
  return { name, why, made: `${name}\n${came.lines.map(told).join("")}` };
}

const compared = readFileSync(list, "utf8").split("\n").slice(0, -1).map(compare);
writeFileSync(lines, compared.map(({ made }) => made).join(""));
const failed = compared.filter(({ why }) => why);
for (const { name, why } of failed) console.log(`${name}: ${why}`);
console.log(`node, ${library ? "library" : "program"}: ${compared.length} runs, ${failed.length} differ`);
process.exitCode = failed.length || !compared.length ? 1 : 0;
