// A script run by starting the program.
import { spawnSync } from "node:child_process";
import { existsSync } from "node:fs";
import { resolve } from "node:path";
import { ProgramDied, ProgramMissing, unfit } from "./errors.js";
import { wordsOf } from "./options.js";
import { STATUSES } from "./status.js";

/** The program: the one that is given, else that of the environment variable CEPAGE, else `cepage` on the path. */
export function findProgram(program) {
  if (program !== undefined && program !== null) return { name: fromHere(String(program)), askedBy: "the option program" };
  if (process.env.CEPAGE) return { name: fromHere(process.env.CEPAGE), askedBy: "CEPAGE" };
  return { name: "cepage", askedBy: "PATH" };
}

// The path from the root, which stays the same where another folder is gone to; a name alone is sought on the path.
function fromHere(name) {
  return name.includes("/") ? resolve(name) : name;
}

/** What a failed start says. What a program wants may be missing, too, as the interpreter of a script. */
export function startFailed(program, error) {
  const isThere = program.name.includes("/") && existsSync(program.name);
  const isMissing = error.code === "EACCES" || (error.code === "ENOENT" && !isThere);
  return isMissing ? new ProgramMissing(program.name, program.askedBy) : unfit("program", program, error);
}

/** The status and the transcript of a script. */
export function runProgram(program, script, options) {
  const { status: code, signal, stdout, stderr, error } = ended(program, wordsOf(options), script);
  // A program that ends before it has read the script closes the pipe: that is not what went wrong.
  if (error && error.code !== "EPIPE") throw startFailed(program, error);
  const status = STATUSES[code];
  if (signal || status === undefined) throw new ProgramDied(program.name, { code, signal }, firstLine(stderr));
  return { status, bytes: stdout };
}

// What comes of a program. A name that none can have is thrown.
function ended(program, words, script) {
  try {
    return spawnSync(program.name, words, { input: script, maxBuffer: Infinity });
  } catch (error) {
    return { error };
  }
}

function firstLine(told) {
  return told.toString().split("\n", 1)[0].trim();
}
