// A script in, what it did out.
import { Command } from "./command.js";
import { Failure, block } from "./failure.js";
import { findLibrary, runLibrary } from "./library.js";
import { optionsOf } from "./options.js";
import { findProgram, runProgram } from "./program.js";
import { readLines } from "./reading.js";
import { cutLines, isUnanswered, nextCommand, scriptBytes } from "./script.js";
import { Selection } from "./selection.js";

/** What a script did: the status, the transcript, and its lines as values. */
export class Run extends Selection {
  #door;
  #read = {};

  // A door is what runs a script: the program or the library.
  constructor(script, options, { status, bytes }, door) {
    super();
    this.script = script;
    this.options = options;
    this.status = status;
    this.bytes = bytes;
    this.#door = door;
  }

  /** The transcript as a text. */
  get transcript() {
    return (this.#read.transcript ??= this.bytes.toString());
  }

  /** The lines of the script; line 1 is the first of them. */
  get source() {
    return (this.#read.source ??= cutLines(this.script.toString()));
  }

  /** The lines of the transcript as values. */
  get lines() {
    return (this.#read.lines ??= readLines(this.transcript, (last) => nextCommand(this.source, last)));
  }

  get #byNumber() {
    return (this.#read.commands ??= this.#grouped());
  }

  #grouped() {
    const found = new Map();
    for (const line of this.lines) {
      if (line.command === null) continue;
      if (!found.has(line.command)) found.set(line.command, []);
      found.get(line.command).push(line);
    }
    const command = ([number, lines]) => [number, new Command(() => this, number, this.source[number - 1] ?? "", lines)];
    return new Map([...found].map(command));
  }

  /** The lines of the script that wrote something, in their order. */
  get commands() {
    return [...this.#byNumber.values()];
  }

  /** The command in this line of the script. */
  command(number) {
    const found = this.#byNumber.get(number);
    if (!found) throw new RangeError(this.#unanswered(number));
    return found;
  }

  #unanswered(number) {
    const line = this.source[number - 1];
    if (line === undefined) return `the script has no line ${number}, but ${this.source.length} lines`;
    const why = isUnanswered(line) ? "a blank line, a comment or a part of a class" : "behind the end of the session";
    return `line ${number} of the script answers nothing, being ${why}: ${line}`;
  }

  /** The commands that are spelled so, in their order. */
  find(source) {
    return this.commands.filter((command) => command.source.replace(/^ +|(?<! ) +$/g, "") === source);
  }

  /** The run with its trace: this one, or one more of the same script. */
  traced() {
    if (this.options.trace) return this;
    const options = { ...this.options, trace: true };
    return new Run(this.script, options, this.#door(this.script, options), this.#door);
  }

  /** Fails unless it ended so, and tells each line that was refused, or in which one the fuel was spent. */
  expectStatus(status) {
    if (this.status === status) return;
    const came = this.status ?? "a session that goes on";
    const told = [...block("expected:", [status]), ...block("came:", [came]), ...this.#reasons()];
    throw new Failure(told.join("\n"), status, this.status);
  }

  #reasons() {
    const refused = this.commands.filter((command) => command.reply?.what === "bad");
    const told = refused.map((command) => `line ${command.number}: ${command.replied}: ${command.source}`);
    const last = this.commands.at(-1);
    if (this.status === "Fuel" && last) {
      told.push(`line ${last.number}, in which the fuel of ${this.options.fuel} was spent: ${last.source}`);
    }
    return told.length ? block("since:", told) : [];
  }
}

/** Runs a script, and gives what it did. */
export function run(script, options = {}) {
  const library = options.program === undefined || options.program === null ? findLibrary(options.library) : null;
  const program = library === null ? findProgram(options.program) : null;
  const door = library === null ? runProgram.bind(null, program) : runLibrary.bind(null, library);
  const [bytes, said] = [scriptBytes(script), optionsOf(options)];
  return new Run(bytes, said, door(bytes, said), door);
}
