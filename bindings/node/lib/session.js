// A session: a command in, what it answered out, over the program's own pipe.
import { spawn } from "node:child_process";
import { Command } from "./command.js";
import { ProgramDied, SessionEnded, cut, howItEnded } from "./errors.js";
import { optionsOf, wordsOf } from "./options.js";
import { findProgram, runProgram, startFailed } from "./program.js";
import { readLines } from "./reading.js";
import { Run } from "./run.js";
import { cutLines, isUnanswered } from "./script.js";
import { STATUSES } from "./status.js";

const CLOSED = "it was closed";
const LINE_FEED = 10;
const END = Buffer.from([LINE_FEED]);

/** A page that is talked to, a line at a time.
 *
 * The program answers each line before it reads the next one. A session that waits for nothing keeps no process of Node
 * alive, and its program ends with that. */
export class Session {
  #program;
  #options;
  #child;
  #closed;
  #script = [];
  #wrote = [];
  #rest = []; // pieces of what was written last, and not ended by a line feed
  #given = 0; // how many of the lines that were written have been given with a command
  #waiting = []; // commands whose reply has not come: { number, line, resolve, reject }; before the first, null
  #first = 0; // the place of the first of them: to shift a long list takes a time that grows with it
  #over = null; // why no line is taken any more
  #isClosing = false;
  #isSpent = false; // the fuel
  #ended = null; // { code, signal }
  #failed = null; // the program could not be started

  /** The options are those of `run`; the program is started in any case. */
  constructor(options = {}) {
    this.#options = optionsOf(options);
    this.#program = findProgram(options.program);
    this.#child = this.#started();
    this.#closed = new Promise((resolve) => this.#child.on("close", (code, signal) => resolve(this.#end({ code, signal }))));
    this.#child.stdin.on("error", () => {}); // the program has ended, which its close tells
    this.#child.stdout.on("data", (piece) => this.#take(piece));
    this.#hold(false);
  }

  /** The number of the line that was given last. */
  get line() {
    return this.#script.length;
  }

  /** The number of the program's process. */
  get process() {
    return this.#child.pid;
  }

  /** Gives a line, and gives what it wrote, the reply last.
   *
   * A blank line, a comment and a part of a class answer nothing where they are accepted, and are not waited for. Where a
   * part is refused, its reply comes first of what the next command gives. */
  async command(line) {
    if (typeof line !== "string" || !line.isWellFormed()) throw new TypeError("a line is a string of Unicode scalar values");
    if (line.includes("\n")) throw new TypeError("a line has no line feed: give each line by itself, or all of them to feed()");
    if (this.#over !== null) return this.#refuse();
    const number = this.#script.push(line);
    this.#child.stdin.write(`${line}\n`);
    if (isUnanswered(line)) return new Command(this.#untilNow(), number, line, []);
    return new Promise((resolve, reject) => {
      this.#waiting.push({ number, line, resolve, reject });
      this.#hold(true);
    });
  }

  // Fails with why no line is taken any more. Where the fuel was spent the program ends, and its status is waited for.
  async #refuse() {
    if (this.#isSpent) {
      this.#hold(true);
      await this.#closed;
    }
    throw this.#failed ?? new SessionEnded(this.#over, this.#status);
  }

  /** Gives each line of a script, and gives what each command among them wrote. */
  async feed(script) {
    if (typeof script !== "string" || !script.isWellFormed()) throw new TypeError("a script is a string of Unicode scalar values");
    const given = await Promise.all(cutLines(script).map((line) => this.command(line)));
    return given.filter((command) => command.lines.length);
  }

  /** Ends the script, and gives the whole session as a run. */
  async close() {
    this.#isClosing = true;
    this.#over ??= CLOSED;
    this.#hold(true);
    this.#child.stdin.end();
    await this.#closed;
    if (this.#failed) throw this.#failed;
    if (this.#status === null) throw new ProgramDied(this.#program.name, this.#ended);
    return this.#run(this.#script.length, this.#wrote.length, this.#status, this.#rest);
  }

  async [Symbol.asyncDispose]() {
    await this.close();
  }

  #started() {
    try {
      const child = spawn(this.#program.name, wordsOf(this.#options), { stdio: ["pipe", "pipe", "ignore"] });
      child.on("error", (error) => {
        this.#failed = startFailed(this.#program, error);
      });
      // Where no file can be opened any more there is none, and the error comes later.
      if (!child.stdin) throw new Error("no pipe to it could be opened");
      return child;
    } catch (error) {
      throw startFailed(this.#program, error);
    }
  }

  get #status() {
    return (this.#ended && !this.#ended.signal && STATUSES[this.#ended.code]) || null;
  }

  // A line of a transcript ends at a line feed, and at nothing else.
  #take(piece) {
    let from = 0;
    for (let end = piece.indexOf(LINE_FEED); end >= 0; end = piece.indexOf(LINE_FEED, from)) {
      this.#takeLine(Buffer.concat([...this.#rest.splice(0), piece.subarray(from, end)]));
      from = end + 1;
    }
    this.#rest.push(piece.subarray(from));
  }

  #takeLine(bytes) {
    this.#wrote.push(bytes);
    const line = bytes.toString();
    if (line === "fuel") this.#spent();
    else if (this.#waiting.length && line.startsWith(`${this.#waiting[this.#first].number}: `)) this.#answer();
  }

  // Gives the command that waits longest what has come since the last one.
  #answer() {
    const { number, line, resolve } = this.#waiting[this.#first];
    this.#waiting[this.#first++] = null;
    if (this.#first === this.#waiting.length) {
      this.#waiting = [];
      this.#first = 0;
    }
    const wrote = this.#wrote.slice(this.#given).map((bytes) => `${bytes}\n`).join("");
    const lines = readLines(wrote, () => number, this.#given + 1);
    this.#given = this.#wrote.length;
    resolve(new Command(this.#untilNow(number), number, line, lines));
    if (!this.#waiting.length && !this.#isClosing) this.#hold(false);
  }

  #spent() {
    if (!this.#waiting.length) return;
    const { number, line } = this.#waiting[this.#first];
    this.#over = `the fuel was spent in line ${number}: ${cut(line)}`;
    this.#isSpent = true;
    this.#child.stdin.end();
    this.#answer();
  }

  #end(ended) {
    this.#ended = ended;
    const waiting = this.#waiting.splice(0).slice(this.#first);
    const [first] = waiting;
    const where = first ? `, at line ${first.number}: ${cut(first.line)}` : "";
    if (this.#over === null || (first && this.#over === CLOSED)) this.#over = `the program ended ${howItEnded(ended)}${where}`;
    for (const { reject } of waiting) reject(this.#failed ?? new SessionEnded(this.#over, this.#status));
  }

  // The session as a run, up to this line and to what has been given.
  #untilNow(number = this.#script.length) {
    const given = this.#given;
    return () => this.#run(number, given, null, []);
  }

  #run(number, given, status, rest) {
    const bytes = Buffer.concat([...this.#wrote.slice(0, given).flatMap((line) => [line, END]), ...rest]);
    const script = Buffer.from(this.#script.slice(0, number).map((line) => `${line}\n`).join(""));
    return new Run(script, this.#options, { status, bytes }, runProgram.bind(null, this.#program));
  }

  // Whether Node goes on as long as the program does.
  #hold(held) {
    if (this.#ended) return;
    for (const it of [this.#child, this.#child.stdin, this.#child.stdout]) it[held ? "ref" : "unref"]();
  }
}
