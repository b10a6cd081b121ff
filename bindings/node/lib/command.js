// One command, and what it wrote.
import { isDeepStrictEqual } from "node:util";
import { CepageError } from "./errors.js";
import { Failure, block, differing, indented, place, toldFrom } from "./failure.js";
import { Selection } from "./selection.js";

/** A command of a script, or a line that was refused: its number, its text and the lines that it wrote. */
export class Command extends Selection {
  #run;

  constructor(run, number, source, lines) {
    super();
    this.#run = run;
    this.number = number;
    this.source = source;
    this.lines = lines;
  }

  /** The run of which it is; of a session, what that was until then. */
  get run() {
    return this.#run();
  }

  /** The lines as they stand in the transcript. */
  get texts() {
    return this.lines.map((line) => line.text);
  }

  /** What it replied. Null where the fuel was spent in it, and of a line that answers nothing. */
  get reply() {
    const last = this.lines.at(-1);
    return last?.kind === "reply" ? last.answer : null;
  }

  /** The value of the reply, as the text that was asked or the node that was made. */
  get value() {
    return this.reply?.value ?? null;
  }

  /** The node that it gives. */
  get node() {
    if (this.reply?.what === "node") return this.value;
    throw this.#failure("a reply that gives a node", [this.replied]);
  }

  /** The reply as it stands, without the number. */
  get replied() {
    return this.reply ? this.lines.at(-1).text.replace(/^[0-9]+: /, "") : "no reply";
  }

  /** Fails unless it wrote just these lines; the reply may be said without its number. */
  expect(...lines) {
    const expected = [...lines];
    if (this.reply && expected.at(-1) === this.replied) expected.splice(-1, 1, this.texts.at(-1));
    if (!isDeepStrictEqual(expected, this.texts)) throw this.#failed(differing(expected, this.texts), expected, this.texts);
  }

  /** Fails unless this is the reply, said without its number. */
  expectReply(reply) {
    if (this.replied !== reply) throw this.#failure(reply, [this.replied]);
  }

  /** Fails unless the element heard just these callbacks, said by their names, in this order. */
  expectHeard(element, ...callbacks) {
    const calls = this.heard(element);
    const heard = calls.map((call) => call.callback);
    if (isDeepStrictEqual(heard, callbacks)) return;
    const [wanted, came] = [callbacks.join(" ") || "no callback", calls.map((call) => call.text)];
    const told = [...block("expected:", [wanted]), ...block("came:", came, toldFrom(place(callbacks, heard), came))];
    throw this.#failed(told, wanted, came.join("\n"));
  }

  /** Fails unless one form was submitted in it, and sent just these names and values, in this order. */
  expectSent(...entries) {
    const submissions = this.submissions();
    if (submissions.length === 1 && isDeepStrictEqual(submissions[0].entries, entries)) return;
    const spelled = (list) => (list ?? []).map((entry) => JSON.stringify(entry));
    const came = submissions.flatMap((line) => [line.text, ...spelled(line.entries)]);
    const wanted = ["one submission with", ...spelled(entries)];
    const first = toldFrom(1 + place(wanted.slice(1), came.slice(1)), wanted, came);
    const told = [...block("expected:", wanted, first), ...block("came:", came, first)];
    throw this.#failed(told, entries, submissions.map((line) => line.entries));
  }

  /** The script's line, what it wrote and its trace: a message for any assertion. */
  explain() {
    return [this.#title, ...block("it wrote:", this.texts), ...this.#trace].join("\n");
  }

  #failure(expected, came) {
    return this.#failed([...block("expected:", [expected]), ...block("came:", came)], expected, came.join("\n"));
  }

  #failed(told, expected, actual) {
    return new Failure([this.#title, ...told, ...this.#trace].join("\n"), expected, actual);
  }

  get #title() {
    return `line ${this.number} of the script: ${this.source}`;
  }

  // The trace of the line, as an outline under its title. Where the run was without it, the script is run again.
  get #trace() {
    try {
      const lines = this.run.traced().lines.filter((line) => line.command === this.number);
      return block("trace of the line:", indented(lines.map((line) => line.text)));
    } catch (error) {
      if (error instanceof CepageError) return [`no trace: ${error.message}`];
      throw error;
    }
  }
}
