/// <reference types="node" />

/** A node of the page, by its number; node 1 is the page's document. */
export type NodeNumber = number;

/** How a run ended: the names of the program's exit statuses. */
export type Status = "Done" | "BadLines" | "Usage" | "Fuel" | "ReadFault" | "WriteFault" | "NoMemory" | "TooLong";

/** The names of the statuses, by their numbers. */
export const STATUSES: readonly Status[];

/** The program's options, but for the one for made scripts. */
export interface Options {
  /** From 1 to 200,000 units; 20,000 where it is left out. */
  fuel?: number;
  /** Whether the transcript shows how reactions are enqueued and run. */
  trace?: boolean;
  /** The URL of the page, http or https. An empty text is the default. */
  url?: string;
  /** The boundary of multipart bodies, 1 to 70 ASCII letters and digits. An empty text is the default. */
  boundary?: string;
}

export interface SessionOptions extends Options {
  /** The program. Without it, that of the environment variable CEPAGE, else `cepage` on the path. */
  program?: string;
}

export interface RunOptions extends SessionOptions {
  /** The addon that calls the library, or false where none is to be used. Without it, that of CEPAGE_ADDON, else `cepage.node`
   * beside the package. Where `program` is said, that is started. */
  library?: string | boolean;
}

export type FaultName =
  | "TypeError"
  | "ReferenceError"
  | "SyntaxError"
  | "NotSupportedError"
  | "HierarchyRequestError"
  | "NotFoundError"
  | "InvalidCharacterError"
  | "user";

/** What was thrown; a body's own has the name `user` and a text. */
export interface Fault {
  readonly name: FaultName;
  readonly text: string | null;
}

export type ElementState = "undefined" | "failed" | "uncustomized" | "precustomized" | "custom";

export type Flag =
  | "valueMissing"
  | "typeMismatch"
  | "patternMismatch"
  | "tooLong"
  | "tooShort"
  | "rangeUnderflow"
  | "rangeOverflow"
  | "stepMismatch"
  | "badInput"
  | "customError";

/** Why a line was refused. */
export type Bad = "long" | "utf8" | "quote" | "escape" | "word" | "arity" | "place";

/** What was found or replied. */
export type Answer =
  /** It was done, or the control does not take it. */
  | { readonly what: "ok" | "ignored"; readonly value: null }
  /** There is none, or there is a list of entries. */
  | { readonly what: "null" | "list"; readonly value: null }
  | { readonly what: "node"; readonly value: NodeNumber }
  | { readonly what: "nodes"; readonly value: readonly NodeNumber[] }
  | { readonly what: "text"; readonly value: string }
  | { readonly what: "texts"; readonly value: readonly string[] }
  /** No nodes, or no texts. */
  | { readonly what: "empty"; readonly value: readonly [] }
  | { readonly what: "truth"; readonly value: boolean }
  | { readonly what: "state"; readonly value: ElementState }
  /** The validity flags, none of `valid`. */
  | { readonly what: "flags"; readonly value: readonly Flag[] }
  | { readonly what: "throw"; readonly value: Fault }
  | { readonly what: "bad"; readonly value: Bad };

interface Place {
  /** The line as it stands. */
  readonly text: string;
  /** Its number in the transcript. */
  readonly number: number;
  /** The number of the script's line that it answers; null of the last lines of a transcript without its script. */
  readonly command: number | null;
}

/** The constructor of a class starts. */
export interface ConstructLine extends Place {
  readonly kind: "construct";
  readonly className: string;
}

/** The arguments of a callback. */
export type Called =
  | { readonly callback: "connected" | "disconnected" | "formReset"; readonly arguments: readonly [] }
  | { readonly callback: "adopted"; readonly arguments: readonly [before: NodeNumber, since: NodeNumber] }
  | { readonly callback: "attribute"; readonly arguments: readonly [name: string, old: string | null, value: string | null] }
  | { readonly callback: "formAssociated"; readonly arguments: readonly [form: NodeNumber | null] }
  | { readonly callback: "formDisabled"; readonly arguments: readonly [disabled: boolean] }
  | { readonly callback: "formStateRestore"; readonly arguments: readonly [state: string, mode: "restore" | "autocomplete"] };

export type CallbackName = Called["callback"];

/** A callback of an element starts. */
export type CallLine = Place & { readonly kind: "call"; readonly element: NodeNumber } & Called;

/** A body logged these texts. */
export interface LogLine extends Place {
  readonly kind: "log";
  readonly texts: readonly string[];
}

/** A question in a body found this. */
export interface AskLine extends Place {
  readonly kind: "ask";
  readonly answer: Answer;
}

export type Entries = readonly (readonly [name: string, value: string])[];

/** A form is submitted, or its submission is blocked. */
export interface SubmitLine extends Place {
  readonly kind: "submit";
  readonly form: NodeNumber;
  readonly method: "get" | "post" | "blocked";
  readonly url: string | null;
  readonly mediaType: string | null;
  readonly body: string | null;
  /** What blocks it. */
  readonly blocked: "disconnected" | "invalid" | "dialog" | "url" | "scheme" | "size" | "boundary" | null;
  /** The controls that are invalid, where that blocks it. */
  readonly invalid: readonly NodeNumber[];
  /** The names and values that were sent. Null of one that is blocked, and of a plain text that tells no entries. */
  readonly entries: Entries | null;
}

/** A `try` of a body took the fault. */
export interface CaughtLine extends Place {
  readonly kind: "caught";
  readonly fault: Fault;
}

/** A callback ended with the fault, or an upgrade or a creation threw it. */
export interface ReportLine extends Place {
  readonly kind: "report";
  readonly fault: Fault;
}

/** The reply of a line of the script, the last line that it writes. */
export interface ReplyLine extends Place {
  readonly kind: "reply";
  readonly answer: Answer;
}

/** The fuel is spent. */
export interface FuelLine extends Place {
  readonly kind: "fuel";
}

/** A line of the trace. */
export interface TraceLine extends Place {
  readonly kind: "trace";
  readonly event: "open" | "enq" | "drain" | "start" | "finish" | "up" | "done" | "drop" | "threw" | "close";
  readonly reaction: number | null;
  readonly element: NodeNumber | null;
  /** Of `enq`: the callback's name, or `upgrade`. */
  readonly enqueued: CallbackName | "upgrade" | null;
  readonly queue: number | null;
}

/** A line of no other kind, or the last one, where it was cut off. */
export interface OtherLine extends Place {
  readonly kind: "other";
}

export type Line =
  | ConstructLine
  | CallLine
  | LogLine
  | AskLine
  | SubmitLine
  | CaughtLine
  | ReportLine
  | ReplyLine
  | FuelLine
  | TraceLine
  | OtherLine;

/** What is asked of lines, of a whole run or of one command. */
interface Selection {
  readonly lines: readonly Line[];
  /** The callbacks that started. */
  readonly calls: CallLine[];
  /** The constructors that started. */
  readonly constructs: ConstructLine[];
  /** The texts of each line that a body logged. */
  readonly logs: (readonly string[])[];
  /** The faults that were reported. */
  readonly reports: ReportLine[];
  /** The callbacks that this element heard. */
  heard(element: NodeNumber): CallLine[];
  /** The submissions, blocked ones among them: of this form, or of all. */
  submissions(form?: NodeNumber): SubmitLine[];
}

/** A command of a script, or a line that was refused: its number, its text and the lines that it wrote, the reply last. In a
 * session those of the refused parts of classes before it come first. */
export interface Command extends Selection {}
export class Command {
  private constructor();
  readonly number: number;
  readonly source: string;
  /** The run of which it is; of a session, what that was until then. */
  readonly run: Run;
  /** The lines as they stand in the transcript. */
  readonly texts: string[];
  /** What it replied. Null where the fuel was spent in it, and of a line that answers nothing. */
  readonly reply: Answer | null;
  /** The value of the reply, as the text that was asked or the node that was made. */
  readonly value: Answer["value"];
  /** The node that it gives; fails where it gives none. */
  readonly node: NodeNumber;
  /** The reply as it stands, without the number. */
  readonly replied: string;
  /** Fails unless it wrote just these lines; the reply may be said without its number. */
  expect(...lines: string[]): void;
  /** Fails unless this is the reply, said without its number. */
  expectReply(reply: string): void;
  /** Fails unless the element heard just these callbacks, in this order. */
  expectHeard(element: NodeNumber, ...callbacks: CallbackName[]): void;
  /** Fails unless one form was submitted in it, and sent just these names and values, in this order. */
  expectSent(...entries: (readonly [name: string, value: string])[]): void;
  /** The script's line, what it wrote and its trace: a message for any assertion. */
  explain(): string;
}

/** What a script did: the status, the transcript, and its lines as values. */
export interface Run extends Selection {}
export class Run {
  private constructor();
  readonly script: Buffer;
  readonly options: Readonly<Required<Options>>;
  /** How it ended; null of a session that goes on. */
  readonly status: Status | null;
  /** The transcript, to the byte. */
  readonly bytes: Buffer;
  /** The transcript as a text. */
  readonly transcript: string;
  /** The lines of the script; line 1 is the first of them. */
  readonly source: readonly string[];
  /** The lines of the script that wrote something, in their order. */
  readonly commands: Command[];
  /** The command in this line of the script; a RangeError where that line answers nothing. */
  command(number: number): Command;
  /** The commands that are spelled so, in their order. */
  find(source: string): Command[];
  /** The run with its trace: this one, or one more of the same script. */
  traced(): Run;
  /** Fails unless it ended so, and tells each line that was refused, or in which one the fuel was spent. */
  expectStatus(status: Status): void;
}

/** Runs a script, and gives what it did. What is refused of the options gives the status Usage and an empty transcript. */
export function run(script: string | Uint8Array, options?: RunOptions): Run;

/** A page that is talked to, a line at a time. The program answers each line before it reads the next one. A session that
 * waits for nothing keeps no process of Node alive, and its program ends with that. */
export class Session {
  constructor(options?: SessionOptions);
  /** The number of the line that was given last. */
  readonly line: number;
  /** The number of the program's process; none where it could not be started. */
  readonly process: number | undefined;
  /** Gives a line, and gives what it wrote, the reply last. A blank line, a comment and a part of a class answer nothing where
   * they are accepted, and are not waited for. Where a part is refused, its reply comes first of what the next command gives. */
  command(line: string): Promise<Command>;
  /** Gives each line of a script, and gives what each command among them wrote. */
  feed(script: string): Promise<Command[]>;
  /** Ends the script, and gives the whole session as a run. */
  close(): Promise<Run>;
  /** Ends the script, where `await using` does. */
  [Symbol.asyncDispose](): Promise<void>;
}

/** The value of a line, without its line feed. */
export function readLine(line: string, place?: number, command?: number | null): Line;

/** The lines of a transcript that was kept. The script tells to which command the last lines belong, where the fuel was spent
 * in it. */
export function readTranscript(transcript: string, script?: string): Line[];

/** The names and values that a form sent: of the query where there is no body. Null where they can't be told. */
export function entriesSent(url: string, mediaType: string | null, body: string | null): Entries | null;

/** A script did something else than was expected: an AssertionError of node:assert. */
export class Failure extends Error {
  readonly expected: unknown;
  readonly actual: unknown;
}

/** The program or its library could not be used: one that can't be started, or called, is named with what names it. */
export class CepageError extends Error {}

/** There is no program of that name. */
export class ProgramMissing extends CepageError {}

/** The program ended as cepage does not: by a signal, or with another status. */
export class ProgramDied extends CepageError {}

/** The session is over, so this line was not run. */
export class SessionEnded extends CepageError {
  readonly status: Status | null;
}
