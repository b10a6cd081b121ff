// The reader of a transcript's lines.
//
// It is total: a line that it does not know is of the kind "other". It takes the lines that docs/transcript.md of cepage
// lists, as they are written there, to the byte.
import { cutLines, nextCommand } from "./script.js";
import { entriesSent } from "./sent.js";
import { Unfit, fail, node, number, oneOf, orNull, readEach, replied, text, tokensOf, truth, word } from "./tokens.js";

const FAULT = oneOf(
  "TypeError",
  "ReferenceError",
  "SyntaxError",
  "NotSupportedError",
  "HierarchyRequestError",
  "NotFoundError",
  "InvalidCharacterError",
);
const STATES = ["undefined", "failed", "uncustomized", "precustomized", "custom"];
const FLAGS = [
  "valueMissing",
  "typeMismatch",
  "patternMismatch",
  "tooLong",
  "tooShort",
  "rangeUnderflow",
  "rangeOverflow",
  "stepMismatch",
  "badInput",
  "customError",
];
const CALLBACKS = {
  connected: [],
  disconnected: [],
  adopted: [node, node],
  attribute: [text, orNull(text), orNull(text)],
  formAssociated: [orNull(node)],
  formDisabled: [truth],
  formReset: [],
  formStateRestore: [text, oneOf("restore", "autocomplete")],
};
const CALLBACK = oneOf(...Object.keys(CALLBACKS));
const BAD = oneOf("long", "utf8", "quote", "escape", "word", "arity", "place");
const CAUSE = oneOf("disconnected", "dialog", "url", "scheme", "size", "boundary");
const METHOD = oneOf("get", "post", "blocked");
const TRACE = {
  open: { queue: number },
  enq: { reaction: number, element: node, enqueued: oneOf("upgrade", ...Object.keys(CALLBACKS)), queue: number },
  drain: { queue: number },
  start: { reaction: number },
  finish: { reaction: number },
  up: { element: node },
  done: { element: node },
  drop: { reaction: number },
  threw: { element: node },
  close: { queue: number },
};
const EVENT = oneOf(...Object.keys(TRACE));

function readFault(tokens) {
  if (tokens[0]?.word === "user") {
    const [, said] = readEach([word, text], tokens);
    return { name: "user", text: said };
  }
  const [name] = readEach([FAULT], tokens);
  return { name, text: null };
}

// What was asked, behind `ask` or the number of a reply.
function readAnswer(tokens) {
  const many = tokens.length > 1;
  if (tokens[0]?.text !== undefined) return many ? { what: "texts", value: tokens.map(text) } : { what: "text", value: tokens[0].text };
  if (tokens[0]?.node !== undefined) return many ? { what: "nodes", value: tokens.map(node) } : { what: "node", value: tokens[0].node };
  if (FLAGS.includes(tokens[0]?.word)) return { what: "flags", value: tokens.map(oneOf(...FLAGS)) };
  return oneWord(...readEach([word], tokens));
}

// An answer of one word.
function oneWord(said) {
  if (STATES.includes(said)) return { what: "state", value: said };
  if (said === "yes" || said === "no") return { what: "truth", value: said === "yes" };
  if (said === "null" || said === "list") return { what: said, value: null };
  if (said === "empty") return { what: "empty", value: [] };
  return said === "valid" ? { what: "flags", value: [] } : fail();
}

function readReply(tokens) {
  const first = tokens[0]?.word;
  if (first === "throw") return { what: "throw", value: readFault(tokens.slice(1)) };
  if (first === "bad") return { what: "bad", value: readEach([BAD], tokens.slice(1))[0] };
  if (tokens.length === 1 && (first === "ok" || first === "ignored")) return { what: first, value: null };
  return readAnswer(tokens);
}

function readCall(tokens) {
  const [element, callback] = readEach([node, CALLBACK], tokens.slice(0, 2));
  return { element, callback, arguments: readEach(CALLBACKS[callback], tokens.slice(2)) };
}

function readSubmit(tokens) {
  const [form, method] = readEach([node, METHOD], tokens.slice(0, 2));
  const rest = tokens.slice(2);
  const none = { url: null, mediaType: null, body: null, blocked: null, invalid: [], entries: null };
  if (method === "blocked") {
    if (rest[0]?.word === "invalid") return { form, method, ...none, blocked: "invalid", invalid: rest.slice(1).map(node) };
    return { form, method, ...none, blocked: readEach([CAUSE], rest)[0] };
  }
  const [url, mediaType = null, body = null] = readEach(method === "post" ? [text, text, text] : [text], rest);
  return { form, method, ...none, url, mediaType, body, entries: entriesSent(url, mediaType, body) };
}

function readTrace(tokens) {
  const event = EVENT(tokens[0]);
  const names = Object.keys(TRACE[event]);
  const parts = readEach(Object.values(TRACE[event]), tokens.slice(1));
  const none = { reaction: null, element: null, enqueued: null, queue: null };
  return { event, ...none, ...Object.fromEntries(names.map((name, at) => [name, parts[at]])) };
}

function readConstruct(tokens) {
  const [className] = readEach([word], tokens);
  return /^[A-Z][A-Za-z0-9_]{0,31}$/.test(className) ? { className } : fail();
}

// By the first word of a line: its kind, and what reads the tokens behind that word.
const ROWS = new Map([
  ["construct", ["construct", readConstruct]],
  ["call", ["call", readCall]],
  ["log", ["log", (tokens) => ({ texts: tokens.map(text) })]],
  ["ask", ["ask", (tokens) => ({ answer: readAnswer(tokens) })]],
  ["submit", ["submit", readSubmit]],
  ["caught", ["caught", (tokens) => ({ fault: readFault(tokens) })]],
  ["report", ["report", (tokens) => ({ fault: readFault(tokens) })]],
  ["fuel", ["fuel", (tokens) => (tokens.length ? fail() : {})]],
  ["~", ["trace", readTrace]],
]);

function parts(line) {
  const [first, ...rest] = tokensOf(line);
  const row = ROWS.get(first.word);
  if (row) return { kind: row[0], ...row[1](rest) };
  return /^[0-9]+:$/.test(word(first)) && replied(line) !== null ? { kind: "reply", answer: readReply(rest) } : fail();
}

/** The value of a line, without its line feed; its place in the transcript, and the line that it answers, are told. */
export function readLine(line, place = 1, command = null) {
  const where = { text: line, number: place, command };
  try {
    return Object.freeze({ ...where, ...parts(line) });
  } catch (error) {
    if (!(error instanceof Unfit)) throw error;
    return other(where);
  }
}

function other(where) {
  return Object.freeze({ ...where, kind: "other" });
}

/** The lines of a transcript, each with the number of the script's line that it answers.
 *
 * What stands before a reply answers the same line. What stands behind the last one answers the command behind that. A
 * last line without a line feed was cut off; where its number is whole, it is that of the command. */
export function readLines(transcript, commandBehind, place = 1) {
  const whole = transcript.split("\n");
  const cut = whole.pop();
  const read = [];
  const readUpTo = (end, command) => {
    for (let at = read.length; at < end; at += 1) read.push(readLine(whole[at], place + at, command));
  };
  let last = 0;
  whole.forEach((line, at) => {
    const reply = replied(line);
    if (reply === null) return;
    readUpTo(at + 1, reply);
    last = reply;
  });
  const command = read.length < whole.length || cut ? (replied(cut) ?? commandBehind(last)) : null;
  readUpTo(whole.length, command);
  if (cut) read.push(other({ text: cut, number: place + whole.length, command }));
  return read;
}

/** The lines of a transcript that was kept. The script tells to which command the last lines belong, where the fuel was
 * spent in it. */
export function readTranscript(transcript, script = "") {
  return readLines(transcript, (last) => nextCommand(cutLines(script), last));
}
