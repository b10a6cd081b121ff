// The reader of a transcript's lines.
import assert from "node:assert/strict";
import { test } from "node:test";
import { readLine, readTranscript, run } from "cepage";
import { example, examples } from "./examples.js";
import { spelled } from "./spelled.js";

const answer = (what, value = null) => ({ answer: { what, value } });
const fault = (name, text = null) => ({ fault: { name, text } });
const queue = (event, number) => ({ event, queue: number });

// A line, its kind, and what its parts are.
const LINES = [
  ["construct Card", "construct", { className: "Card" }],
  ["call #3 connected", "call", { element: 3, callback: "connected", arguments: [] }],
  ["call #3 disconnected", "call", { callback: "disconnected", arguments: [] }],
  ['call #3 attribute "open" null ""', "call", { callback: "attribute", arguments: ["open", null, ""] }],
  ["call #3 adopted #1 #7", "call", { callback: "adopted", arguments: [1, 7] }],
  ["call #3 formAssociated #4", "call", { callback: "formAssociated", arguments: [4] }],
  ["call #3 formAssociated null", "call", { callback: "formAssociated", arguments: [null] }],
  ["call #3 formDisabled true", "call", { callback: "formDisabled", arguments: [true] }],
  ["call #3 formDisabled false", "call", { callback: "formDisabled", arguments: [false] }],
  ["call #3 formReset", "call", { callback: "formReset", arguments: [] }],
  ['call #3 formStateRestore "s" autocomplete', "call", { arguments: ["s", "autocomplete"] }],
  ['log "a b" "" "é"', "log", { texts: ["a b", "", "é"] }],
  ['log "\\"\\\\\\n\\r\\t\\u{0}\\u{7f}\\\\n"', "log", { texts: ['"\\\n\r\t\0\x7f\\n'] }],
  ["log", "log", { texts: [] }],
  ["ask null", "ask", answer("null")],
  ["ask #1", "ask", answer("node", 1)],
  ["caught TypeError", "caught", fault("TypeError")],
  ['report user "no"', "report", fault("user", "no")],
  ['submit #3 get "http://h/?a=b+c#d"', "submit", { url: "http://h/?a=b+c#d", entries: [["a", "b c"]] }],
  ['submit #3 post "http://h/" "text/plain" "a=b\\r\\n"', "submit", { body: "a=b\r\n", entries: [["a", "b"]] }],
  ["submit #3 blocked invalid #5 #4", "submit", { blocked: "invalid", invalid: [5, 4] }],
  ["submit #3 blocked url", "submit", { form: 3, method: "blocked", blocked: "url", entries: null }],
  ["7: ok", "reply", answer("ok")],
  ["7: ignored", "reply", answer("ignored")],
  ["7: #12", "reply", answer("node", 12)],
  ["7: #12 #9", "reply", answer("nodes", [12, 9])],
  ['7: "ok"', "reply", answer("text", "ok")],
  ['7: ""', "reply", answer("text", "")],
  ['7: "a" "b"', "reply", answer("texts", ["a", "b"])],
  ["7: null", "reply", answer("null")],
  ["7: empty", "reply", answer("empty", [])],
  ["7: list", "reply", answer("list")],
  ["7: yes", "reply", answer("truth", true)],
  ["7: no", "reply", answer("truth", false)],
  ["7: precustomized", "reply", answer("state", "precustomized")],
  ["7: valid", "reply", answer("flags", [])],
  ["7: valueMissing customError", "reply", answer("flags", ["valueMissing", "customError"])],
  ["7: throw NotFoundError", "reply", answer("throw", { name: "NotFoundError", text: null })],
  ['7: throw user "#2"', "reply", answer("throw", { name: "user", text: "#2" })],
  ["7: bad place", "reply", answer("bad", "place")],
  ["fuel", "fuel", {}],
  ["~ open 5", "trace", queue("open", 5)],
  ["~ enq 1 #3 upgrade 0", "trace", { reaction: 1, element: 3, enqueued: "upgrade", queue: 0 }],
  ["~ enq 1 #3 formReset 0", "trace", { event: "enq", enqueued: "formReset" }],
  ["~ drain 0", "trace", queue("drain", 0)],
  ["~ start 2", "trace", { event: "start", reaction: 2 }],
  ["~ finish 2", "trace", { event: "finish", reaction: 2 }],
  ["~ up #3", "trace", { event: "up", element: 3 }],
  ["~ done #3", "trace", { event: "done", element: 3 }],
  ["~ drop 2", "trace", { event: "drop", reaction: 2 }],
  ["~ threw #3", "trace", { event: "threw", element: 3 }],
  ["~ close 5", "trace", queue("close", 5)],
];

// Lines that no transcript has.
const OTHERS = [
  "", " ", "construct", "construct card", "construct A B", `construct ${"A".repeat(33)}`, "call", "call #3", "call 3 connected", "call #3 clicked",
  "call #3 constructor", "call #3 toString", "call #3 connected ", "call  #3 connected", "call #03 connected",
  "call #3 adopted #1", "call #3 adopted #1 null", 'call #3 attribute "k" null', 'call #3 attribute null null ""', "call #3 formDisabled yes",
  'call #3 formStateRestore "s" other', "log a", 'log"a"', 'log "a', 'log "a""b"', 'log "a"x"b"', 'log "\\u{007f}"', 'log "\\q"', 'log "\\u{}"',
  'log "\\u{7F}"', 'log "\\u{41}"', 'log "\\u{a}"', 'log "\\u{01}"', 'log "\\u{80}"', 'log "\t"', "ask", "ask ok", "ask a", "caught", "caught Error", "caught user", "report TypeError x",
  "submit #3", "submit #3 get", "submit #3 get http://h/", 'submit #3 post "u" "t"', "submit #3 blocked",
  "submit #3 blocked late", "submit #3 blocked invalid x", "7:", "7: ", "7 : ok", "07: ok", "x7: ok", "7: OK", "7: ok ok",
  "7: throw", "7: throw user", "7: bad", "7: bad later", "7: #1 x", '7: "a" #1', "7: valid valueMissing",
  "7: valueMissing valid", "1234567890123456: ok", "fuel ", "fuel 1", "~", "~ open", "~ open #1", "~ enq 1 #3 constructor 0",
  "~ enq 1 #3 upgrade", "~ up 3", "~open 5", "-7: ok", "٧: ok", "__proto__", "constructor",
];

test("each kind of line has its parts", () => {
  for (const [text, kind, parts] of LINES) {
    const line = readLine(text, 9, kind === "reply" ? 7 : null);
    assert.deepEqual([line.kind, line.text, line.number], [kind, text, 9]);
    for (const [name, part] of Object.entries(parts)) assert.deepEqual(line[name], part, `${name} of ${text}`);
    assert.equal(spelled(line), text);
  }
});

test("what no transcript has is other", () => {
  for (const text of OTHERS) assert.equal(readLine(text).kind, "other", text);
});

test("no line is too odd", () => {
  const signs = [...'"\\ #~:u{}0a\n\u2028é'];
  let state = 7;
  const below = (bound) => (state = (state * 48271) % 0x7fffffff) % bound;
  const kinds = new Set(["other", ...LINES.map(([, kind]) => kind)]);
  for (let k = 0; k < 5000; k += 1) {
    const text = [...LINES[below(LINES.length)][0]];
    for (let n = below(3); n >= 0; n -= 1) text.splice(below(text.length + 1), below(3), signs[below(signs.length)]);
    assert.ok(kinds.has(readLine(text.join(""), 1, 7).kind));
  }
});

test("no text is too long", () => {
  for (const [written, said, times] of [["a", "a", 16_000_000], ["é\\n\\u{1f}\\\"", 'é\n\x1f"', 4097]]) {
    const long = written.repeat(times);
    assert.ok(readLine(`log "${long}" "b"`).texts[0] === said.repeat(times));
    assert.equal(readLine(`log "${long}`).kind, "other");
    assert.equal(readLine(`log "${long}\\q"`).kind, "other");
  }
});

test("the examples are read whole", () => {
  const kinds = new Set();
  for (const name of examples(".transcript")) {
    for (const line of readTranscript(example(name))) {
      kinds.add(line.kind);
      assert.equal(line.kind === "other" ? null : spelled(line), line.text, name);
    }
  }
  assert.deepEqual(kinds, new Set(LINES.map(([, kind]) => kind)));
});

test("a line belongs to the reply behind it", () => {
  const lines = readTranscript('construct A\n5: #2\ncall #2 connected\nlog "k"\n16: ok\n');
  assert.deepEqual(lines.map((line) => line.command), [5, 5, 16, 16, 16]);
  assert.deepEqual(lines.map((line) => line.number), [1, 2, 3, 4, 5]);
});

test("what the fuel cuts off belongs to the next command", () => {
  const script = "create $a p\n\n# a comment\n  class A\non A connected : log in\nask kids doc\nask kids doc\n";
  const last = run(script, { fuel: 2, trace: true }).lines.at(-1);
  assert.deepEqual([last.kind, last.command], ["fuel", 6]);
  assert.equal(readTranscript("~ open 1\nfuel\n")[0].command, null);
});

test("a line that is cut off is other", () => {
  const lines = readTranscript("1: #2\n2: #1", "create $a p\ncreate $b p\n");
  assert.deepEqual(lines.map((line) => [line.kind, line.command]), [["reply", 1], ["other", 2]]);
  const part = readTranscript("1: #2\n2: bad ar", "create $a p\nclass\ncreate $b p\n");
  assert.deepEqual(part.map((line) => [line.kind, line.command]), [["reply", 1], ["other", 2]]);
});

test("a line ends at a line feed alone", () => {
  assert.deepEqual(readTranscript('log "\u0085\u2028"\n1: ok\n').map((line) => line.kind), ["log", "reply"]);
});
