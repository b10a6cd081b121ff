// Failures that read well.
import assert from "node:assert/strict";
import { test } from "node:test";
import { Failure, Session, run } from "cepage";
import { example } from "./examples.js";

const CARD = `class Card
on Card connected : log in
define x-card Card
create $html html
append doc $html
create $card x-card
append $html $card
`;

const TOLD = `line 7 of the script: append $html $card
expected:
      call #3 connected
    > log "out"
      7: ok
came:
      call #3 connected
    > log "in"
      7: ok
trace of the line:
    ~ open 5
      ~ enq 1 #3 connected 5
      ~ drain 5
      ~ start 1
        call #3 connected
        log "in"
      ~ finish 1
    ~ close 5
    7: ok`;

const card = run(CARD);
const last = card.command(7);

function told(call) {
  try {
    call();
  } catch (error) {
    assert.ok(error instanceof Failure && error instanceof assert.AssertionError);
    return error.message;
  }
  return assert.fail("it fails nothing");
}

test("the line, what was expected, what came, and the trace", () => {
  assert.equal(told(() => last.expect("call #3 connected", 'log "out"', "ok")), TOLD);
});

test("the same in a session and with the trace", async () => {
  const page = new Session();
  const came = (await page.feed(CARD)).at(-1);
  await page.command("detach $card");
  assert.equal(told(() => came.expect("call #3 connected", 'log "out"', "ok")), TOLD);
  await page.close();
  const traced = run(CARD, { trace: true });
  assert.match(told(() => traced.command(7).expect("ok")), /trace of the line:\n    ~ open 5\n/);
});

test("what is as expected fails nothing", () => {
  card.expectStatus("Done");
  last.expect("call #3 connected", 'log "in"', "ok");
  last.expect(...last.texts);
  last.expectReply("ok");
  last.expectHeard(3, "connected");
  last.expectHeard(2);
});

test("a line too few or too many", () => {
  for (const lines of [["call #3 connected", "ok"], ["call #3 connected", 'log "in"', 'log "in"', "ok"], ["7: ok", "ok"], [...last.texts.slice(0, 2), "#9"]]) {
    assert.match(told(() => last.expect(...lines)), /expected:\n/);
  }
  assert.match(told(() => last.expect()), /expected:\n    nothing\n/);
});

test("a reply", () => {
  assert.match(told(() => last.expectReply("throw TypeError")), /expected:\n    throw TypeError\ncame:\n    ok\ntrace/);
  assert.match(told(() => run(CARD, { fuel: 1 }).commands.at(-1).expectReply("ok")), /came:\n    no reply\n/);
});

test("what an element heard", () => {
  const message = told(() => last.expectHeard(3, "disconnected", "connected"));
  assert.match(message, /expected:\n    disconnected connected\ncame:\n    call #3 connected\n/);
  assert.match(told(() => last.expectHeard(3)), /expected:\n    no callback\n/);
});

test("what was sent", () => {
  const review = run(example("review.script"));
  const [blocked, sent] = review.find("user press $publish");
  sent.expectSent(["title", "Good tea"], ["stars", "4"], ["do", "publish"]);
  const message = told(() => sent.expectSent(["title", "Good tea"], ["stars", "5"], ["do", "publish"]));
  assert.match(message, /    \["stars","5"\]\n[^]*    \["stars","4"\]\n/);
  assert.match(told(() => blocked.expectSent(["title", "Good tea"])), /came:\n    submit #3 blocked invalid #5\n/);
  assert.match(told(() => review.command(46).expectSent()), /came:\n    nothing\n/);
});

test("what was sent twice", () => {
  const script = "class A\non A connected : submit $f\non A connected : submit $f\ndefine x-a A\ncreate $h html\nappend doc $h\n";
  const twice = run(`${script}create $f form\nappend $h $f\ncreate $a x-a\nappend $f $a\n`).commands.at(-1);
  assert.deepEqual(twice.submissions().map((line) => line.entries), [[], []]);
  assert.match(told(() => twice.expectSent()), /expected:\n    one submission with\ncame:\n    submit #3 get/);
});

test("a node", () => {
  assert.match(told(() => last.node), /a reply that gives a node/);
});

test("the message of any assertion", () => {
  assert.match(last.explain(), /^line 7 of the script: append \$html \$card\nit wrote:\n/);
});

test("a status", () => {
  const refused = run("frob\nclass A\non A x : y\ncreate $a p\n");
  const message = told(() => refused.expectStatus("Done"));
  assert.match(message, /came:\n    BadLines\nsince:\n    line 1: bad word: frob\n    line 3: bad word: on A x : y/);
  const spent = run("create $a p\nclass A\n\ncreate $b p", { fuel: 3 });
  assert.match(told(() => spent.expectStatus("Done")), /line 4, in which the fuel of 3 was spent: create \$b p/);
});

test("of very many lines those about the difference are told", () => {
  const parts = `class A\n${"on A connected : log in\n".repeat(300)}define x-a A\n`;
  const many = run(`${parts}create $h html\nappend doc $h\ncreate $a x-a\nappend $h $a\n`).commands.at(-1);
  const message = told(() => many.expect(...many.texts.slice(0, -2), 'log "out"', "ok"));
  assert.match(message, /    > log "out"\n      306: ok\ncame:\n    behind 200 lines\n/);
  assert.match(message, /    > log "in"\n      306: ok\ntrace/);
});

test("of many lines all are told", () => {
  const parts = `class A\n${"on A connected : log in\n".repeat(150)}define x-a A\n`;
  const many = run(`${parts}create $h html\nappend doc $h\ncreate $a x-a\nappend $h $a\n`).commands.at(-1);
  assert.doesNotMatch(told(() => many.expect(...many.texts.slice(0, -2), 'log "out"', "ok")), /behind/);
});

test("of very many callbacks and entries those about the difference are told", () => {
  const parts = `class A\nobserve A k\nhas A attribute\n${"on A connected : setattr this k v\n".repeat(300)}define x-a A\n`;
  const many = run(`${parts}create $h html\nappend doc $h\ncreate $a x-a\nappend $h $a\n`).commands.at(-1);
  const heard = told(() => many.expectHeard(3, "connected", ...Array(299).fill("attribute"), "connected"));
  assert.match(heard, /came:\n    behind 200 lines\n/);
  assert.equal(heard.split("trace of")[0].split("    call #3 attribute").length - 1, 101);
  const numbers = Array.from({ length: 300 }, (_, k) => String(k));
  const inputs = numbers.map((k) => `create $i input\nsetattr $i name n\nsetattr $i value ${k}\nappend $f $i\n`).join("");
  const sent = run(`create $h html\nappend doc $h\ncreate $f form\nappend $h $f\n${inputs}submit $f\n`).commands.at(-1);
  const entries = numbers.map((k) => ["n", k]);
  sent.expectSent(...entries);
  const message = told(() => sent.expectSent(...entries.slice(0, -1), ["n", "other"]));
  assert.match(message, /    \["n","other"\]\ncame:\n    behind 200 lines\n/);
  assert.match(message, /    \["n","299"\]\ntrace/);
});

test("of very many lines the first are told", () => {
  const script = "class A\nobserve A k\non A attribute : setattr this k v\ndefine x-a A\ncreate $a x-a\nsetattr $a k v\n";
  const message = told(() => run(script, { fuel: 1000 }).commands.at(-1).expect("ok"));
  assert.match(message, /and [0-9]+ lines more/);
  assert.ok(message.split("\n").length < 500);
});
