// A script that is run.
import assert from "node:assert/strict";
import { spawnSync } from "node:child_process";
import { once } from "node:events";
import { mkdtempSync, rmSync, symlinkSync, writeFileSync } from "node:fs";
import { tmpdir } from "node:os";
import { dirname, join } from "node:path";
import { test } from "node:test";
import { Worker } from "node:worker_threads";
import { CepageError, ProgramDied, ProgramMissing, Session, run } from "cepage";
import { example } from "./examples.js";
import { programOf } from "./program.js";

const FIRST = example("first.script");

test("the status and the transcript", () => {
  const first = run(FIRST);
  assert.equal(first.status, "Done");
  assert.equal(first.transcript, example("first.transcript"));
  assert.deepEqual(first.bytes, Buffer.from(example("first.transcript")));
});

test("each status has its name", () => {
  assert.equal(run("frob").status, "BadLines");
  assert.equal(run(FIRST, { fuel: 0 }).status, "Usage");
  assert.equal(run(FIRST, { fuel: 1 }).status, "Fuel");
  assert.equal(run(`${"#".repeat(4096)}\n`.repeat(4096)).status, "TooLong");
});

test("options that are refused", () => {
  for (const options of [
    { fuel: -1 }, { fuel: 200_001 }, { fuel: 2 ** 32 + 2 }, { fuel: 1e30 }, { url: "page.test" }, { boundary: "a-b" },
    { url: `http://h/${"a".repeat(300_000)}` }, { boundary: "B".repeat(300_000) },
  ]) {
    for (const library of [undefined, false]) {
      const { status, bytes } = run(FIRST, { ...options, library });
      assert.deepEqual([status, bytes.length], ["Usage", 0], JSON.stringify(options).slice(0, 80));
    }
  }
  assert.equal(run(`${"#".repeat(4000)}\n`.repeat(1000), { fuel: 0, library: false }).status, "Usage");
});

test("what no option can be", () => {
  for (const options of [{ fuel: "2" }, { fuel: 1.5 }, { fuel: NaN }, { url: 5 }, { url: "http://h/\0" }, { url: "\ud800" }]) {
    assert.throws(() => run(FIRST, options), TypeError);
  }
  assert.throws(() => run(["class A"]), TypeError);
  assert.throws(() => run("\ud800"), TypeError);
});

test("each option says what its word says", () => {
  const { transcript } = run(example("submission/boundaries.script"), { boundary: "0D", url: "https://shop.test/" });
  assert.match(transcript, /boundary=0D/);
  assert.match(transcript, /"https:\/\/shop\.test\/"/);
  assert.equal(run(FIRST, { url: "", boundary: "" }).transcript, run(FIRST).transcript);
  assert.match(run(FIRST, { trace: true }).transcript, /^~ open 1\n/);
});

test("a script of bytes", () => {
  assert.equal(run(Buffer.from("\xff\ncreate $a p", "latin1")).transcript, "1: bad utf8\n2: #2\n");
  assert.equal(run(new Uint8Array()).transcript, "");
});

test("a transcript that is long", () => {
  const script = `create $a p\ntext $t "${"é".repeat(2000)}"\nappend $a $t\n${"ask kids $a\n".repeat(9_000)}`;
  assert.ok(run(script).bytes.length > 65_536);
  assert.deepEqual(run(script).bytes, run(script, { library: false }).bytes);
});

test("eight workers at once", async () => {
  const code = `import { parentPort, workerData } from "node:worker_threads";
import { run } from "${new URL("../index.js", import.meta.url)}";
parentPort.postMessage([0, 1, 2, 3, 4, 5].map((k) => run(workerData, { trace: k % 2 === 1 }).transcript).join(""));`;
  const script = example("review.script");
  const wanted = (run(script).transcript + run(script, { trace: true }).transcript).repeat(3);
  const file = new URL(`data:text/javascript,${encodeURIComponent(code)}`);
  const workers = Array.from({ length: 8 }, () => new Worker(file, { workerData: script }));
  for (const [came] of await Promise.all(workers.map((worker) => once(worker, "message")))) assert.equal(came, wanted);
});

const component = run(example("component.script"));

test("what a line did", () => {
  const opened = component.command(13);
  assert.equal(opened.source, 'setattr $card open ""');
  assert.deepEqual(opened.texts, ['call #3 attribute "open" null ""', 'log "open" "" ""', "13: ok"]);
  assert.deepEqual(opened.logs, [["open", "", ""]]);
  assert.deepEqual([opened.reply.what, opened.value], ["ok", null]);
});

test("what an element heard", () => {
  const card = component.find("create $card x-card")[0].node;
  assert.equal(card, 3);
  const heard = component.heard(card).map((call) => call.callback);
  assert.deepEqual(heard, ["connected", "attribute", "attribute", "disconnected"]);
  assert.deepEqual(component.heard(4), []);
});

test("a command is found by its spelling", () => {
  const found = run(`  create $a p  \ncreate   $b p\nlog a${" ".repeat(1_000_000)}b\n`);
  assert.deepEqual(["create $a p", "create   $b p"].map((source) => found.find(source)[0].number), [1, 2]);
  for (const source of ["  create $a p  ", "create $b p"]) assert.deepEqual(found.find(source), []);
});

test("what a form sent", () => {
  const [first, second, third] = run(example("review.script")).submissions(3);
  assert.deepEqual([first.blocked, first.invalid], ["invalid", [5]]);
  assert.deepEqual(second.entries, [["title", "Good tea"], ["stars", "4"], ["do", "publish"]]);
  assert.equal(third.entries, null);
});

test("a line that answers nothing", () => {
  assert.throws(() => component.command(2), /a part of a class: class Card/);
  assert.throws(() => component.command(99), /no line 99/);
  assert.throws(() => component.command(0), /no line 0/);
  const ended = run("ask kids doc\nask kids doc\nask kids doc\n", { fuel: 1 });
  assert.throws(() => ended.command(3), /behind the end of the session: ask kids doc/);
});

function withEnvironment(said, call) {
  const before = Object.fromEntries(Object.keys(said).map((name) => [name, process.env[name]]));
  Object.assign(process.env, said);
  try {
    call();
  } finally {
    for (const [name, value] of Object.entries(before)) {
      if (value === undefined) delete process.env[name];
      else process.env[name] = value;
    }
  }
}

test("the option comes before the environment, and that before the path", () => {
  const [given, named, onPath] = ["option", "environment", "path"].map((it) => programOf(`cat > /dev/null; echo 'log "${it}"'`));
  const path = `${dirname(onPath)}:${process.env.PATH}`;
  withEnvironment({ CEPAGE: named, PATH: path }, () => {
    assert.equal(run("", { program: given }).transcript, 'log "option"\n');
    assert.equal(run("", { library: false }).transcript, 'log "environment"\n');
  });
  withEnvironment({ CEPAGE: "", PATH: path }, () => assert.equal(run("", { library: false }).transcript, 'log "path"\n'));
});

test("it is found from another folder", () => {
  const file = programOf("cat > /dev/null; echo '1: #2'");
  const before = process.cwd();
  try {
    process.chdir(dirname(file));
    const came = run("create $a p", { program: "./cepage" });
    process.chdir(before);
    assert.deepEqual(came.traced().bytes, came.bytes);
  } finally {
    process.chdir(before);
  }
});

test("a program that is not there", () => {
  assert.throws(() => run("", { program: "/nowhere/cepage" }), ProgramMissing);
  assert.throws(() => run("", { program: "/nowhere/cepage" }), /no program "\/nowhere\/cepage", which the option program names/);
  withEnvironment({ CEPAGE: "/nowhere/cepage" }, () => assert.throws(() => run("", { library: false }), /which CEPAGE names/));
});

test("a program that dies", () => {
  assert.throws(() => run("", { program: programOf("kill -9 $$") }), /by the signal SIGKILL/);
  assert.throws(() => run("", { program: programOf("echo no room >&2; exit 127") }), /with status 127: no room/);
  assert.throws(() => run("", { program: programOf("exit 9") }), ProgramDied);
});

test("a program that does not start", async () => {
  const folder = mkdtempSync(join(tmpdir(), "cepage-"));
  const program = join(folder, "round");
  symlinkSync(program, program);
  const script = join(folder, "script");
  writeFileSync(script, "#!/nowhere/sh\n", { mode: 0o700 });
  for (const name of [program, script]) {
    const told = `the program "${name}" of the option program could not be used: `;
    const isTold = (error) => error instanceof CepageError && error.message.startsWith(told);
    assert.throws(() => run("", { program: name }), isTold);
    await assert.rejects(async () => {
      await new Session({ program: name }).command("create $a p");
    }, isTold);
  }
  rmSync(folder, { recursive: true });
  for (const name of ["", "a\0b"]) assert.throws(() => run("", { program: name }), CepageError);
});

test("a session for which no file can be opened", () => {
  const code = `import { openSync } from "node:fs";
import { CepageError, Session } from "${new URL("../index.js", import.meta.url)}";
new Session();
try { for (;;) openSync("/dev/null"); } catch {}
try { new Session(); } catch (error) { process.exitCode = error instanceof CepageError ? 0 : 1; }`;
  const ended = spawnSync("sh", ["-c", 'ulimit -n 60; exec "$0" --input-type=module -e "$1"', process.execPath, code]);
  assert.equal(ended.status, 0, ended.stderr.toString());
});

test("a library that is missing or another", () => {
  const folder = mkdtempSync(join(tmpdir(), "cepage-"));
  const file = (name, text) => {
    writeFileSync(join(folder, name), text);
    return join(folder, name);
  };
  for (const library of ["/nowhere/cepage.node", file("short.node", ""), file("other.js", "exports.start = () => 0;")]) {
    const told = (asker) => (error) =>
      error instanceof CepageError && error.cause && error.message.startsWith(`the library "${library}" of ${asker} could not be used: `);
    assert.throws(() => run("", { library }), told("the option library"));
    withEnvironment({ CEPAGE_ADDON: library }, () => {
      for (const program of [undefined, null]) assert.throws(() => run("", { program }), told("CEPAGE_ADDON"));
    });
  }
  const library = file("status.js", "exports.run = () => [99, 0];");
  assert.throws(() => run("", { library }), (error) => error instanceof ProgramDied && error.message === `${library} ended with status 99`);
  rmSync(folder, { recursive: true });
});
