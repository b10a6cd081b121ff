// A session.
import assert from "node:assert/strict";
import { spawnSync } from "node:child_process";
import { readFileSync } from "node:fs";
import { setTimeout as after } from "node:timers/promises";
import { test } from "node:test";
import { ProgramDied, ProgramMissing, Session, SessionEnded } from "cepage";
import { example } from "./examples.js";
import { programOf } from "./program.js";

const CARD = "class Card\non Card connected : log in\n\n# the class is whole\ndefine x-card Card\n";

test("a command gives what it wrote", async () => {
  const page = new Session();
  await page.feed(`${CARD}create $html html\nappend doc $html\ncreate $card x-card\n`);
  const came = await page.command("append $html $card");
  assert.deepEqual(came.texts, ["call #3 connected", 'log "in"', "9: ok"]);
  assert.deepEqual(came.lines.map((line) => [line.number, line.command]), [[6, 9], [7, 9], [8, 9]]);
  assert.equal((await page.command("ask parent $card")).value, 2);
  assert.equal((await page.close()).status, "Done");
});

test("an example is what it is in one piece", async () => {
  for (const [name, trace] of [["review", true], ["faults", false], ["component", false], ["tabs", false]]) {
    const page = new Session({ trace });
    await page.feed(example(`${name}.script`));
    const { status, transcript } = await page.close();
    assert.equal(transcript, example(`${name}.transcript`));
    assert.equal(status, name === "faults" ? "BadLines" : "Done");
  }
});

test("some lines are not waited for", async () => {
  const page = new Session();
  const parts = ["class A", "on A connected : log in", "observe A k", " has A adopted", "associate A", "disable A shadow"];
  for (const line of ["", "  ", "# a comment", "  # another", ...parts]) {
    const { lines, reply } = await page.command(line);
    assert.deepEqual([lines, reply], [[], null]);
  }
  assert.equal(page.line, 10);
  assert.deepEqual((await page.command("define x-a A")).texts, ["11: ok"]);
  await page.close();
});

test("a refused part is answered with the next command", async () => {
  const page = new Session();
  assert.deepEqual((await page.command("on A connected : user press this")).texts, []);
  assert.deepEqual((await page.command("observe A k")).texts, []);
  const came = await page.command("create $a p");
  assert.deepEqual(came.texts, ["1: bad place", "2: throw TypeError", "3: #2"]);
  assert.deepEqual(came.lines.map((line) => line.command), [1, 2, 3]);
  assert.equal(came.node, 2);
  await page.command("has B connected");
  assert.equal((await page.close()).transcript, "1: bad place\n2: throw TypeError\n3: #2\n4: throw TypeError\n");
});

test("a refused line is answered", async () => {
  const page = new Session();
  assert.deepEqual((await page.command("frob")).texts, ["1: bad word"]);
  assert.deepEqual((await page.command(`text $t ${"x".repeat(5000)}`)).texts, ["2: bad long"]);
  assert.deepEqual((await page.command("class\tA")).texts, ["3: bad word"]);
  await page.close();
});

test("a line feed is refused", async () => {
  const page = new Session();
  await assert.rejects(page.command("create $a p\ncreate $b p"), TypeError);
  await assert.rejects(page.command("\ud800"), TypeError);
  assert.deepEqual((await page.command("create $a p")).texts, ["1: #2"]);
  await page.close();
});

test("the options", async () => {
  const page = new Session({ trace: true, fuel: 2 });
  assert.equal((await page.command("create $a p")).texts[0], "~ open 1");
  assert.deepEqual((await page.command("ask kids doc")).texts, ["fuel"]);
  await page.close();
});

test("many refused parts do not hang", async () => {
  const page = new Session();
  for (let k = 0; k < 8_000; k += 1) page.command(`class a${" ".repeat(40)}`);
  const came = await page.command("create $a p");
  assert.equal(came.lines.length, 8_001);
  assert.equal(came.node, 2);
  await page.close();
});

test("commands that are given at once are answered each", async () => {
  const page = new Session();
  const given = ["create $a p", "class a", "create $b p", "ask kids $a"].map((line) => page.command(line));
  const came = (await Promise.all(given)).map((command) => command.texts);
  assert.deepEqual(came, [["1: #2"], [], ["2: bad word", "3: #3"], ["4: empty"]]);
  await page.close();
});

test("nothing comes between the lines of a feed", async () => {
  const page = new Session();
  const fed = page.feed("class A\non A connected : log in\ndefine x-a A\ncreate $a x-a\n");
  const last = page.command("ask state $a");
  const whole = page.close();
  assert.deepEqual((await fed).map((command) => command.number), [3, 4]);
  assert.deepEqual((await last).texts, ["5: custom"]);
  assert.equal((await whole).status, "Done");
});

test("the fuel ends it", async () => {
  const page = new Session({ fuel: 1 });
  await page.command("ask kids doc");
  const spent = await page.command("create $a p");
  assert.deepEqual([spent.texts, spent.reply, spent.lines[0].command], [["fuel"], null, 2]);
  await assert.rejects(page.command("create $a p"), (error) => {
    assert.match(error.message, /the fuel was spent in line 2: create \$a p/);
    return error.status === "Fuel";
  });
  assert.equal((await page.close()).status, "Fuel");
});

test("the fuel ends one that reads on", async () => {
  const page = new Session({ program: programOf("read line; echo fuel; cat > /dev/null; exit 3") });
  assert.deepEqual((await page.command("create $a p")).texts, ["fuel"]);
  await assert.rejects(page.command("create $b p"), ({ status }) => status === "Fuel");
});

test("one that is disposed of is closed", async () => {
  const page = new Session();
  await page[Symbol.asyncDispose]();
  await assert.rejects(page.command("create $a p"), /it was closed/);
});

test("a closed one takes no line", async () => {
  const page = new Session();
  assert.equal((await page.close()).status, "Done");
  assert.equal((await page.close()).status, "Done");
  await assert.rejects(page.command("create $a p"), /it was closed/);
});

test("one that is closed while commands wait answers them", async () => {
  for (let k = 0; k < 20; k += 1) {
    const page = new Session();
    const given = page.command("create $a p");
    const { transcript } = await page.close();
    assert.deepEqual([transcript, (await given).texts], ["1: #2\n", ["1: #2"]]);
  }
  const refused = new Session({ boundary: "a-b" });
  const given = refused.command("create $a p");
  refused.close();
  await assert.rejects(given, /with status 2, Usage, at line 1: create/);
});

test("refused options end it", async () => {
  const page = new Session({ boundary: "a-b" });
  await assert.rejects(page.command("create $a p"), (error) => {
    assert.ok(error instanceof SessionEnded);
    assert.match(error.message, /with status 2, Usage/);
    return error.status === "Usage";
  });
  assert.equal((await page.close()).status, "Usage");
});

test("a dead program is told", async () => {
  const page = new Session({ program: programOf("read line; echo 'log \"in\"'; kill -9 $$") });
  await assert.rejects(page.command("create $a p"), /by the signal SIGKILL, at line 1: create/);
  await assert.rejects(page.command("create $a p"), /by the signal SIGKILL/);
  await assert.rejects(page.close(), ProgramDied);
});

test("a program that is killed between two lines", async () => {
  const page = new Session();
  await page.command("create $a p");
  process.kill(page.process, "SIGKILL");
  await assert.rejects(page.command("create $b p"), /SIGKILL/);
  await assert.rejects(page.close(), ProgramDied);
});

test("a program that is not there", async () => {
  const page = new Session({ program: "/nowhere/cepage" });
  await assert.rejects(page.command("create $a p"), ProgramMissing);
  await assert.rejects(page.command("create $a p"), ProgramMissing);
  await assert.rejects(page.close(), ProgramMissing);
});

test("a script that is too long", async () => {
  const page = new Session();
  const talk = async () => {
    for (let k = 0; k < 20; k += 1) await page.command("#".repeat(1_000_000));
    await page.command("create $a p");
  };
  await assert.rejects(talk(), /TooLong/);
  assert.equal((await page.close()).status, "TooLong");
  const long = new Session();
  await assert.rejects(long.command("a".repeat(17_000_000)), ({ message }) => {
    assert.match(message, /TooLong, at line 1: aaaa.* … and 16999700 characters more$/);
    return message.length < 500;
  });
});

test("a line that is cut off is kept", async () => {
  const page = new Session({ program: programOf("read line; printf '1: #2\\n2: #'; exit 6") });
  assert.equal((await page.command("create $a p")).node, 2);
  const { status, transcript } = await page.close();
  assert.deepEqual([status, transcript], ["NoMemory", "1: #2\n2: #"]);
  const within = new Session({ program: programOf("printf 'log \"\\303'; exit 6") });
  assert.deepEqual((await within.close()).bytes, Buffer.from('log "\xc3', "latin1"));
  const whole = new Session({ program: programOf("read line; printf 'log \"\\303\"\\n1: ok\\n'") });
  assert.deepEqual((await whole.command("create $a p")).lines[0].texts, ["\ufffd"]);
  assert.deepEqual((await whole.close()).bytes, Buffer.from('log "\xc3"\n1: ok\n', "latin1"));
});

test("one that is not closed keeps no process alive", async () => {
  const file = new URL("../index.js", import.meta.url).href;
  const script = `import { Session } from "${file}"; const page = new Session(); await page.command("create $a p"); console.log(page.process);`;
  const { status, stdout } = spawnSync(process.execPath, ["--input-type=module", "-e", script], { timeout: 20_000 });
  assert.equal(status, 0);
  for (let k = 0; k < 100 && isRunning(Number(stdout)); k += 1) await after(20);
  assert.equal(isRunning(Number(stdout)), false);
});

// One that has ended may stay in the table of processes until somebody asks for its status.
function isRunning(number) {
  try {
    return !/\) Z /.test(readFileSync(`/proc/${number}/stat`, "latin1"));
  } catch {
    return false;
  }
}
