// The files of docs/checking.
import assert from "node:assert/strict";
import { spawnSync } from "node:child_process";
import { mkdtempSync, rmSync, writeFileSync } from "node:fs";
import { tmpdir } from "node:os";
import { join } from "node:path";
import { test } from "node:test";
import { fileURLToPath } from "node:url";
import { run } from "cepage";
import { sent } from "../../../docs/checking/sent.mjs";
import { programOf } from "./program.js";
import { spelled } from "./spelled.js";

const FORM = "create $html html\nappend doc $html\ncreate $form form\nsetattr $form method post\nappend $html $form\n";

test("a body with U+2028 and U+2029 is read", async () => {
  const control = 'create $q input\nsetattr $q name q\nappend $form $q\nvalue $q "a\u2028b\u2029"\n';
  const script = `${FORM}setattr $form enctype text/plain\n${control}submit $form\n`;
  const { text } = run(script).submissions()[0];
  assert.match(text, /\u2028/);
  assert.deepEqual(await sent(text), {
    form: 3, method: "post", url: "http://page.test/", type: "text/plain", body: "q=a\u2028b\u2029\r\n", entries: null,
  });
  assert.equal(await sent("7: ok"), null);
  assert.deepEqual(await sent("submit #3 blocked invalid #5"), { form: 3, method: "blocked", cause: "invalid #5" });
});

test("quoted texts are read as they were written, long ones too", async () => {
  const texts = ["a".repeat(16_000_000), 'é\\n\n"\x1f'.repeat(50_000), '\\', '"', '\\"', '" "', '\\" \\', "\\u{1f}\x1f\\\\u{0}\0", "\\u0022\\n\t"];
  for (const [at, body] of texts.entries()) {
    const url = texts[texts.length - 1 - at];
    const line = spelled({ kind: "submit", form: 3, method: "post", url, mediaType: "text/plain", body, blocked: null, invalid: [] });
    const came = await sent(line);
    assert.ok(came.url === url && came.body === body, line.slice(0, 80));
  }
});

// Runs a file of docs/checking over a folder of these files, by a program that ends with this status.
function checked(words, files, status, variables) {
  const folder = mkdtempSync(join(tmpdir(), "cepage-"));
  for (const [name, text] of Object.entries(files)) writeFileSync(join(folder, name), text);
  const [name, ...rest] = words.map((word) => (word === "FOLDER" ? folder : word));
  const CEPAGE = programOf(`cat > /dev/null; exit ${status}`);
  const { NODE_TEST_CONTEXT, ...env } = { ...process.env, PAGES: folder, CEPAGE, ...variables };
  const ended = spawnSync(name, rest, { env, cwd: fileURLToPath(new URL("../../../docs/checking/", import.meta.url)) });
  rmSync(folder, { recursive: true });
  return { status: ended.status, told: `${ended.stdout}${ended.stderr}` };
}

test("compare.sh compares the status, and takes no odd one for equal", () => {
  const compared = (files, status) => checked(["sh", "compare.sh", "FOLDER"], { "a.script": "", "a.transcript": "", ...files }, status);
  for (const [files, status] of [[{}, 0], [{ "a.status": "3\n" }, 3], [{ "a.status": "0" }, 0]]) {
    assert.deepEqual(compared(files, status), { status: 0, told: "" });
  }
  const odd = "a.status has no status";
  for (const [text, told] of [["", odd], ["0\r\n", odd], ["0\n0\n", odd], ["3\n", "is 0, and not 3"]]) {
    const came = compared({ "a.status": text }, 0);
    assert.equal(came.status, 1, text);
    assert.ok(came.told.includes(told), came.told);
  }
});

// Of a row: the words, the status that is wanted, the transcript, and what the test says.
test("drive.test.mjs reads words as the program does, and refuses others", () => {
  const [spent, done] = ["1: #2\nfuel\n", "1: #2\n2: empty\n"];
  const rows = [
    ...["--fuel=2\n", "--fuel\n2\n", "--fuel=2"].map((words) => [words, "3\n", spent, ""]),
    ["--url=http://h/?a=b\n--boundary\nXX\n", "0", done, ""],
    ...["--frob\n", "--make\n5\n", "--fuel=\n", "--fuel\n", "--fuel=2\n--fuel=2\n", "--trace=on\n", "--url=\n", "\n", "--fuel=2\r\n"]
      .map((words) => [words, "0", done, "the words have"]),
    ...["", "0\r\n", "8\n"].map((status) => ["", status, done, "status has no status"]),
  ];
  const script = "create $a p\nask kids doc\n";
  const files = rows.flatMap(([words, status, transcript], at) =>
    Object.entries({ script, words, status, transcript }).map(([end, text]) => [`${at}.${end}`, text]));
  const drive = ["node", "--test", "--test-reporter=tap", "drive.test.mjs"];
  const { told } = checked(drive, Object.fromEntries(files), 0, { CEPAGE: process.env.CEPAGE ?? "cepage" });
  rows.forEach((row, at) => {
    const [, ended, said] = new RegExp(`^ *(ok|not ok) [0-9]+ - ${at}\\.script\n((?:.*\n)*?) *\\.\\.\\.$`, "m").exec(told) ?? assert.fail(told);
    assert.equal(ended, row[3] ? "not ok" : "ok", said);
    assert.ok(said.includes(row[3]), said);
  });
});
