// A test for each script of a folder, against the files beside it: `PAGES=folder node --test drive.test.mjs`. Without PAGES
// the folder is this one. CEPAGE names the program.
import assert from "node:assert/strict";
import { existsSync, readFileSync, readdirSync } from "node:fs";
import { join } from "node:path";
import { test } from "node:test";
// Where the package is installed: from "cepage".
import { STATUSES, run } from "../../bindings/node/index.js";

const folder = process.env.PAGES ?? import.meta.dirname;

// The options that the words of a file say, one word a line: a value stands in the next word, or behind `=`. What is no
// option of the package, as `--make`, is refused.
function optionsOf(text) {
  const words = text.split("\n");
  if (words.at(-1) === "") words.pop();
  const said = {};
  while (words.length) {
    const word = words.shift();
    const [, name, behind] = /^--(trace|fuel|url|boundary)(?:=(.*))?$/s.exec(word) ?? [];
    const value = name === "trace" ? behind === undefined : behind ?? words.shift();
    const fits = name && value && !(name in said) && (name !== "fuel" || /^[0-9]{1,9}$/.test(value));
    assert.ok(fits, `the words have "${word}", which the package does not take so`);
    said[name] = name === "fuel" ? Number(value) : value;
  }
  return said;
}

const scripts = readdirSync(folder).filter((name) => name.endsWith(".script"));
for (const name of scripts) {
  test(name, () => {
    const file = join(folder, name);
    const beside = (end) => file.replace(/script$/, end);
    const optional = (end, plain) => (existsSync(beside(end)) ? readFileSync(beside(end), "utf8") : plain);
    const status = optional("status", "0");
    assert.match(status, /^[0-7]\n*$/, `${beside("status")} has no status`);
    const came = run(readFileSync(file), optionsOf(optional("words", "")));
    came.expectStatus(STATUSES[Number(status)]);
    assert.equal(came.transcript, readFileSync(beside("transcript"), "utf8"));
  });
}
test("there are scripts", () => assert.notEqual(scripts.length, 0, `no script in ${folder}`));
