// The types name what the package exports.
import assert from "node:assert/strict";
import { readFileSync } from "node:fs";
import { test } from "node:test";
import * as cepage from "cepage";

const types = readFileSync(new URL("../index.d.ts", import.meta.url), "utf8");

test("each value is declared, and nothing else", () => {
  const declared = [...types.matchAll(/^export (?:class|function|const) (\w+)/gm)].map((found) => found[1]);
  assert.deepEqual(declared.sort(), Object.keys(cepage).sort());
});

test("each member of the classes is declared, and nothing else", () => {
  const below = types.slice(types.indexOf("interface Selection"));
  const members = (name) => {
    const body = below.match(new RegExp(`(?:class|interface) ${name} {\n(.*?)\n}`, "s"))[1];
    const found = [...body.matchAll(/^  (?:readonly )?(?:(\w+)|\[Symbol\.(\w+)\])[(?:<]/gm)];
    return found.map(([, name, symbol]) => name ?? Symbol[symbol]).filter((it) => it !== "constructor");
  };
  const page = new cepage.Session();
  const run = cepage.run("create $a p");
  for (const [value, names] of [
    [page, members("Session")],
    [run, [...members("Run"), ...members("Selection")]],
    [run.commands[0], [...members("Command"), ...members("Selection")]],
  ]) {
    assert.deepEqual(names.filter((it) => !(it in value)), []);
    const own = new Set([...Object.keys(value), ...inherited(value)]);
    assert.deepEqual([...own].filter((it) => !names.includes(it)), []);
  }
});

function inherited(value) {
  const names = [];
  for (let it = Object.getPrototypeOf(value); it !== Object.prototype; it = Object.getPrototypeOf(it)) {
    names.push(...Reflect.ownKeys(it).filter((name) => name !== "constructor"));
  }
  return names;
}
