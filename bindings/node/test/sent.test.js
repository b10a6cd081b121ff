// What a form sent.
import assert from "node:assert/strict";
import { test } from "node:test";
import { entriesSent, run } from "cepage";
import { example } from "./examples.js";

const URLENCODED = "application/x-www-form-urlencoded";
const MULTIPART = "multipart/form-data; boundary=B";
const part = (name, value) => `--B\r\nContent-Disposition: form-data; name="${name}"\r\n\r\n${value}\r\n`;

test("a query", () => {
  for (const [url, entries] of [
    ["http://h/?a=b+c&d=%26%C3%A1#e?f=g", [["a", "b c"], ["d", "&á"]]],
    ["http://h/?", []],
    ["http://h/", []],
    ["http://h/??a=b", [["?a", "b"]]],
    ["http://h/?=&a=", [["", ""], ["a", ""]]],
  ]) {
    assert.deepEqual(entriesSent(url, null, null), entries, url);
  }
});

test("a body", () => {
  for (const [mediaType, body, entries] of [
    [URLENCODED, "a=b+c&a=%3D", [["a", "b c"], ["a", "="]]],
    [URLENCODED, "", []],
    ["text/plain", "a=b=c\r\nd=\r\n", [["a", "b=c"], ["d", ""]]],
    ["text/plain", "", []],
    ["text/plain", "a\r\nb=c\r\n", null],
    ["text/plain", "a=b", null],
    [MULTIPART, `${part("a%22\\", "x\r\n--C\r\n")}${part("", "é")}--B--\r\n`, [["a%22\\", "x\r\n--C\r\n"], ["", "é"]]],
    [MULTIPART, "--B--\r\n", []],
    [MULTIPART, part("a", "b"), null],
    [MULTIPART, "--B\r\n\r\nb\r\n--B--\r\n", null],
    [MULTIPART, `x\r\n${part("a", "b")}--B--\r\n`, null],
    [MULTIPART, `${part("a", "b").replace("form", "from")}--B--\r\n`, null],
    [MULTIPART, "", null],
    ["application/json", "{}", null],
  ]) {
    assert.deepEqual(entriesSent("http://h/", mediaType, body), entries, body);
  }
});

test("a form that sends by each encoding", () => {
  const sent = run(example("submission/encodings.script")).submissions();
  const entries = [["full name", "Ána Lee"], ["note", "50% & more\r\n1 + 1 = 2"], ['a"b\r\nc', "*-._~"]];
  for (const { mediaType, entries: came, text } of sent) {
    if (mediaType === null || mediaType === URLENCODED) assert.deepEqual(came, entries, text);
    else if (mediaType === "text/plain") assert.equal(came, null, text);
    else assert.deepEqual(came, [...entries.slice(0, 2), ["a%22b%0D%0Ac", "*-._~"]], text);
  }
  assert.equal(new Set(sent.map((line) => line.mediaType)).size, 4);
});
