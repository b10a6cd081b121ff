// A program of the shell in a folder of its own.
import { mkdtempSync, rmSync, writeFileSync } from "node:fs";
import { tmpdir } from "node:os";
import { join } from "node:path";

export function programOf(text) {
  const folder = mkdtempSync(join(tmpdir(), "cepage-"));
  process.on("exit", () => rmSync(folder, { recursive: true }));
  const file = join(folder, "cepage");
  writeFileSync(file, `#!/bin/sh\n${text}\n`, { mode: 0o700 });
  return file;
}
