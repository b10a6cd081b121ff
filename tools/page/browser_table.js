'use strict';
// The table of what each script of examples/ came to in the browser, as docs/in-chromium.md has it.

// The rows of a mark by their reasons: [{ reason, lines }], each line of the script once.
function byReason(rows, mark) {
  const found = new Map();
  for (const { reason, line } of rows.filter((row) => row.mark === mark && row.reason)) {
    if (!found.has(reason.name)) found.set(reason.name, { reason, lines: new Set() });
    found.get(reason.name).lines.add(line);
  }
  return [...found.values()].map(({ reason, lines }) => ({ reason, lines: [...lines] }));
}

function linesText(lines) {
  const shown = lines.slice(0, 8).join(', ');
  return lines.length > 8 ? `${shown} and ${lines.length - 8} more` : shown;
}

function otherwise(all) {
  return all.flatMap(({ example: { name }, comparison: { rows } }) => byReason(rows, 'explained').map(({ reason, lines }) => (
    `| \`${name}\` | ${linesText(lines)} | [${reason.name}](${reason.link}) |`)));
}

function endedEarly(all) {
  return all.filter(({ comparison }) => comparison.ended).map(({ example: { name }, comparison: { ended, end } }) => (
    `| \`${name}\` | ${ended.line} | ${end} |`));
}

// What was not asked, by its reason: how many scripts have such lines.
function notAsked(all) {
  const reasons = new Map();
  for (const { comparison: { rows } } of all) {
    for (const { reason } of byReason(rows, 'notAsked')) {
      reasons.set(reason.name, { reason, scripts: (reasons.get(reason.name)?.scripts || 0) + 1 });
    }
  }
  return [...reasons.values()].sort((one, other) => one.reason.name.localeCompare(other.reason.name))
    .map(({ reason, scripts }) => `| [${reason.name}](${reason.link}) | ${scripts} |`);
}

function tableOf(all, found, version) {
  const number = /\d+/.exec(version)[0];
  const early = endedEarly(all);
  return `# The examples in Chromium

The page of [porting.md](porting.md#in-your-own-browser) has run each script of \`examples/\` in Chromium ${number}, and compared what came of it with the transcript that stands beside the script. Of the ${found.scripts} scripts ${found.whole} ran whole, ${found.forms} of these on forms; ${found.identical} came out the same, line for line; no line differed without a reason. \`node tools/page/browser_check.js --write\` does this, and writes this page ([checking.md](checking.md#the-page-in-a-browser)).

## Where a run ended early

${early.length} scripts: the first column is the script, the second one the line at which its run ended.

| Script | Line | What ended it |
|---|---|---|
${early.join('\n')}

## Where Chromium answered otherwise

Each reason leads to the page that explains it. The lines are those of the script whose answers, or callbacks, differed. Where an element names its form by an \`id\`, the order in which Chromium tells such elements changes from run to run, so another run may name other lines there.

| Script | Lines | Why |
|---|---|---|
${otherwise(all).join('\n')}

## What was not asked

| Why | Scripts with such lines |
|---|---|
${notAsked(all).join('\n')}
`;
}

module.exports = { tableOf };
