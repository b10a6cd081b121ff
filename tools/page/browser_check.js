'use strict';
// Runs each script of examples/ in a headless Chromium by the page's own runner, and compares what it did with the
// program's transcript. It prints the counts of the marks of each; a difference without a reason is an error. Then
// come what docs/ say of it, how the pane is used, wrong transcripts, of which a reason may explain one in a hundred, runs
// that must be ended, and scripts that would fetch something.
//
//   node tools/page/browser_check.js             all of it
//   node tools/page/browser_check.js NAME ..     the examples whose names have NAME in them, with each row that differs
//   node tools/page/browser_check.js --write     all of it, and docs/in-chromium.md anew

const fs = require('fs');
const path = require('path');
const { launch } = require('./chromium.js');
const { checkDocs } = require('./browser_docs.js');
const { tableOf } = require('./browser_table.js');
const { checkHostile } = require('./browser_hostile.js');
const { checkLeaving } = require('./browser_leaving.js');
const { checkUse } = require('./browser_use.js');
const { checkWrong } = require('./browser_wrong.js');

const TOP = path.resolve(__dirname, '../..');
const PAGE = path.join(TOP, 'docs/page/index.html');
const TABLE = path.join(TOP, 'docs/in-chromium.md');
const FORMS_WANTED = 30;
// Lines that are about forms and their controls.
const FORM_WORDS = ['associate', 'user', 'formvalue', 'formlist', 'formnull', 'validity', 'custom', 'value', 'check', 'choose',
  'reset', 'submit', 'request', 'ask (owner|controls|disabled|candidate|valid|message|value|checked|saved)'];
const FORM_LINES = new RegExp(`^(on \\w+ \\w+ : )?(${FORM_WORDS.join('|')}) `, 'm');
// What Chromium says of a form that is not in the page, and of a `base` element, which the page's policy takes out.
const EXPECTED = [/Form submission canceled because the form is not connected/, /Setting the document's base URI/];

function examples() {
  const folder = path.join(TOP, 'examples');
  const folders = [folder, ...fs.readdirSync(folder, { withFileTypes: true }).filter((entry) => entry.isDirectory())
    .map((entry) => path.join(folder, entry.name)).sort()];
  return folders.flatMap((one) => fs.readdirSync(one).filter((file) => file.endsWith('.script')).sort()
    .map((file) => read(path.join(one, file))));
}

function read(file) {
  const beside = (ending) => file.replace(/script$/, ending);
  const words = fs.existsSync(beside('words')) ? fs.readFileSync(beside('words'), 'utf8').split('\n').filter(Boolean) : [];
  const bytes = fs.readFileSync(file);
  return {
    name: path.relative(path.join(TOP, 'examples'), file).replace(/\.script$/, ''),
    bytes: bytes.toString('base64'), text: bytes.toString('utf8'), words,
    transcript: fs.readFileSync(beside('transcript'), 'utf8'),
    isOnForms: FORM_LINES.test(bytes.toString('utf8')),
  };
}

// Runs in the page: one example, and what the comparison says of it. The result stays there for the wrong transcripts.
async function compareInPage({ name, bytes, words, transcript }) {
  const script = Uint8Array.from(atob(bytes), (sign) => sign.charCodeAt(0));
  const result = await CepageBrowser.run(script, words);
  globalThis.results = { ...globalThis.results, [name]: result };
  const { counts, commands, ended } = CepageBrowser.compare(result, transcript);
  const rows = commands.flatMap(({ line, rows: all }) => all.map(({ mark, reason, program, browser }) => ({
    line, mark, reason: reason && { name: reason.name, link: reason.link }, program: program?.text, browser: browser?.text,
  })));
  return { counts, rows, ended, end: ended && CepageBrowser.describeEnd(ended), milliseconds: result.milliseconds };
}

function printExample({ name }, { counts, rows, ended, end }, isWhole) {
  const told = Object.entries(counts).filter(([, count]) => count).map(([mark, count]) => `${count} ${mark}`).join(', ');
  console.log(`${name}: ${told || 'no lines'}${ended ? `; it ended${ended.line ? ` in line ${ended.line}` : ''}: ${end}` : ''}`);
  for (const row of rows) {
    if (row.mark === 'same' || (row.mark !== 'unexplained' && !isWhole)) continue;
    console.log(`    ${row.line}: ${row.mark}${row.reason ? ` (${row.reason.name})` : ''}`);
    console.log(`        program: ${row.program}\n        browser: ${row.browser}`);
  }
}

function summary(all) {
  const whole = all.filter(({ comparison }) => !comparison.ended);
  const of = (mark) => all.reduce((sum, { comparison }) => sum + comparison.counts[mark], 0);
  return {
    scripts: all.length, whole: whole.length, forms: whole.filter(({ example }) => example.isOnForms).length,
    identical: whole.filter(({ comparison }) => comparison.rows.every(({ mark }) => mark === 'same')).length,
    same: of('same'), explained: of('explained'), unexplained: of('unexplained'), notAsked: of('notAsked'), notRun: of('notRun'),
  };
}

// What the page must not do: complain, and ask for anything but its files.
function complaintsOf(page) {
  const complaints = page.complaints.filter((text) => !EXPECTED.some((expected) => expected.test(text)));
  return complaints.map((text) => `the console: ${text}`);
}

function requestsOf(page) {
  return page.requests.filter((url) => !/^(file|about|blob):/.test(url)).map((url) => `a request left the page: ${url}`);
}

async function main(words) {
  const names = words.filter((word) => !word.startsWith('--'));
  const browser = await launch();
  const page = await browser.open(PAGE);
  const chosen = examples().filter(({ name }) => !names.length || names.some((part) => name.includes(part)));
  const all = [];
  for (const example of chosen) {
    const comparison = await page.evaluate(compareInPage, example);
    printExample(example, comparison, names.length > 0);
    all.push({ example, comparison });
  }
  const found = summary(all);
  console.log(JSON.stringify(found));
  const faults = found.unexplained ? [`${found.unexplained} lines differ without a reason`] : [];
  faults.push(...complaintsOf(page));
  if (!names.length) {
    if (found.forms < FORMS_WANTED) faults.push(`only ${found.forms} scripts on forms run whole`);
    faults.push(...await checkDocs(browser, page), ...await checkUse(page));
    faults.push(...await checkWrong(page, all), ...await checkHostile(page));
  }
  faults.push(...requestsOf(page));
  if (!names.length) faults.push(...await checkLeaving(page));
  if (words.includes('--write')) fs.writeFileSync(TABLE, tableOf(all, found, await browser.version()));
  await browser.close();
  for (const fault of faults) console.error(`browser_check: ${fault}`);
  process.exitCode = faults.length ? 1 : 0;
}

main(process.argv.slice(2)).catch((error) => {
  console.error(error);
  process.exitCode = 2;
});
