'use strict';
// What docs/ say of the run in a browser: each reason leads to a heading that is there, and the test in docs/porting.md
// gives what stands behind it.

const fs = require('fs');
const path = require('path');

const DOCS = path.resolve(__dirname, '../../docs');
const BLANK = 'data:text/html,<!doctype html><title>test</title>';

// The anchors of a page, as GitHub names them.
function anchorsOf(file) {
  const text = fs.readFileSync(path.join(DOCS, file), 'utf8').replace(/^```[^]*?^```/gm, '');
  const anchorOf = ([, title]) => title.toLowerCase().replace(/[^a-z0-9 _-]/g, '').replace(/ /g, '-');
  return [...text.matchAll(/^#+ +(.*?) *$/gm)].map(anchorOf);
}

async function checkLinks(page) {
  const links = await page.evaluate(`[...CepageBrowser.reasons.rows, ...CepageBrowser.reasons.commands]
    .map(({ name, link }) => [name, link])`);
  return links.filter(([, link]) => !anchorsOf(link.split('#')[0]).includes(link.split('#')[1]))
    .map(([name, link]) => `the reason "${name}" leads to ${link}, which is not there`);
}

async function checkTest(browser) {
  const text = fs.readFileSync(path.join(DOCS, 'porting.md'), 'utf8');
  const [, code, wanted] = /^```js\n([^]*?)^```\n[^]*?^```\n([^]*?)^```/m.exec(text);
  const page = await browser.open(BLANK);
  const given = await page.evaluate(`(() => { ${code}\nreturn seen.map((one) => \`\${one}\\n\`).join(''); })()`);
  await page.close();
  return given === wanted ? [] : [`the test in docs/porting.md gives\n${given}and not\n${wanted}`];
}

async function checkDocs(browser, page) {
  return [...await checkLinks(page), ...await checkTest(browser)];
}

module.exports = { checkDocs };
