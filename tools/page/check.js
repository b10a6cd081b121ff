'use strict';
// node tools/page/check.js [--program PATH] [--quick] [--pictures]: opens docs/page/index.html from disk in a headless Chromium and
// checks that it draws the runs of examples/ as their traces say, that it names actions rightly, that long traces stay
// usable, that it is used by keys alone and read in order, that it stands what it can't read, that nothing leaves it and
// nothing is said on its console. PATH is the program cepage, by default crates/cepage/out/cepage, which makes traces. CHROMIUM names another
// Chromium. With --quick the examples are not scrolled through; with --pictures those of docs/page/pictures are made too. The status is 1 where a check fails.

const path = require('path');
const { launch } = require('./chromium.js');
const { load, PAGE } = require('./load.js');
const { checkModel, numbers } = require('./model.js');
const { checkTruth } = require('./truth.js');
const { checkDrawing, checkLong } = require('./drawing.js');
const { checkUse } = require('./use.js');
const { checkOpened } = require('./opened.js');
const { takePictures } = require('./pictures.js');
const { made, PROGRAM } = require('./made.js');

function words(given) {
  const at = given.indexOf('--program');
  return { program: at < 0 ? PROGRAM : given[at + 1], quick: given.includes('--quick'),
    pictures: given.includes('--pictures') };
}

// What the page asked for, and what it complained of.
function checkQuiet(page) {
  const folder = new URL(`file://${PAGE}/`).href;
  const faults = page.requests.filter((url) => !url.startsWith(folder)).map((url) => `the page asks for ${url}`);
  faults.push(...page.complaints.map((text) => `the console says: ${text}`));
  const told = `quiet: ${page.requests.length} requests, ${page.complaints.length} complaints of the console`;
  return { faults, told };
}

async function main() {
  const { program, quick, pictures } = words(process.argv.slice(2));
  const Cepage = load();
  const runs = made(program);
  const browser = await launch();
  console.log(await browser.version());
  let failed = 0;
  const tell = ({ faults, told }) => {
    console.log(told);
    faults.slice(0, 20).forEach((fault) => console.log(`    ${fault}`));
    failed += faults.length;
  };
  tell(checkModel(Cepage));
  tell(checkTruth(Cepage, program, numbers(20261130), 60));
  const page = await browser.open(path.join(PAGE, 'index.html'), 1280, 800);
  if (!quick) tell(await checkDrawing(page, Cepage.examples));
  if (!quick) tell(await checkDrawing(page, Cepage.examples.filter((example, at) => at % 8 === 0), 390));
  await page.size(1280, 800);
  tell(await checkLong(page, runs));
  tell(await checkUse(page));
  tell(await checkOpened(page));
  tell(checkQuiet(page));
  if (pictures) tell(await takePictures(browser, runs));
  await browser.close();
  console.log(failed === 0 ? 'page: all is as it should be' : `page: ${failed} faults`);
  process.exitCode = failed === 0 ? 0 : 1;
}

main().catch((error) => {
  console.error(error);
  process.exit(1);
});
