'use strict';
// node tools/page/pictures.js [--program PATH] [FOLDER]: pictures of docs/page/ in a headless Chromium, wide and narrow,
// light and dark, to FOLDER, or to docs/page/pictures/ without it. PATH is the program cepage, by default crates/cepage/out/cepage, which makes
// the long trace.

const fs = require('fs');
const path = require('path');
const { smaller } = require('./png.js');
const { launch } = require('./chromium.js');
const { PAGE } = require('./load.js');
const { made, PROGRAM } = require('./made.js');
const { showOwn } = require('./drawing.js');

const SIZES = { wide: [1280, 720], narrow: [390, 780] };
const SCHEMES = ['light', 'dark'];
// No picture has more bytes.
const MOST = 150000;

// What each picture shows: the example and the line of its transcript that is in focus.
const EXAMPLES = { trace: 'trace:40', throws: 'abandoned:38', busy: 'busy:36' };

async function showExample(page, address) {
  await page.evaluate(`location.hash = ${JSON.stringify(address)}`);
  const [name] = address.split(':');
  await page.until(`Cepage.page.example?.name === ${JSON.stringify(name)}`);
  await page.evaluate(`Cepage.page.openHash()`);
}

// The long trace, at a place where much waits.
async function showLong(page, run) {
  await showOwn(page, run.script, run.trace);
  await page.evaluate(`Cepage.page.outline.focusPlace(Math.floor(Cepage.page.view.shown.length * 0.6))`);
}

async function take(page, folder, name, show) {
  const taken = [];
  for (const [size, [width, height]] of Object.entries(SIZES)) {
    for (const scheme of SCHEMES) {
      await page.size(width, height);
      await page.scheme(scheme);
      await show();
      await page.evaluate('new Promise((resolve) => requestAnimationFrame(() => setTimeout(resolve, 60)))');
      const file = path.join(folder, `${name}-${size}-${scheme}.png`);
      await page.picture(file);
      fs.writeFileSync(file, smaller(fs.readFileSync(file)));
      taken.push([file, fs.statSync(file).size]);
    }
  }
  return taken;
}

// Takes all of them, and tells how many there are, and the bytes of the least and of the largest.
async function takePictures(browser, runs, folder = path.join(PAGE, 'pictures')) {
  const page = await browser.open(path.join(PAGE, 'index.html'));
  const taken = [];
  for (const [name, address] of Object.entries(EXAMPLES)) {
    taken.push(...await take(page, folder, name, () => showExample(page, address)));
  }
  taken.push(...await take(page, folder, 'long', () => showLong(page, runs.deep)));
  await page.close();
  const faults = taken.filter(([, bytes]) => bytes > MOST).map(([file, bytes]) => `${file} has ${bytes} bytes`);
  const told = `pictures: ${taken.length}, of ${Math.min(...taken.map(([, bytes]) => bytes))} to `
    + `${Math.max(...taken.map(([, bytes]) => bytes))} bytes`;
  return { faults, told };
}

async function main() {
  const given = process.argv.slice(2);
  const at = given.indexOf('--program');
  const program = at < 0 ? PROGRAM : given.splice(at, 2)[1];
  const browser = await launch();
  const { faults, told } = await takePictures(browser, made(program), given[0]);
  await browser.close();
  console.log([told, ...faults].join('\n'));
  process.exitCode = faults.length === 0 ? 0 : 1;
}

if (require.main === module) {
  main().catch((error) => {
    console.error(error);
    process.exit(1);
  });
}

module.exports = { takePictures };
