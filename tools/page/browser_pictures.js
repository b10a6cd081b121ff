'use strict';
// The pictures of docs/porting.md: a comparison in which the browser departs, and a form that is blocked, with what
// each of its controls answers behind it.

const fs = require('fs');
const path = require('path');
const { smaller } = require('./png.js');
const { launch } = require('./chromium.js');

const TOP = path.resolve(__dirname, '../..');
const FOLDER = path.join(TOP, 'docs/page/pictures');
const LARGEST = 150000;
// The line of the script that stands at the top of the pane.
const PICTURES = [
  { file: 'browser-departs.png', example: 'browsers/upgrade_of_a_custom_element', line: 18, width: 1280, height: 642, scheme: 'light' },
  { file: 'browser-departs-narrow-dark.png', example: 'browsers/upgrade_of_a_custom_element', line: 18, width: 390, height: 700, scheme: 'dark' },
  { file: 'browser-blocked.png', example: 'submission/sign_up', line: 33, width: 1280, height: 752, scheme: 'light' },
];

// Runs in the page: puts the command of a line to the top. All have their heights then, also what is out of sight.
function scrollTo(line) {
  const list = document.querySelector('.browser-list');
  for (const one of list.querySelectorAll('.browser-command')) one.style.contentVisibility = 'visible';
  const command = [...list.querySelectorAll('.browser-command')]
    .find((one) => one.querySelector('.browser-number').textContent === String(line));
  const top = (element) => element.getBoundingClientRect().top;
  list.scrollTop += top(command) - top(list) - list.querySelector('.browser-heads').offsetHeight;
}

async function take(page, { file, example, line, width, height, scheme }) {
  await page.size(width, height);
  await page.scheme(scheme);
  await page.evaluate(`location.hash = ${JSON.stringify(example)}`);
  await page.until(`Cepage.page.example && Cepage.page.example.name === ${JSON.stringify(example)}`);
  await page.evaluate('document.getElementById("compare").click()');
  await page.until('document.querySelector(".browser-command") !== null');
  await page.evaluate(scrollTo, line);
  await page.evaluate('new Promise((resolve) => requestAnimationFrame(() => setTimeout(resolve)))');
  const whole = path.join(FOLDER, file);
  await page.picture(whole);
  fs.writeFileSync(whole, smaller(fs.readFileSync(whole)));
  return fs.statSync(whole).size;
}

async function main() {
  const browser = await launch();
  const page = await browser.open(path.join(TOP, 'docs/page/index.html'));
  for (const picture of PICTURES) {
    const size = await take(page, picture);
    console.log(`${picture.file}: ${size} bytes`);
    if (size > LARGEST) process.exitCode = 1;
  }
  await browser.close();
}

main().catch((error) => {
  console.error(error);
  process.exitCode = 2;
});
