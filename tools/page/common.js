'use strict';
// What checks in the browser share: an example is shown, a key pressed, and what is not as it should be is kept.

const frame = (page) => page.evaluate('new Promise((resolve) => requestAnimationFrame(() => setTimeout(resolve)))');

async function show(page, name) {
  await page.evaluate(`location.hash = ${JSON.stringify(name)}`);
  await page.until(`Cepage.page.example?.name === ${JSON.stringify(name)}`);
}

// Presses a key some times, and gives the row in focus behind each press.
async function press(page, key, times = 1) {
  const rows = [];
  for (let at = 0; at < times; at++) {
    await page.key(key);
    rows.push(await page.evaluate('Number(document.getElementById("tree").getAttribute("aria-activedescendant").slice(4))'));
  }
  return rows;
}

class Faults {
  constructor() {
    this.list = [];
  }

  same(what, given, wanted) {
    if (JSON.stringify(given) !== JSON.stringify(wanted)) {
      this.list.push(`${what}: ${JSON.stringify(given)} and not ${JSON.stringify(wanted)}`);
    }
  }
}

module.exports = { Faults, frame, show, press };
