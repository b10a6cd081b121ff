'use strict';
// How the pane is used, checked in the browser: by keys alone, at each width, with another script chosen meanwhile, with
// bytes that are not UTF-8, with a long script, and stopped.

const WIDTHS = [390, 620, 900, 1280];
const LONG = `create $html html\n${'setattr $html k v\n'.repeat(700)}`;
const LONG_TRANSCRIPT = `1: #2\n${Array.from({ length: 700 }, (none, at) => `${at + 2}: ok\n`).join('')}`;

// Scripts with the transcripts of the program: names by which a form hides what a document has; nodes that a constructor
// makes before its element is seen, and one that leaves the copy that it stands in.
const ODD = [
  [[
    'create $html html', 'append doc $html', 'create $f form', 'setattr $f name createElement', 'append $html $f',
    'create $g form', 'setattr $g name querySelector', 'append $html $g', 'create $k form',
    'setattr $k name childNodes', 'append $html $k', 'create $e constructor', 'setattr $e name execCommand',
    'append $f $e', 'ask kids doc', 'create $i input', 'setattr $i name a', 'append $f $i', 'user edit $i b',
    'submit $f',
  ], [
    '1: #2', '2: ok', '3: #3', '4: ok', '5: ok', '6: #4', '7: ok', '8: ok', '9: #5', '10: ok', '11: ok', '12: #6',
    '13: ok', '14: ok', '15: #2', '16: #7', '17: ok', '18: ok', '19: ok', 'submit #3 get "http://page.test/?a=b"',
    '20: ok',
  ]],
  [[
    'create $box div', 'create $x x-b', 'create $i input', 'append $box $x', 'append $box $i', 'check $i on',
    'class B', 'on B constructor : create $p p', 'on B constructor : super', 'on B constructor : detach this',
    'define x-b B', 'clone $copy $box deep', 'ask kids $copy', 'ask parent $p', 'class C',
    'on C constructor : create $q p', 'on C constructor : super', 'on C constructor : append this $q',
    'define x-c C extends div', 'create $d div is x-c', 'ask kids $d',
  ], [
    '1: #2', '2: #3', '3: #4', '4: ok', '5: ok', '6: throw TypeError', '11: ok', 'construct B', '12: #5', '13: #7',
    '14: null', '19: ok', 'construct C', '20: #9', '21: #10',
  ]],
];

async function choose(page, name) {
  await page.evaluate(`location.hash = ${JSON.stringify(name)}`);
  await page.until(`Cepage.page.example && Cepage.page.example.name === ${JSON.stringify(name)}`);
}

// Opens the pane by the key Enter on its button, and gives what it says of the run.
async function run(page) {
  await page.evaluate('document.getElementById("compare").focus()');
  await page.key('Enter');
  await page.until('document.querySelector(".browser-command") !== null');
  return page.evaluate('document.querySelector(".browser-summary").textContent');
}

const state = (page) => page.evaluate(`({ open: document.body.classList.contains('compares'), focus: document.activeElement.id,
  commands: document.querySelectorAll('.browser-command').length, frames: document.querySelectorAll('iframe').length })`);

class Faults {
  constructor() {
    this.list = [];
  }

  same(what, given, wanted) {
    if (JSON.stringify(given) !== JSON.stringify(wanted)) {
      this.list.push(`${what}: ${JSON.stringify(given)} and not ${JSON.stringify(wanted)}`);
    }
  }
}

// The script types into a control: the page keeps the focus all the same.
async function checkKeys(page, faults) {
  await choose(page, 'submission/sign_up');
  const told = await run(page);
  faults.same('the pane says', / (37 the same, 0 unexplained)\.$/.exec(told)?.[1], '37 the same, 0 unexplained');
  faults.same('behind Enter', await state(page), { open: true, focus: 'browser-close', commands: 32, frames: 0 });
  await page.key('Escape');
  faults.same('behind Escape', await state(page), { open: false, focus: 'compare', commands: 0, frames: 0 });
}

async function checkDifferences(page, faults) {
  await choose(page, 'busy');
  await run(page);
  await page.evaluate('document.querySelector(".browser-list").focus()');
  const found = [];
  for (let at = 0; at < 3; at++) {
    await page.key('n');
    found.push(await page.evaluate('document.querySelector(".browser-found .browser-number").textContent'));
  }
  faults.same('the key n goes to lines', found, ['20', '33', '44']);
  await page.click('.browser-only input');
  const seen = await page.evaluate('[...document.querySelectorAll(".browser-command")].filter((one) => one.offsetParent).length');
  faults.same('commands that differ', seen, await page.evaluate('document.querySelectorAll(".browser-differs").length'));
  for (const width of WIDTHS) {
    await page.size(width, 760);
    faults.same(`wider than ${width}`, await page.evaluate('document.documentElement.scrollWidth > innerWidth'), false);
  }
  await page.size(1280, 800);
  await choose(page, 'trace');
  faults.same('behind another script', (await state(page)).open, false);
}

async function checkOdd(page, faults) {
  for (const [script, transcript] of ODD.map((texts) => texts.map((lines) => `${lines.join('\n')}\n`))) {
    const counts = await page.evaluate(async (one, other) => (
      CepageBrowser.compare(await CepageBrowser.run(one), other).counts), script, transcript);
    faults.same('lines that are not the same', [counts.unexplained, counts.explained, counts.notRun], [0, 0, 0]);
  }
}

// Escape goes back also where the focus is on nothing.
async function checkEscape(page, faults) {
  await choose(page, 'trace');
  await run(page);
  await page.click('.browser-summary');
  await page.key('Escape');
  faults.same('behind a press on a text and Escape', (await state(page)).open, false);
}

async function checkBytes(page, faults) {
  for (const name of ['lines/limits', 'lines/tokens_bytes_are_counted', 'lines/tokens_first_fault']) {
    await choose(page, name);
    faults.same(`${name}: unexplained`, /(\d+) unexplained/.exec(await run(page))?.[1], '0');
    await page.key('Escape');
  }
}

async function checkLong(page, faults) {
  await page.evaluate(`(() => {
    const element = document.body.appendChild(document.createElement('div'));
    element.id = 'alone';
    globalThis.alone = CepageBrowser.show(element, ${JSON.stringify({ script: LONG, transcript: LONG_TRANSCRIPT })});
    return alone.start();
  })()`);
  const counted = () => page.evaluate('document.querySelectorAll("#alone .browser-command").length');
  faults.same('commands shown at first', await counted(), 300);
  await page.evaluate('document.querySelector("#alone .browser-more").click()');
  faults.same('commands shown then', await counted(), 600);
  const stopped = await page.evaluate(`(async () => {
    const running = alone.start();
    document.querySelector('#alone .browser-start').click();
    await running;
    return document.querySelector('#alone .browser-ended').textContent;
  })()`);
  faults.same('the button Stop', stopped,
    'The run ended: the reader stopped it, and the frame was taken away. What follows was not run.');
  await page.evaluate('document.getElementById("alone").remove()');
}

async function checkUse(page) {
  const faults = new Faults();
  await checkKeys(page, faults);
  await checkDifferences(page, faults);
  await checkOdd(page, faults);
  await checkEscape(page, faults);
  await checkBytes(page, faults);
  await checkLong(page, faults);
  return faults.list;
}

module.exports = { checkUse };
