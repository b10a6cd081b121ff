'use strict';
// How the page is used, checked in the browser: by keys alone, in a screen reader's order, at each width, in light and
// dark.

const { Faults, frame, show, press } = require('./common.js');

// Tab alone reaches each part, in the order of reading, and goes round.
async function checkTab(page, faults) {
  await page.size(1280, 800);
  await show(page, 'trace');
  const order = ['example', 'open', 'brief', 'find', 'script-lines', 'tree', 'traced', 'transcript-lines', 'SUMMARY'];
  await page.evaluate('document.getElementById("example").focus()');
  const reached = ['example'];
  while (reached.length < 30 && reached.at(-1) !== order.at(-1)) {
    await page.key('Tab');
    reached.push(await page.evaluate('document.activeElement.id || document.activeElement.tagName'));
  }
  // Other buttons may stand between them.
  faults.same('Tab reaches', reached.filter((id) => order.includes(id)), order);
}

// Each key of the outline goes where it says.
async function checkKeys(page, faults) {
  await show(page, 'abandoned');
  await page.evaluate('document.getElementById("tree").focus()');
  const facts = await page.evaluate(`({ shown: [...Cepage.page.view.shown], faults: Cepage.page.run.faults,
    commands: Cepage.page.run.commands.filter((row) => Cepage.page.view.placeOf(row) >= 0),
    parents: Cepage.page.run.rows.map((row) => row.parent),
    reactions: [...Cepage.page.run.reactions.values()].map(({ due, end }) => [due, end]) })`);
  const { shown } = facts;
  const last = shown[shown.length - 1];
  faults.same('Home', await press(page, 'Home'), [shown[0]]);
  faults.same('ArrowDown', await press(page, 'ArrowDown', shown.length), [...shown.slice(1), last]);
  faults.same('ArrowUp', await press(page, 'ArrowUp', shown.length - 1), shown.slice(0, -1).reverse());
  faults.same('End', await press(page, 'End'), [last]);
  await press(page, 'Home');
  faults.same('n', await press(page, 'n', facts.faults.length), facts.faults);
  faults.same('p', await press(page, 'p', facts.faults.length - 1), facts.faults.slice(0, -1).reverse());
  await press(page, 'Home');
  faults.same(']', await press(page, ']', facts.commands.length - 1), facts.commands.slice(1));
  faults.same('[', await press(page, '[', facts.commands.length - 1), facts.commands.slice(0, -1).reverse());
  await press(page, 'Home');
  const paged = (await press(page, 'PageDown', 20)).at(-1);
  faults.same('PageDown', paged, last);
  faults.same('PageUp', (await press(page, 'PageUp', 20)).at(-1), shown[0]);
  for (const [due, end] of facts.reactions) {
    await page.evaluate(`Cepage.page.outline.focusRow(${due})`);
    faults.same(`Enter at row ${due}`, await press(page, 'Enter', 2), [end, due]);
  }
  await outwards(page, faults, facts);
}

// From each row the left arrow goes outwards up to the heading of its command.
async function outwards(page, faults, { shown, parents }) {
  for (const row of shown.filter((at, place) => place % 7 === 0)) {
    const wanted = [];
    for (let at = parents[row]; at >= 0; at = parents[at]) wanted.push(at);
    await page.evaluate(`Cepage.page.outline.focusRow(${row})`);
    faults.same(`ArrowLeft at row ${row}`, await press(page, 'ArrowLeft', wanted.length), wanted);
    if (wanted.length > 0 && shown[shown.indexOf(wanted[0]) + 1] === row) {
      await page.evaluate(`Cepage.page.outline.focusRow(${wanted[0]})`);
      faults.same(`ArrowRight at row ${wanted[0]}`, await press(page, 'ArrowRight'), [row]);
    }
  }
}

// The three panes are linked: a line of the script or of the transcript leads to its row, and a row lights its lines.
async function checkLinks(page, faults) {
  await show(page, 'trace');
  await page.evaluate('document.getElementById("brief").checked || document.getElementById("brief").click()');
  await page.evaluate('document.getElementById("script-lines").focus()');
  await press(page, 'End');
  const heading = await page.evaluate('document.querySelector("#tree .row.focused").textContent');
  faults.same('the last line of the script leads to', heading.includes('append $html $list'), true);
  await page.evaluate('document.getElementById("transcript-lines").focus()');
  await press(page, 'Home');
  const led = [];
  const lines = await page.evaluate('Cepage.page.run.lines.length');
  for (let at = 1; at < lines; at++) {
    await page.key('ArrowDown');
    led.push(await page.evaluate(`(() => {
      const { page } = Cepage;
      const row = page.run.rowOfLine[${at}];
      const out = page.view.placeOf(row) < 0;
      const lit = document.querySelector('#transcript-lines .line[data-at="${at}"]').classList.contains('lit');
      const words = document.getElementById('words').textContent;
      return lit && (out ? words.endsWith('It is left out of the drawing.') : page.outline.index === row);
    })()`));
  }
  faults.same('lines of the transcript that do not lead to their rows', led.filter((fits) => !fits).length, 0);
  await page.key('Enter');
  faults.same('Enter in a list leads to', await page.evaluate('document.activeElement.id'), 'tree');
}

// What is sought is found, forward and back, also behind the last row.
async function checkFind(page, faults) {
  await show(page, 'trace');
  await page.evaluate('document.getElementById("tree").focus()');
  await press(page, 'Home');
  await page.key('/');
  faults.same('/ leads to', await page.evaluate('document.activeElement.id'), 'find');
  await page.send('Input.insertText', { text: 'connected' });
  const line = () => page.evaluate('Cepage.page.run.rows[Cepage.page.outline.index].line + 1');
  const found = [];
  for (const key of ['Enter', 'Enter', 'Enter', 'Enter', 'Enter', 'Shift+Enter']) {
    await page.key(key);
    found.push(await line());
  }
  faults.same('connected is found at', found, [32, 33, 35, 40, 32, 40]);
  await page.send('Input.insertText', { text: ' nowhere' });
  await page.key('Enter');
  const words = await page.evaluate('document.getElementById("words").textContent');
  faults.same('what is not there', words, 'No line of the transcript has: connected nowhere');
}

// What only the row in focus has is found there; and where nothing is drawn, `/` leads to the field all the same.
async function checkFindAgain(page, faults) {
  await show(page, 'trace');
  const words = () => page.evaluate('document.getElementById("words").textContent');
  await page.evaluate('document.getElementById("find").value = "18: ok"; document.getElementById("find").focus()');
  const told = [];
  for (const key of ['Enter', 'Enter', 'Shift+Enter']) {
    await page.key(key);
    told.push((await words()).startsWith('Line 18: '));
  }
  faults.same('18: ok is found', told, [true, true, true]);
  await page.evaluate(`Cepage.page.opener.onOpen({ script: 'create $a p', transcript: '1: #2', names: {} })`);
  await page.evaluate('document.getElementById("tree").focus()');
  await page.key('/');
  const left = await page.evaluate('[document.activeElement.id, document.getElementById("path").textContent]');
  faults.same('where nothing is drawn', left, ['find', '']);
  await page.evaluate('document.getElementById("find").value = ""');
}

// The row in focus stays in the page where it is scrolled out of sight.
async function keepsFocus(page, faults) {
  await show(page, 'abandoned');
  await page.evaluate('document.getElementById("tree").focus()');
  const [first] = await press(page, 'Home');
  await page.evaluate('document.getElementById("tree").scrollTop = 1e6');
  await frame(page);
  const kept = await page.evaluate(`(() => {
    const rows = [...document.querySelectorAll('#tree .row')].map((row) => Number(row.dataset.row));
    return [rows[0], rows.length > 10 && rows[1] > 10, rows.every((row, at) => at === 0 || row > rows[at - 1])];
  })()`);
  faults.same('the row in focus is kept, before the others', kept, [first, true, true]);
}

// What a screen reader is told: the rows in their order, each in words, and the one in focus.
async function checkReader(page, faults) {
  await show(page, 'trace');
  await page.evaluate('document.getElementById("tree").focus()');
  await press(page, 'Home');
  await press(page, 'ArrowDown', 6);
  const words = await page.evaluate(`[...Cepage.page.view.shown].map((row) => Cepage.rowWords(Cepage.page.view, row))`);
  const tree = await page.accessibility();
  const items = tree.filter(({ role }) => role === 'treeitem').map(({ name }) => name);
  faults.same('the rows that are read', items, words.slice(0, items.length));
  faults.same('rows are read', items.length > 10, true);
  const said = await page.evaluate('document.getElementById("words").textContent');
  faults.same('the line below says', said, words[6]);
  await keepsFocus(page, faults);
  faults.same('panes are named', ['Script', 'Drawing', 'Transcript and trace'].every((name) => tree.some((node) => node.name === name)), true);
  faults.same('each button and field has a name', tree.filter(({ role, name }) => ['button', 'checkbox', 'combobox', 'tab'].includes(role) && !name).length, 0);
}

// At each width: as many panes as fit, nothing beyond the edge, and tabs for the others.
async function checkWidths(page, faults) {
  await show(page, 'busy');
  for (const [width, panes] of [[1280, 3], [1100, 3], [1000, 2], [760, 2], [759, 1], [390, 1], [320, 1]]) {
    await page.size(width, 700);
    await frame(page);
    const seen = await page.evaluate(`({ panes: [...document.querySelectorAll('.pane')].filter((pane) => pane.offsetParent).length,
      beyond: document.documentElement.scrollWidth - innerWidth, tall: document.documentElement.scrollHeight - innerHeight,
      rows: document.querySelectorAll('#tree .row').length })`);
    faults.same(`at ${width} pixels`, [seen.panes, Math.max(0, seen.beyond), Math.max(0, seen.tall)], [panes, 0, 0]);
    if (panes < 3) await checkTabs(page, faults, width, panes);
  }
  await page.size(1280, 800);
}

async function checkTabs(page, faults, width, panes) {
  const names = panes === 1 ? ['script', 'drawing', 'transcript'] : ['script', 'transcript'];
  for (const name of names) {
    await page.click(`#tab-${name}`);
    await frame(page);
    const seen = await page.evaluate(`[document.getElementById('${name}').offsetParent !== null,
      document.querySelectorAll('#${name} .line, #${name} .row').length > 5,
      [...document.querySelectorAll('.pane')].filter((pane) => pane.offsetParent).length]`);
    faults.same(`at ${width} pixels the tab ${name} shows its pane`, seen, [true, true, panes]);
  }
  await page.key('ArrowLeft');
  const chosen = await page.evaluate('document.querySelector("[role=tab][aria-selected=true]").id');
  faults.same(`at ${width} pixels the left arrow chooses`, chosen, panes === 1 ? 'tab-drawing' : 'tab-script');
  if (panes === 1) await page.click('#tab-drawing');
}

// Runs in the page: the texts that stand out too little from what is behind them.
function faint() {
  const pen = document.createElement('canvas').getContext('2d', { willReadFrequently: true });
  const colour = (text) => {
    pen.clearRect(0, 0, 1, 1);
    pen.fillStyle = text;
    pen.fillRect(0, 0, 1, 1);
    return [...pen.getImageData(0, 0, 1, 1).data];
  };
  const light = ([red, green, blue]) => [red, green, blue].map((part) => part / 255)
    .map((part) => part <= 0.04045 ? part / 12.92 : ((part + 0.055) / 1.055) ** 2.4)
    .reduce((sum, part, at) => sum + part * [0.2126, 0.7152, 0.0722][at], 0);
  const behind = (element) => {
    for (let at = element; at; at = at.parentElement) {
      const back = colour(getComputedStyle(at).backgroundColor);
      if (back[3] === 255) return back;
    }
    return [255, 255, 255, 255];
  };
  const found = [];
  for (const element of document.querySelectorAll('body *')) {
    const own = [...element.childNodes].some((node) => node.nodeType === 3 && node.data.trim());
    if (!own || !element.offsetParent || element.closest('option, select')) continue;
    const [one, other] = [light(colour(getComputedStyle(element).color)), light(behind(element))];
    const ratio = (Math.max(one, other) + 0.05) / (Math.min(one, other) + 0.05);
    if (ratio < 4.5) found.push(`${element.className || element.tagName} "${element.textContent.slice(0, 20)}" ${ratio.toFixed(2)}`);
  }
  return found;
}

// In light and dark each text stands out from what is behind it, by 4.5 to 1 (WCAG 2.2, 1.4.3).
async function checkContrast(page, faults) {
  for (const scheme of ['light', 'dark']) {
    await page.scheme(scheme);
    for (const name of ['abandoned', 'busy', 'trace', 'refused', 'tabs', 'review']) {
      await show(page, name);
      await page.evaluate('document.getElementById("tree").focus()');
      await press(page, 'n', 2);
      await frame(page);
      for (const text of await page.evaluate(faint)) faults.list.push(`${scheme}, ${name}: ${text}`);
    }
  }
  await page.scheme('light');
}

async function checkUse(page) {
  const faults = new Faults();
  await checkTab(page, faults);
  await checkKeys(page, faults);
  await checkLinks(page, faults);
  await checkFind(page, faults);
  await checkFindAgain(page, faults);
  await checkReader(page, faults);
  await checkWidths(page, faults);
  await checkContrast(page, faults);
  return { faults: faults.list, told: 'use: keys, links, what is read, seven widths, contrast in light and dark' };
}

module.exports = { checkUse };
