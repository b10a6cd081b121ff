'use strict';
// The drawing, checked in the browser: each run is scrolled through from top to bottom, and what is seen on the way is
// held against the lines of its trace.

// These run in the page. What they find is kept in one object: for each reaction the rows where it became due and where it
// ended, what was drawn at each of them, the colour of each element, and what is wrong.

function nothingFound() {
  return { due: {}, end: {}, lane: {}, stub: {}, hues: {}, faults: [], most: 0, views: 0 };
}

function middleOf(row) {
  const box = row.getBoundingClientRect();
  return (box.top + box.bottom) / 2;
}

// The rows that are seen whole, from the top.
function rowsSeen(tree) {
  const frame = tree.getBoundingClientRect();
  return [...tree.querySelectorAll('.row')].filter((row) => {
    const box = row.getBoundingClientRect();
    return box.top >= frame.top - 1 && box.bottom <= frame.bottom + 1;
  }).sort((one, other) => middleOf(one) - middleOf(other));
}

// No row leaves a gap or is out of sight, and each element has one colour.
function lookAtRows(found, tree, rows) {
  rows.forEach((row, at) => {
    const gap = at > 0 ? middleOf(row) - middleOf(rows[at - 1]) - row.offsetHeight : 0;
    if (Math.abs(gap) > 1) found.faults.push(`row ${row.id} leaves a gap`);
    if (parseFloat(row.firstChild.style.paddingLeft) > tree.clientWidth * 0.75) found.faults.push(`row ${row.id} is out of sight`);
    for (const chip of row.querySelectorAll('.chip')) {
      const node = chip.querySelector('b').textContent;
      const hue = chip.style.getPropertyValue('--hue');
      if ((found.hues[node] ??= hue) !== hue) found.faults.push(`${node} has two colours`);
    }
  });
}

// The bars at a row are of what it stands within, that of the row right around it among them.
function lookAtBars(found, picture, rows) {
  const bars = [...picture.querySelectorAll('rect')].map((bar) => ({ box: bar.getBoundingClientRect(), within: Number(bar.dataset.within) }));
  const { run } = Cepage.page;
  for (const row of rows) {
    const index = Number(row.dataset.row);
    const y = middleOf(row);
    const here = bars.filter(({ box }) => box.top < y && y < box.bottom).map(({ within }) => within);
    const around = [...Cepage.page.view.around(index)];
    const { parent } = run.rows[index];
    const lacks = parent >= 0 && run.rows[parent].kind !== 'command' && !here.includes(parent);
    if (lacks || here.some((within) => !around.includes(within))) found.faults.push(`row ${index} has bars of ${here}`);
  }
}

// At a row where a reaction became due its lane or a stub begins; at one where it ended its lane ends, or a stub is there.
function lookAtEnds(found, picture, row, kind) {
  const number = row.dataset[kind];
  if (number === undefined) return;
  const top = picture.getBoundingClientRect().top;
  const at = (group, end) => {
    const path = group.querySelector('path');
    const y = top + path.getPointAtLength(end ? path.getTotalLength() : 0).y;
    return Math.abs(y - middleOf(row)) < 1.5;
  };
  const lane = picture.querySelector(`[data-lane="${number}"]`);
  const stubs = [...picture.querySelectorAll(`[data-stub="${number}"]`)];
  const hasLane = lane !== null && at(lane, kind === 'end');
  const hasStub = stubs.some((stub) => at(stub, false) && stub.querySelector('text').textContent === number);
  (found[kind][number] ??= []).push(row.id);
  if (hasLane) found.lane[`${kind} ${number}`] = true;
  if (hasStub) found.stub[`${kind} ${number}`] = true;
  if (!hasLane && !hasStub) found.faults.push(`reaction ${number}: nothing is drawn at its row ${kind}`);
  const dropped = lane !== null && lane.classList.contains('dropped') !== row.classList.contains('drop');
  if (kind === 'end' && dropped) found.faults.push(`reaction ${number}: its lane does not say whether it was dropped`);
  const tag = row.querySelector('.tag')?.textContent;
  if (tag !== number) found.faults.push(`reaction ${number}: its row ${kind} says ${tag}`);
}

// No two lanes lie over each other.
function lookAtLanes(found, picture) {
  const boxes = [...picture.querySelectorAll('.lane:not(.strong) > path:first-child')].map((path) => path.getBBox());
  boxes.sort((one, other) => one.x - other.x || one.y - other.y).forEach((box, at) => {
    const last = boxes[at - 1];
    const over = last && Math.abs(last.x - box.x) < 1 && last.y + last.height > box.y + 1;
    if (over) found.faults.push('two lanes lie over each other');
  });
}

// Looks at what is seen now.
function lookAtDrawing(found) {
  const tree = document.getElementById('tree');
  const picture = tree.querySelector('svg');
  if (!picture) return;
  const rows = rowsSeen(tree);
  found.most = Math.max(found.most, tree.querySelectorAll('.row').length);
  lookAtRows(found, tree, rows);
  lookAtBars(found, picture, rows);
  for (const row of rows) for (const kind of ['due', 'end']) lookAtEnds(found, picture, row, kind);
  lookAtLanes(found, picture);
}

// Scrolls through the run that is shown.
async function scrollThrough() {
  const tree = document.getElementById('tree');
  const found = nothingFound();
  const frame = () => new Promise((resolve) => requestAnimationFrame(() => setTimeout(resolve)));
  tree.scrollTop = 0;
  await frame();
  for (;;) {
    lookAtDrawing(found);
    found.views++;
    const before = tree.scrollTop;
    tree.scrollTop += Math.max(26, tree.clientHeight - 78);
    if (tree.scrollTop === before) return found;
    await frame();
  }
}

// What the lines of a trace say: the reactions that became due, and those that ended.
function told(trace) {
  const due = new Set();
  const ended = new Set();
  for (const line of trace.split('\n')) {
    const words = /^~ (enq|start|drop) ([0-9]+)/.exec(line);
    if (words) (words[1] === 'enq' ? due : ended).add(words[2]);
  }
  return { due, ended };
}

// Holds what was seen against the trace.
function compare(name, trace, found) {
  const faults = found.faults.slice(0, 20).map((text) => `${name}: ${text}`);
  const { due, ended } = told(trace);
  const once = (kind, number) => new Set(found[kind][number] ?? []).size;
  for (const number of due) {
    if (once('due', number) !== 1) faults.push(`${name}: reaction ${number} has ${once('due', number)} rows where it became due`);
    const wanted = ended.has(number) ? 1 : 0;
    if (once('end', number) !== wanted) faults.push(`${name}: reaction ${number} has ${once('end', number)} rows where it ended`);
    const drawn = (kind) => found[kind][`due ${number}`] && (!wanted || found[kind][`end ${number}`]);
    if (!drawn('lane') && !drawn('stub')) faults.push(`${name}: reaction ${number} has no lane and no two stubs`);
  }
  const more = [...Object.keys(found.due), ...Object.keys(found.end)].filter((number) => !due.has(number));
  if (more.length > 0) faults.push(`${name}: reaction ${more[0]} is drawn and not in the trace`);
  return faults;
}

async function prepare(page) {
  const parts = [nothingFound, middleOf, rowsSeen, lookAtRows, lookAtBars, lookAtEnds, lookAtLanes, lookAtDrawing, scrollThrough];
  await page.evaluate(`${parts.join('\n')}\nundefined`);
}

// Scrolls through each example, at this width.
async function checkDrawing(page, examples, width = 1280) {
  await page.size(width, 800);
  await prepare(page);
  const faults = [];
  const sums = { due: 0, lanes: 0, views: 0 };
  for (const { name, trace } of examples) {
    await page.evaluate(`location.hash = encodeURI(${JSON.stringify(name)})`);
    await page.until(`Cepage.page.example?.name === ${JSON.stringify(name)}`);
    const found = await page.evaluate('scrollThrough()');
    faults.push(...compare(name, trace, found));
    sums.due += Object.keys(found.due).length;
    sums.lanes += Object.keys(found.lane).filter((key) => key.startsWith('due')).length;
    sums.views += found.views;
  }
  const told = `drawing, ${width} pixels: ${examples.length} examples in ${sums.views} views, ${sums.due} reactions, ${sums.lanes} with a lane`;
  return { faults, told };
}

// Shows a run of the reader's own, and tells how long that took until it was seen.
async function showOwn(page, script, trace) {
  return page.evaluate(async (texts) => {
    const start = performance.now();
    Cepage.page.opener.take(texts);
    await new Promise((resolve) => requestAnimationFrame(() => setTimeout(resolve)));
    return performance.now() - start;
  }, [{ text: script, name: 'made.script' }, { text: trace, name: 'made.transcript' }]);
}

// Jumps about, and tells how long the middle jump and the longest one took, and how many rows there were at most.
function jump() {
  const tree = document.getElementById('tree');
  const times = [];
  let most = 0;
  for (let at = 0; at < 60; at++) {
    const start = performance.now();
    Cepage.page.outline.focusPlace(Math.floor((at * 0.61803) % 1 * Cepage.page.view.shown.length));
    tree.getBoundingClientRect();
    times.push(performance.now() - start);
    most = Math.max(most, document.querySelectorAll('#tree .row').length);
  }
  times.sort((one, other) => one - other);
  return { middle: times[30], longest: times[59], most };
}

// The long traces: shown in under a second, few rows made, and drawn as their lines say.
async function checkLong(page, runs) {
  await prepare(page);
  const faults = [];
  const tells = [];
  for (const { name, script, trace } of Object.values(runs)) {
    // The quickest of three, since the machine may have other work.
    const times = [];
    for (let again = 0; again < 3; again++) times.push(await showOwn(page, script, trace));
    const shown = Math.min(...times);
    const { middle, longest, most } = await page.evaluate(jump);
    if (shown > 1000) faults.push(`${name}: shown in ${Math.round(shown)} ms`);
    if (most > 80) faults.push(`${name}: ${most} rows are made`);
    // A tall window has fewer views.
    await page.size(1280, 2400);
    const found = await page.evaluate('scrollThrough()');
    await page.size(1280, 800);
    faults.push(...compare(name, trace, found));
    tells.push(`${name}: ${trace.split('\n').length - 1} lines shown in ${Math.round(shown)} ms, a jump ${middle.toFixed(1)} ms, `
      + `${longest.toFixed(1)} at most, ${most} rows made; ${Object.keys(found.due).length} reactions in ${found.views} views, `
      + `${Object.keys(found.stub).length} stubs`);
  }
  return { faults, told: tells.join('\n') };
}

module.exports = { checkDrawing, checkLong, showOwn };
