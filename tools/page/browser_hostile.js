'use strict';
// Runs that must be ended: the page goes on meanwhile and behind them, and says what ended the run. A line of a script
// can't do most of it, so code of the frame's own stands in its place.

const NESTED = `class A
observe A k
on A attribute : bump
on A attribute : if ne @count 1000 : setattr this k @count
define x-a A
create $e x-a
setattr $e k 0
ask attr $e k
`;

// Each value sets the next one twice, so there is no deep nesting, and no end.
const twice = (none, at) => `on A attribute : if eq @3 ${at} : setattr this k ${at + 1}\n`.repeat(2);
const BRANCHING = `class A
observe A k
${Array.from({ length: 30 }, twice).join('')}define x-a A
create $e x-a
setattr $e k 0
`;

const LEAVING = `create $html html
append doc $html
create $meta meta
setattr $meta content "0;url=https://page.test/"
setattr $meta http-equiv refresh
append $html $meta
`;

const ROWS = [
  { name: 'code that never ends', limits: { milliseconds: 3000 }, why: 'time',
    code: 'addEventListener("message", () => { for (;;); });' },
  { name: 'a script that never ends', script: BRANCHING, why: 'steps' },
  { name: 'a thousand nested callbacks', script: NESTED, why: 'depth' },
  { name: 'code that calls itself for ever', limits: { milliseconds: 1500 }, why: 'time',
    code: 'addEventListener("message", () => { (function f() { f(); f(); })(); });' },
  { name: 'code that writes for ever', limits: { milliseconds: 10000, lines: 2000 }, why: 'lines',
    code: `addEventListener("message", ({ data: { token } }) => setInterval(() => parent.postMessage({ token, at: 1,
      lines: Array.from({ length: 500 }, () => ({ text: "x", line: 1 })) }, "*"), 0));` },
  { name: 'code that reloads', code: 'addEventListener("message", () => location.reload());', why: 'anew' },
  { name: 'code that goes elsewhere', why: 'anew',
    code: 'addEventListener("message", () => { location.href = "about:blank"; });' },
  { name: 'code that sends a form', code: `addEventListener("message", () => { const form = document.createElement("form");
    document.documentElement.append(form); form.submit(); });`, limits: { milliseconds: 1500 }, why: /^(anew|time)$/ },
  { name: 'code that would move the page', code: 'addEventListener("message", () => { top.location.href = "about:blank"; });',
    limits: { milliseconds: 1500 }, why: 'time' },
  { name: 'a script that would leave', script: LEAVING, why: 'leaves' },
];

// Runs in the page: how the run ended, and the longest time in which the page did nothing.
async function endInPage({ script, code, limits }) {
  let last = performance.now(), longest = 0;
  const tick = setInterval(() => {
    longest = Math.max(longest, performance.now() - last);
    last = performance.now();
  }, 10);
  const run = script ? CepageBrowser.begin(script, [], limits) : CepageBrowser.inFrame(code, {}, limits);
  const { ended, lines } = await run.result;
  clearInterval(tick);
  return {
    why: ended && ended.why, end: ended && CepageBrowser.describeEnd(ended), lines: lines.length,
    longest: Math.round(longest), frames: document.querySelectorAll('iframe').length, title: document.title,
  };
}

// A frame that held the page up would do so for all of its three seconds.
const STILL = 1500;
const AFTER = 'create $a p\nask kids $a\n';

async function checkHostile(page) {
  const faults = [];
  const title = await page.evaluate('document.title');
  for (const { why, ...row } of ROWS) {
    const found = await page.evaluate(endInPage, row);
    console.log(`${row.name}: ${found.end} (${found.lines} lines; the page stood still for ${found.longest} ms at most)`);
    if (!(why instanceof RegExp ? why.test(found.why) : found.why === why)) faults.push(`${row.name}: it ended by ${found.why}`);
    if (found.frames || found.title !== title) faults.push(`${row.name}: the page is not as it was`);
    if (found.longest > STILL) faults.push(`${row.name}: the page stood still for ${found.longest} ms`);
  }
  const { ended, lines } = await page.evaluate((script) => CepageBrowser.run(script), AFTER);
  if (ended || lines.length !== 2 || lines[1].text !== '2: empty') faults.push('behind all that a run is not as before');
  return faults;
}

module.exports = { checkHostile };
