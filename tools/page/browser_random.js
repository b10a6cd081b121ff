'use strict';
// node tools/page/browser_random.js [--program PATH] [COUNT] [SEED]: scripts made at random, of custom elements and of
// forms, each run by the program and by the browser, and compared. It prints each command in which a line differs
// without a reason, and last how many lines have which mark. PATH is the program cepage, by default
// crates/cepage/out/cepage.

const path = require('path');
const { spawnSync } = require('child_process');
const { launch } = require('./chromium.js');

const TOP = path.resolve(__dirname, '../..');
const CALLBACKS = ['connected', 'disconnected', 'attribute', 'formAssociated', 'formDisabled', 'formReset', 'adopted'];
const BOXES = ['html', 'f', 'g', 'd', 'fs', 'lg'];
const INPUTS = ['i0', 'i1', 'i2'];
const RADIOS = ['r0', 'r1', 'r2'];
const OPTIONS = ['o0', 'o1', 'o2'];
const FIELDS = ['x0', 'x1', 'x2'];
const ACTIONS = ['log x @1 @2 @3', 'log @1', 'ask parent this', 'ask owner this', 'ask disabled this', 'ask attr this k',
  'ask state this', 'ask kids this', 'ask controls $f', 'ask valid $i0', 'ask value $i1', 'bump', 'keep @3', 'throw t',
  'request $f', 'submit $f', 'try setattr this "" x', 'if ne @2 @3 : log changed', 'if eq @count 1 : setattr this k 1',
  'if eq @count 2 : detach this', 'if eq @count 1 : append $d this', 'if eq @count 3 : append $f this',
  'if eq @count 1 : setattr $other k 2', 'if eq @count 2 : detach $other', 'if eq @count 1 : upgrade $html',
  'if eq @count 1 : setattr $fs disabled ""', 'if eq @count 2 : delattr $fs disabled', 'if eq @count 1 : setattr $f id g'];
const IN_CONSTRUCTORS = ['log made', 'ask owner this', 'ask attr this k', 'ask parent this', 'ask disabled this',
  'ask state this', 'bump', 'if eq @count 1 : throw t'];
const PAGE = ['create $html html', 'append doc $html', 'create $f form', 'create $g form', 'create $d div',
  'create $fs fieldset', 'create $lg legend', 'append $html $f', 'append $html $g', 'append $html $d', 'append $f $fs',
  'append $fs $lg'];
// A `~` and a capital letter stand for one of a list; each has the same chance.
const LISTS = {
  B: BOXES, I: INPUTS, R: RADIOS, O: OPTIONS, X: FIELDS, F: ['f', 'g'], N: ['0', '1', '2'], S: ['on', 'off'],
  C: [...INPUTS, ...RADIOS, 's'], A: [...FIELDS, ...INPUTS, ...RADIOS, 's', 'bt', 'fs'],
  M: [...FIELDS, ...FIELDS, ...INPUTS, ...RADIOS, 's', 'fs', 'f', 'd'], D: [...FIELDS, ...INPUTS, ...RADIOS, 'f', 'fs', 'g', 'd'],
};
const OPERATIONS = ['append $~B $~M', 'append $~B $~M', 'append $html $~F', 'detach $~D', 'setattr $~A disabled ""',
  'delattr $~A disabled', 'setattr $~A form ~F', 'delattr $~A form', 'setattr $~F id ~F', 'delattr $~F id', 'setattr $~X k ~N',
  'value $~I w~N', 'user edit $~I e', 'check $~R ~S', 'user check $~R on', 'choose $~O ~S', 'user choose $~O on', 'reset $~F',
  'user reset $~F', 'user press $bt', 'submit $~F', 'request $~F', 'request $~F $bt', 'ask value $~C', 'ask checked $~R',
  'ask valid $~C', 'ask candidate $~C', 'ask owner $~C', 'ask controls $~F', 'ask disabled $~A', 'upgrade $~B', 'clone $c0 $~D',
  'clone $c0 $~D deep', 'append $~B $c0', 'ask kids $c0', 'create $x1 x-a', 'new $x2 A', 'doc $doc', 'adopt $doc $x0', 'adopt doc $x0'];

// Numbers that look random and follow from the seed (mulberry32).
class Chance {
  constructor(seed) {
    this.state = seed | 0;
  }

  below(most) {
    this.state = (this.state + 0x6D2B79F5) | 0;
    let mixed = Math.imul(this.state ^ (this.state >>> 15), 1 | this.state);
    mixed = (mixed + Math.imul(mixed ^ (mixed >>> 7), 61 | mixed)) ^ mixed;
    return ((mixed ^ (mixed >>> 14)) >>> 0) % most;
  }

  of(list) {
    return list[this.below(list.length)];
  }

  some(lines, most) {
    return Array.from({ length: this.below(most + 1) }, () => this.of(lines));
  }

  filled(line) {
    return line.replace(/~([A-Z])/g, (sign, letter) => this.of(LISTS[letter]));
  }
}

function classLines(chance, name, isAssociated) {
  const lines = [`class ${name}`, `observe ${name} k disabled form`, ...(isAssociated ? [`associate ${name}`] : [])];
  if (chance.below(3)) {
    const attached = isAssociated && chance.below(2) ? ['internals this', 'formvalue this v'] : [];
    const body = ['super', ...attached, ...chance.some(IN_CONSTRUCTORS, 1)];
    lines.push(...body.map((action) => `on ${name} constructor : ${action}`));
  }
  for (const callback of CALLBACKS.filter(() => chance.below(2))) {
    lines.push(`has ${name} ${callback}`, ...chance.some(ACTIONS, 2).map((action) => `on ${name} ${callback} : ${action}`));
  }
  return lines;
}

// The controls, each in one of the boxes.
function controlLines(chance) {
  const optional = (...lines) => chance.some(lines, 1);
  const input = (variable) => [`create $${variable} ${chance.of(['input', 'textarea'])}`,
    `setattr $${variable} name n${chance.below(2)}`,
    ...optional(`setattr $${variable} required ""`), ...optional(`setattr $${variable} form ~F`)];
  const radio = (variable, at) => [`create $${variable} input`, `setattr $${variable} type ${chance.of(['radio', 'checkbox'])}`,
    `setattr $${variable} name r`, `setattr $${variable} value ${at}`, ...optional(`setattr $${variable} checked ""`)];
  const field = (variable) => [`create $${variable} ${chance.of(['x-a', 'x-b'])}`, ...optional(`setattr $${variable} form ~F`)];
  const placed = (lines, variables) => variables.flatMap((variable, at) => [...lines(variable, at), `append $~B $${variable}`]);
  const option = (variable) => [`create $${variable} option`, `setattr $${variable} value ${chance.of(['""', 'a', 'b'])}`,
    ...optional(`setattr $${variable} selected ""`, `setattr $${variable} disabled ""`), `append $s $${variable}`];
  return [...placed(input, INPUTS), ...placed(radio, RADIOS), 'create $s select', 'setattr $s name s',
    ...optional('setattr $s multiple ""'), ...optional('setattr $s required ""'), ...OPTIONS.flatMap(option),
    'append $~B $s', 'create $bt button',
    `setattr $bt type ${chance.of(['submit', 'reset', 'button'])}`, 'append $~B $bt', ...placed(field, FIELDS), 'let $other $x0'];
}

function script(chance) {
  const definitions = ['define x-a A', 'define x-b B'];
  const lines = [...classLines(chance, 'A', true), ...classLines(chance, 'B', chance.below(2) > 0)];
  const ids = chance.some(['setattr $f id f', 'setattr $g id g'], 2);
  lines.push(...definitions.splice(0, chance.below(3)), ...PAGE, ...ids, ...controlLines(chance));
  const steps = Array.from({ length: 60 }, () => chance.of(OPERATIONS));
  for (const definition of definitions) steps[chance.below(steps.length)] = definition;
  return [...lines, ...steps].map((line) => `${chance.filled(line)}\n`).join('');
}

// Runs in the page: what differs without a reason, and the counts.
async function compareInPage(text, transcript) {
  const { counts, commands } = CepageBrowser.compare(await CepageBrowser.run(text), transcript);
  const bad = commands.filter(({ rows }) => rows.some(({ mark }) => mark === 'unexplained'));
  const told = ({ mark, program, browser }) => [mark, program?.text, browser?.text];
  return { counts, bad: bad.map(({ line, rows }) => ({ line, rows: rows.map(told) })) };
}

async function main(words) {
  const at = words.indexOf('--program');
  const program = at < 0 ? path.join(TOP, 'crates/cepage/out/cepage') : words.splice(at, 2)[1];
  const [count, seed] = [Number(words[0] || 100), Number(words[1] || 1)];
  const browser = await launch();
  const page = await browser.open(path.join(TOP, 'docs/page/index.html'));
  const chance = new Chance(seed);
  const total = {};
  let scripts = 0;
  for (let done = 0; done < count; done++) {
    const text = script(chance);
    const { stdout } = spawnSync(program, [], { input: text, encoding: 'utf8', maxBuffer: 1e9 });
    const { counts, bad } = await page.evaluate(compareInPage, text, stdout);
    for (const [mark, number] of Object.entries(counts)) total[mark] = (total[mark] || 0) + number;
    if (bad.length) scripts++;
    for (const { line, rows } of bad) {
      console.log(`script ${done}, line ${line}: ${text.split('\n')[line - 1]}`);
      for (const row of rows) console.log(`    ${row.join(' | ')}`);
    }
  }
  console.log(`${count} scripts of the seed ${seed}: ${JSON.stringify(total)}; ${scripts} have lines without a reason`);
  await browser.close();
}

main(process.argv.slice(2)).catch((error) => {
  console.error(error);
  process.exitCode = 2;
});
