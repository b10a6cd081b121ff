'use strict';
// Scripts that make long traces, and their traces, by the program cepage: a callback within itself to the end of the
// fuel, many elements that wait at once, and a trace of many lines.

const { spawnSync } = require('child_process');
const path = require('path');

const PROGRAM = path.resolve(__dirname, '..', '..', 'crates', 'cepage', 'out', 'cepage');

// An attribute's callback that sets its attribute: some ten thousand levels.
function deep() {
  return ['class Echo', 'observe Echo k', 'on Echo attribute : setattr this k x', 'define x-echo Echo', 'create $e x-echo',
    'setattr $e k 1', ''].join('\n');
}

// So many elements come into the page at once. Each hears of it, and the first takes all of them out again.
function waiting(count) {
  const lines = ['class Leaf', 'on Leaf connected : log in', 'on Leaf disconnected : log out', 'class First',
    'on First connected : detach $all', 'define x-leaf Leaf', 'define x-first First', 'create $html html',
    'append doc $html', 'create $all div', 'create $first x-first', 'append $all $first'];
  for (let made = 0; made < count; made++) lines.push('create $leaf x-leaf', 'append $all $leaf');
  return [...lines, 'append $html $all', ''].join('\n');
}

// So many times an attribute is set, whose callback sets that of another element: each writes 17 lines.
function long(count) {
  const lines = ['class Pair', 'observe Pair k', 'on Pair attribute : setattr $other k @3', 'on Pair attribute : log told @3',
    'class Other', 'observe Other k', 'on Other attribute : log @3', 'define x-pair Pair', 'define x-other Other',
    'create $pair x-pair', 'create $other x-other'];
  for (let made = 0; made < count; made++) lines.push(`setattr $pair k ${made}`);
  return [...lines, ''].join('\n');
}

// The trace of a script, by the program.
function trace(program, script, words = []) {
  const ended = spawnSync(program, ['--trace', ...words], { input: script, encoding: 'utf8', maxBuffer: 1 << 28 });
  if (ended.error) throw new Error(`${program}: ${ended.error.message}`);
  return ended.stdout;
}

// The three of them, with their traces.
function made(program) {
  const scripts = { deep: deep(), waiting: waiting(1500), long: long(2400) };
  return Object.fromEntries(Object.entries(scripts)
    .map(([name, script]) => [name, { name, script, trace: trace(program, script, ['--fuel', '20000']) }]));
}

module.exports = { made, trace, PROGRAM };
