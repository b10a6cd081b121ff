'use strict';
// Are rows named after the right actions? Scripts are made at random, with bodies of actions that are tried, tested and
// refused, and run by the program as they are, whole and cut off, and with a log before each action, which tells the action
// behind it. A row may be left without a name; where it has one, it has to be that of the action that the log told.

const { trace } = require('./made.js');

// Actions that push a queue, in order or by mistake, and others.
const ACTIONS = ['setattr $p t v', 'setattr $p t v', 'setattr doc t v', 'setattr $p "" v', 'delattr $p t', 'append $p $q', 'append $p $p',
  'append $none $q', 'detach $q', 'create $n span', 'create $n "a b"', 'upgrade $p', 'remove $p $none', 'reset $p', 'clone $c $q',
  'log x', 'log @1 @3', 'ask kids $p', 'ask kids $none', 'text $t x', 'bump', 'let $a $none', 'return', 'throw no', 'keep x'];
const TESTS = ['if eq @3 1 : ', 'if ne @1 k : ', 'if eq @2 "" : ', 'if eq @count 1 : ', 'if ne @kept x : '];
const CALLBACKS = ['attribute', 'connected', 'disconnected', 'constructor'];

// The lines of the bodies of a class, each with its action.
function bodies(next) {
  const lines = [];
  for (const callback of CALLBACKS) {
    const count = next(6);
    if (callback === 'constructor' && count > 0) lines.push(`on A constructor : ${next(8) > 0 ? 'super' : 'bump'}`);
    for (let made = 0; made < count; made++) {
      const prefix = [next(3) === 0 ? TESTS[next(TESTS.length)] : '', next(3) === 0 ? 'try ' : ''];
      if (next(2)) prefix.reverse();
      lines.push(`on A ${callback} : ${prefix.join('')}${ACTIONS[next(ACTIONS.length)]}`);
    }
  }
  return lines;
}

// A script of such a class, and the same one with a log before each action.
function scripts(next) {
  const head = ['create $html html', 'append doc $html', 'create $p div', 'create $q div', 'append $html $p', 'create $e x-a',
    'setattr $e k 1', 'append $p $e', 'class A', 'observe A k'];
  const tail = ['define x-a A', 'setattr $e k 2', 'setattr $e k 1', 'detach $e', 'create $f x-a', 'append $p $f', 'setattr $f k 1',
    'delattr $f k', 'new $g A', 'append $html $g', ''];
  const lines = bodies(next);
  const marked = lines.flatMap((line, at) => [line.replace(/ : .*/s, ` : log m${head.length + at + 1}`), line]);
  return [[...head, ...lines, ...tail].join('\n'), [...head, ...marked, ...tail].join('\n')];
}

const operations = (run) => run.rows.flatMap((row, index) => row.kind === 'operation' ? [index] : []);

// The line of the action that a row of the marked run is, by the log before it.
function told(run, index) {
  for (let at = index - 1; at > run.rows[index].parent; at--) {
    const row = run.rows[at];
    const mark = row.parent === run.rows[index].parent && row.kind === 'log' && /^"m([0-9]+)"$/.exec(row.text);
    if (mark) return Number(mark[1]);
  }
  return 0;
}

// Compares the names of a run with what the marked one tells.
function compare(Cepage, script, run, marked) {
  const [plain, sure] = [operations(run), operations(marked)];
  const faults = [];
  let named = 0;
  plain.forEach((index, at) => {
    const action = Cepage.actionOf(run, index);
    const wanted = told(marked, sure[at]);
    if (action) named++;
    if (action && action.line !== wanted) {
      faults.push(`a row is named after line ${action.line}, and is line ${wanted} of ${JSON.stringify(script)}`);
    }
  });
  return { faults, named, count: plain.length };
}

function checkTruth(Cepage, program, next, runs) {
  const sums = { faults: [], named: 0, count: 0, longest: 0 };
  for (let made = 0; made < runs; made++) {
    const [script, withMarks] = scripts(next);
    const marked = Cepage.readRun(withMarks, trace(program, withMarks));
    // Once more, cut off by the end of the fuel.
    for (const fuel of ['20000', String(20 + next(60))]) {
      const run = Cepage.readRun(script, trace(program, script, ['--fuel', fuel]));
      const { faults, named, count } = compare(Cepage, script, run, marked);
      sums.faults.push(...faults);
      sums.named += named;
      sums.count += count;
    }
  }
  if (sums.named === 0) sums.faults.push('no row is named');
  const said = `names: ${runs} scripts made at random, each whole and cut off: of ${sums.count} operations ${sums.named} named, `
    + `${sums.faults.length} wrongly`;
  return { faults: sums.faults, told: said };
}

module.exports = { checkTruth };
