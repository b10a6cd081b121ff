'use strict';
// The model of a run, checked without a browser: over every example, over each of them cut off, and over damaged ones.

// Lines, and the kind of event that each is: those that are the text of none stand last.
const LINES = {
  open: ['~ open 1'], enq: ['~ enq 1 #2 upgrade 0', '~ enq 12 #30 formStateRestore 4'], drain: ['~ drain 0'],
  start: ['~ start 3'], finish: ['~ finish 3'], up: ['~ up #2'], done: ['~ done #2'], drop: ['~ drop 3'],
  threw: ['~ threw #2'], close: ['~ close 0'], construct: ['construct A', 'construct Item_2'],
  call: ['call #2 connected', 'call #2 attribute "k" null ""', 'call #2 attribute "k" "\u2028" "\\"\\\\"', 'call #2 adopted #1 #7',
    'call #2 formAssociated null', 'call #2 formDisabled true', 'call #2 formStateRestore "a b" autocomplete'],
  log: ['log "a"', 'log "" "\\n\\u{0}" "é\u0085\u2028"'], ask: ['ask #1 #2', 'ask empty', 'ask "x" "y"', 'ask valueMissing customError'],
  submit: ['submit #3 get "http://a/?"', 'submit #3 post "u" "t" "b"', 'submit #3 blocked invalid #4 #5', 'submit #3 blocked size'],
  caught: ['caught TypeError', 'caught user "no"'], report: ['report user ""'], fuel: ['fuel'],
  reply: ['4: ok', '4: ignored', '4: #5', '4: "a\u2029"', '4: bad arity', '4: throw user "x y"', '4: throw NotFoundError', '4: tooShort'],
  unreadable: ['', ' ', '~', '~ ', '~open 1', ' ~ open 1', '~ open', '~ open 01', '~ open 1 ', '~ open -1', '~ enq 1 #2 foo 3', '~ up 2',
    '~ finish #2', 'construct', 'construct a', 'call #2', 'call #2 constructor', 'call #2 connected x', 'call #2 attribute "k" null',
    'call #2 formDisabled', 'call #2 adopted #1', 'log', 'log a', 'log "a" ', 'log "a""b"', 'log "a\\q"', 'log "a', 'log "\t"', 'ask',
    'ask state $e', 'ask yes no', 'submit #3', 'submit #3 get', 'submit #3 blocked', 'submit #3 blocked invalid', 'caught', 'report no',
    'report user', 'fuel ', 'fuel 3', '4:', '4: ', '4:ok', '4: okay', '4: bad', '4: bad later', '4: throw', '-4: ok', 'ok', '4: ok\r'],
};

function checkLines(Cepage) {
  const faults = [];
  for (const [kind, lines] of Object.entries(LINES)) {
    for (const line of lines) {
      const read = Cepage.readEvent(line).kind;
      if (read !== kind) faults.push(`the line ${JSON.stringify(line)} is read as ${read}, and not as ${kind}`);
    }
  }
  const long = `"${'a'.repeat(16000000)}"`;
  for (const line of [`log ${long}`, `4: ${long}`, `submit #3 post "u" "t" ${long}`, `call #2 attribute "k" null ${long}`]) {
    const read = Cepage.readEvent(line).kind;
    if (read === 'unreadable') faults.push(`a line ${line.slice(0, 20)} with a text of 16 MB is not read`);
  }
  return faults;
}

// How often the lines of a text begin so.
const count = (text, beginning) => text.split('\n').filter((line) => line.startsWith(beginning)).length;

// What the model of a run may not be, whatever the transcript is.
function faultsOf(Cepage, name, script, transcript) {
  const faults = [];
  const run = Cepage.readRun(script, transcript);
  const view = new Cepage.View(run, false);
  const { due, ran, dropped, waits } = run.counts;
  if (due !== ran + dropped + waits) faults.push(`${name}: ${due} due, ${ran} ran, ${dropped} dropped, ${waits} wait`);
  if (waits !== [...run.reactions.values()].filter((reaction) => reaction.end < 0).length) faults.push(`${name}: ${waits} wait`);
  if (run.rowOfLine.includes(-1)) faults.push(`${name}: line ${run.rowOfLine.indexOf(-1) + 1} belongs to no row`);
  run.rows.forEach((row, index) => {
    if (row.parent >= index || row.end < index || (row.parent >= 0 && run.rows[row.parent].end < row.end)) {
      faults.push(`${name}: row ${index} does not nest`);
    }
    if (!Cepage.rowWords(view, index)) faults.push(`${name}: row ${index} has no words`);
  });
  const kinds = { ran: 'run', dropped: 'drop' };
  for (const { number, due: from, end, ended } of run.reactions.values()) {
    if (end >= 0 && end <= from) faults.push(`${name}: reaction ${number} ends before it is due`);
    if (run.rows[end]?.kind !== kinds[ended]) faults.push(`${name}: reaction ${number} has ended as ${ended || 'none'}`);
  }
  Cepage.notesOn(run);
  return { faults, run };
}

// For each line of a trace the lines that stand open around it, read off the text alone: of brackets that have a row of
// their own. A command's own queue, a checkpoint and the upgrade of a reaction have none.
function openAround(trace) {
  const stack = [];
  let last = 'reply';
  return trace.split('\n').slice(0, -1).map((line, at) => {
    const around = stack.filter(({ folded }) => !folded).map((bracket) => bracket.line);
    const word = line.startsWith('~ ') ? line.split(' ')[1] : /^[0-9]+: /.test(line) ? 'reply' : 'plain';
    if (word === 'open') stack.push({ line: at, folded: stack.length === 0 && last === 'reply' });
    if (word === 'start') stack.push({ line: at });
    if (word === 'up') stack.push({ line: at, folded: last === 'start' });
    if (line === '~ drain 0') stack.push({ line: at, folded: true });
    if (['finish', 'close', 'done', 'threw'].includes(word)) stack.pop();
    last = word;
    return around;
  });
}

// Each row stands within the rows of what stands open around its line.
function checkNesting(name, run, trace) {
  const around = openAround(trace);
  return run.rows.flatMap((row, index) => {
    if (row.kind === 'command') return [];
    const lines = [];
    for (let at = row.parent; run.rows[at].kind !== 'command'; at = run.rows[at].parent) lines.unshift(run.rows[at].line);
    return String(lines) === String(around[row.line]) && row.depth === lines.length + 1 ? []
      : [`${name}: row ${index} stands within lines ${lines}, and not within ${around[row.line]}`];
  });
}

// A reaction has no lane only where more wait than there are lanes, and no lane is used beyond those that wait at once.
function checkLanes(Cepage, name, run) {
  const faults = [];
  for (const most of [6, 14]) {
    const lanes = new Cepage.Lanes(run, most);
    let waits = 0;
    run.rows.forEach((row, index) => {
      waits += { due: 1, run: -1, drop: -1 }[row.kind] ?? 0;
      if (lanes.waiting[index] !== waits) faults.push(`${name}: at row ${index} ${waits} wait`);
      const lane = row.kind === 'due' ? lanes.laneOf.get(row.reaction) : 0;
      if (lane < 0 ? waits <= most : lane >= waits && row.kind === 'due') faults.push(`${name}: reaction ${row.reaction} has lane ${lane}`);
    });
  }
  return faults;
}

// What a row that is named after an action may not have within it: another attribute than the action's, another class
// than that of the name that it creates.
function checkNames(Cepage, name, run) {
  const faults = [];
  let named = 0;
  run.rows.forEach((row, index) => {
    const action = row.kind === 'operation' ? Cepage.actionOf(run, index) : null;
    if (!action) return;
    named++;
    for (let at = index + 1; at <= row.end; at++) {
      const inner = run.rows[at];
      if (inner.parent !== index) continue;
      const [word, , second] = action.tokens;
      const told = inner.kind === 'run' && inner.text === 'attribute' && inner.queue === row.queue;
      if (told && !(/^(set|del)attr$/.test(word) && Cepage.unquoted(inner.args.split(' ')[0]) === Cepage.said(second).toLowerCase())) {
        faults.push(`${name}: row ${index} is named ${action.text}, and tells of ${inner.args}`);
      }
      const type = run.script.definitions.get(Cepage.said(second ?? ''));
      if (inner.kind === 'construct' && !(word === 'create' && type === inner.text)) {
        faults.push(`${name}: row ${index} is named ${action.text}, and constructs ${inner.text}`);
      }
    }
  });
  return { faults, named, operations: run.rows.filter((row) => row.kind === 'operation').length };
}

// An example as the program gave it: nothing is left that the page can't read, and the numbers are those of the lines.
function checkExample(Cepage, { name, script, trace }) {
  const { faults, run } = faultsOf(Cepage, name, script, trace);
  for (const { line, text } of run.problems) faults.push(`${name}: line ${line + 1}: ${text}`);
  const { due, ran, dropped } = run.counts;
  const wanted = [count(trace, '~ enq '), count(trace, '~ start '), count(trace, '~ drop ')];
  if (String([due, ran, dropped]) !== String(wanted)) faults.push(`${name}: ${[due, ran, dropped]} and not ${wanted}`);
  for (const index of run.commands) {
    const row = run.rows[index];
    if (run.script.line(row.scriptLine) === undefined) faults.push(`${name}: a command has no line of the script`);
  }
  faults.push(...checkNesting(name, run, trace), ...checkLanes(Cepage, name, run));
  const names = checkNames(Cepage, name, run);
  faults.push(...names.faults);
  return { faults, counts: { due, ran, dropped, waits: run.counts.waits, named: names.named, operations: names.operations } };
}

// A small generator of numbers, so that a run of the check is the same as the last one.
function numbers(seed) {
  let state = seed;
  return (below) => {
    state = (Math.imul(state, 1664525) + 1013904223) >>> 0;
    return Math.floor(state / 4294967296 * below);
  };
}

// A transcript that is damaged in one place: a line lost, told twice, moved, or changed.
function damaged(trace, next) {
  const lines = trace.split('\n');
  const at = next(lines.length);
  const ways = [
    () => lines.splice(at, 1),
    () => lines.splice(at, 0, lines[at]),
    () => lines.splice(next(lines.length), 0, ...lines.splice(at, 1)),
    () => { lines[at] = lines[at].replace(/[0-9]+/, String(next(40))); },
    () => { lines[at] = `${lines[at]} more`; },
    () => { lines[at] = '\u0000\uFFFD "'; },
  ];
  ways[next(ways.length)]();
  return lines.join('\n');
}

// Cuts and damages examples: the model may tell problems, but stands.
function checkDamaged(Cepage, examples) {
  const faults = [];
  const next = numbers(20261130);
  let runs = 0;
  for (const { name, script, trace } of examples) {
    const texts = [trace.slice(0, next(trace.length)), damaged(trace, next), damaged(damaged(trace, next), next),
      trace.split('\n').filter((line) => !line.startsWith('~')).join('\n'), trace.replaceAll('\n', '\r\n')];
    for (const text of texts) {
      runs++;
      try {
        faults.push(...faultsOf(Cepage, `${name}, damaged`, script, text).faults);
      } catch (error) {
        faults.push(`${name}, damaged: ${error.stack.split('\n').slice(0, 3).join(' ')}`);
      }
    }
  }
  return { faults, runs };
}

// A cut at any place leaves what stands before it as it was.
function checkCuts(Cepage, { name, script, trace }) {
  const whole = Cepage.readRun(script, trace);
  const faults = [];
  const lines = trace.split('\n').slice(0, -1);
  for (let at = 0; at <= lines.length; at++) {
    const { run, faults: found } = faultsOf(Cepage, `${name}, cut at ${at}`, script, lines.slice(0, at).map((line) => `${line}\n`).join(''));
    faults.push(...found);
    if (run.problems.length > 0) faults.push(`${name}, cut at ${at}: ${run.problems[0].text}`);
    run.rows.forEach((row, index) => {
      const { kind, depth, parent, node, reaction } = whole.rows[index];
      if (row.kind !== kind || row.depth !== depth || row.parent !== parent || row.node !== node || row.reaction !== reaction) {
        faults.push(`${name}, cut at ${at}: row ${index} differs`);
      }
    });
    const last = run.rows[run.commands.at(-1)];
    if (last && last.scriptLine !== whole.rows[run.commands.at(-1)].scriptLine) faults.push(`${name}, cut at ${at}: another command`);
  }
  return faults;
}

// The arguments of a callback in words: an arrow in the name or in a value is none between the values.
function checkWords(Cepage) {
  const run = Cepage.readRun('', 'call #2 attribute "a→b" "c→" null\n1: ok\n');
  const said = Cepage.rowWords(new Cepage.View(run, false), 1);
  const wanted = 'attribute (a→b: "c→" to null) of #2 is called.';
  return said === wanted ? [] : [`the words of a call are: ${said}`];
}

function checkModel(Cepage) {
  const { examples } = Cepage;
  const faults = [...checkLines(Cepage), ...checkWords(Cepage)];
  const sums = { due: 0, ran: 0, dropped: 0, waits: 0, named: 0, operations: 0 };
  for (const example of examples) {
    const { faults: found, counts } = checkExample(Cepage, example);
    faults.push(...found);
    for (const key of Object.keys(sums)) sums[key] += counts[key];
  }
  for (const example of examples) faults.push(...checkCuts(Cepage, example));
  const { faults: found, runs } = checkDamaged(Cepage, examples);
  faults.push(...found);
  const told = `model: ${examples.length} examples, ${sums.due} due = ${sums.ran} ran + ${sums.dropped} dropped + ${sums.waits} wait; `
    + `${sums.named} of ${sums.operations} operations named; each cut behind each line; ${runs} damaged`;
  return { faults, told };
}

module.exports = { checkModel, damaged, numbers };
