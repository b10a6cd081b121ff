'use strict';
// The texts that a reader opens, checked in the browser: ones that the page can't read, damaged ones, files that are
// chosen or dropped, texts that are pasted, and the dialog.

const { Faults, frame, show } = require('./common.js');
const { damaged, numbers } = require('./model.js');

// The texts that a reader may open by mistake, and what the page has to say of each.
function wrongTexts({ script, trace }) {
  const lines = trace.split('\n');
  return [
    ['an empty transcript', script, '', 'There is no transcript'],
    ['no script', '', trace, 'There is no script'],
    ['neither', '', '', 'There is no transcript'],
    ['CRLF', script, trace.replaceAll('\n', '\r\n'), 'end in CR LF'],
    ['a script with CRLF', script.replaceAll('\n', '\r\n'), trace, 'ends in a carriage return'],
    ['without the trace', script, lines.filter((line) => !line.startsWith('~')).join('\n'), 'no lines of the trace'],
    ['cut within a line', script, trace.slice(0, trace.indexOf('~ enq 3') + 9), 'does not fit. It is line'],
    ['cut within a command', script, `${lines.slice(0, 33).join('\n')}\n`, 'reactions wait'],
    ['cut behind an answer', script, trace.slice(0, trace.indexOf('15: ok') + 7), 'no answer to line 18'],
    ['cut without a line feed', script, lines.slice(0, 30).join('\n'), 'no line feed'],
    ['a line too many', script, trace.replace('~ finish 1', '~ finish 1\nhello'), 'it is the text of no event'],
    ['a line twice', script, trace.replace('~ finish 2', '~ finish 2\n~ finish 2'), 'which is not open'],
    ['another script', script.split('\n').slice(0, 6).join('\n'), trace, "don't belong together"],
    ['no text at all', '\u0000\u0001\uFFFD', '~ \u0000\n\u0001\uFFFD"\n', 'do not fit'],
    ['lines behind the fuel', script, `fuel\n${trace}`, 'behind the line fuel'],
  ];
}

async function checkWrong(page, faults, example) {
  const texts = wrongTexts(example);
  for (const [name, script, transcript, says] of texts) {
    await page.evaluate(([one, other]) => {
      Cepage.page.opener.onOpen({ script: one, transcript: other, names: { script: 'one', transcript: 'other' } });
    }, [script, transcript]);
    await frame(page);
    const notes = await page.evaluate('document.getElementById("notes").textContent');
    if (!notes.includes(says)) faults.list.push(`${name}: the page says only: ${notes}`);
    await page.evaluate('document.getElementById("tree").focus()');
    for (const key of ['End', 'ArrowUp', 'Enter', 'n', 'p', '[', ']', 'ArrowLeft', 'Home']) await page.key(key);
  }
  return texts.length;
}

// Examples that are damaged in two places are drawn, and gone through by each key: an exception shows on the console.
async function checkDamaged(page, faults, examples) {
  const next = numbers(7);
  const before = page.complaints.length;
  const texts = examples.filter((one, at) => at % 4 === 0)
    .map(({ script, trace }) => ({ script, transcript: damaged(damaged(trace, next), next), names: {} }));
  await page.evaluate(async (given) => {
    for (const own of given) {
      Cepage.page.opener.onOpen(own);
      for (const key of ['End', 'p', 'Enter', 'ArrowLeft', '[', 'PageUp', ' ', 'n', 'ArrowRight', ']', 'PageDown', 'Home']) {
        Cepage.page.outline.act(key)();
      }
      Cepage.page.transcriptList.choose(Cepage.page.run.lines.length >> 1);
      Cepage.page.scriptList.choose(Cepage.page.run.script.lines.length >> 1);
      await new Promise((resolve) => requestAnimationFrame(() => setTimeout(resolve)));
    }
  }, texts);
  for (const text of page.complaints.slice(before)) faults.list.push(`a damaged transcript: ${text}`);
  return texts.length;
}

// Chooses two files in the dialog, and draws them.
function choose(page, texts) {
  return page.evaluate(async (given) => {
    for (const [at, kind] of ['script', 'transcript'].entries()) {
      const data = new DataTransfer();
      data.items.add(new File([given[at]], `a.${kind}`));
      const input = document.getElementById(`file-${kind}`);
      input.files = data.files;
      input.dispatchEvent(new Event('change'));
    }
    await new Promise((resolve) => setTimeout(resolve, 50));
    document.getElementById('draw').click();
    return [Cepage.page.run.script.lines.length, Cepage.page.run.lines.length];
  }, texts);
}

// Files that are dropped, and texts that are pasted, alone and together.
async function checkDrops(page, faults, { script, trace }) {
  const drop = (files) => page.evaluate(async (given) => {
    const data = new DataTransfer();
    for (const { name, text } of given) data.items.add(new File([text], name));
    document.body.dispatchEvent(new DragEvent('drop', { dataTransfer: data, bubbles: true, cancelable: true }));
    await new Promise((resolve) => setTimeout(resolve, 50));
    return [Cepage.page.run.script.lines.length, Cepage.page.run.lines.length];
  }, files);
  const paste = (text) => page.evaluate(async (given) => {
    const data = new DataTransfer();
    data.setData('text/plain', given);
    document.body.dispatchEvent(new ClipboardEvent('paste', { clipboardData: data, bubbles: true, cancelable: true }));
    await new Promise((resolve) => setTimeout(resolve, 50));
    return [Cepage.page.run.script.lines.length, Cepage.page.run.lines.length];
  }, text);
  const plain = trace.split('\n').filter((line) => !line.startsWith('~')).join('\n');
  const count = (text) => text.split('\n').length - 1;
  const both = [{ name: 'a.transcript', text: trace }, { name: 'a.script', text: script }];
  faults.same('both dropped', await drop(both), [count(script), count(trace)]);
  faults.same('a script dropped', await drop([both[1]]), [count(script), 0]);
  faults.same('a transcript dropped behind it', await drop([{ name: 'b', text: plain }]), [count(script), count(plain)]);
  faults.same('a script pasted', await paste(script), [count(script), 0]);
  faults.same('a transcript pasted', await paste(trace), [count(script), count(trace)]);
  faults.same('both in the other box', await choose(page, [trace, script]), [count(script), count(trace)]);
  const returned = await choose(page, [script.replaceAll('\n', '\r\n'), trace]);
  faults.same('files that are chosen', returned, [count(script), count(trace)]);
  const notes = await page.evaluate('document.getElementById("notes").textContent');
  faults.same('a file that is chosen keeps its line ends', notes.includes('ends in a carriage return'), true);
}

// Numbers that no number of JavaScript can be are told apart, and shown as they stand.
async function checkLarge(page, faults) {
  const [one, other] = ['9007199254740992', '9007199254740993'];
  const text = `~ open ${other}\n~ enq ${one} #${other} connected ${other}\n~ enq ${other} #${one} connected ${other}\n`;
  const shown = await page.evaluate(`(() => {
    const run = Cepage.readRun('', ${JSON.stringify(text)});
    const view = new Cepage.View(run, false);
    const wanted = 'Reaction ${other} becomes due: connected of #${one}, in queue ${other}.';
    return [run.problems.length, Cepage.rowWords(view, 2).startsWith(wanted)];
  })()`);
  faults.same('large numbers', shown, [0, true]);
}

// What was run with the trace, and writes none, lacks none.
async function checkNotes(page, faults) {
  const told = await page.evaluate(`Cepage.examples.filter(({ script, trace }) => Cepage.notesOn(Cepage.readRun(script, trace))
    .some(({ text }) => /no lines of the trace|no answer to/.test(text))).map(({ name }) => name)`);
  faults.same('examples of which a note is wrong', told, []);
}

// Each example's script is taken for a script, and its transcript for a transcript, with and without the trace.
async function checkGuesses(page, faults) {
  const wrong = await page.evaluate(`Cepage.examples.flatMap(({ name, script, trace }) => {
    const plain = trace.split('\\n').filter((line) => !line.startsWith('~')).join('\\n');
    return Cepage.isTranscript(script) || (trace && !Cepage.isTranscript(trace)) || (plain && !Cepage.isTranscript(plain)) ? [name] : [];
  })`);
  faults.same('examples whose two texts are taken for each other', wrong, []);
}

// The dialog is opened, filled and closed by keys.
async function checkDialog(page, faults) {
  await show(page, 'trace');
  await page.evaluate('document.getElementById("open").focus()');
  await page.key('Enter');
  faults.same('Enter opens the dialog', await page.evaluate('document.getElementById("opener").open'), true);
  await page.key('Escape');
  faults.same('Escape closes it', await page.evaluate('[document.getElementById("opener").open, document.activeElement.id]'), [false, 'open']);
  await page.key('Enter');
  for (const [name, text] of [['script', 'create $a p'], ['transcript', '1: #2']]) {
    await page.evaluate(`document.getElementById("paste-${name}").select()`);
    await page.send('Input.insertText', { text });
  }
  await page.key('Tab');
  await page.key('Enter');
  const drawn = await page.evaluate('[Cepage.page.run.script.lines, Cepage.page.run.lines, document.getElementById("opener").open]');
  faults.same('what is written into the dialog is drawn', drawn, [['create $a p'], ['1: #2'], false]);
}

async function checkOpened(page) {
  const faults = new Faults();
  const examples = await page.evaluate('Cepage.examples');
  const example = examples.find(({ name }) => name === 'trace');
  await checkGuesses(page, faults);
  await checkLarge(page, faults);
  await checkNotes(page, faults);
  const wrong = await checkWrong(page, faults, example);
  const broken = await checkDamaged(page, faults, examples);
  await checkDrops(page, faults, example);
  await checkDialog(page, faults);
  return { faults: faults.list, told: `opened: ${wrong} texts that don't fit, ${broken} damaged ones, files and pastes, the dialog` };
}

module.exports = { checkOpened };
