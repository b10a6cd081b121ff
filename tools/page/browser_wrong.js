'use strict';
// Wrong transcripts: one line of each example's is made wrong, left out, or changes places with the next one, and the
// comparison has to find a line without a reason. What a reason explains all the same is counted by its name, and may be
// one in a hundred.

// Runs in the page, with the result of an example's run: what becomes of each wrong line.
function wrongInPage(name, transcript) {
  const result = globalThis.results[name];
  const lines = transcript.split('\n').filter((text) => text && text[0] !== '~');
  const { commands } = CepageBrowser.compare(result, transcript);
  const rows = commands.flatMap((command) => command.rows).filter(({ program }) => program);
  const others = {
    yes: 'no', no: 'yes', ok: 'throw TypeError', valid: 'valueMissing', custom: 'uncustomized', uncustomized: 'custom',
    null: '"x"', empty: '#1',
  };
  function wrongs(text) {
    const [, begin = '', answer = ''] = /^(\d+: |ask )(.*)$/s.exec(text) || [];
    if (!begin) return [`${text} x`, null];
    if (answer in others) return [begin + others[answer]];
    if (answer[0] === '"') return [`${begin}"x${answer.slice(1)}`];
    if (/^throw /.test(answer)) return [`${begin}${answer === 'throw TypeError' ? 'throw NotSupportedError' : 'ok'}`];
    if (/^#\d+$/.test(answer)) {
      return [begin === 'ask ' ? 'ask null' : `${begin}throw TypeError`, `${begin}${answer === '#1' ? '#2' : '#1'}`];
    }
    return [];
  }
  const found = { wrong: 0, explained: {} };
  const hasUnexplained = (text) => CepageBrowser.compare(result, text).counts.unexplained > 0;
  function tryWrong(changed, what, wrong) {
    found.wrong++;
    if (hasUnexplained(changed.join('\n'))) return;
    const all = CepageBrowser.compare(result, changed.join('\n')).commands.flatMap((command) => command.rows);
    const reason = all.find((row) => row.reason && row.mark !== 'same' && row.program && row.program.text === wrong);
    const key = `${reason ? reason.reason.name : 'no line is wrong'} | ${what}`;
    found.explained[key] = (found.explained[key] || 0) + 1;
  }
  const isEvent = (text) => text !== undefined && !/^\d+: /.test(text);
  lines.forEach((text, at) => {
    const { mark, browser } = rows[at];
    if (mark !== 'same' && mark !== 'explained') return;
    const [before, behind] = [lines.slice(0, at), lines.slice(at + 1)];
    for (const wrong of wrongs(text)) {
      if (browser && browser.text === wrong) continue;
      const what = `${text.slice(0, 60)} -> ${wrong === null ? 'left out' : wrong.slice(0, 60)}`;
      tryWrong([...before, ...(wrong === null ? [] : [wrong]), ...behind], what, wrong);
    }
    const [next, ...rest] = behind;
    if (isEvent(text) && isEvent(next) && next !== text && mark === 'same' && rows[at + 1].mark === 'same') {
      tryWrong([...before, next, text, ...rest], `${text.slice(0, 60)} <-> ${next.slice(0, 60)}`, text);
    }
  });
  return found;
}

const MOST = 0.01;

async function checkWrong(page, all) {
  let wrong = 0, explained = 0;
  for (const { example: { name, transcript } } of all) {
    const found = await page.evaluate(wrongInPage, name, transcript);
    wrong += found.wrong;
    for (const [key, count] of Object.entries(found.explained)) {
      explained += count;
      console.log(`${name}: wrong, and explained: ${key}`);
    }
  }
  console.log(`${wrong} lines were made wrong, one at a time; ${explained} of them a reason explained all the same`);
  return explained > wrong * MOST ? [`${explained} of ${wrong} wrong lines have a reason`] : [];
}

module.exports = { checkWrong };
