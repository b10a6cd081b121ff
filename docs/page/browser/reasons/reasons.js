// Where a browser was seen to answer otherwise, each case with its circumstances and the place in docs/ that explains
// it. A reason is held against one row that differs, or against a whole command's rows. It is told only where what
// the program wrote follows from its circumstances; else the difference is not explained.
"use strict";
globalThis.CepageBrowser ??= {};

(() => {
    const reasons = { rows: [], commands: [] };
    const browsers = (anchor) => `browsers.md#${anchor}`;
    const profile = (anchor) => `forms-profile.md#${anchor}`;

    const answerOf = (line) => (line ? line.reading || line.text : "").replace(/^(\d+: |ask )/, "");

    // A reason for a row that both have; `holds` is given what both answered, the facts, and the command.
    function row(name, link, text, holds) {
        reasons.rows.push({
            name, link, text, mark: "explained",
            explains: ({ program, browser }, command, run) => Boolean(program && browser) && holds({
                was: answerOf(program), is: answerOf(browser), what: browser.what, facts: browser.subject || {},
                browser, command, run,
            }),
        });
    }

    // A reason for a row that may stand on one side alone.
    function anyRow(name, link, text, holds, mark = "explained") {
        reasons.rows.push({ name, link, text, mark, explains: (one, command, run) => holds(one, command, run) });
    }

    // A reason for rows of a command together: `finds` gives those that it explains.
    function command(name, link, text, finds) {
        reasons.commands.push({ name, link, text, mark: "explained", finds });
    }

    Object.assign(CepageBrowser, { reasons, reasonOf: { row, anyRow, command, browsers, profile, answerOf } });
})();
