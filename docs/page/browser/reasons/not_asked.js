// What is not to be asked of a browser: the reasons for rows of which its answer says nothing. See docs/porting.md.
"use strict";
globalThis.CepageBrowser ??= {};

(() => {
    const { anyRow, row } = CepageBrowser.reasonOf;
    const reasons = CepageBrowser.reasons.rows;
    const SHOWN = {
        "not defined": "of the states that are not defined, a browser shows that they are not",
        "submission value": "a submission value can't be read",
        "saved state": "what is kept beside a submission value can't be read",
        "without internals": "without internals an element shows neither its validity nor that it is a candidate",
        "message of a barred control": "a control that is barred from validation shows no message",
    };
    const link = (anchor) => `porting.md#${anchor}`;
    const notAsked = (name, anchor, text, holds) => anyRow(name, link(anchor), text, holds, "notAsked");

    for (const [notShown, text] of Object.entries(SHOWN)) {
        notAsked(`not shown: ${notShown}`, "what-a-browser-doesnt-show", text,
            ({ program, browser }) => Boolean(program && browser) && browser.notShown === notShown);
    }

    // The program's session ended there; the browser has no fuel and went on.
    const isBehindAll = (one, { rows }) => rows.slice(rows.indexOf(one))
        .every(({ program }) => !program || program.text === "fuel");
    notAsked("fuel", "what-is-not-to-be-asked", "a browser has no fuel; the program's was spent here",
        (one, command) => command.fuelEnded && isBehindAll(one, command));

    notAsked("boundary", "what-is-not-to-be-asked", "a browser makes a boundary at random, so none occurs in the entries",
        ({ program, browser }) => Boolean(program && browser) && / blocked boundary$/.test(program.text)
            && /^submit #\d+ post "[^"]*" "multipart\/form-data/.test(browser.text));

    notAsked("size", "what-is-not-to-be-asked", "a browser sends what is too large here",
        ({ program, browser }) => Boolean(program && browser) && / blocked size$/.test(program.text)
            && /^submit #\d+ (get|post) /.test(browser.text));

    // An edit by a script is none by the user, so the flags that wait for one are not set.
    const lengths = /\b(tooLong|tooShort)\b ?/g;
    row("typed by the user", link("what-a-browser-doesnt-show"),
        "a page can't type as the user does, so a browser finds nothing too long or too short behind it",
        ({ was, is, what, facts }) => what === "valid" && facts.edited && lengths.test(was)
            && (was.replace(lengths, "").trim() || "valid") === is);
    reasons.at(-1).mark = "notAsked";
})();
