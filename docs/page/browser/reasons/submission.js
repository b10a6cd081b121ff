// Reasons: submission. See docs/browsers.md. The frame has made each submission once more with one thing otherwise;
// a reason holds where that gives what the program wrote.
"use strict";
globalThis.CepageBrowser ??= {};

(() => {
    const { row, anyRow, browsers, profile } = CepageBrowser.reasonOf;
    const isSubmit = (line) => Boolean(line) && /^submit /.test(line.text);

    function variant(name, key, anchor, text) {
        const isIt = ({ was, browser }) => isSubmit(browser) && Boolean(browser.variants) && browser.variants[key] === was;
        row(name, browsers(anchor), text, isIt);
    }

    variant("controls in a datalist", "datalist", "controls-in-a-datalist",
        "in Chromium what is below a datalist gives its entries");
    row("what is checked and chosen", profile("controls"),
        "a browser keeps what is checked and chosen, where it is derived here",
        ({ was, browser }) => isSubmit(browser) && Boolean(browser.variants) && browser.variants.derived === was);
    variant("the label of a submit input", "label", "the-label-of-a-submit-input",
        "a browser sends the label that the button shows");
    variant("an action and the `base` element", "base", "an-action-and-the-base-element",
        "a browser parses an action against the base URL");
    variant("a bar in a path", "bar", "a-space-in-a-host-a-bar-in-a-path", "Chromium writes it as `%7C`");
    variant("an input of the type `file`", "files", "inputs-of-the-types-file-and-image", "in a browser it gives an entry");

    row("a space in a host", browsers("a-space-in-a-host-a-bar-in-a-path"), "Chromium takes it as `%20`",
        ({ was, is, browser }) => isSubmit(browser) && / blocked url$/.test(was) && Boolean(browser.spaceInHost)
            && /%20/.test(is));

    // An image button submits its form.
    const isImage = ({ rows }) => rows.some(({ browser }) => browser && browser.reply && browser.subject
        && browser.subject.kind === "input" && browser.subject.type === "image");
    anyRow("an input of the type `image`", browsers("inputs-of-the-types-file-and-image"),
        "in a browser it is a button that submits its form",
        ({ program, browser }, command) => {
            if (!command.form || !["user press", "request"].includes(command.form.word) || !isImage(command)) return false;
            if (isSubmit(browser)) return !program;
            return command.form.word === "request" && Boolean(program && browser)
                && program.text.endsWith(": throw TypeError") && browser.text.endsWith(": ok");
        });
})();
