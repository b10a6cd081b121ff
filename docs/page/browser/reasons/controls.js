// Reasons: values, checkedness, choices and disabled states. See docs/browsers.md and docs/forms-profile.md. Where
// cepage derives and a browser keeps, a reason holds only where the rule by which cepage derives gives what the
// program wrote.
"use strict";
globalThis.CepageBrowser ??= {};

(() => {
    const { row, anyRow, browsers, profile } = CepageBrowser.reasonOf;
    const CONVERTED = ["number", "range", "color", "date", "time", "month", "week", "datetime-local", "email", "url"];
    const isSelect = (facts) => facts.kind === "select";
    const isRadio = (facts) => facts.kind === "input" && facts.type === "radio";
    const yes = (truth) => (truth ? "yes" : "no");

    // ---- resets

    row("a reset in another document", browsers("a-reset-in-another-document"),
        "in Chromium a form isn't reset in a document without a view",
        ({ was, what, facts }) => facts.notReset && (what === "value" ? was === (isSelect(facts) ? facts.derived : facts.kept)
            : what === "checked" && was === yes(facts.derived)));

    // ---- options and selects

    // An option that is disabled in a browser alone: the question says so, and the user may not choose it.
    const isDisabledThere = ({ was, is, what, facts, command: { form } }) => facts.kind === "option"
        && (what === "disabled" ? was === "no" && is === "yes"
            : Boolean(form) && form.word === "user choose" && was === "ok" && is === "ignored");

    row("an option of a group further up", browsers("an-option-further-down-in-a-disabled-optgroup"),
        "in Chromium a disabled optgroup disables the options further down too",
        (one) => isDisabledThere(one) && one.facts.groupFurtherUp);

    row("an option of a disabled select", browsers("an-option-of-a-disabled-select"),
        "in Chromium an option of a select that is disabled is disabled too",
        (one) => isDisabledThere(one) && one.facts.selectOff);

    row("an option further down in a select", browsers("an-option-further-down-in-a-select"),
        "in Chromium the options of a select are those further down too",
        ({ was, what, facts }) => what === "value" && isSelect(facts) && facts.deepOption && was === facts.derived);

    row("an option that is set off twice", browsers("an-option-that-is-set-off-twice"),
        "in Chromium an option that was off and is set off stays clean, and its attribute counts",
        ({ was, what, facts }) => what === "value" && isSelect(facts) && facts.setOff && was === facts.derived);

    row("the first option that is enabled", browsers("the-first-option-that-is-enabled"),
        "in a browser the choice is made once and kept",
        ({ was, what, facts }) => what === "value" && isSelect(facts) && facts.noneFlagged && was === facts.derived);

    row("the option that was flagged last", profile("controls"),
        "of several flagged options a browser keeps the one that was chosen last, here it is the last in tree order",
        ({ was, what, facts }) => what === "value" && isSelect(facts) && !facts.noneFlagged && was === facts.derived);

    row("a select that is missing", browsers("the-first-option-that-is-enabled"),
        "in a browser the choice is made once and kept",
        ({ was, is, what, facts }) => what === "valid" && isSelect(facts) && facts.required && facts.noneFlagged
            && !facts.placeholderBehind && was === (facts.derivedMissing ? "valueMissing" : "valid")
            && is === (facts.derivedMissing ? "valid" : "valueMissing"));

    // ---- radio buttons

    row("a radio button that another one sets off", browsers("a-radio-button-that-another-one-sets-off"),
        "in a browser it is off and not dirty, so its `checked` attribute turns it on",
        ({ was, what, facts }) => what === "checked" && isRadio(facts) && facts.turnedOn && was === yes(facts.derived));

    row("two radio buttons with `checked`", browsers("two-radio-buttons-with-checked"),
        "in a browser the one that was turned on last is checked, and nothing turns another one on again",
        ({ was, what, facts }) => what === "checked" && (isRadio(facts) || facts.retyped) && was === yes(facts.derived));

    // ---- values

    row("a textarea that is cloned without its text", browsers("a-textarea-that-is-cloned-without-its-text"),
        "in a browser the copy has the value of the one that was cloned",
        ({ was, what, facts }) => what === "value" && facts.kind === "textarea" && facts.shallowCopy && was === '""');

    row("typing is cut", browsers("limits-that-are-no-digits"), "in a browser what the user types is cut at `maxlength`",
        ({ was, what, facts }) => what === "value" && facts.edited && was === facts.kept && facts.cut);

    row("a change of type", profile("left-out"), "a browser moves the value where the type of an input changes",
        ({ was, what, facts }) => what === "value" && facts.kind === "input" && facts.moved && was === facts.kept);

    anyRow("a change of type sets the attribute", profile("left-out"),
        "a browser moves the value where the type of an input changes, so its `value` attribute changes",
        ({ program, browser }, { form }) => Boolean(form) && !program && ["setattr", "delattr"].includes(form.word)
            && form.args[1].toLowerCase() === "type" && /^call #\d+ attribute "value" /.test(browser.text)
            && Boolean(browser.subject) && browser.subject.kind === "input" && browser.subject.valueSet);

    row("a type that is not here", profile("types"), "a browser reads the value as its type wants it",
        ({ was, what, facts }) => what === "value" && facts.kind === "input" && CONVERTED.includes(facts.type)
            && was === facts.kept);

    row("the value of an input of the type `file`", browsers("inputs-of-the-types-file-and-image"),
        "in a browser its value is the name of the file that was chosen",
        ({ was, is, what, facts }) => what === "value" && facts.kind === "input" && facts.type === "file"
            && was === facts.kept && is === '""');

    // ---- what a form owns

    row("other controls", profile("left-out"), "a browser lists `output` and `object` among the controls of a form",
        ({ was, is, what, facts }) => what === "controls" && (facts.otherControls || []).length > 0
            && (is.split(" ").filter((number) => !facts.otherControls.includes(number)).join(" ") || "empty") === was);
})();
