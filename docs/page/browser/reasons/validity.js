// Reasons: validity. See docs/browsers.md and docs/forms-profile.md.
"use strict";
globalThis.CepageBrowser ??= {};

(() => {
    const { row, browsers, profile } = CepageBrowser.reasonOf;
    const TEXTS = ["", "text", "search", "tel", "password"];
    const OTHER_TYPES = ["email", "url", "number", "range", "color", "date", "time", "month", "week", "datetime-local",
        "file"];
    const isInput = (facts, ...types) => facts.kind === "input" && types.includes(facts.type);
    const less = (flags, flag) => flags.split(" ").filter((one) => one !== flag).join(" ") || "valid";

    row("missing and not to be edited", browsers("a-required-text-that-is-disabled-or-read-only"),
        "in a browser a required text that is disabled or read-only is not missing",
        ({ was, is, what, facts }) => what === "valid"
            && (facts.kind === "textarea" || isInput(facts, ...TEXTS, ...OTHER_TYPES))
            && facts.required && facts.empty && (facts.disabled || facts.readonly)
            && was.includes("valueMissing") && less(was, "valueMissing") === is);

    row("a required radio button without a name", browsers("a-required-radio-button-without-a-name"),
        "in Chromium it is never missing",
        ({ was, is, what, facts }) => what === "valid" && isInput(facts, "radio")
            && !facts.named && facts.required && !facts.derived
            && was.includes("valueMissing") && less(was, "valueMissing") === is);

    row("a placeholder behind others", browsers("a-placeholder-behind-an-hr"),
        "in Chromium an `hr` or an optgroup before it keeps an option from being the placeholder",
        ({ was, is, what, facts }) => what === "valid" && facts.kind === "select" && facts.required && facts.placeholderBehind
            && was.includes("valueMissing") && less(was, "valueMissing") === is);

    row("a placeholder of a select with a size", profile("left-out"),
        "in a browser a select that shows several options has no placeholder",
        ({ was, is, what, facts }) => what === "valid" && facts.kind === "select" && facts.required && facts.sized
            && !facts.noneFlagged && was.includes("valueMissing") && less(was, "valueMissing") === is);

    row("`readonly` on other inputs than texts", browsers("readonly-on-a-checkbox"),
        "Chromium bars every input that has it",
        ({ was, is, what, facts }) => what === "candidate" && facts.kind === "input" && facts.readonly
            && !isInput(facts, ...TEXTS, ...OTHER_TYPES) && was === "yes" && is === "no");

    row("newlines of a message", browsers("newlines-of-a-message"),
        "in Chromium each newline of a message is one line feed",
        ({ was, is, what }) => what === "message" && /\\r/.test(was) && was.replace(/\\r\\n|\\r/g, "\\n") === is);

    // ---- which controls block a form

    const OTHERS = {
        "typed by the user": ({ edited }, isHere) => isHere && edited,
        "a required radio button without a name": (facts, isHere) => isHere && isInput(facts, "radio")
            && !facts.named && facts.required,
        "a placeholder behind others": (facts, isHere) => isHere && facts.kind === "select" && facts.required
            && facts.placeholderBehind,
        "a placeholder of a select with a size": (facts, isHere) => isHere && facts.kind === "select" && facts.required
            && facts.sized && !facts.noneFlagged,
        "`readonly` on other inputs than texts": (facts, isHere) => isHere && facts.kind === "input" && facts.readonly
            && !isInput(facts, ...TEXTS, ...OTHER_TYPES),
        "a select that is missing": (facts, isHere) => facts.kind === "select" && facts.required && facts.noneFlagged
            && facts.derivedMissing === isHere,
        "a type that is not here": (facts) => isInput(facts, ...OTHER_TYPES),
    };
    const blocking = (text) => (/^submit #\d+ blocked invalid (.*)$/.exec(text) || ["", ""])[1].split(" ").filter(Boolean);

    // Why a control blocks on one side alone; `isHere`: in the program's transcript.
    function whyOf(number, isHere, controls) {
        const facts = controls.find((one) => one.number === number);
        return facts && Object.keys(OTHERS).find((name) => OTHERS[name](facts, isHere));
    }

    row("which controls are invalid", browsers("how-they-were-compared"),
        "a control is invalid on one side alone, for a reason of its own: `ask valid` of it says which",
        ({ was, is, browser: { controls } }) => {
            if (!/^submit /.test(was) || !controls) return false;
            const [here, there] = [blocking(was), blocking(is)];
            const alone = [...here.filter((one) => !there.includes(one)).map((one) => [one, true]),
                ...there.filter((one) => !here.includes(one)).map((one) => [one, false])];
            return alone.length > 0 && alone.every(([number, isHere]) => whyOf(number, isHere, controls));
        });

    row("the validity of a type that is not here", profile("types"), "a browser validates the value as its type wants it",
        ({ what, facts }) => what === "valid" && isInput(facts, ...OTHER_TYPES));
})();
