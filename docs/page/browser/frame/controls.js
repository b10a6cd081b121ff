// Controls: which elements they are, what a line sets on them, what the user does to them, and internals. It follows
// docs/controls.md, docs/internals.md and docs/validity.md. The function's own text runs in the frame.
"use strict";
globalThis.CepageBrowser ??= {};
CepageBrowser.frame ??= [];

CepageBrowser.frame.push(function controls(run) {
    const internals = new WeakMap();
    const NO_TEXT = ["hidden", "checkbox", "radio", "submit", "reset", "button", "file", "image"];
    const BUTTONS = ["submit", "reset", "button", "file", "image"];

    const MESSAGED = [HTMLButtonElement, HTMLFieldSetElement, HTMLInputElement, HTMLSelectElement, HTMLTextAreaElement];

    const typeOf = (node) => (run.bare(node).getAttribute("type") || "").toLowerCase();
    const isInput = (node, types) => node instanceof HTMLInputElement && types.includes(typeOf(node));
    const isOne = (node, kinds) => kinds.some((kind) => node instanceof kind);
    const is = {
        text: (node) => node instanceof HTMLTextAreaElement || (node instanceof HTMLInputElement && !isInput(node, NO_TEXT)),
        checkable: (node) => isInput(node, ["checkbox", "radio"]),
        option: (node) => node instanceof HTMLOptionElement,
        form: (node) => node instanceof HTMLFormElement,
        button: (node) => node instanceof HTMLButtonElement || isInput(node, BUTTONS),
        messaged: (node) => isOne(node, MESSAGED),
        listed: (node) => is.messaged(node) || (node instanceof Element && run.isAssociated(node)),
        submittable: (node) => is.listed(node) && !(node instanceof HTMLFieldSetElement),
    };

    // The node of an operand, where it is of the kind.
    function one(kind, operand, here) {
        const node = run.node(operand, here);
        if (!is[kind](node)) throw new TypeError(`it is not of the kind: ${kind}`);
        return node;
    }

    function internalsOf(operand, here) {
        const node = run.elementOf(operand, here);
        if (!internals.has(node)) throw new TypeError("it has no internals");
        return internals.get(node);
    }

    const isFocused = (node) => run.bare(node.getRootNode()).activeElement === node;

    // As near to typing as a script comes: the text takes the place of what is there, and is cut at `maxlength`. No newline
    // can be typed into an input. What can't be focused gets its value set.
    function type(node, whole) {
        const text = node instanceof HTMLInputElement ? whole.replace(/[\r\n]/g, "") : whole;
        node.focus({ preventScroll: true });
        if (isFocused(node)) {
            node.select();
            run.bare(document).execCommand(text ? "insertText" : "delete", false, text);
            if (!text) node.value = "";
            node.blur();
        } else node.value = text;
    }

    function edit([operand, value], here) {
        const node = one("text", operand, here);
        if (node.matches(":disabled") || node.readOnly) return "ignored";
        type(node, run.value(value, here));
    }

    // A click where that comes to what is wanted, else the state is set.
    function userCheck([operand, wanted], here) {
        const node = one("checkable", operand, here);
        if (node.matches(":disabled")) return "ignored";
        if (node.checked !== (wanted === "on")) node.click();
        node.checked = wanted === "on";
    }

    function userChoose([operand, wanted], here) {
        const node = one("option", operand, here);
        const select = node.closest("select");
        if (node.matches(":disabled") || (select && select.matches(":disabled"))) return "ignored";
        node.selected = wanted === "on";
    }

    Object.assign(run.operations, {
        value: ([operand, value], here) => { one("text", operand, here).value = run.value(value, here); },
        check: ([operand, wanted], here) => { one("checkable", operand, here).checked = wanted === "on"; },
        choose: ([operand, wanted], here) => { one("option", operand, here).selected = wanted === "on"; },
        custom: ([operand, message], here) => one("messaged", operand, here).setCustomValidity(run.value(message, here)),
        "user edit": edit,
        "user check": userCheck,
        "user choose": userChoose,
        internals: ([operand], here) => {
            const node = run.elementOf(operand, here);
            internals.set(node, HTMLElement.prototype.attachInternals.call(node));
        },
        formvalue: ([operand, value, state], here) => {
            const texts = [value, state].filter(Boolean).map((text) => run.value(text, here));
            internalsOf(operand, here).setFormValue(...texts);
        },
        formlist: ([operand, pairs], here) => {
            const list = new FormData();
            for (const [name, value] of pairs) list.append(name, value);
            internalsOf(operand, here).setFormValue(list);
        },
        formnull: ([operand], here) => internalsOf(operand, here).setFormValue(null),
        validity: ([operand, flags, message], here) => {
            const set = Object.fromEntries(flags.map((flag) => [flag, true]));
            internalsOf(operand, here).setValidity(set, run.value(message, here));
        },
        "state add": ([operand, text], here) => { internalsOf(operand, here).states.add(text); },
        "state delete": ([operand, text], here) => { internalsOf(operand, here).states.delete(text); },
        "state clear": ([operand], here) => internalsOf(operand, here).states.clear(),
    });
    Object.assign(run, { one, is, typeOf, internalsOf, internals });
});
