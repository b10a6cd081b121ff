// Questions: what the browser shows of a node. What it doesn't show is written as `not shown`, and the comparison
// asks nothing of it. It follows docs/language.md, "Questions". The function's own text runs in the frame.
"use strict";
globalThis.CepageBrowser ??= {};
CepageBrowser.frame ??= [];

CepageBrowser.frame.push(function questions(run) {
    const FLAGS = ["valueMissing", "typeMismatch", "patternMismatch", "tooLong", "tooShort", "rangeUnderflow",
        "rangeOverflow", "stepMismatch", "badInput", "customError"];
    const yes = (truth) => (truth ? "yes" : "no");
    const numbered = (node) => (node ? run.number(node) : "null");
    const listed = (list) => (list.length ? list.join(" ") : "empty");
    const notShown = (why) => {
        run.asked.notShown = why;
        return "not shown";
    };

    // A getter of the prototype: a form's own may be hidden by the names of its controls.
    run.get = (prototype, name, node) => Object.getOwnPropertyDescriptor(prototype, name).get.call(node);

    run.elementsOf = (form) => [...run.get(HTMLFormElement.prototype, "elements", form)];

    // A custom element without internals shows its form owner only as a control of each form of its tree.
    function owner(node) {
        if (run.is.messaged(node)) return numbered(node.form);
        const attached = run.internals.get(node);
        if (attached) return numbered(attached.form);
        const root = run.bare(node.getRootNode());
        const forms = root.querySelectorAll ? [...root.querySelectorAll("form")] : [];
        const above = node.getRootNode() instanceof HTMLFormElement ? [node.getRootNode()] : [];
        return numbered([...above, ...forms].find((form) => run.elementsOf(form).includes(node)));
    }

    // What of a control its own properties show, and of a custom element its internals.
    const shown = (node) => (run.is.messaged(node) ? node : run.internals.get(node));
    const flagsOf = (validity) => FLAGS.filter((flag) => validity[flag]);

    function valid(node) {
        const source = shown(node);
        if (!source) return notShown("without internals");
        return flagsOf(source.validity).join(" ") || "valid";
    }

    function candidate(node) {
        const source = shown(node);
        return source ? yes(source.willValidate) : notShown("without internals");
    }

    // The browser has messages of its own for the other flags, and none where the control is barred.
    function message(node) {
        const source = shown(node);
        if (!source) return notShown("without internals");
        if (!run.is.messaged(node)) return run.quote(source.validationMessage);
        if (!source.validity.customError) return run.quote("");
        return source.willValidate ? run.quote(source.validationMessage) : notShown("message of a barred control");
    }

    // Of the states a browser shows one bit: `:defined`.
    function state(node) {
        if (!run.bare(node).matches(":defined")) return notShown("not defined");
        return run.classOf(node) ? "custom" : "uncustomized";
    }

    const value = (node) => (run.is.messaged(node) ? run.quote(node.value) : notShown("submission value"));

    function ask(kind, answer) {
        return ([operand], here) => {
            const node = kind === "node" ? run.node(operand, here) : kind === "element" ? run.elementOf(operand, here)
                : run.one(kind, operand, here);
            run.asked = { subject: run.facts(node) };
            return answer(node);
        };
    }

    function attribute([operand, name], here) {
        const found = Element.prototype.getAttribute.call(run.elementOf(operand, here), name);
        run.asked = {};
        return found === null ? "null" : run.quote(found);
    }

    run.is.disableable = (node) => run.is.submittable(node) || run.is.option(node);
    run.is.associated = (node) => node instanceof Element && run.isAssociated(node);

    const answers = {
        parent: ask("node", (node) => numbered(run.bare(node).parentNode)),
        kids: ask("node", (node) => listed([...run.bare(node).childNodes].map(run.number))),
        state: ask("element", state),
        owner: ask("listed", owner),
        controls: ask("form", (form) => listed(run.elementsOf(form).map(run.number))),
        disabled: ask("disableable", (node) => yes(node.matches(":disabled"))),
        candidate: ask("submittable", candidate),
        valid: ask("submittable", valid),
        message: ask("submittable", message),
        value: ask("submittable", value),
        checked: ask("checkable", (node) => yes(node.checked)),
        saved: ask("associated", () => notShown("saved state")),
        states: ([operand], here) => {
            const { states } = run.internalsOf(operand, here);
            run.asked = {};
            return listed([...states].map(run.quote));
        },
        attr: attribute,
    };
    for (const [what, answer] of Object.entries(answers)) {
        run.operations[`ask ${what}`] = (args, here) => {
            const reply = answer(args, here);
            run.asked.what = what;
            return reply;
        };
    }
});
