// Keeps what the lines set on controls, as docs/controls.md does: flags, values, types, copies; and the facts of what a
// line is about. It looks at each operation before and behind; nothing here changes what the browser does. The
// function's own text runs in the frame.
"use strict";
globalThis.CepageBrowser ??= {};
CepageBrowser.frame ??= [];

CepageBrowser.frame.push(function watched(run) {
    const { flags, sets, isValues, rawValues, ownAttributes } = run.kept;
    const { isRadio, groupOf, optionsOf, selectOf } = run.derived;

    function flag(node, on, others) {
        if (on) for (const other of others) flags.set(other, false);
        flags.set(node, on);
    }

    // `begin` looks at the operands before the operation, and gives what is to be done behind it.
    function watch(word, begin) {
        const act = run.operations[word];
        run.operations[word] = (args, here) => {
            let behind;
            try { behind = begin(args, here); } catch { /* the operation itself will throw */ }
            const reply = act(args, here);
            if (behind && reply !== "ignored") behind();
            return reply;
        };
    }

    const nodeOf = ([operand], here) => run.node(operand, here);

    function watchSet(word, isTyped) {
        watch(word, (args, here) => {
            const node = nodeOf(args, here);
            const text = run.value(args[1], here);
            return () => {
                sets.valueSet.add(node);
                for (const set of [sets.moved, sets.notReset]) set.delete(node);
                rawValues.set(node, text);
                if (isTyped) sets.edited.add(node);
                else sets.edited.delete(node);
            };
        });
    }

    // What an element gives as its entries, as the lines have set it: nothing shows it.
    const entries = new WeakMap();
    function watchValue(word, entriesOf) {
        watch(word, (args, here) => {
            const node = nodeOf(args, here);
            const set = entriesOf(args, here, node);
            return () => entries.set(node, set);
        });
    }
    run.entriesOf = (node) => (entries.has(node) ? entries.get(node)() : []);

    function watchFlag(word) {
        watch(word, (args, here) => {
            const node = nodeOf(args, here);
            return () => {
                const select = node instanceof HTMLOptionElement && selectOf(node);
                const others = select ? (select.multiple ? [] : optionsOf(select)) : isRadio(node) ? groupOf(node) : [];
                flag(node, args[1] === "on", others);
            };
        });
    }

    // A reset, which Chromium leaves undone in a document without a view.
    function forget(form) {
        const isDone = Boolean(run.bare(form).ownerDocument.defaultView);
        for (const control of run.elementsOf(form)) {
            if (!isDone) sets.notReset.add(control);
            for (const node of control instanceof HTMLSelectElement ? optionsOf(control) : [control]) flags.delete(node);
            sets.valueSet.delete(control);
            rawValues.delete(control);
            sets.edited.delete(control);
        }
    }

    function copiedOne(node, copy, deep) {
        sets.copied.add(copy);
        const isSet = sets.valueSet.has(node);
        if (node instanceof HTMLInputElement || node instanceof HTMLTextAreaElement) {
            if (flags.has(node)) flags.set(copy, flags.get(node));
            if (isSet) sets.valueSet.add(copy);
            for (const map of [rawValues, ownAttributes]) if (map.has(node)) map.set(copy, map.get(node));
            for (const set of [sets.retyped, sets.moved]) if (set.has(node)) set.add(copy);
            if (!deep && !isSet && node instanceof HTMLTextAreaElement) sets.shallowCopy.add(copy);
        }
        if (isValues.has(node)) isValues.set(copy, isValues.get(node));
    }

    function watchType(word) {
        watch(word, (args, here) => {
            const node = nodeOf(args, here);
            if (!(node instanceof HTMLInputElement) || args[1].toLowerCase() !== "type") return undefined;
            const before = node.type;
            const own = node.getAttribute("value");
            return () => {
                if (node.type === before) return;
                if (!ownAttributes.has(node)) ownAttributes.set(node, own);
                sets.retyped.add(node);
                if (sets.valueSet.has(node)) sets.moved.add(node);
            };
        });
    }

    // The `value` attribute that the lines have set, where a browser has changed it with the type.
    function watchOwn(word) {
        watch(word, (args, here) => {
            const node = nodeOf(args, here);
            if (!ownAttributes.has(node) || args[1].toLowerCase() !== "value") return undefined;
            const own = word === "setattr" ? run.value(args[2], here) : null;
            return () => ownAttributes.set(node, own);
        });
    }

    // What the browser enqueues nothing for: an element that is custom, or whose constructor runs.
    const isUpgraded = (node) => node instanceof Element && Boolean(run.classOf(node));

    // Whether a tree has such a node, its shadow trees too.
    function hasUpgraded(top, test) {
        for (const left = [top]; left.length;) {
            for (const node of run.inOrder(left.pop())) {
                if (test(node)) return true;
                const { shadowRoot } = run.bare(node);
                if (shadowRoot) left.push(shadowRoot);
            }
        }
        return false;
    }

    function watchUpgrade(word, index, test) {
        watch(word, (args, here) => {
            const node = run.node(args[index], here);
            if (run.depth > 0 && hasUpgraded(node, test)) run.noted.add("upgrade");
        });
    }

    // Of one value the name is the element's when it is sent.
    watchValue("formvalue", ([, value], here, node) => {
        const text = run.value(value, here);
        return () => [[node.getAttribute("name"), text]];
    });
    watchValue("formlist", ([, pairs]) => () => pairs);
    watchValue("formnull", () => () => []);
    watchSet("value", false);
    watchSet("user edit", true);
    for (const word of ["check", "choose", "user check", "user choose"]) watchFlag(word);
    for (const word of ["reset", "user reset"]) watch(word, (args, here) => {
        const form = nodeOf(args, here);
        return () => forget(form);
    });
    watch("user press", (args, here) => {
        const button = nodeOf(args, here);
        return () => { if (button.type === "reset" && button.form) forget(button.form); };
    });
    watch("clone", ([, , deep]) => () => {
        for (const [node, copy] of run.copies) copiedOne(node, copy, Boolean(deep));
    });
    watch("create", ([variable, , is]) => () => { if (is !== undefined) isValues.set(run.variables.get(variable), is); });
    for (const word of ["setattr", "delattr"]) {
        watchType(word);
        watchOwn(word);
    }
    watchUpgrade("upgrade", 0, isUpgraded);
    for (const word of ["append", "before"]) watchUpgrade(word, 1, run.isConstructing);
    // The facts of a reply: which operand they are about.
    const ABOUT = {
        internals: 0, formvalue: 0, formlist: 0, formnull: 0, validity: 0, shadow: 1, clone: 1, "user press": 0, request: -1,
        "user choose": 0, append: 1, before: 1, remove: 1, detach: 0, adopt: 1, reset: 0, "user reset": 0,
    };
    const MOVING = ["append", "before", "remove", "detach", "adopt"];
    const formsWithin = (node) => [node, ...run.bare(node).querySelectorAll("form")].filter(run.is.form).map(run.number);

    function factsOfReply(word, args, here) {
        const node = run.node(args.filter(Boolean).at(ABOUT[word]), here);
        const subject = run.facts(node);
        if (["append", "before"].includes(word)) {
            subject.parent = run.number(run.node(args[0], here));
            subject.children = [...run.bare(node).childNodes].map(run.number);
        }
        if (node instanceof Element && MOVING.includes(word)) subject.forms = formsWithin(node);
        return subject;
    }

    for (const word of Object.keys(ABOUT)) {
        watch(word, (args, here) => {
            const asked = { subject: factsOfReply(word, args, here) };
            run.asked = asked;
            return () => { run.asked = asked; };
        });
    }
    run.noted = new Set();
});
