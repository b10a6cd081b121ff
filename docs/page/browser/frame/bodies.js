// Bodies: the actions of callbacks and constructors, one after the other. It follows docs/language.md, "Bodies".
// The function's own text runs in the frame.
"use strict";
globalThis.CepageBrowser ??= {};
CepageBrowser.frame ??= [];

CepageBrowser.frame.push(function bodies(run) {
    const MOST = 2n ** 64n - 1n;

    // The node that an operand names; `here` is the body that it stands in.
    run.node = (operand, here) => {
        if (operand.word === "doc") return document;
        if (operand.word === "this") return here.self();
        if (!run.variables.has(operand.variable)) throw new TypeError("the variable was not set");
        return run.variables.get(operand.variable);
    };

    run.value = (operand, here) => {
        if (operand.text !== undefined) return operand.text;
        if (operand.at === "count") return String(here.owner.count);
        if (operand.at === "kept") return here.owner.kept;
        return here.at[Number(operand.at) - 1] ?? "";
    };

    // An operation, at top level or in a body; its reply, `ok` where it has none.
    run.operate = ({ word, args }, here) => run.operations[word](args, here) ?? "ok";

    // Each gives undefined, or what ends the body.
    const actions = {
        log: ([first, others], here) => {
            run.write(`log ${[first, ...others].map((value) => run.quote(run.value(value, here))).join(" ")}`);
        },
        super: (args, here) => here.base(),
        return: ([operand], here) => ({ node: operand && run.node(operand, here) }),
        throw: ([value], here) => { throw new run.UserFault(run.value(value, here)); },
        bump: (args, { owner }) => { if (owner.count < MOST) owner.count++; },
        keep: ([value], here) => { here.owner.kept = run.value(value, here); },
        try: ([action], here) => {
            try {
                return act(action, here);
            } catch (error) {
                if (run.ended || run.isOverflow(error)) throw error;
                run.write(`caught ${run.fault(error)}`);
            }
        },
        "if eq": ([left, right, action], here) => (
            run.value(left, here) === run.value(right, here) ? act(action, here) : undefined),
        "if ne": ([left, right, action], here) => (
            run.value(left, here) !== run.value(right, here) ? act(action, here) : undefined),
    };

    function act(action, here) {
        run.step();
        if (actions[action.word]) return actions[action.word](action.args, here);
        const outer = run.asked;
        try {
            run.asked = undefined;
            const reply = run.operate(action, here);
            if (action.word.startsWith("ask ")) run.write(`ask ${reply}`, run.asked);
        } finally {
            run.asked = outer;
        }
    }

    run.body = (owner, list, { self, at, base }) => {
        const here = { owner, self, at, base };
        for (const action of list) {
            const end = act(action, here);
            if (end) return end;
        }
    };
});
