// What every part of the runner in the frame stands on: the lines that it writes, the numbers of nodes, faults, and
// where a run ends. It follows docs/transcript.md. The function's own text runs in the frame, so it names nothing
// from outside of itself.
"use strict";
globalThis.CepageBrowser ??= {};
CepageBrowser.frame ??= [];

CepageBrowser.frame.push(function base(run) {
    class UserFault { constructor(text) { this.text = text; } }
    class Stop extends Error {}
    const numbers = new WeakMap();
    let last = 0;

    const ESCAPES = { '"': '\\"', "\\": "\\\\", "\n": "\\n", "\r": "\\r", "\t": "\\t" };
    const SPECIAL = /["\\\0-\x1f\x7f]/g;
    const escaped = (sign) => ESCAPES[sign] || `\\u{${sign.charCodeAt(0).toString(16)}}`;
    const quote = (text) => `"${text.replace(SPECIAL, escaped)}"`;

    // What a node has by its interface: the controls of a form hide what has their names, and the forms of a document do.
    const HIDING = [HTMLFormElement, Document];
    function bare(node) {
        const hiding = HIDING.find((kind) => node instanceof kind);
        if (!hiding) return node;
        const get = (of, name) => {
            const value = Reflect.get(hiding.prototype, name, of);
            return typeof value === "function" ? value.bind(of) : value;
        };
        return new Proxy(node, { get });
    }

    // A tree in its order. It may be deeper than calls can stand.
    function* inOrder(top) {
        for (const left = [top]; left.length;) {
            const node = left.pop();
            yield node;
            for (const child of [...bare(node).childNodes].reverse()) left.push(child);
        }
    }

    // The operations that make nodes, the innermost last: the numbers that it has kept, and the nodes that have them.
    const making = [];

    // Makes nodes. So many stand before the first constructor runs, which may make others: their numbers are kept.
    function make(count, act) {
        const kept = { first: last + 1, count, nodes: [] };
        last += count;
        making.push(kept);
        try {
            return act(kept);
        } finally {
            making.pop();
            if (!kept.nodes.length && last === kept.first + count - 1) last -= count;
        }
    }

    // Numbers a node that is not known, and all of its tree in order: so a copy whose constructor runs before
    // `cloneNode` has returned gets the number that it has in the transcript.
    function numberTree(top) {
        const kept = making.at(-1);
        const takes = kept && !kept.nodes.length && kept.count && !numbers.has(top);
        for (const node of inOrder(top)) {
            if (numbers.has(node)) continue;
            const isKept = takes && kept.nodes.length < kept.count;
            numbers.set(node, isKept ? kept.first + kept.nodes.length : ++last);
            if (isKept) kept.nodes.push(node);
        }
    }

    function number(node) {
        if (!numbers.has(node)) numberTree(bare(node).getRootNode());
        return `#${numbers.get(node)}`;
    }

    // One more line of the transcript; `more` is what the comparison is told beside it.
    function write(text, more = {}) {
        const line = { text, line: run.line, ...more };
        if (!run.ended) run.lines.push(line);
        return line;
    }

    // The run ends here: nothing is written any more, and each body that begins throws at once.
    function stop(why, detail = "") {
        if (!run.ended) run.ended = { why, detail, line: run.line };
        throw new Stop(why);
    }

    function isOverflow(error) {
        return error instanceof RangeError || error instanceof Stop;
    }

    function fault(error) {
        if (error instanceof UserFault) return `user ${quote(error.text)}`;
        return error instanceof Error || error instanceof DOMException ? error.name : `unknown ${quote(String(error))}`;
    }

    // One step: a command, an action, or a callback or constructor that begins.
    function step() {
        if (run.ended) throw new Stop(run.ended.why);
        if (++run.steps > run.limits.steps) stop("steps", run.limits.steps);
    }

    // A callback or a constructor, within those that run.
    function within(act) {
        step();
        if (run.depth >= run.limits.depth) stop("depth", run.limits.depth);
        run.depth++;
        try {
            return act();
        } finally {
            run.depth--;
        }
    }

    // A fault that goes no further than its callback, its upgrade or its creation is told by an event, at once.
    window.addEventListener("error", (event) => {
        event.preventDefault();
        if (run.ended) return;
        if (isOverflow(event.error)) run.ended = { why: "stack", detail: "", line: run.line };
        else write(`report ${fault(event.error)}`);
    });

    Object.assign(run, {
        lines: [], line: 0, steps: 0, depth: 0, ended: null, variables: new Map(), operations: {},
        UserFault, bare, inOrder, make, quote, number, write, stop, step, within, fault, isOverflow,
        skipNumber: () => { last++; },
    });
});
