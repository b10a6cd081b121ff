// Which action of a body a row is: the trace doesn't tell. All the ways in which the body can have written what stands
// directly in its bracket are gone through, action by action, with each `if` taken or not where what it compares is not
// told; a row is named where all ways agree. Follows docs/language.md ("Bodies", "Callbacks within callbacks") and
// docs/transcript.md ("The order of the lines of one command").
"use strict";
globalThis.Cepage ??= {};

(function () {
    // Beyond so many states a body is left without names.
    const LIMIT = 20000;
    const ITEMS = new Set(["operation", "log", "ask", "submit", "caught", "report", "threw", "construct"]);
    const WRITES = new Map([["log", "log"], ["ask", "ask"], ["submit", "submit"], ["request", "submit"]]);
    const SURE = new Set(["log", "bump", "keep"]);

    // The rows directly in a bracket.
    function rowsIn(run, index) {
        const rows = [];
        for (let at = index + 1; at <= run.rows[index].end; at = run.rows[at].end + 1) rows.push(at);
        return rows;
    }

    // The body that runs in a bracket, and the rows that it may have written: null where no class is known.
    function bodyIn(run, index) {
        const row = run.rows[index];
        const callback = row.kind === "run" && row.text !== "upgrade";
        const inside = rowsIn(run, index).filter((at) => ITEMS.has(run.rows[at].kind));
        if (callback) {
            const type = run.elements.get(row.node)?.type;
            return type ? { actions: run.script.body(type, row.text), items: inside, constructor: false } : null;
        }
        const first = inside.findIndex((at) => run.rows[at].kind === "construct");
        if (first < 0) return null;
        const items = inside.slice(first + 1);
        // The report of an upgrade stands behind its end.
        const threw = items.findIndex((at) => run.rows[at].kind === "threw");
        const type = run.rows[inside[first]].text;
        return { actions: run.script.body(type, "constructor"), constructor: true,
            items: threw < 0 ? items : items.slice(0, threw + 1) };
    }

    // What `@1`, `@2` and `@3` say in the body that runs in a bracket.
    function argumentTexts(row) {
        if (row.kind !== "run" || !row.args) return [];
        if (row.text === "formStateRestore") return [Cepage.unquoted(Cepage.quotedTexts(row.args)[0]), row.args.split(" ").pop()];
        const parts = row.text === "attribute" ? Cepage.valuesIn(row.args) : row.args.split(" ");
        return parts.map((part) => part === "null" ? "" : part.startsWith('"') ? Cepage.unquoted(part) : part);
    }

    // The text that a value says, or null for what the class remembers, which no line tells.
    function valueText(token, texts) {
        if (/^@[123]$/.test(token)) return texts[token[1] - 1] ?? "";
        return token.startsWith("@") ? null : Cepage.said(token);
    }

    // Tells whether an action runs by what is tested before it: null where that can't be told.
    function passes(action, texts) {
        let sure = true;
        for (const { equal, one, other } of action.tests) {
            const [first, second] = [valueText(one, texts), valueText(other, texts)];
            if (first === null || second === null) sure = false;
            else if ((first === second) !== equal) return false;
        }
        return sure ? true : null;
    }

    // Tells whether a log of these values can have written these texts.
    function logs(action, text, texts) {
        const written = Cepage.quotedTexts(text);
        const values = action.tokens.slice(1);
        return written.length === values.length && values.every((value, at) => {
            const said = valueText(value, texts);
            return said === null || said === Cepage.unquoted(written[at]);
        });
    }

    // The kind of row that an action writes where nothing is thrown before: "" for none.
    const written = (action) => action.pushes ? "operation" : WRITES.get(action.word) ?? "";

    // Goes through the ways of a body.
    class Ways {
        constructor(run, body, whole, row) {
            this.body = body;
            this.values = argumentTexts(row);
            this.kinds = body.items.map((at) => run.rows[at].kind);
            this.texts = body.items.map((at) => run.rows[at].text);
            this.whole = whole;
        }

        // Tells whether the body can have ended before this item.
        ends(item) {
            if (item === this.kinds.length) return true;
            const kind = this.kinds[item];
            return this.body.constructor && item === this.kinds.length - 1 && (kind === "report" || kind === "threw");
        }

        // Tells whether a fault that no `try` takes can have ended the body before this item.
        throws(item) {
            if (item === this.kinds.length) return !this.whole || this.body.constructor;
            const kind = this.kinds[item];
            return item === this.kinds.length - 1 && (kind === "report" || kind === "threw");
        }

        // The steps that an action may take from an item: the next item, and the one that it has written, or -1.
        // A next item of -1 is the body's end.
        steps(action, item) {
            const steps = [];
            const go = (next, used) => steps.push({ next, used });
            const fault = (next, used) => {
                if (action.tried && this.kinds[next] === "caught") go(next + 1, used);
                if (action.tried ? !this.whole && next === this.kinds.length : this.throws(next)) go(-1, used);
            };
            const runs = passes(action, this.values);
            if (runs !== true) go(item, -1);
            if (runs === false) return steps;
            const kind = written(action);
            if (kind && this.kinds[item] === kind && (kind !== "log" || logs(action, this.texts[item], this.values))) {
                go(item + 1, item);
                if (action.pushes) fault(item + 1, item);
            }
            if (!kind && action.word === "return" && this.ends(item)) go(-1, -1);
            if (!kind && action.word !== "return" && action.word !== "throw") go(item, -1);
            if (!SURE.has(action.word)) fault(item, -1);
            if (!this.whole && item === this.kinds.length) go(-1, -1);
            return steps;
        }

        // Finds what can be reached, then what of it leads to an end. Null where that is too much.
        alive() {
            const { actions } = this.body;
            let front = new Map([[0, []]]);
            const layers = [front];
            let count = 0;
            for (const action of actions) {
                const next = new Map();
                for (const [item, steps] of front) {
                    steps.push(...this.steps(action, item));
                    for (const step of steps) if (step.next >= 0) next.set(step.next, []);
                }
                count += next.size;
                if (count > LIMIT) return null;
                layers.push(next);
                front = next;
            }
            return this.prune(layers);
        }

        // For each item the actions that wrote it on some way that leads to an end.
        prune(layers) {
            const writers = this.kinds.map(() => new Set());
            let good = new Set([...layers[layers.length - 1].keys()].filter((item) => this.ends(item)));
            for (let at = layers.length - 2; at >= 0; at--) {
                const before = new Set();
                for (const [item, steps] of layers[at]) {
                    for (const step of steps) {
                        if (step.next >= 0 && !good.has(step.next)) continue;
                        before.add(item);
                        if (step.used >= 0) writers[step.used].add(at);
                    }
                }
                good = before;
            }
            return writers;
        }
    }

    // The actions of the rows directly in a bracket: a map from the row to its action.
    function nameIn(run, index) {
        const names = new Map();
        const body = bodyIn(run, index);
        if (!body || body.actions.some((action) => action.word === "new")) return names;
        const writers = new Ways(run, body, !run.open.has(index), run.rows[index]).alive();
        (writers ?? []).forEach((set, at) => {
            if (set.size === 1) names.set(body.items[at], body.actions[[...set][0]]);
        });
        return names;
    }

    // The action of a body that a row is, where the script leaves no choice; else null.
    function actionOf(run, index) {
        const { parent } = run.rows[index];
        if (parent < 0) return null;
        run.names ??= new Map();
        if (!run.names.has(parent)) run.names.set(parent, nameIn(run, parent));
        return run.names.get(parent).get(index) ?? null;
    }

    Cepage.actionOf = actionOf;
})();
