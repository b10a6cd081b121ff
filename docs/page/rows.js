// The element of a row, by its kind: a mark, the reaction's number, the element, and what is told. Follows
// docs/transcript.md ("The lines", "The trace").
"use strict";
globalThis.Cepage ??= {};

(function () {
    // How many elements of a queue are named in its row.
    const NAMED = 12;

    function make(tag, name, text) {
        const element = document.createElement(tag);
        if (name) element.className = name;
        if (text !== undefined) element.textContent = text;
        return element;
    }

    // A piece of this length or more is no line of a script, and stays whole.
    const LONG = 5000;
    const isBeyond = (text) => /[^ -~]/.test(text);

    // Puts a text into an element. Each quoted text, and each other word beyond ASCII, stands in a `bdi`: one that is written
    // from right to left would change places with what stands beside it. The words of a comment stay together.
    function write(element, text, isComment = false) {
        const parted = (piece) => {
            if (piece.startsWith('"')) return [make("bdi", "", piece)];
            if (isComment || piece.length >= LONG || !isBeyond(piece)) return [piece];
            return piece.split(/( +)/).map((word) => isBeyond(word) ? make("bdi", "", word) : word);
        };
        element.replaceChildren(...Cepage.piecesOf(text).flatMap(parted));
        return element;
    }

    // The hue of an element, in degrees: its number times the golden angle, so that neighbours lie far apart.
    const hueOf = (node) => (node * 137.508) % 360;

    // An element: its number, and its variable and its name, or its class.
    function chip(run, node, short) {
        const element = run.elements.get(node);
        const mark = make("span", "chip");
        mark.style.setProperty("--hue", hueOf(node).toFixed(1));
        mark.append(make("b", "", `#${node}`));
        const about = element && [element.variable, element.name || element.type].filter(Boolean).join(" ");
        if (about && !short) mark.append(make("span", "about", ` ${about}`));
        return mark;
    }

    const tag = (number) => make("span", "tag", String(number));
    const queueName = (number) => number === 0 ? "backup queue" : `queue ${number}`;
    const queue = (number) => make("span", "queue", queueName(number));
    const soft = (text) => make("span", "soft", text);
    const code = (text) => write(make("span", "code"), text);
    const strong = (text) => make("b", "what", text);
    const fault = (text) => make("span", "fault", text);
    const mark = (text, name) => make("span", `mark ${name ?? ""}`, text);

    function command(run, row) {
        const line = run.script.line(row.scriptLine);
        const parts = [make("span", "number", row.scriptLine || "?"), write(make("b", "code"), line?.trim() ?? "a command")];
        const { reply } = row;
        const wrong = !reply || reply.answer === "bad" || reply.answer === "throw";
        return [...parts, make("span", wrong ? "answer fault" : "answer", `→ ${reply?.text ?? "no reply"}`)];
    }

    function called(run, row) {
        const args = row.args ? [code(Cepage.argumentsOf(row.text, row.args))] : [];
        return [chip(run, row.node), strong(row.text), ...args];
    }

    function ran(run, row) {
        const parts = [mark("▶"), tag(row.reaction), ...called(run, row)];
        if (row.early) parts.push(make("span", "early", `early, from ${queueName(row.queue)}`));
        if (!row.told) parts.push(soft(row.text === "upgrade" ? "nothing to upgrade" : "it was not called"));
        return parts;
    }

    function operation(run, row, index) {
        const action = Cepage.actionOf(run, index);
        const parts = [action ? code(action.text) : soft("an operation"), queue(row.queue)];
        if (row.end === index) parts.push(soft("nothing due"));
        return parts;
    }

    function drained(run, nodes, title) {
        const parts = [make("i", "soft", title), ...nodes.slice(0, NAMED).map((node) => chip(run, node, true))];
        if (nodes.length > NAMED) parts.push(soft(`… ${Cepage.many(nodes.length - NAMED, "more", "more")}`));
        return [...parts, make("span", "rule")];
    }

    const ROWS = {
        command,
        operation,
        run: ran,
        due: (run, row) => [soft("due"), tag(row.reaction), chip(run, row.node), make("span", "what", row.text),
            queue(row.queue)],
        drop: (run, row) => [mark("⊘", "fault"), tag(row.reaction), chip(run, row.node), make("s", "what", row.text),
            fault("dropped")],
        upgrade: (run, row) => [mark("▶"), chip(run, row.node), strong("upgrade"), soft("in its creation")],
        call: (run, row) => [mark("▶"), ...called(run, row)],
        construct: (run, row) => [soft("construct"), strong(row.text)],
        done: (run, row) => [mark("✓", "good"), chip(run, row.node), soft("is custom")],
        threw: (run, row) => [mark("✕", "fault"), chip(run, row.node), fault("the upgrade threw")],
        report: (run, row) => [mark("!", "fault"), fault("reported"), code(row.text)],
        caught: (run, row) => [mark("↩", "fault"), fault("caught"), code(row.text)],
        log: (run, row) => [soft("log"), code(row.text)],
        ask: (run, row) => [soft("ask"), code(row.text)],
        submit: (run, row) => [soft("submit"), chip(run, row.node),
            row.text.startsWith("blocked") ? fault(row.text) : code(row.text)],
        drain: (run, row) => drained(run, row.nodes, `queue ${row.queue} is drained`),
        checkpoint: (run, row) => drained(run, row.nodes, row.nodes.length > 0 ? "checkpoint: the backup queue is drained"
            : "checkpoint: nothing waits"),
        fuel: () => [mark("■", "fault"), fault("the fuel is spent")],
        problem: (run, row) => [mark("?", "fault"), fault(`line ${row.line + 1}: ${row.text}`), code(run.lines[row.line])],
    };

    // Makes the element of a row. Its words are its label, since parts side by side have no spaces for a screen reader.
    function rowElement(view, index) {
        const { run } = view;
        const row = run.rows[index];
        const element = make("div", `row ${row.kind}`);
        element.id = `row-${index}`;
        element.setAttribute("role", "treeitem");
        element.setAttribute("aria-level", row.depth + 1);
        element.setAttribute("aria-posinset", view.position[index]);
        element.setAttribute("aria-setsize", view.siblings(index));
        element.setAttribute("aria-label", Cepage.rowWords(view, index));
        element.dataset.row = index;
        if (row.reaction) element.dataset[row.kind === "due" ? "due" : "end"] = row.reaction;
        const body = make("div", "body");
        body.append(...ROWS[row.kind](run, row, index));
        element.append(body);
        return element;
    }

    Cepage.make = make;
    Cepage.write = write;
    Cepage.hueOf = hueOf;
    Cepage.rowElement = rowElement;
})();
