// A row in words, as the line below the drawing and a screen reader tell it. Follows docs/transcript.md ("The lines").
"use strict";
globalThis.Cepage ??= {};

(function () {
    const REASONS = { long: "it is too long", utf8: "it is not UTF-8", quote: "a quote is wrong", escape: "an escape is wrong",
        word: "a word is wrong", arity: "a word is missing or left over", place: "it may not stand there" };

    // So many elements of a queue are named.
    const NAMED = 100;
    const FORMAT = new Intl.NumberFormat("en");
    // A number with its digits in groups of three.
    const grouped = (number) => FORMAT.format(number);
    const many = (count, one, more) => `${grouped(count)} ${count === 1 ? one : more}`;

    // An element: its number, its variable and its name, or its class.
    function elementWords(run, node) {
        const element = run.elements.get(node);
        const about = element ? [element.variable, element.name || element.type].filter(Boolean).join(" ") : "";
        return about ? `#${node} (${about})` : `#${node}`;
    }

    const queueWords = (queue) => queue === 0 ? "the backup element queue" : `queue ${queue}`;

    // The arguments of a callback, as they stand in a row: the two values with an arrow between them, or this word.
    function argumentsOf(what, args, arrow = "→") {
        if (what === "attribute") {
            const [name, before, after] = Cepage.valuesIn(args);
            return `${Cepage.unquoted(name)}: ${before} ${arrow} ${after}`;
        }
        return what === "adopted" ? args.replace(" ", " → ") : args;
    }

    function argumentWords(row) {
        if (!row.args) return "";
        if (row.text === "attribute") return ` (${argumentsOf(row.text, row.args, "to")})`;
        return ` (${row.args})`;
    }

    // How far the other end of a reaction is, in rows that are shown.
    function distance(view, from, to) {
        const rows = Math.abs(view.placeOf(to) - view.placeOf(from));
        return `${many(rows, "row", "rows")} further ${to > from ? "down" : "up"} (Enter goes there)`;
    }

    function due(view, row, index) {
        const { run } = view;
        const reaction = run.reactions.get(row.reaction);
        const begins = `Reaction ${row.reaction} becomes due: ${row.text} of ${elementWords(run, row.node)}, in `
            + `${queueWords(row.queue)}.`;
        if (reaction.end < 0) return `${begins} It still waits where the transcript ends.`;
        return `${begins} It ${reaction.ended === "ran" ? "runs" : "is dropped"} ${distance(view, index, reaction.end)}.`;
    }

    function ran(view, row, index) {
        const { run } = view;
        const reaction = run.reactions.get(row.reaction);
        const early = row.early ? ` It was taken early from ${queueWords(row.queue)}.` : "";
        const idle = row.told ? "" : " Nothing came of it: no callback was called, and no upgrade began.";
        return `Reaction ${row.reaction} runs: ${row.text}${argumentWords(row)} of ${elementWords(run, row.node)}.${early}`
            + `${idle} It became due ${distance(view, index, reaction.due)}.`;
    }

    function dropped(view, row, index) {
        const reaction = view.run.reactions.get(row.reaction);
        return `Reaction ${row.reaction}, ${row.text} of ${elementWords(view.run, row.node)}, is dropped, since the upgrade of `
            + `the element threw. It became due ${distance(view, index, reaction.due)}.`;
    }

    function command(view, row) {
        const { script } = view.run;
        const line = script.line(row.scriptLine);
        const text = row.scriptLine ? `Line ${row.scriptLine}${line === undefined ? "" : `: ${line.trim()}`}.` : "A command.";
        const { reply } = row;
        const pushed = row.queue > 0 ? ` It pushes queue ${row.queue}.` : "";
        if (!reply) return `${text}${pushed} It has no reply: the transcript ends within it.`;
        if (reply.answer === "bad") return `${text} It is refused: ${REASONS[reply.text.slice(4)]} (${reply.text}).`;
        if (reply.answer === "throw") return `${text}${pushed} It throws ${reply.text.slice(6)}.`;
        return `${text}${pushed} It answers ${reply.text}.`;
    }

    function operation(view, row, index) {
        const action = Cepage.actionOf(view.run, index);
        const name = action ? `${action.text} (line ${action.line} of the script)`
            : "An operation of the body, which one the trace does not tell,";
        return `${name} pushes queue ${row.queue}.`;
    }

    function submitted(view, row) {
        const [way, ...rest] = row.text.split(" ");
        const form = elementWords(view.run, row.node);
        if (way === "blocked") return `Form ${form} is not submitted: ${rest.join(" ")}.`;
        return `Form ${form} is submitted by ${way.toUpperCase()}: ${rest.join(" ")}`;
    }

    // The elements of a list, the first hundred by name.
    function nodes(view, list) {
        const names = list.slice(0, NAMED).map((node) => elementWords(view.run, node));
        if (list.length > NAMED) names.push(`and ${grouped(list.length - NAMED)} more`);
        return names.join(", ");
    }

    const WORDS = {
        command, due, operation,
        run: ran,
        drop: dropped,
        submit: submitted,
        drain: (view, row) => `Queue ${row.queue} is drained. Its elements, in order: ${nodes(view, row.nodes)}.`,
        checkpoint: (view, row) => row.nodes.length > 0
            ? `The checkpoint: the backup element queue is drained. Of these elements something waits: ${nodes(view, row.nodes)}.`
            : "The checkpoint: the backup element queue is drained, and nothing is left that waits.",
        upgrade: (view, row) => `The upgrade of ${elementWords(view.run, row.node)} begins, as part of its creation.`,
        call: (view, row) => `${row.text}${argumentWords(row)} of ${elementWords(view.run, row.node)} is called.`,
        construct: (view, row) => `The constructor of class ${row.text} starts.`,
        done: (view, row) => `The upgrade of ${elementWords(view.run, row.node)} has ended: the element is custom.`,
        threw: (view, row) => `The upgrade of ${elementWords(view.run, row.node)} threw.`,
        log: (view, row) => `Logs ${row.text}`,
        ask: (view, row) => `A question of the body found ${row.text}.`,
        caught: (view, row) => `A try of the body took the fault ${row.text}.`,
        report: (view, row) => `The fault ${row.text} is reported.`,
        fuel: () => "The fuel is spent: nothing more is run.",
        problem: (view, row) => `Line ${row.line + 1} of the transcript does not fit: ${row.text}. `
            + `It says: ${view.run.lines[row.line]}`,
    };

    // The sentence of a row; the view says which rows are shown.
    function rowWords(view, index) {
        const row = view.run.rows[index];
        const open = view.run.open.has(index) && row.kind !== "command"
            ? " It is still open where the transcript ends." : "";
        return WORDS[row.kind](view, row, index) + open;
    }

    Cepage.grouped = grouped;
    Cepage.many = many;
    Cepage.elementWords = elementWords;
    Cepage.queueWords = queueWords;
    Cepage.argumentsOf = argumentsOf;
    Cepage.rowWords = rowWords;
})();
