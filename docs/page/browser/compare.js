// What a browser did beside what the program wrote: each row has one of these marks. `same`; `explained`, with a
// reason; `unexplained`; `notAsked`, which is not to be asked of a browser; and `notRun`, behind the end of the run.
"use strict";
globalThis.CepageBrowser ??= {};

(() => {
    const MARKS = ["same", "explained", "unexplained", "notAsked", "notRun"];
    const VARIABLE_SETTERS = ["create", "new", "text", "doc", "shadow", "clone", "let"];
    const BY_PAGE = {
        name: "read by the page", link: "porting.md#what-is-not-to-be-asked",
        text: "the page reads this line itself, and a browser is not asked",
    };
    const NO_COUNTERPART = {
        name: "no counterpart", link: "porting.md#what-is-not-to-be-asked", text: "the line has no counterpart in a browser",
    };

    // What the rules ask of the script: which class a definition has, and which classes disable shadow.
    function contextOf(forms) {
        const definitions = new Map();
        const disabled = new Set();
        for (const { word, args } of forms) {
            if (word === "disable shadow") disabled.add(args[0]);
            if (word === "define" && !definitions.has(args[0])) definitions.set(args[0], args[1]);
        }
        return {
            classNamed: (name) => definitions.get(name),
            disablesShadow: (name) => disabled.has(definitions.get(name)),
            memory: { emptied: new Map(), variables: new Map() },
        };
    }

    function mark(row, kind, reason = null) {
        row.mark = kind;
        row.reason = reason;
    }

    // Behind the line at which the run ended nothing of the browser's is there.
    function isBehindEnd({ line, rows }, ended, last) {
        if (!ended) return false;
        if (ended.line === null) return line >= last && rows.every((row) => !row.browser);
        return line > ended.line;
    }

    // What the program wrote behind the browser's last line, where the run ended before or in this command.
    function markEnd(command, ended, last) {
        const behind = isBehindEnd(command, ended, last);
        const isThere = ended && (ended.line === command.line || (ended.line === null && command.line >= last));
        if (!behind && !isThere) return;
        const rest = command.rows.slice(command.rows.findLastIndex((row) => row.browser) + 1);
        for (const row of rest) {
            if (row.program.text === "fuel") continue;
            if (!behind && ended.why === "line") mark(row, "notAsked", NO_COUNTERPART);
            else mark(row, "notRun");
        }
    }

    function byRow(row, command, context) {
        if (row.same) return mark(row, row.browser.byPage ? "notAsked" : "same", row.browser.byPage ? BY_PAGE : null);
        const found = CepageBrowser.reasons.rows.find((reason) => reason.explains(row, command, context));
        if (found) mark(row, found.mark, found);
    }

    function byCommand(command) {
        for (const reason of CepageBrowser.reasons.commands) {
            if (command.rows.every((row) => row.mark)) return;
            for (const row of reason.finds(command.rows, command)) if (!row.mark) mark(row, reason.mark, reason);
        }
    }

    // A variable that holds another node than the program's, since a line whose difference is explained.
    function byVariable(command, { memory }) {
        const named = ((command.form && command.form.args) || []).map((operand) => operand && operand.variable);
        const known = named.map((variable) => memory.variables.get(variable)).find(Boolean);
        for (const row of command.rows) if (!row.mark && known) mark(row, "explained", known);
    }

    function follow(name, line, reason) {
        const text = `$${name} holds another node since line ${line}: ${reason.text}`;
        return { name: `${reason.name}, in a line before`, link: reason.link, text };
    }

    function noteVariable({ form, line, rows }, { memory }) {
        if (!form || !VARIABLE_SETTERS.includes(form.word)) return;
        const [variable] = form.args;
        const node = (one) => Boolean(one) && /^\d+: (#\d+|ok)$/.test(one.text);
        const reply = rows.at(-1);
        if (!reply || (!node(reply.program) && !node(reply.browser))) return;
        const reason = rows.map((row) => row.reason).find((one) => one && one.mark !== "notAsked");
        if (reason && (node(reply.program) !== node(reply.browser) || memory.variables.get(variable) === reason.name)) {
            memory.variables.set(variable, follow(variable, line, reason));
        } else memory.variables.delete(variable);
    }

    function judge(command, context, ended, last) {
        command.noted = command.rows.flatMap(({ browser }) => (browser && browser.noted) || []);
        markEnd(command, ended, last);
        for (const row of command.rows) if (!row.mark) byRow(row, command, context);
        byCommand(command);
        byVariable(command, context);
        for (const row of command.rows) if (!row.mark) mark(row, "unexplained");
        noteVariable(command, context);
    }

    function countsOf(commands) {
        const counts = Object.fromEntries(MARKS.map((kind) => [kind, 0]));
        for (const { rows } of commands) for (const row of rows) counts[row.mark]++;
        return counts;
    }

    // `result` is that of a run; `transcript` is the program's, with or without the trace.
    function compare(result, transcript) {
        const commands = CepageBrowser.align(result.forms, transcript, result.lines);
        const context = contextOf(result.forms);
        const last = result.lines.reduce((most, { line }) => Math.max(most, line), 0);
        let fuelEnded = false;
        for (const command of commands) {
            fuelEnded = fuelEnded || command.rows.some(({ program }) => program && program.text === "fuel");
            command.fuelEnded = fuelEnded;
            judge(command, context, result.ended, last);
        }
        return { commands, counts: countsOf(commands), ended: result.ended };
    }

    Object.assign(CepageBrowser, { compare, MARKS });
})();
