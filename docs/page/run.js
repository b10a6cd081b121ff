// A run read from its two texts, the script and the transcript: the commands get their lines of the script, the elements
// the variable and the name that the line which made them says, and what is left at the end is told. Follows
// docs/transcript.md ("Which lines have a reply").
"use strict";
globalThis.Cepage ??= {};

(function () {
    // So many lines of a transcript are read, and of a script shown: a browser lays out no list that is much longer.
    const MOST = 1000000;

    // The class that a `create` has constructed for the node that it gives, or "".
    function constructed(run, command) {
        let type = "";
        for (let index = command + 1; index < run.rows.length; index = run.rows[index].end + 1) {
            const row = run.rows[index];
            if (row.kind === "report") return "";
            if (row.kind === "construct" && !type) type = row.text;
        }
        return type;
    }

    // Names the node that a command has made, from its line.
    function nameNode(run, command, reply) {
        const making = Cepage.readMaking(run.script.line(reply.line) ?? "");
        const node = Cepage.numberOf(reply.text.slice(1));
        if (!making || run.elements.get(node)?.line) return;
        const element = run.element(node);
        element.variable = making.variable;
        element.name = making.name;
        element.line = reply.line;
        if (making.word === "create") element.type ||= constructed(run, command);
        if (making.word === "new") element.constructs = making.type;
    }

    // Ends the command that is under way, by its reply.
    function endCommand(run, reply, line) {
        const row = run.rows[run.command];
        row.reply = reply;
        row.scriptLine = reply.line;
        row.end = run.rows.length - 1;
        run.join(line, run.command);
        if (reply.answer === "bad" || reply.answer === "throw") {
            run.refused.add(reply.line);
            run.faults.push(run.command);
        }
        if (reply.answer === "node") nameNode(run, run.command, reply);
        run.replied = reply.line;
        run.command = -1;
    }

    // What stands open where the transcript ends. The command that has no reply is the next one of the script.
    function endRun(run) {
        run.open = new Set(run.stack.map((bracket) => bracket.row));
        run.leaveTo(0);
        if (run.command >= 0) {
            const row = run.rows[run.command];
            row.scriptLine = run.script.commandAfter(run.replied);
            row.end = run.rows.length - 1;
        }
        run.counts.waits = run.counts.due - run.counts.ran - run.counts.dropped;
        run.faults = [...new Set(run.faults)].sort((one, other) => one - other);
        // What stands behind the last command that was reached was not read.
        const reached = run.commands.reduce((most, index) => Math.max(most, run.rows[index].scriptLine), 0);
        run.script.gather(run.refused, reached);
        for (const element of run.elements.values()) {
            const returns = run.script.body(element.constructs, "constructor")
                .some((action) => action.word === "return" && action.tokens.length > 1);
            if (element.constructs && !element.type && !returns) element.type = element.constructs;
        }
    }

    // Reads a run from the text of a script and that of its transcript.
    function readRun(scriptText, transcriptText) {
        const marked = transcriptText.startsWith("\uFEFF");
        const cut = Cepage.cutLines(marked ? transcriptText.slice(1) : transcriptText);
        const length = cut.lines.length;
        const lines = length > MOST ? cut.lines.slice(0, MOST) : cut.lines;
        const run = new Cepage.Run(lines, new Cepage.Script(scriptText));
        run.left = length - lines.length;
        run.marked = marked;
        run.returns = cut.returns;
        run.ended = cut.ended;
        lines.forEach((text, line) => {
            const event = Cepage.readEvent(text);
            if (run.spent) run.problem(line, "it stands behind the line fuel, which is the last");
            else Cepage.steps[event.kind](run, event, line);
        });
        endRun(run);
        return run;
    }

    Cepage.MOST_LINES = MOST;
    Cepage.endCommand = endCommand;
    Cepage.readRun = readRun;
})();
