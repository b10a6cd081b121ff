// What each line of a transcript does to the model of the run. Follows docs/transcript.md ("The lines", "The trace",
// "The order of the lines of one command"). A line that does not fit where it stands is a problem, and changes nothing
// else.
"use strict";
globalThis.Cepage ??= {};

(function () {
    const ended = (reaction) => reaction ? "which has ended already" : "which was not due";

    function open(run, event, line) {
        const own = run.begin(line);
        const row = own ? run.command : run.add("operation", line, { queue: event.queue });
        run.rows[row].queue = event.queue;
        run.push("operation", row, { number: event.queue, drained: false });
        run.queues.set(event.queue, { nodes: null });
    }

    function enq(run, event, line) {
        run.begin(line);
        if (run.reactions.has(event.reaction)) {
            run.problem(line, `reaction ${event.reaction} was due before`);
            return;
        }
        const { reaction: number, node, what, queue } = event;
        const due = run.add("due", line, { reaction: number, node, queue, text: what });
        const around = run.top()?.kind === "upgrade" ? run.top().around : null;
        const reaction = { number, node, what, queue, due, end: -1, ended: "", around };
        run.reactions.set(number, reaction);
        run.counts.due++;
        if (queue === 0) run.backup.push(reaction);
        const waiting = run.queues.get(queue);
        if (waiting) (waiting.nodes ??= new Set()).add(node);
    }

    function drain(run, event, line) {
        if (event.queue === 0) {
            run.begin(line);
            run.push("checkpoint", run.add("checkpoint", line, { queue: 0, nodes: run.inBackup() }),
                { number: 0, drained: true });
            return;
        }
        const bracket = run.top();
        if (bracket?.kind !== "operation" || bracket.number !== event.queue || bracket.drained) {
            run.problem(line, `it drains queue ${event.queue}, which is not the innermost that is open`);
            return;
        }
        bracket.drained = true;
        const nodes = run.queues.get(event.queue)?.nodes;
        if (nodes) run.add("drain", line, { queue: event.queue, nodes: [...nodes] });
        else run.join(line, bracket.row);
    }

    function start(run, event, line) {
        const reaction = run.reactions.get(event.reaction);
        if (!reaction || reaction.ended) {
            run.problem(line, `it starts reaction ${event.reaction}, ${ended(reaction)}`);
            return;
        }
        run.begin(line);
        const queue = run.draining();
        // An upgrade's own callbacks run behind it, in the queue that had the upgrade: that is no early taking.
        const early = queue !== null && queue.number !== reaction.queue && queue !== reaction.around;
        const { number, node, what } = reaction;
        const row = run.add("run", line, { reaction: number, node, text: what, queue: reaction.queue, early,
            args: "", told: false });
        reaction.end = row;
        reaction.ended = "ran";
        run.counts.ran++;
        run.push("reaction", row, { number, around: queue });
    }

    function up(run, event, line) {
        run.begin(line);
        const bracket = run.top();
        const row = bracket?.kind === "reaction" ? run.rows[bracket.row] : null;
        const around = bracket?.kind === "reaction" ? bracket.around : bracket ?? null;
        const upgrade = { number: event.node, around, type: "" };
        if (row && row.text === "upgrade" && row.node === event.node && !row.told) {
            row.told = true;
            run.join(line, bracket.row);
            run.push("upgrade", bracket.row, upgrade);
        } else {
            run.push("upgrade", run.add("upgrade", line, { node: event.node }), upgrade);
        }
    }

    // The row of the end stands within the upgrade that it ends.
    function upgraded(run, event, line) {
        const bracket = run.top();
        if (bracket?.kind !== "upgrade" || bracket.number !== event.node) {
            run.shut("upgrade", event.node, line);
            return;
        }
        const row = run.add(event.kind, line, { node: event.node });
        if (event.kind === "threw") run.faults.push(row);
        run.rows[bracket.row].last = line;
        run.leaveTo(run.stack.length - 1);
    }

    function drop(run, event, line) {
        const reaction = run.reactions.get(event.reaction);
        if (!reaction || reaction.ended) {
            run.problem(line, `it drops reaction ${event.reaction}, ${ended(reaction)}`);
            return;
        }
        const { number, node, what, queue } = reaction;
        reaction.end = run.add("drop", line, { reaction: number, node, text: what, queue });
        reaction.ended = "dropped";
        run.counts.dropped++;
    }

    function construct(run, event, line) {
        run.begin(line);
        run.add("construct", line, { text: event.name });
        const bracket = run.top();
        if (bracket?.kind !== "upgrade" || bracket.type) return;
        bracket.type = event.name;
        run.element(bracket.number).type = event.name;
    }

    function call(run, event, line) {
        const bracket = run.top();
        const row = bracket?.kind === "reaction" ? run.rows[bracket.row] : null;
        if (row && !row.told && row.node === event.node && row.text === event.what) {
            row.told = true;
            row.args = event.args;
            run.join(line, bracket.row);
        } else if (run.traced) {
            run.problem(line, "it calls a callback, and no reaction for that has just started");
        } else {
            run.plain("call", line, { node: event.node, text: event.what, args: event.args });
        }
    }

    function reply(run, event, line) {
        if (run.stack.length > 0) {
            run.problem(line, `it replies, and ${run.stack.length} brackets are open`);
            run.leaveTo(0);
        }
        run.begin(line);
        Cepage.endCommand(run, event, line);
    }

    function fuel(run, event, line) {
        run.faults.push(run.plain("fuel", line, {}));
        run.spent = true;
    }

    const fault = (run, event, line) => run.faults.push(run.plain(event.kind, line, { text: event.fault }));
    const told = (run, event, line) => run.plain(event.kind, line, { node: event.node ?? 0, text: event.text });

    Cepage.steps = {
        open, enq, drain, start, up, drop, construct, call, reply, fuel,
        finish: (run, event, line) => run.shut("reaction", event.reaction, line),
        close: (run, event, line) => run.shut(event.queue === 0 ? "checkpoint" : "operation", event.queue, line),
        done: upgraded,
        threw: upgraded,
        log: told,
        ask: told,
        submit: told,
        caught: fault,
        report: fault,
        unreadable: (run, event, line) => run.problem(line, "it is the text of no event"),
    };
})();
