// What the page says of the two texts besides the drawing: what it can't read and where, and what does not fit together.
// Follows docs/language.md ("Lines") and docs/transcript.md ("Which lines have a reply").
"use strict";
globalThis.Cepage ??= {};

(function () {
    // The first reply that tells of a line that has none.
    function misfit(run) {
        for (const index of run.commands) {
            const { reply } = run.rows[index];
            if (!reply || run.script.lines.length === 0) continue;
            const kind = run.script.kinds[reply.line - 1];
            if (kind === undefined) {
                return `The transcript answers line ${reply.line}, and the script has `
                    + `${Cepage.many(run.script.lines.length, "line", "lines")}: they don't belong together.`;
            }
            const silent = kind === "blank" || kind === "comment";
            if (silent && reply.answer !== "bad") {
                return `The transcript answers line ${reply.line}, which is ${kind === "blank" ? "blank" : "a comment"} in the `
                    + "script: they don't belong together.";
            }
        }
        return null;
    }

    function scriptNotes(run) {
        const notes = [];
        const { lines } = run.script;
        const returned = lines.findIndex((line) => line.endsWith("\r"));
        if (lines.length === 0) notes.push("There is no script, so commands have numbers and no text.");
        if (lines.length > Cepage.MOST_LINES) {
            notes.push(`Of the script the first ${Cepage.grouped(Cepage.MOST_LINES)} lines are shown.`);
        }
        if (lines[0]?.startsWith("\uFEFF")) {
            notes.push("The script begins with a byte order mark: cepage refuses its first line.");
        }
        if (returned >= 0) {
            notes.push(`Line ${returned + 1} of the script ends in a carriage return: cepage refuses such a line, but for `
                + "comments.");
        }
        return notes;
    }

    // Tells whether a trace would have lines here: a callback was called, or a command was done that pushes a queue.
    function lacksTrace(run) {
        if (run.traced || run.counts.due > 0) return false;
        const isDone = ({ reply }) => reply !== null && (["ok", "node"].includes(reply.answer)
            || (reply.answer === "throw" && !/^throw (Type|Reference)Error$/.test(reply.text)));
        return run.script.lines.length === 0 || run.rows.some(({ kind }) => kind === "call")
            || run.commands.some((index) => isDone(run.rows[index]) && run.script.pushes(run.rows[index].scriptLine));
    }

    // The first command behind the last one that is answered, or 0.
    const unanswered = (run) => run.script.commandAfter(run.commands.reduce(
        (most, index) => Math.max(most, run.rows[index].reply?.line ?? 0), 0));

    function endNotes(run) {
        const notes = [];
        const open = [...run.open].filter((index) => run.rows[index].kind !== "command").length;
        const waits = run.counts.waits > 0 ? Cepage.many(run.counts.waits, "reaction waits", "reactions wait") : "";
        const left = open > 0 ? `${Cepage.many(open, "row is", "rows are")} still open` : "";
        const where = run.spent ? "Where the fuel ended" : "Where the transcript ends";
        if (open > 0 || waits) notes.push(`${where}, ${[left, waits].filter(Boolean).join(", and ")}.`);
        else if (run.command >= 0 && !run.spent) {
            notes.push("The transcript ends within a command: its last line is no reply.");
        } else if (run.command < 0 && !run.spent && run.left === 0 && unanswered(run) > 0) {
            notes.push(`The transcript has no answer to line ${unanswered(run)} of the script: it may be cut off there.`);
        }
        if (!run.ended && run.left === 0 && run.lines.length > 0) {
            notes.push("The last line of the transcript has no line feed: it may be cut off there.");
        }
        return notes;
    }

    function transcriptNotes(run) {
        if (run.lines.length === 0) {
            return ["There is no transcript, so nothing is drawn. Write one by crates/cepage/out/cepage --trace < your.script, "
                + "and open it too."];
        }
        const notes = [];
        if (run.left > 0) {
            const { length } = run.lines;
            notes.push(`The transcript has ${Cepage.grouped(length + run.left)} lines. The first `
                + `${Cepage.grouped(length)} are read and shown, and no more.`);
        }
        if (run.marked) notes.push("The transcript begins with a byte order mark. It is left out here; cepage writes none.");
        if (run.returns) {
            notes.push("The lines of the transcript end in CR LF. The carriage returns are left out here; cepage writes none.");
        }
        if (lacksTrace(run)) {
            notes.push("The transcript has no lines of the trace, so the page can't tell what ran within what, or what waited. "
                + "Run the script with --trace.");
        }
        const wrong = misfit(run);
        if (wrong) notes.push(wrong);
        return [...notes, ...endNotes(run)];
    }

    // The notes on a run: texts, and for the first line that does not fit its row.
    function notesOn(run) {
        const notes = [...scriptNotes(run), ...transcriptNotes(run)].map((text) => ({ text, row: -1 }));
        const { problems } = run;
        if (problems.length > 0) {
            const [first] = problems;
            const all = Cepage.many(problems.length, "line of the transcript does", "lines of the transcript do");
            const which = problems.length > 1 ? "The first is line" : "It is line";
            notes.unshift({ text: `${all} not fit. ${which} ${first.line + 1}: ${first.text}.`, row: first.row });
        }
        return notes;
    }

    Cepage.notesOn = notesOn;
})();
