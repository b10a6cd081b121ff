// The run as a model: the rows of the outline, the reactions, the elements, and which line of the transcript belongs to
// which row. Follows docs/order.md ("Words for a trace"): what a line opens is a bracket, brackets nest, and what stands
// directly in a bracket is a row one level deeper. What each line does stands in steps.js.
"use strict";
globalThis.Cepage ??= {};

(function () {
    // Each kind of bracket, as a problem names it.
    const BRACKETS = { operation: "queue ", checkpoint: "the checkpoint of queue ", reaction: "reaction ",
        upgrade: "the upgrade of #" };

    class Run {
        constructor(lines, script) {
            this.lines = lines;
            this.script = script;
            this.traced = lines.some((line) => line.startsWith("~ "));
            this.rows = [];
            this.rowOfLine = new Int32Array(lines.length).fill(-1);
            this.reactions = new Map();
            this.elements = new Map([[1, { variable: "", name: "document", type: "", line: 0 }]]);
            this.refused = new Set();
            this.problems = [];
            this.faults = [];
            this.commands = [];
            this.counts = { due: 0, ran: 0, dropped: 0, waits: 0 };
            this.deepest = 0;
            // Where the reading stands: the brackets that are open, their queues, what was enqueued for the backup
            // element queue, the row of the command, and the line that was replied to last.
            this.stack = [];
            this.queues = new Map();
            this.backup = [];
            this.command = -1;
            this.replied = 0;
            this.spent = false;
        }

        top() {
            return this.stack[this.stack.length - 1];
        }

        // Adds a row where the run stands now.
        add(kind, line, fields) {
            const bracket = this.top();
            const within = this.command >= 0 && kind !== "command";
            const row = {
                kind, line, last: line, end: this.rows.length,
                depth: bracket ? bracket.inside : within ? 1 : 0,
                parent: bracket ? bracket.parent : within ? this.command : -1,
                node: 0, reaction: 0, queue: -1, text: "", ...fields,
            };
            this.deepest = Math.max(this.deepest, row.depth);
            this.rowOfLine[line] = this.rows.length;
            this.rows.push(row);
            return this.rows.length - 1;
        }

        // Adds a row of a command, whose heading is made where it is the first one.
        plain(kind, line, fields) {
            this.begin(line);
            return this.add(kind, line, fields);
        }

        // Notes that a line belongs to a row that is there.
        join(line, row) {
            this.rowOfLine[line] = row;
            this.rows[row].last = line;
        }

        // Makes the heading of a command, which its reply will name. Tells whether it was made now.
        begin(line) {
            if (this.command >= 0) return false;
            this.command = this.add("command", line, { scriptLine: 0, reply: null, left: 0 });
            this.commands.push(this.command);
            return true;
        }

        // Opens a bracket. The heading of a command, a checkpoint and an upgrade in its reaction indent no further; what is
        // run at a checkpoint stands beside its row, as behind the drain of a queue.
        push(kind, row, fields) {
            const opener = this.rows[row];
            const folded = opener.kind === "command" || kind === "checkpoint" || (kind === "upgrade" && opener.kind === "run");
            const inside = folded ? this.top()?.inside ?? 1 : opener.depth + 1;
            const parent = kind === "checkpoint" ? opener.parent : row;
            this.stack.push({ kind, row, parent, inside, ...fields });
        }

        problem(line, text) {
            const row = this.add("problem", line, { text });
            this.problems.push({ line, text, row });
            this.faults.push(row);
        }

        // Closes the innermost bracket of this kind and number, and tells what stood open within it.
        shut(kind, number, line) {
            let at = this.stack.length - 1;
            while (at >= 0 && !(this.stack[at].kind === kind && this.stack[at].number === number)) at--;
            const named = BRACKETS[kind] + number;
            if (at < 0) {
                this.problem(line, `it closes ${named}, which is not open`);
                return;
            }
            const { row } = this.stack[at];
            const within = this.stack.length - 1 - at;
            this.leaveTo(at);
            if (within > 0) this.problem(line, `it closes ${named}, within which ${within} more stood open`);
            else this.join(line, row);
        }

        // Leaves the brackets behind the first so many.
        leaveTo(count) {
            while (this.stack.length > count) {
                const bracket = this.stack.pop();
                if (bracket.parent === bracket.row) this.rows[bracket.row].end = this.rows.length - 1;
                if (bracket.kind === "operation") this.queues.delete(bracket.number);
            }
        }

        // The innermost bracket, where it is a queue that is draining.
        draining() {
            const bracket = this.top();
            return bracket && (bracket.kind === "checkpoint" || bracket.drained) ? bracket : null;
        }

        // The elements of which a reaction waits in the backup element queue.
        inBackup() {
            const waiting = this.backup.filter((reaction) => !reaction.ended);
            this.backup.length = 0;
            return [...new Set(waiting.map((reaction) => reaction.node))];
        }

        element(node) {
            if (!this.elements.has(node)) this.elements.set(node, { variable: "", name: "", type: "", line: 0 });
            return this.elements.get(node);
        }

        // The row of the command in which a row stands, or -1.
        commandOf(index) {
            let low = 0;
            let high = this.commands.length;
            while (low < high) {
                const middle = (low + high) >> 1;
                if (this.commands[middle] <= index) low = middle + 1;
                else high = middle;
            }
            const command = this.commands[low - 1] ?? -1;
            return command >= 0 && index <= this.rows[command].end ? command : -1;
        }
    }

    Cepage.Run = Run;
})();
