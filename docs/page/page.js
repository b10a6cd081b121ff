// The page: it puts the panes together, links them line by line, and hears keys. Follows docs/page.md ("Keys", "A run of
// your own").
"use strict";
globalThis.Cepage ??= {};

(function () {
    const find = (id) => document.getElementById(id);

    class Page {
        constructor() {
            this.outline = new Cepage.Outline(find("tree"), (index) => this.focused(index));
            this.outline.onSeen = (seen) => this.seen(seen);
            this.strip = new Cepage.Strip(find("strip"), (place) => this.outline.look(place));
            this.scriptList = new Cepage.LineList(find("script-lines"), "Lines of the script",
                (at) => this.choseScript(at), () => this.toDrawing());
            this.transcriptList = new Cepage.LineList(find("transcript-lines"), "Lines of the transcript",
                (at) => this.choseTranscript(at), () => this.toDrawing());
            this.tabs = new Cepage.Tabs(find("tabs"));
            this.opener = new Cepage.Opener(find("opener"), (own) => this.showOwn(own));
            this.kept = -1;
            this.listExamples();
            this.listen();
        }

        // The examples, by their folders.
        listExamples() {
            const groups = new Map();
            for (const { name } of Cepage.examples) {
                const folder = name.includes("/") ? name.slice(0, name.indexOf("/")) : "examples";
                if (!groups.has(folder)) groups.set(folder, Cepage.make("optgroup"));
                const option = Cepage.make("option", "", name.slice(name.indexOf("/") + 1).replaceAll("_", " "));
                option.value = name;
                groups.get(folder).label = folder;
                groups.get(folder).append(option);
            }
            find("example").append(...groups.values());
        }

        listen() {
            find("example").addEventListener("change", (event) => {
                location.hash = event.target.value;
            });
            find("brief").addEventListener("change", () => this.changeView());
            find("traced").addEventListener("change", () => this.listTranscript());
            find("tree").addEventListener("keydown", (event) => this.pressed(event));
            find("find").addEventListener("keydown", (event) => {
                if (event.key === "Enter") this.seek(event.target.value, !event.shiftKey);
            });
            addEventListener("hashchange", () => this.openHash());
            matchMedia("(prefers-color-scheme: dark)").addEventListener("change", () => this.showStrip());
            this.watch();
        }

        // Opens the example that the address names, behind it the line of its transcript: `#trace:40`.
        openHash() {
            const [, name, line] = /^#(.*?)(?::([0-9]+))?$/.exec(location.hash || "#");
            const example = Cepage.examples.find((one) => one.name === name)
                ?? (this.run ? null : Cepage.examples.find((one) => one.name === "trace"));
            if (!example) return;
            find("example").value = example.name;
            this.opener.forget();
            const words = example.words.length > 0 ? `, run with ${example.words.join(" ")}` : "";
            const source = `examples/${example.name}.script${words}, status ${example.status}`;
            this.show(example.script, example.trace, source, example);
            if (!line) return;
            // A line of the trace that is not listed has its row all the same.
            const at = this.places.indexOf(Number(line) - 1);
            const row = this.run.rowOfLine[Number(line) - 1] ?? -1;
            if (at >= 0) this.choseTranscript(at);
            else if (row >= 0) this.goTo(row);
        }

        showOwn({ script, transcript, names }) {
            find("example").value = "";
            history.replaceState(null, "", "#");
            const parts = [names.script && `script: ${names.script}`, names.transcript && `transcript: ${names.transcript}`];
            this.show(script, transcript, parts.filter(Boolean).join(", "), null);
        }

        // Shows a run. `example` is the example that it is, or null.
        show(script, transcript, source, example) {
            this.run = Cepage.readRun(script, transcript);
            this.example = example;
            this.texts = { script, transcript };
            this.rowOfScriptLine = new Map();
            for (const index of this.run.commands) this.rowOfScriptLine.set(this.run.rows[index].scriptLine, index);
            document.title = example ? `${example.name} · A run, drawn` : "A run, drawn";
            find("source").textContent = source;
            find("source").title = source;
            find("summary").textContent = this.summary();
            const { lines, kinds } = this.run.script;
            this.scriptList.show(lines.slice(0, Cepage.MOST_LINES), (at) => String(at + 1), (at) => kinds[at]);
            this.listTranscript();
            this.note();
            this.changeView();
            this.onShown?.();
        }

        summary() {
            const { counts, lines } = this.run;
            return `${Cepage.many(lines.length, "line", "lines")} · ${Cepage.grouped(counts.due)} due: `
                + `${Cepage.grouped(counts.ran)} ran, ${Cepage.grouped(counts.dropped)} dropped, `
                + `${Cepage.grouped(counts.waits)} wait`;
        }

        note() {
            const notes = Cepage.notesOn(this.run).map(({ text, row }) => {
                const note = Cepage.make("p", row >= 0 ? "fault" : "", text);
                if (row < 0) return note;
                const button = Cepage.make("button", "", "Go there");
                button.type = "button";
                button.addEventListener("click", () => this.toDrawing(row));
                note.append(" ", button);
                return note;
            });
            find("notes").replaceChildren(...notes);
        }

        // Lists the transcript, with or without the lines of the trace.
        listTranscript() {
            const { lines } = this.run;
            const traced = find("traced").checked;
            this.places = [];
            lines.forEach((line, at) => {
                if (traced || !line.startsWith("~")) this.places.push(at);
            });
            const shown = this.places.map((at) => lines[at]);
            const look = (at) => shown[at].startsWith("~") ? "traced" : /^[0-9]/.test(shown[at]) ? "reply" : "event";
            this.transcriptList.show(shown, (at) => String(this.places[at] + 1), look);
            if (this.view?.run === this.run) this.lightTranscript(this.outline.index);
        }

        // Shows the rows anew, with the focus where it was.
        changeView() {
            const before = this.view?.run === this.run ? this.outline.index : 0;
            this.view = new Cepage.View(this.run, find("brief").checked);
            this.outline.show(this.view, this.view.nearest(before));
            this.showStrip();
            if (this.view.shown.length > 0) return;
            find("path").textContent = "";
            find("waiting").textContent = "";
            this.say("There is nothing to draw.");
        }

        seen(seen) {
            const top = Math.floor(this.outline.top / Cepage.ROW_HEIGHT);
            const index = this.view.shown[Math.min(top, this.view.shown.length - 1)];
            Cepage.write(find("path"), Cepage.pathWords(this.view, index));
            const waits = top > 0 ? seen.lanes.waiting[this.view.shown[top - 1]] : 0;
            find("waiting").textContent = waits > 0 ? `${Cepage.grouped(waits)} ${waits === 1 ? "waits" : "wait"}` : "";
            if (this.strip.view === this.view) this.strip.seen(this.outline.top, this.outline.height);
        }

        // Writes the line below the drawing.
        say(text, isComment) {
            Cepage.write(find("words"), text, isComment);
        }

        // Tells of the row in focus, and lights its lines.
        focused(index) {
            this.lightScript(index);
            this.lightTranscript(index);
            this.say(Cepage.rowWords(this.view, index));
        }

        lightScript(index) {
            const command = this.run.rows[index]?.kind === "command" ? index : this.run.commandOf(index);
            const line = command >= 0 ? this.run.rows[command].scriptLine : 0;
            const action = index >= 0 ? Cepage.actionOf(this.run, index) : null;
            const lit = (at) => at + 1 === line ? "lit" : at + 1 === action?.line ? "lit other" : "";
            this.scriptList.light(lit, (action?.line ?? line) - 1);
        }

        lightTranscript(index) {
            const other = index >= 0 ? this.outline.otherEnd(index) : -1;
            const rowAt = (at) => this.run.rowOfLine[this.places[at]];
            const lit = (at) => {
                const row = rowAt(at);
                if (index < 0 || (row !== index && row !== other)) return "";
                return row === index ? "lit" : "lit other";
            };
            this.transcriptList.light(lit, this.kept >= 0 ? this.kept : this.firstLineOf(index));
        }

        // The place in the list of the first line of a row that is listed, or -1.
        firstLineOf(index) {
            const row = this.run.rows[index];
            if (!row) return -1;
            let low = 0;
            let high = this.places.length;
            while (low < high) {
                const middle = (low + high) >> 1;
                if (this.places[middle] < row.line) low = middle + 1;
                else high = middle;
            }
            for (let at = low; at < this.places.length && this.places[at] <= row.last; at++) {
                if (this.run.rowOfLine[this.places[at]] === index) return at;
            }
            return -1;
        }

        // Goes to the row of a line of the script: of a command its heading, of an action the next row named after it.
        choseScript(at) {
            const heading = this.rowOfScriptLine.get(at + 1);
            const row = heading ?? this.namedAfter(at + 1);
            if (row >= 0) this.goTo(row);
            else {
                const text = this.run.script.line(at + 1) ?? "";
                this.say(`Line ${at + 1} of the script has no row of its own: ${text}`, this.run.script.kinds[at] === "comment");
            }
        }

        // The next row behind the one in focus that is named after an action of this line; from the top behind the last.
        namedAfter(line) {
            if (!/^ *on /.test(this.run.script.line(line) ?? "")) return -1;
            const { rows } = this.run;
            const from = this.outline.index + 1;
            for (let step = 0; step < Math.min(rows.length, 50000); step++) {
                const index = (from + step) % rows.length;
                if (Cepage.actionOf(this.run, index)?.line === line) return index;
            }
            return -1;
        }

        // Goes to the row of a line of the transcript; the line stays the one that is chosen.
        choseTranscript(at) {
            const row = this.run.rowOfLine[this.places[at]] ?? -1;
            this.kept = at;
            if (row >= 0) this.goTo(row);
            this.kept = -1;
        }

        // Puts the focus on a row; of one that is left out the words are told.
        goTo(index) {
            if (this.view.placeOf(index) >= 0) {
                this.outline.focusRow(index);
                return;
            }
            this.say(`${Cepage.rowWords(this.view, index)} It is left out of the drawing.`);
            this.lightScript(index);
            this.lightTranscript(index);
        }

        // Goes to the next row, or the one before, of which a line of the transcript has this text.
        seek(text, forward) {
            const { run, run: { lines, rows, rowOfLine }, sought } = this;
            if (!text || lines.length === 0) return;
            // Of a row that is left out the focus does not tell where it was found.
            const isOn = sought?.run === run && sought.focus === this.outline.index;
            const here = isOn ? sought.row : this.outline.index;
            const from = rows[here]?.line ?? 0;
            let found = -1;
            for (let step = 1; step <= lines.length && (found < 0 || found === here); step++) {
                const at = (from + (forward ? step : lines.length - step)) % lines.length;
                if (lines[at].includes(text)) found = rowOfLine[at];
            }
            if (found < 0) {
                this.say(`No line of the transcript has: ${text}`);
                return;
            }
            // Where no other row has it, this one is found again.
            this.goTo(found);
            this.sought = { run, row: found, focus: this.outline.index };
        }

        toDrawing(index) {
            // Where the run in the browser stands in its place, that goes.
            this.onShown?.();
            this.tabs.choose("drawing");
            if (index >= 0) this.goTo(index);
            this.outline.tree.focus();
        }

        pressed(event) {
            if (event.ctrlKey || event.altKey || event.metaKey) return;
            if (event.key === "/") {
                event.preventDefault();
                find("find").focus();
                return;
            }
            if (this.view.shown.length === 0) return;
            const act = this.outline.act(event.key);
            if (!act) return;
            event.preventDefault();
            act();
        }

        // Hears where a pane has got another size: the window, another tab, a note or longer words do that.
        watch() {
            const sizes = new ResizeObserver((entries) => {
                for (const { target } of entries) this.resized(target);
            });
            for (const pane of [this.outline.tree, this.scriptList.element, this.transcriptList.element]) sizes.observe(pane);
        }

        resized(element) {
            if (!this.view) return;
            if (element === this.scriptList.element) this.scriptList.resized();
            else if (element === this.transcriptList.element) this.transcriptList.resized();
            else {
                this.outline.resized();
                this.showStrip();
            }
        }

        showStrip() {
            this.strip.show(this.view);
            this.strip.seen(this.outline.top, this.outline.height);
        }
    }

    // Where no document is, as in a check of the model alone, there is no page.
    if (typeof document !== "undefined") {
        Cepage.page = new Page();
        Cepage.page.openHash();
    }
})();
