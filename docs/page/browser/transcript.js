// The program's transcript and the browser's, line by line beside each other. It follows docs/transcript.md: a reply
// ends what its command writes, and the numbers of nodes may differ.
"use strict";
globalThis.CepageBrowser ??= {};

(() => {
    const LARGEST = 4000000;
    const MAKING = ["create", "new", "text", "doc", "shadow", "clone"];
    const isReply = (text) => /^\d+: /.test(text);

    // A line cut into its quoted texts, with their quotes, and what stands between them.
    function pieces(text) {
        const cut = [];
        for (let at = 0; at < text.length;) {
            const end = text[at] === '"' ? CepageBrowser.endOfQuoted(text, at) : text.indexOf('"', at);
            cut.push(text.slice(at, end < 0 ? text.length : end));
            at += cut.at(-1).length;
        }
        return cut;
    }

    // What each command wrote in the program's transcript, by its line of the script. What follows the last reply
    // belongs to the next command that has none: there the session ended. The trace's lines are left out.
    function commandsOf(transcript, forms) {
        const commands = new Map();
        let lines = [];
        let last = 0;
        for (const text of transcript.split("\n")) {
            if (text === "" || text[0] === "~") continue;
            lines.push({ text });
            if (!isReply(text)) continue;
            const line = Number(text.split(":")[0]);
            commands.set(line, lines);
            last = Math.max(last, line);
            lines = [];
        }
        if (lines.length) {
            const next = forms.find((form) => form.line > last && !form.part);
            commands.set(next ? next.line : Infinity, lines);
        }
        return commands;
    }

    function groupBrowser(lines) {
        const commands = new Map();
        for (const line of lines) {
            if (!commands.has(line.line)) commands.set(line.line, []);
            commands.get(line.line).push(line);
        }
        return commands;
    }

    // Which number of the browser's stands for which one of the program's. One that is not known yet is as far from
    // the nearest known one below it as it was there.
    class Numbers {
        constructor() {
            this.known = new Map([[1, 1]]);
            this.highest = 1;
        }

        of(number) {
            if (number < 1) return number;
            const below = this.below(Math.min(number, this.highest));
            return this.known.get(below) + number - below;
        }

        // The nearest known number at this one or below. In a transcript of another engine it may be far.
        below(number) {
            for (let near = number; near > number - this.known.size; near--) if (this.known.has(near)) return near;
            return [...this.known.keys()].reduce((most, known) => (known <= number && known > most ? known : most), 1);
        }

        // A line of the program's with the browser's numbers; `quoted`: also those that a body has logged.
        translate(text, quoted) {
            return pieces(text).map((piece) => {
                const renumber = (whole, before, number) => `${before}#${this.of(Number(number))}`;
                if (piece[0] !== '"') return piece.replace(/(^|\s)#(\d+)/g, renumber);
                const logged = quoted && /^"#(\d+)"$/.exec(piece);
                return logged ? `"#${this.of(Number(logged[1]))}"` : piece;
            }).join("");
        }

        // What the browser may have written where the program wrote this.
        readings(text) {
            return [this.translate(text, true), this.translate(text, false)];
        }

        bind(program, browser) {
            const of = (text) => pieces(text).filter((piece) => piece[0] !== '"').join(" ").match(/(?<=^|\s)#\d+/g) || [];
            const theirs = of(browser);
            of(program).forEach((number, index) => {
                if (!theirs[index]) return;
                this.known.set(Number(number.slice(1)), Number(theirs[index].slice(1)));
                this.highest = Math.max(this.highest, Number(number.slice(1)));
            });
        }

        // A node that a command has made on both sides is the same, before anything that the command wrote is looked at.
        // What a question answers is no new node: it is compared.
        bindReplies(program, browser, form) {
            if (!program || !browser || !form || !MAKING.includes(form.word)) return;
            const node = /^\d+: #(\d+)$/;
            const [made, theirs] = [node.exec(program.text), node.exec(browser.text)];
            if (made && theirs && !this.known.has(Number(made[1]))) this.bind(program.text, browser.text);
        }
    }

    // The pairs of equal lines, in order: a longest common subsequence. A very long command is compared from its two
    // ends only.
    function matches(program, browser, isSame) {
        let front = 0;
        while (front < program.length && front < browser.length && isSame(front, front)) front++;
        let back = 0;
        const rest = () => Math.min(program.length, browser.length) - front - back;
        while (rest() > 0 && isSame(program.length - 1 - back, browser.length - 1 - back)) back++;
        const pairs = [];
        for (let at = 0; at < front; at++) pairs.push([at, at]);
        const rows = program.length - front - back, columns = browser.length - front - back;
        if (rows * columns <= LARGEST) {
            const same = (row, column) => isSame(front + row, front + column);
            for (const [row, column] of longest(rows, columns, same)) pairs.push([front + row, front + column]);
        }
        for (let at = back; at > 0; at--) pairs.push([program.length - at, browser.length - at]);
        return pairs;
    }

    function longest(rows, columns, isSame) {
        const table = Array.from({ length: rows + 1 }, () => new Uint32Array(columns + 1));
        for (let row = rows - 1; row >= 0; row--) {
            for (let column = columns - 1; column >= 0; column--) {
                table[row][column] = isSame(row, column) ? table[row + 1][column + 1] + 1
                    : Math.max(table[row + 1][column], table[row][column + 1]);
            }
        }
        const pairs = [];
        for (let row = 0, column = 0; row < rows && column < columns;) {
            if (isSame(row, column)) pairs.push([row++, column++]);
            else if (table[row + 1][column] >= table[row][column + 1]) row++;
            else column++;
        }
        return pairs;
    }

    // What kind of line it is, so that one of each side stand beside each other where they answer the same thing.
    const kindOf = ({ text }) => (isReply(text) ? "reply" : text.replace(/^(call \S+ \S+|submit \S+|\S+).*$/s, "$1"));

    // Lines between two equal ones: beside each other where they are of one kind, else one above the other.
    function besides(program, browser) {
        const rows = [];
        const kinds = browser.map(kindOf);
        let next = 0;
        for (const line of program) {
            const at = kinds.indexOf(kindOf(line), next);
            if (at < 0) rows.push({ program: line });
            else {
                while (next < at) rows.push({ browser: browser[next++] });
                rows.push({ program: line, browser: browser[next++] });
            }
        }
        return [...rows, ...browser.slice(next).map((browserLine) => ({ browser: browserLine }))];
    }

    // What a browser doesn't show can be any answer of its kind.
    const ANSWERS = {
        "not defined": /^(undefined|failed|precustomized)$/,
        "submission value": /^("|list$|null$)/,
        "saved state": /^("|list$|null$)/,
        "without internals": /^/,
        "message of a barred control": /^"/,
    };

    function isAnswer(text, { text: shown, notShown }) {
        const begin = /^(\d+: |ask )/.exec(text);
        if (!notShown || !begin || !shown.startsWith(begin[0])) return false;
        return ANSWERS[notShown].test(text.slice(begin[0].length));
    }

    // The rows of one command: { program, browser, same }. A line of the program's has a `reading`: with the browser's
    // numbers.
    function rowsOf(program, browser, numbers, form) {
        numbers.bindReplies(program.at(-1), browser.at(-1), form);
        const readings = program.map(({ text }) => numbers.readings(text));
        program.forEach((line, row) => { [line.reading] = readings[row]; });
        const isSame = (row, column) => readings[row].includes(browser[column].text);
        const isPaired = (row, column) => isSame(row, column) || isAnswer(program[row].text, browser[column]);
        const rows = [];
        let [row, column] = [0, 0];
        for (const [nextRow, nextColumn] of matches(program, browser, isPaired)) {
            rows.push(...besides(program.slice(row, nextRow), browser.slice(column, nextColumn)));
            const same = isSame(nextRow, nextColumn);
            if (same) numbers.bind(program[nextRow].text, browser[nextColumn].text);
            rows.push({ program: program[nextRow], browser: browser[nextColumn], same });
            [row, column] = [nextRow + 1, nextColumn + 1];
        }
        return [...rows, ...besides(program.slice(row), browser.slice(column))];
    }

    // Both transcripts, command by command: [{ line, form, rows }].
    function align(forms, transcript, lines) {
        const program = commandsOf(transcript, forms);
        const browser = groupBrowser(lines);
        const numbers = new Numbers();
        const formAt = new Map(forms.map((form) => [form.line, form]));
        return [...new Set([...program.keys(), ...browser.keys()])].sort((a, b) => a - b).map((line) => ({
            line,
            form: formAt.get(line),
            rows: rowsOf(program.get(line) || [], browser.get(line) || [], numbers, formAt.get(line)),
        }));
    }

    Object.assign(CepageBrowser, { align, pieces });
})();
