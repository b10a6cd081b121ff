// The lines of a script, as far as the page has to know them: which are commands, what a command makes, and the actions
// of each body. Follows docs/language.md ("Lines", "Tokens", "The forms"). It refuses nothing: which lines were refused
// is told by the transcript.
"use strict";
globalThis.Cepage ??= {};

(function () {
    const PARTS = new Set(["class", "on", "observe", "has", "associate", "disable"]);
    const PUSHING = new Set(["define", "upgrade", "create", "clone", "append", "before", "remove", "detach", "adopt",
        "setattr", "delattr", "reset"]);
    const QUIET = new Set(["new", "text", "doc", "shadow", "let", "ask", "value", "check", "choose", "internals",
        "formvalue", "formlist", "formnull", "state", "validity", "custom", "submit", "request", "user"]);
    const TOKEN = /"(?:[^"\\]|\\.)*"|[^ ]+/g;

    // The text of a token: of a quoted one what it says, of a bare one itself.
    function said(token) {
        if (!token.startsWith('"')) return token;
        return Cepage.unquoted(token.replace(/\\u\{[0-9A-Fa-f]+\}/g, (escape) => escape.toLowerCase()));
    }

    // Tells what a line is: "blank", "comment", "part", "command" or "other".
    function kindOf(line) {
        const first = /^ *([^ ]*)/.exec(line)[1];
        if (first === "") return "blank";
        if (first.startsWith("#")) return "comment";
        if (PARTS.has(first)) return "part";
        return PUSHING.has(first) || QUIET.has(first) ? "command" : "other";
    }

    const TEST = /^if +(eq|ne) +("(?:[^"\\]|\\.)*"|[^ ]+) +("(?:[^"\\]|\\.)*"|[^ ]+) +: +/;

    // An action without the `try` and `if` that stand before it: its first word and its tokens; whether it is tried, and
    // what is tested before it.
    function readAction(text) {
        let rest = text.trim();
        const action = { text: rest, tried: false, tests: [] };
        for (;;) {
            const test = TEST.exec(rest);
            const tried = /^try +/.exec(rest);
            if (!test && !tried) break;
            if (test) action.tests.push({ equal: test[1] === "eq", one: test[2], other: test[3] });
            else action.tried = true;
            rest = rest.slice((test ?? tried)[0].length);
        }
        action.tokens = rest.match(TOKEN) ?? [];
        action.word = action.tokens[0] ?? "";
        action.pushes = PUSHING.has(action.word);
        return action;
    }

    // What a command that makes a node says of it: its variable, its name, and the class that it constructs.
    function readMaking(line) {
        const tokens = line.match(TOKEN) ?? [];
        const [word, variable, what] = tokens;
        if (word === "create" && what) {
            const is = tokens[3] === "is" ? ` is ${said(tokens[4] ?? "")}` : "";
            const name = said(what).replace(/[A-Z]/g, (letter) => letter.toLowerCase());
            return { word, variable, name: name + is, local: name };
        }
        if (word === "new" && what) return { word, variable, name: "", type: what };
        if (word === "clone") return { word, variable, name: "" };
        const names = { text: "text", doc: "document", shadow: "shadow root" };
        return Object.hasOwn(names, word) ? { word, variable, name: names[word] } : null;
    }

    class Script {
        constructor(text) {
            // The returns at the ends of lines stay: the program reads them too.
            this.lines = Cepage.cutLines(text, true).lines;
            this.kinds = this.lines.map(kindOf);
            this.bodies = new Map();
            this.definitions = new Map();
        }

        // The line with this number, from 1.
        line(number) {
            return this.lines[number - 1];
        }

        // Tells whether the command of a line pushes an element queue.
        pushes(number) {
            return PUSHING.has(/^ *([^ ]*)/.exec(this.line(number) ?? "")[1]);
        }

        // The number of the first command behind a line, or 0.
        commandAfter(number) {
            const index = this.kinds.indexOf("command", number);
            return index + 1;
        }

        // Gathers the bodies and the definitions of the lines up to this one that were not refused.
        gather(refused, upTo) {
            this.lines.slice(0, upTo).forEach((line, index) => {
                if (refused.has(index + 1)) return;
                const part = /^ *on +([A-Z][A-Za-z0-9_]*) +([A-Za-z]+) +: +(.*)$/s.exec(line);
                if (part) this.addAction(`${part[1]} ${part[2]}`, index + 1, part[3]);
                const defined = /^ *define +/.test(line) ? line.match(TOKEN) : null;
                if (defined && defined.length === 3) this.definitions.set(said(defined[1]), defined[2]);
            });
        }

        addAction(key, number, text) {
            const action = readAction(text);
            action.line = number;
            if (!this.bodies.has(key)) this.bodies.set(key, []);
            this.bodies.get(key).push(action);
        }

        // The actions of a class's callback or constructor, in their order.
        body(type, callback) {
            return this.bodies.get(`${type} ${callback}`) ?? [];
        }
    }

    Cepage.Script = Script;
    Cepage.readMaking = readMaking;
    Cepage.kindOfLine = kindOf;
    Cepage.said = said;
})();
