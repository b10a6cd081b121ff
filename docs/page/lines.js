// The lines of a transcript and of its trace, read one by one. Follows docs/transcript.md ("The lines", "The trace",
// "Quoted texts"). What is the text of no event has the kind "unreadable".
"use strict";
globalThis.Cepage ??= {};

(function () {
    const NUMBER = "(0|[1-9][0-9]*)";
    // A line is matched with its quoted texts left empty: a pattern takes room for each sign or escape that it repeats, and
    // a text has up to 16 million.
    const QUOTED = '""';
    const PIECE = /(?:[^"\\\x00-\x1f\x7f]+|\\["\\nrt]|\\u\{[0-9a-f]{1,2}\}){1,4096}/y;
    const NAME = "([A-Z][A-Za-z0-9_]*)";
    const FAULT = "((?:Type|Reference|Syntax|NotSupported|HierarchyRequest|NotFound|InvalidCharacter)Error|user "
        + QUOTED + ")";
    const CALLBACKS = "connected|disconnected|adopted|attribute|formAssociated|formDisabled|formReset|formStateRestore";
    const whole = (pattern) => new RegExp("^" + pattern + "$", "s");

    const NODES = new RegExp("#" + NUMBER, "g");
    // A number; one that a number of JavaScript can't be stays its digits.
    const numberOf = (digits) => Number.isSafeInteger(Number(digits)) ? Number(digits) : digits;
    const VALUE = "(?:null|" + QUOTED + ")";

    // The arguments of each callback, as they stand behind its name.
    const ARGUMENTS = {
        connected: whole(""),
        disconnected: whole(""),
        formReset: whole(""),
        attribute: whole(" " + QUOTED + " " + VALUE + " " + VALUE),
        adopted: whole(" #" + NUMBER + " #" + NUMBER),
        formAssociated: whole(" (?:null|#" + NUMBER + ")"),
        formDisabled: whole(" (?:true|false)"),
        formStateRestore: whole(" " + QUOTED + " (?:restore|autocomplete)"),
    };

    const FLAGS = "valueMissing|typeMismatch|patternMismatch|tooLong|tooShort|rangeUnderflow|rangeOverflow|stepMismatch"
        + "|badInput|customError";
    const ANSWER = whole("(?:null|empty|list|yes|no|valid|undefined|failed|uncustomized|precustomized|custom"
        + "|#" + NUMBER + "(?: #" + NUMBER + ")*|" + QUOTED + "(?: " + QUOTED + ")*|(?:" + FLAGS + ")(?: (?:" + FLAGS
        + "))*)");
    const BAD = whole("bad (long|utf8|quote|escape|word|arity|place)");
    const BLOCKED = "blocked (?:disconnected|dialog|url|scheme|size|boundary|invalid(?: #" + NUMBER + ")+)";

    const TRACE = {
        open: whole("~ open " + NUMBER),
        enq: whole("~ enq " + NUMBER + " #" + NUMBER + " (" + CALLBACKS + "|upgrade) " + NUMBER),
        drain: whole("~ drain " + NUMBER),
        start: whole("~ start " + NUMBER),
        finish: whole("~ finish " + NUMBER),
        up: whole("~ up #" + NUMBER),
        done: whole("~ done #" + NUMBER),
        drop: whole("~ drop " + NUMBER),
        threw: whole("~ threw #" + NUMBER),
        close: whole("~ close " + NUMBER),
    };
    const PLAIN = {
        construct: whole("construct " + NAME),
        call: whole("call #" + NUMBER + " (" + CALLBACKS + ")(.*)"),
        log: whole("log " + QUOTED + "(?: " + QUOTED + ")*"),
        ask: whole("ask (.+)"),
        submit: whole("submit #" + NUMBER + " (?:get " + QUOTED + "|post " + QUOTED + " " + QUOTED + " " + QUOTED
            + "|" + BLOCKED + ")"),
        caught: whole("caught " + FAULT),
        report: whole("report " + FAULT),
        fuel: whole("fuel"),
    };
    const REPLY = whole(NUMBER + ": (.+)");
    const THROW = whole("throw " + FAULT);

    // Where the quoted text ends that begins at this quote: behind its second quote, or -1.
    function endOfQuoted(text, begin) {
        let end = begin + 1;
        PIECE.lastIndex = end;
        while (PIECE.test(text)) end = PIECE.lastIndex;
        return text[end] === '"' ? end + 1 : -1;
    }

    // The quoted texts of a text, and what is left where they are made empty; null where a quote is wrong.
    function cutQuoted(text) {
        const quoted = [], left = [];
        let at = 0;
        for (let quote = text.indexOf('"'); quote >= 0; quote = text.indexOf('"', at)) {
            left.push(text.slice(at, quote));
            at = endOfQuoted(text, quote);
            if (at < 0) return null;
            quoted.push(text.slice(quote, at));
        }
        left.push(text.slice(at));
        return { quoted, left: left.join(QUOTED) };
    }

    // What each line tells, from the parts that its pattern has found, and from the line itself where it may have texts.
    const TELLS = {
        open: (found) => ({ kind: "open", queue: numberOf(found[1]) }),
        enq: (found) => ({ kind: "enq", reaction: numberOf(found[1]), node: numberOf(found[2]), what: found[3],
            queue: numberOf(found[4]) }),
        drain: (found) => ({ kind: "drain", queue: numberOf(found[1]) }),
        start: (found) => ({ kind: "start", reaction: numberOf(found[1]) }),
        finish: (found) => ({ kind: "finish", reaction: numberOf(found[1]) }),
        up: (found) => ({ kind: "up", node: numberOf(found[1]) }),
        done: (found) => ({ kind: "done", node: numberOf(found[1]) }),
        drop: (found) => ({ kind: "drop", reaction: numberOf(found[1]) }),
        threw: (found) => ({ kind: "threw", node: numberOf(found[1]) }),
        close: (found) => ({ kind: "close", queue: numberOf(found[1]) }),
        construct: (found) => ({ kind: "construct", name: found[1] }),
        call: (found, line) => ARGUMENTS[found[2]].test(found[3]) ? { kind: "call", node: numberOf(found[1]), what: found[2],
            args: line.slice(found[0].length - found[3].length + 1) } : null,
        log: (found, line) => ({ kind: "log", text: line.slice(4) }),
        ask: (found, line) => ANSWER.test(found[1]) ? { kind: "ask", text: line.slice(4) } : null,
        submit: (found, line) => ({ kind: "submit", node: numberOf(found[1]), text: line.slice(line.indexOf(" ", 7) + 1) }),
        caught: (found, line) => ({ kind: "caught", fault: line.slice(7) }),
        report: (found, line) => ({ kind: "report", fault: line.slice(7) }),
        fuel: () => ({ kind: "fuel" }),
    };

    function readReply(left, line) {
        const found = REPLY.exec(left);
        if (!found) return null;
        const reply = { kind: "reply", line: numberOf(found[1]), text: line.slice(found[1].length + 2), answer: "asked" };
        if (found[2] === "ok" || found[2] === "ignored") reply.answer = found[2];
        else if (/^#[0-9]+$/.test(found[2])) reply.answer = "node";
        else if (BAD.test(found[2])) reply.answer = "bad";
        else if (THROW.test(found[2])) reply.answer = "throw";
        else if (!ANSWER.test(found[2])) return null;
        return reply;
    }

    function readWith(patterns, word, left, line) {
        if (!Object.hasOwn(patterns, word)) return null;
        const found = patterns[word].exec(left);
        return found && TELLS[word](found, line);
    }

    // Tells the event that a line is.
    function readEvent(line) {
        const cut = cutQuoted(line);
        if (!cut) return { kind: "unreadable" };
        const traced = line.startsWith("~ ");
        const from = traced ? 2 : 0;
        const space = line.indexOf(" ", from);
        const word = line.slice(from, space < 0 ? line.length : space);
        const event = readWith(traced ? TRACE : PLAIN, word, cut.left, line) ?? (traced ? null : readReply(cut.left, line));
        return event ?? { kind: "unreadable" };
    }

    // Cuts a text into lines at each line feed: what stands behind the last one counts where it is not empty. Where
    // every line ends in a carriage return, these are taken off, and `returns` says so.
    function cutLines(text, keepReturns) {
        const lines = text.split("\n");
        const ended = lines[lines.length - 1] === "";
        if (ended) lines.pop();
        const all = ended ? lines : lines.slice(0, -1);
        const returns = all.length > 0 && all.every((line) => line.endsWith("\r"));
        if (!returns || keepReturns) return { lines, returns, ended };
        return { lines: lines.map((line) => line.endsWith("\r") ? line.slice(0, -1) : line), returns, ended };
    }

    // The values in a text, each a quoted text or `null`, as they stand.
    function valuesIn(text) {
        const { quoted, left } = cutQuoted(text);
        let at = 0;
        return left.split(" ").map((value) => value === QUOTED ? quoted[at++] : value);
    }

    // A text in pieces, each a quoted text or what stands between two.
    function piecesOf(text) {
        const cut = cutQuoted(text);
        if (!cut) return [text];
        return cut.left.split(QUOTED).flatMap((left, at) => [left, cut.quoted[at] ?? ""]).filter(Boolean);
    }

    const ESCAPES = { n: "\n", r: "\r", t: "\t", '"': '"', "\\": "\\" };

    // The text that a quoted text says; an escape that says no character stays.
    function unquoted(text) {
        const character = (all, code) => parseInt(code, 16) <= 0x10ffff ? String.fromCodePoint(parseInt(code, 16)) : all;
        return text.slice(1, -1).replace(/\\(?:u\{([0-9a-f]+)\}|(.))/g,
            (all, code, letter) => code ? character(all, code) : ESCAPES[letter]);
    }

    Cepage.readEvent = readEvent;
    Cepage.numberOf = numberOf;
    Cepage.cutLines = cutLines;
    Cepage.unquoted = unquoted;
    Cepage.quotedTexts = (text) => cutQuoted(text)?.quoted ?? [];
    Cepage.valuesIn = valuesIn;
    Cepage.piecesOf = piecesOf;
    Cepage.nodesIn = (text) => Array.from(text.matchAll(NODES), (found) => numberOf(found[1]));
})();
