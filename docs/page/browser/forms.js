// The forms of the language and why a line is refused, as docs/language.md says under "The forms" and "Why a line
// is refused". A form is spelled here as on that page; what is read is one object a line.
"use strict";
globalThis.CepageBrowser ??= {};

(() => {
    const CALLBACKS = ["constructor", "connected", "disconnected", "adopted", "attribute", "formAssociated",
        "formDisabled", "formReset", "formStateRestore"];
    const FLAGS = ["valueMissing", "typeMismatch", "patternMismatch", "tooLong", "tooShort", "rangeUnderflow",
        "rangeOverflow", "stepMismatch", "badInput", "customError"];
    const DEEPEST = 8;

    // What may stand where: `both`, at the `top` level alone, or in a `body` alone. $ is a variable, P a node, C a
    // class, T a text, V a value, F flags, CB a callback, A an action; [k X] is a part that may be left out, X? an
    // operand that may be, X*n up to n operands, XX*n up to n pairs of them, a|b one of two words.
    const TABLE = {
        both: ["create $ T [is T] [in P]", "new $ C", "text $ T [in P]", "shadow $ P", "append P P", "before P P P",
            "remove P P", "detach P", "setattr P T V", "delattr P T", "clone $ P [deep]", "adopt P P",
            "define T C [extends T]", "upgrade P", "reset P", "internals P", "formvalue P V [state V]", "formlist P TT*32",
            "formnull P", "validity P F V", "state P add T", "state P delete T", "state P clear", "custom P V", "value P V",
            "check P on|off", "choose P on|off", "submit P", "request P P?", "ask attr P T", "let $ P",
            ...["parent", "kids", "state", "owner", "controls", "disabled", "candidate", "valid", "message", "value",
                "saved", "checked", "states"].map((what) => `ask ${what} P`)],
        body: ["log V V*7", "super", "return P?", "throw V", "bump", "keep V"],
        around: ["try A", "if eq V V : A", "if ne V V : A", "on C CB : A"],
        top: ["class C", "has C CB", "observe C T T*15", "associate C", "disable C shadow", "disable C internals", "doc $",
            "user edit P V", "user check P on|off", "user choose P on|off", "user reset P", "user restore P V",
            "user autofill P V", "user press P"],
    };
    const FORMS = Object.entries(TABLE).flatMap(([place, spellings]) => spellings.map((spelling) => ({
        place, parts: spelling.match(/\[[^\]]*\]|\S+/g),
    })));

    const BY_WORD = new Map();
    for (const form of FORMS) BY_WORD.set(form.parts[0], [...(BY_WORD.get(form.parts[0]) || []), form]);

    const isVariable = (text) => /^\$[a-z][a-z0-9_]{0,31}$/.test(text);
    const bare = (test, read) => (token) => (!token.quoted && test(token.text) ? read(token.text) : undefined);
    const textIn = (token) => (token.quoted || !/^[$@]/.test(token.text) ? token.text : undefined);
    const flagsIn = (text) => (text === "none" ? [] : text.split(","));

    const READ = {
        $: bare(isVariable, (text) => text.slice(1)),
        P: bare((text) => text === "doc" || text === "this" || isVariable(text),
            (text) => (text[0] === "$" ? { variable: text.slice(1) } : { word: text })),
        C: bare((text) => /^[A-Z][A-Za-z0-9_]{0,31}$/.test(text), (text) => text),
        T: textIn,
        V: (token) => {
            if (!token.quoted && /^@([123]|count|kept)$/.test(token.text)) return { at: token.text.slice(1) };
            const text = textIn(token);
            return text === undefined ? undefined : { text };
        },
        F: bare((text) => flagsIn(text).every((flag) => FLAGS.includes(flag)),
            (text) => FLAGS.filter((flag) => flagsIn(text).includes(flag))),
        CB: bare((text) => CALLBACKS.includes(text), (text) => text),
    };

    class Refused extends Error {}

    // Reads tokens one after the other; each step throws the word of the first fault.
    class Reader {
        constructor(tokens) {
            this.tokens = tokens;
            this.at = 0;
        }

        get left() { return this.tokens.length - this.at; }

        isNext(word) {
            return this.left > 0 && !this.tokens[this.at].quoted && this.tokens[this.at].text === word;
        }

        operand(kind) {
            if (!this.left) throw new Refused("arity");
            const read = READ[kind](this.tokens[this.at]);
            if (read === undefined) throw new Refused("word");
            this.at++;
            return read;
        }

        end() {
            if (this.left) throw new Refused("arity");
        }
    }

    function readOptional(reader, part) {
        const [word, kind] = part.slice(1, -1).split(" ");
        if (!reader.isNext(word)) return undefined;
        reader.at++;
        return kind ? reader.operand(kind) : true;
    }

    function readMany(reader, part) {
        const [kinds, most] = part.split("*");
        const read = [];
        while (reader.left && read.length < Number(most)) {
            read.push(kinds === "TT" ? [reader.operand("T"), reader.operand("T")] : reader.operand(kinds));
        }
        return read;
    }

    // The words that stand in a form where the first of them decides which form it is.
    const isWord = (part) => part !== undefined && /^([a-z][a-z|]*|:)$/.test(part);

    function readWord(reader, part) {
        if (!reader.left) throw new Refused("arity");
        const word = part.split("|").find((one) => reader.isNext(one));
        if (word === undefined) throw new Refused("word");
        reader.at++;
        return word;
    }

    function readPart(reader, part, depth) {
        if (part === "A") return readForm(reader, depth + 1);
        if (isWord(part)) return readWord(reader, part);
        if (part[0] === "[") return readOptional(reader, part);
        if (part.includes("*")) return readMany(reader, part);
        if (part.endsWith("?")) return reader.left ? reader.operand(part.slice(0, -1)) : undefined;
        return reader.operand(part);
    }

    // Those of the forms that agree with what stands at this part; all others are put away.
    function narrow(reader, forms, index) {
        if (!isWord(forms[0].parts[index])) return forms;
        if (!reader.left) throw new Refused("arity");
        const fitting = forms.filter(({ parts }) => parts[index].split("|").some((word) => reader.isNext(word)));
        if (!fitting.length) throw new Refused("word");
        return fitting;
    }

    function readForm(reader, depth = 0) {
        if (!reader.left) throw new Refused("arity");
        const { quoted, text } = reader.tokens[reader.at];
        let forms = (!quoted && BY_WORD.get(text)) || FORMS;
        const read = [];
        for (let index = 0; index < forms[0].parts.length; index++) {
            forms = narrow(reader, forms, index);
            read.push(readPart(reader, forms[0].parts[index], depth));
        }
        reader.end();
        return { place: forms[0].place, parts: forms[0].parts, read };
    }

    const holds = (value, test) => test(value) || (Array.isArray(value) && value.some((one) => holds(one, test)));
    const isOfBody = (value) => Object(value).word === "this" || typeof Object(value).at === "string";

    // Whether the form may stand here: `around` are the forms around it, from the outside in.
    function isMisplaced(form, around) {
        const inner = form.read.find((one) => one && one.parts);
        if (form.place === "around") {
            return isMisplacedAround(form, around) || isMisplaced(inner, [...around, form]);
        }
        if (!around.length) return form.place === "body" || holds(form.read, isOfBody);
        if (form.place === "top" || around.length - 1 > DEEPEST) return true;
        return form.parts[0] === "super" && around[0].read[2] !== "constructor";
    }

    function isMisplacedAround(form, around) {
        return (form.parts[0] === "on") !== (around.length === 0);
    }

    // What is read, without the table's marks: { word, args }, with an action as such an object.
    function plain({ parts, read }) {
        const words = read.filter((one, index) => isWord(parts[index]) && !parts[index].includes("|") && one !== ":");
        const args = read.filter((one, index) => !isWord(parts[index]) || parts[index].includes("|"));
        return { word: words.join(" "), args: args.map((one) => (one && one.parts ? plain(one) : one)) };
    }

    function readTokens(tokens) {
        try {
            const form = readForm(new Reader(tokens));
            return isMisplaced(form, []) ? { bad: "place" } : { ...plain(form), part: isPart(form) };
        } catch (refused) {
            if (!(refused instanceof Refused)) throw refused;
            return { bad: refused.message };
        }
    }

    function isPart({ parts }) {
        return ["class", "on", "has", "observe", "associate", "disable"].includes(parts[0]);
    }

    // A script, as bytes or as a text: one object for each line that is not blank, with its number.
    function read(script) {
        const bytes = typeof script === "string" ? CepageBrowser.bytesOf(script) : script;
        const lines = [];
        CepageBrowser.cutLines(bytes).forEach((line, index) => {
            const { blank, bad, tokens } = CepageBrowser.tokensOf(line);
            if (!blank) lines.push({ line: index + 1, ...(bad ? { bad } : readTokens(tokens)) });
        });
        return lines;
    }

    Object.assign(CepageBrowser, { read, FLAGS });
})();
