// Reasons: which callbacks come, and in which order. See docs/browsers.md. They are held against all rows of a
// command: callbacks are compared as blocks, each a `call` or `construct` line with what follows until the next one.
"use strict";
globalThis.CepageBrowser ??= {};

(() => {
    const { row, anyRow, command, browsers } = CepageBrowser.reasonOf;
    const isReply = (text) => /^\d+: /.test(text);
    const isForm = (block) => /^call #\d+ form(Associated|Disabled) /.test(block.text);

    // What one side wrote, in blocks. A row that is explained already counts as equal.
    function blocksOf(rows, side) {
        const blocks = [];
        for (const one of rows) {
            const line = one[side];
            if (!line || isReply(line.text)) continue;
            const isExplained = one.reason && one.program && one.browser;
            const text = isExplained ? `explained: ${one.program.reading}` : line.reading || line.text;
            if (/^(call|construct) /.test(text) || !blocks.length) blocks.push({ text: "", rows: [] });
            const block = blocks.at(-1);
            block.text += `${text}\n`;
            block.rows.push(one);
        }
        return blocks;
    }

    const texts = (blocks) => blocks.map(({ text }) => text);
    const isSameList = (one, other) => one.length === other.length && one.every((text, index) => text === other[index]);
    const differing = (blocks) => blocks.flatMap(({ rows }) => rows).filter((one) => !one.same && !one.reason);

    const formTold = (block) => (/^call (#\d+) formAssociated (\S+)\n/.exec(block.text) || []).slice(1);

    // The blocks that tell an element of its form owner, by the element.
    function byElement(blocks) {
        const found = new Map();
        for (const block of blocks) {
            const [node] = formTold(block);
            if (node) found.set(node, [...(found.get(node) || []), block]);
        }
        return found;
    }

    // What the browser told of an element besides what the program told, compared from the end.
    function besides(told, blocks) {
        const left = [...told];
        const more = [];
        for (const block of [...blocks].reverse()) {
            if (left.length && left.at(-1) === formTold(block)[1]) left.pop();
            else more.unshift(block);
        }
        return left.length ? [] : more;
    }

    // The blocks of an element with a `form` attribute that has left, or moved, with the form above it, where two are
    // besides: of no form or of that one, and then of the one that is told last, which is its form owner.
    function toldTwice(program, browser, left) {
        const ofProgram = byElement(program);
        return [...byElement(browser)].flatMap(([node, blocks]) => {
            const there = ofProgram.get(node) || [];
            const told = there.map((block) => formTold(block)[1]);
            const { form, formAbove, owner } = blocks.at(-1).rows[0].browser.subject || {};
            const more = besides(told, blocks);
            const isKnown = more.every((block) => ["null", formAbove, owner].includes(formTold(block)[1]));
            const isEnd = formTold(blocks.at(-1))[1] === owner;
            const isTwice = form && more.length === 2 && isKnown && isEnd && left.includes(formAbove);
            return isTwice ? [...there, ...blocks] : [];
        });
    }

    const formsLeft = (rows) => rows.flatMap(({ browser }) => (browser?.reply && browser.subject?.forms) || []);

    command("a form leaves that its control names", browsers("a-form-leaves-and-in-it-a-control-that-names-it"),
        "Chromium tells the control that it has no form owner, and then of the same form again", (rows, { form }) => {
            if (!form || !["detach", "remove", "append", "before", "adopt"].includes(form.word)) return [];
            return differing(toldTwice(blocksOf(rows, "program"), blocksOf(rows, "browser"), formsLeft(rows)));
        });

    // What each element hears in a command, in order: A is its form owner, D its disabled state, c that it came or left.
    function heardBy(blocks) {
        const heard = new Map();
        for (const { text } of blocks) {
            const [, node = "", callback = ""] = /^call (#\d+) (\w+)/.exec(text) || [];
            if (!heard.has(node)) heard.set(node, []);
            const kind = { formAssociated: "A", formDisabled: "D", connected: "c", disconnected: "c" }[callback] || "o";
            heard.get(node).push({ kind, text });
        }
        return heard;
    }

    const of = (list, kinds) => list.filter(({ kind }) => kinds.includes(kind)).map(({ text }) => text);

    // How many callbacks of some kinds stand before each one of others.
    function countsBefore(list, kinds, others) {
        const counts = [];
        let before = 0;
        for (const { kind } of list) {
            if (kinds.includes(kind)) before++;
            else if (others.includes(kind)) counts.push(before);
        }
        return counts;
    }

    const isAtMost = (counts, most) => counts.every((count, at) => count <= most[at]);

    // What an element hears is the same, and in the same order but for its form callbacks: these come later in the
    // browser, and that of the form owner may come behind that of the disabled state.
    function isHeardLater(told, heard) {
        return ["A", "D", "co"].every((kinds) => isSameList(of(told, kinds), of(heard, kinds)))
            && isAtMost(countsBefore(heard, "AD", "c"), countsBefore(told, "AD", "c"))
            && isSameList(countsBefore(heard, "AD", "o"), countsBefore(told, "AD", "o"))
            && isAtMost(countsBefore(told, "D", "A"), countsBefore(heard, "D", "A"));
    }

    function isHeardOtherwise(program, browser) {
        const [told, heard] = [heardBy(program), heardBy(browser)];
        const isLater = ([node, list]) => heard.has(node) && isHeardLater(list, heard.get(node));
        return told.size === heard.size && [...told].every(isLater);
    }

    const firsts = (blocks) => [...heardBy(blocks).keys()];
    const isNamed = (blocks) => blocks.some((block) => isForm(block) && block.rows[0].browser.subject?.form);

    // Each element hears the same, with its form callbacks behind `connected` and `disconnected`. Elements hear it in the
    // same order, unless some have a `form` attribute. All other callbacks stand as they do.
    command("the order of form callbacks", browsers("a-form-owner-is-told-before-connected"),
        "Chromium tells of form owners and disabled states in another order: behind `connected`, and by IDs",
        (rows, { form }) => {
            if (!form) return [];
            const left = rows.filter((one) => one.same || !one.reason || (one.program && one.browser));
            const [program, browser] = [blocksOf(left, "program"), blocksOf(left, "browser")];
            const others = (blocks) => texts(blocks.filter((block) => !isForm(block)));
            const explained = [...differing(program), ...differing(browser)];
            const isExplained = isSameList(others(program), others(browser)) && isHeardOtherwise(program, browser)
                && (isSameList(firsts(program), firsts(browser)) || isNamed(browser));
            return isExplained ? explained : [];
        });

    // What waits at an element that is custom, or whose constructor runs, does not run within the call that upgrades it.
    const asState = (text) => text.replace(/^ask (precustomized|custom|not shown)$/, "ask the state");
    const linesOf = (rows, side) => rows.filter((one) => one[side] && !isReply(one[side].text))
        .map((one) => asState(one[side].reading || one[side].text));

    // How many lines from here on are the same on both sides.
    function sameFrom(program, at, browser, from) {
        let length = 0;
        while (at + length < program.length && program[at + length] === browser[from + length]) length++;
        return length;
    }

    // Whether the program's lines are the browser's with calls moved to the front, or with calls besides, where an
    // upgrade has thrown: these were dropped in the browser.
    function isCalledEarlier(program, browser) {
        const left = [...browser];
        const isThrown = program.some((text) => /^report /.test(text));
        for (let at = 0; at < program.length;) {
            if (program[at] === left[at]) { at++; continue; }
            if (!/^call /.test(program[at])) return false;
            const from = left.indexOf(program[at], at);
            if (from < 0 && !isThrown) return false;
            const length = from < 0 ? dropped(program, at, left[at]) : sameFrom(program, at, left, from);
            if (from < 0) left.splice(at, 0, ...program.slice(at, at + length));
            else left.splice(at, 0, ...left.splice(from, length));
            at += length;
        }
        return left.length === program.length;
    }

    // A call that the browser has not, with what it wrote: until the line that the browser has.
    function dropped(program, at, next) {
        const end = program.indexOf(next, at);
        return (end < 0 ? program.length : end) - at;
    }

    command("an upgrade of an element that is custom", browsers("a-call-of-upgrade-for-an-element-that-is-custom-already"),
        "Chromium enqueues nothing for an element that is no longer undefined: what waits there runs later, or is dropped "
            + "where the upgrade throws",
        (rows, { noted }) => {
            const isEarlier = isCalledEarlier(linesOf(rows, "program"), linesOf(rows, "browser"));
            if (!noted.includes("upgrade") || !isEarlier) return [];
            return rows.filter((one) => !one.same && !one.reason && !isReply((one.program || one.browser).text));
        });

    anyRow("a definition that extends an element, of a form-associated class",
        browsers("a-definition-that-extends-an-element-of-a-form-associated-class"),
        "Chromium tells its elements of their form owner and that they are disabled",
        ({ program, browser }) => !program && /^call #\d+ form(Associated|Disabled|Reset) ?/.test(browser.text)
            && Boolean(browser.subject) && browser.subject.extendsAssociated);

    // ---- while an element is upgraded

    const inConstructor = browsers("a-form-owner-in-the-constructor-of-an-upgrade");
    row("a form owner in a constructor", inConstructor,
        "in Chromium an element has no form owner until its constructor has ended",
        ({ was, is, what, facts }) => what === "owner" && facts.constructing && was === facts.owner && is === "null");

    row("the controls of a form in a constructor", inConstructor,
        "in Chromium an element has no form owner until its constructor has ended",
        ({ was, is, what, facts }) => {
            const shown = is.split(" ");
            const left = was.split(" ").filter((number) => !shown.includes(number));
            const rest = was.split(" ").filter((number) => !left.includes(number));
            return what === "controls" && left.length > 0 && isSameList(shown, rest)
                && left.every((number) => (facts.constructed || []).includes(number));
        });

    row("disabled in a constructor", inConstructor,
        "in Chromium an element is not disabled until its constructor has ended",
        ({ was, is, what, facts }) => what === "disabled" && facts.constructing && facts.offByTree
            && was === "yes" && is === "no");

    row("a candidate in a constructor", browsers("a-candidate-in-the-constructor-of-an-upgrade"),
        "in Chromium a constructor does not see that its element is barred",
        ({ was, is, what, facts }) => what === "candidate" && facts.constructing && was === "no" && is === "yes"
            && (facts.offByTree || facts.readonly));

    // ---- behind one that threw

    // Nobody is told in the browser, so all that the program wrote before the reply follows from what it told.
    command("who is told of a reset in another document", browsers("a-reset-in-another-document"),
        "in Chromium a form isn't reset in a document without a view", (rows, { form }) => {
            if (!form || !["reset", "user reset"].includes(form.word)) return [];
            const isNotReset = rows.some(({ browser }) => browser?.reply && browser.subject?.viewed === false);
            const program = blocksOf(rows, "program");
            const isOfReset = program.length && /^call #\d+ formReset\n/.test(program[0].text);
            return isNotReset && isOfReset && !blocksOf(rows, "browser").length ? differing(program) : [];
        });

    row("internals behind an upgrade that threw", browsers("internals-behind-an-upgrade-that-threw"),
        "in Chromium an element that its upgrade has lost takes a submission value and flags",
        ({ was, is, facts, command: { form } }) => Boolean(form)
            && ["validity", "formvalue", "formlist", "formnull"].includes(form.word)
            && facts.lost && facts.internals && was === "throw NotSupportedError" && is === "ok");
})();
