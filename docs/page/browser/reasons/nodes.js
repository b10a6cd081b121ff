// Reasons: nodes, names, definitions and shadow trees. See docs/browsers.md.
"use strict";
globalThis.CepageBrowser ??= {};

(() => {
    const { row, anyRow, browsers } = CepageBrowser.reasonOf;
    const isWord = (command, ...words) => Boolean(command.form) && words.includes(command.form.word);
    const isNode = (text) => /^#\d+$/.test(text);

    row("a shadow root is inserted", browsers("a-shadow-root-is-not-inserted"),
        "a browser takes a shadow root that is inserted as a fragment: its children go in",
        ({ was, is, facts, command, run }) => {
            const holds = isWord(command, "append", "before") && was === "throw HierarchyRequestError" && is === "ok"
                && facts.kind === "#document-fragment";
            if (holds) for (const parent of [facts.number, facts.parent]) run.memory.emptied.set(parent, facts.children);
            return holds;
        });

    row("a shadow root was inserted", browsers("a-shadow-root-is-not-inserted"),
        "the children of the shadow root have gone to another parent, in a line before",
        ({ was, is, what, facts, run: { memory } }) => {
            const moved = memory.emptied.get(facts.number);
            const isOther = (number) => number !== "empty" && !moved.includes(number);
            const others = (list) => list.split(" ").filter(isOther).join(" ");
            return what === "kids" && Boolean(moved) && others(was) === others(is);
        });

    row("a document is cloned", browsers("a-document-is-not-cloned"), "a browser gives a copy of a document",
        ({ was, is, facts, command }) => isWord(command, "clone") && was === "throw NotSupportedError" && isNode(is)
            && facts.kind === "#document");

    row("a document is inserted into itself", browsers("a-document-that-is-inserted-into-itself"),
        "Chromium asks for the reference child first",
        ({ was, is, facts, command }) => isWord(command, "before") && was === "throw HierarchyRequestError"
            && is === "throw NotFoundError" && facts.kind === "#document");

    row("local names", browsers("local-names"), "Chromium takes local names by the wider rule",
        ({ was, is, command }) => isWord(command, "create") && was === "throw InvalidCharacterError" && isNode(is)
            && /^([:_]|[^\0-\x7f])([A-Za-z0-9.:_-]|[^\0-\x7f])*$/u.test(command.form.args[1]));

    row("a shadow root for another local name", browsers("a-shadow-root-for-an-element-that-only-names-a-definition"),
        "Chromium looks at the `is` value without the local name",
        ({ was, is, facts, command }) => isWord(command, "shadow") && isNode(was) && is === "throw NotSupportedError"
            && facts.isOfAnother);

    row("an `is` value that a clone keeps", browsers("an-is-value-that-is-kept"),
        "in Chromium a clone by an autonomous definition has no `is` value",
        ({ was, is, facts, command }) => isWord(command, "internals") && was === "throw NotSupportedError" && is === "ok"
            && facts.copied && facts.is !== undefined && facts.autonomous);

    const isSelectWithoutShadow = (command, run) => isWord(command, "create")
        && command.form.args[1].toLowerCase() === "select" && run.disablesShadow(command.form.args[2]);
    anyRow("a select whose class disables shadow", browsers("a-select-whose-class-disables-shadow"),
        "Chromium can't create such a select, since it has a shadow tree of its own",
        ({ program, browser }, command, run) => {
            const holds = isSelectWithoutShadow(command, run)
                && (program ? program.text === `construct ${run.classNamed(command.form.args[2])}` && !browser
                : browser.text === "report NotSupportedError");
            if (holds) run.memory.variables.set(command.form.args[0], "a select whose class disables shadow");
            return holds;
        });

    // ---- names: what the browser defines by them, and the program does not

    // The characters of a custom element's name by the older rule.
    const OF_TABLE = new RegExp("^[a-z][-.0-9_a-z\\xb7\\xc0-\\xd6\\xd8-\\xf6\\xf8-\\u037d\\u037f-\\u1fff"
        + "\\u200c\\u200d\\u203f\\u2040\\u2070-\\u218f\\u2c00-\\u2fef\\u3001-\\ud7ff\\uf900-\\ufdcf"
        + "\\ufdf0-\\ufffd\\u{10000}-\\u{effff}]*$", "u");
    const isWider = (name) => /^[a-z][^A-Z\0\t\n\f\r />]*$/u.test(name) && name.includes("-") && !OF_TABLE.test(name);
    const NEW_ELEMENTS = ["geolocation", "selectedcontent", "fencedframe"];

    // A definition that the browser makes and the program does not, with what follows from it: its class and its name are
    // taken since, and an element of the name is another one.
    const ANOTHER = "the name has another definition in the browser since a line before";
    const memoryOf = (run, source) => (run.memory[source] ??= { names: new Set(), owners: new Set() });

    function whereDefined(source, link, text, isWanted) {
        row(source, link, text, ({ was, is, command, run }) => {
            const holds = isWord(command, "define") && is === "ok" && isWanted(was, command.form.args);
            if (holds) {
                memoryOf(run, source).names.add(command.form.args[0]);
                memoryOf(run, source).owners.add(command.form.args[1]);
            }
            return holds;
        });
    }

    function whereTaken(source, link, isFollowed) {
        const text = "the class or the name has a definition in the browser since a line before";
        row(`${source}: what is taken since`, link, text, ({ was, is, command, run }) => {
            if (!isWord(command, "define") || is !== "throw NotSupportedError") return false;
            const [name, owner] = command.form.args;
            const { names, owners } = memoryOf(run, source);
            const holds = isFollowed(was, command.form.args) && (owners.has(owner) || names.has(name));
            if (holds) names.add(name);
            return holds;
        });
    }

    function whereMade(source, link) {
        anyRow(`${source}: an element of the name`, link, ANOTHER, ({ program, browser }, { form }, run) => {
            const [, owner] = /^construct (\w+)$/.exec((program || browser).text) || [];
            const { names, owners } = memoryOf(run, source);
            if (!form || form.word !== "create" || (program && browser) || !owners.has(owner)) return false;
            return names.has(form.args[1]) || names.has(form.args[2]);
        });
        row(`${source}: the state of such an element`, link, ANOTHER, ({ what, facts, run }) => {
            const { names } = memoryOf(run, source);
            return what === "state" && (names.has(facts.kind) || names.has(facts.is));
        });
    }

    function definition(source, link, text, isWanted, isFollowed) {
        whereDefined(source, link, text, isWanted);
        whereTaken(source, link, isFollowed);
        whereMade(source, link);
    }

    definition("names of custom elements", browsers("names-of-custom-elements"), "Chromium takes names by the wider rule",
        (was, [name]) => was === "throw SyntaxError" && isWider(name),
        (was, [name]) => (was === "ok" ? OF_TABLE.test(name) : was === "throw SyntaxError" && isWider(name)));

    definition("elements that a definition may extend", browsers("elements-that-a-definition-may-extend"),
        "Chromium knows three elements more",
        (was, [, , extended]) => was === "throw NotSupportedError" && NEW_ELEMENTS.includes(extended),
        (was, [, , extended]) => was === "ok" && !NEW_ELEMENTS.includes(extended));
})();
