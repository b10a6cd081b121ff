// Reset and submission. The browser validates, says which controls are invalid, which submitter there is and which
// entries; the method, the URL and the encoding are put together here, and nothing is ever sent: the event `submit`
// is cancelled, and a form's own `submit` is not called. It follows docs/reset.md and docs/submission.md. The
// function's own text runs in the frame.
"use strict";
globalThis.CepageBrowser ??= {};
CepageBrowser.frame ??= [];

CepageBrowser.frame.push(function submit(run) {
    const { prototype } = HTMLFormElement;
    const isInPage = (form) => run.bare(form).isConnected && run.bare(form).ownerDocument === document;
    const withLineEnds = (text) => text.replace(/\r\n|\r|\n/g, "\r\n");

    // What the form or its submitter says, as the browser reads it: `method`, `enctype`, `action`.
    function said(form, submitter, name) {
        const attribute = `form${name}`;
        if (submitter && submitter.hasAttribute(attribute)) {
            if (name === "action") return submitter.getAttribute(attribute);
            return submitter[`form${name[0].toUpperCase()}${name.slice(1)}`];
        }
        return name === "action" ? run.bare(form).getAttribute("action") || "" : run.get(prototype, name, form);
    }

    function parsed(url, base) {
        try {
            return new URL(url, base);
        } catch {
            return null;
        }
    }

    // The document's base URL, had the page the URL of the run: a `base` whose URL does not parse, or is of the schemes
    // `data` or `javascript`, doesn't count.
    function baseUrl() {
        const base = run.bare(document).querySelector("base[href]");
        const url = base && parsed(base.getAttribute("href"), run.words.url);
        return url && !/^(data|javascript):$/.test(url.protocol) ? url : new URL(run.words.url);
    }

    const urlOf = (action) => (action === "" ? new URL(run.words.url) : parsed(action, baseUrl()));

    const nameOf = (value) => (typeof value === "string" ? value : value.name);

    function urlencoded(entries) {
        return new URLSearchParams(entries.map((pair) => pair.map((text) => withLineEnds(nameOf(text))))).toString();
    }

    function plain(entries) {
        return entries.map(([name, value]) => `${withLineEnds(name)}=${withLineEnds(nameOf(value))}\r\n`).join("");
    }

    // The browser's own boundary is random: the run's stands in its place.
    async function multipart(entries) {
        const data = new FormData();
        for (const [name, value] of entries) data.append(name, value);
        const response = new Response(data);
        const own = /boundary=(.*)$/.exec(response.headers.get("content-type"))[1];
        return (await response.text()).replaceAll(own, run.words.boundary);
    }

    // A URL with this query, the empty one too, in place of its own. What stands from its first `#` on stays: of an empty
    // fragment `hash` is empty, and the URL has the `#` all the same.
    function withQuery(href, query) {
        return href.replace(/^([^?#]*)(\?[^#]*)?/, (all, path) => `${path}?${query}`);
    }

    // What is written of a submission. Only a multipart body has to be waited for.
    function compose(form, submitter, { entries, url }, put) {
        const begin = `submit ${run.number(form)}`;
        if (said(form, submitter, "method") !== "post") {
            return put(`${begin} get ${run.quote(withQuery(url.href, urlencoded(entries)))}`);
        }
        const type = said(form, submitter, "enctype");
        const post = (full, body) => put(`${begin} post ${run.quote(url.href)} ${run.quote(full)} ${run.quote(body)}`);
        if (type !== "multipart/form-data") return post(type, type === "text/plain" ? plain(entries) : urlencoded(entries));
        const full = `${type}; boundary=${run.words.boundary}`;
        run.pending.push(multipart(entries).then((body) => post(full, body)));
    }

    // What a control gives at most: an element of HTML one entry of its name and value.
    const givenBy = (control) => (
        run.is.messaged(control) ? [[control.getAttribute("name"), control.value]] : run.entriesOf(control));

    // The entries without those of these controls.
    function without(entries, controls) {
        const left = [...entries];
        for (const [name, value] of controls.flatMap(givenBy)) {
            const at = left.findIndex((entry) => entry[0] === name && entry[1] === value);
            if (at >= 0) left.splice(at, 1);
        }
        return left;
    }

    // What a radio button or a select gives, and what it would give where its flags were derived.
    function choicesOf(control) {
        const { chosenOf, isOff, isDerivedOn } = run.derived;
        const name = control.getAttribute("name");
        const isIn = name && !control.matches(":disabled");
        const entriesOf = (nodes) => nodes.map((node) => [name, node.value]);
        if (control instanceof HTMLSelectElement) {
            const shown = [...control.options].filter((option) => option.selected && !option.disabled);
            const derived = isIn ? chosenOf(control).filter((option) => !isOff(option)) : [];
            return { given: entriesOf(shown), derived: entriesOf(derived) };
        }
        const isOn = isIn && isDerivedOn(control);
        return { given: entriesOf(control.checked ? [control] : []), derived: entriesOf(isOn ? [control] : []) };
    }

    const isChoice = (control) => control instanceof HTMLSelectElement || run.derived.isRadio(control);

    // The entries with those of radio buttons and selects as they were derived: each control takes its own from the front.
    function withDerived(entries, controls) {
        const left = [...entries];
        return [...controls.flatMap((control) => {
            const { given, derived } = isChoice(control) ? choicesOf(control) : { given: givenBy(control) };
            const taken = given.filter(([name, value]) => {
                const isNext = left.length > 0 && left[0][0] === name && left[0][1] === value;
                if (isNext) left.shift();
                return isNext;
            });
            return derived || taken;
        }), ...left];
    }

    // The same submission with one thing otherwise, in which the docs say that a browser and cepage part: for the
    // reasons of the comparison.
    function variantsOf(form, submitter, { entries, url }) {
        const variants = {};
        const below = run.elementsOf(form).filter((control) => control.closest("datalist"));
        if (below.length) variants.datalist = { url, entries: without(entries, below) };
        if (entries.some(([, value]) => typeof value !== "string")) {
            variants.files = { url, entries: entries.filter(([, value]) => typeof value === "string") };
        }
        if (submitter instanceof HTMLInputElement && !submitter.hasAttribute("value")) {
            const name = submitter.getAttribute("name");
            const own = entries.findIndex((entry) => entry[0] === name && entry[1] !== "");
            variants.label = { url, entries: entries.map((entry, index) => (index === own ? [name, ""] : entry)) };
        }
        const controls = run.elementsOf(form);
        if (controls.some(isChoice)) variants.derived = { url, entries: withDerived(entries, controls) };
        const action = said(form, submitter, "action");
        const ofPage = parsed(action, run.words.url);
        if (run.bare(document).querySelector("base[href]") && action && ofPage) variants.base = { entries, url: ofPage };
        if (/\|/.test(action)) variants.bar = { entries, url: { href: url.href.replace(/%7C/g, "|") } };
        return variants;
    }

    function sent(form, submitter, url) {
        const as = { url, entries: [...new FormData(form, submitter)] };
        const line = run.write("", { subject: run.facts(form), variants: {} });
        compose(form, submitter, as, (text) => { line.text = text; });
        for (const [name, variant] of Object.entries(variantsOf(form, submitter, as))) {
            compose(form, submitter, variant, (text) => { line.variants[name] = text; });
        }
        line.spaceInHost = /^([a-z]+:)?\/\/[^/?#]* [^/?#]*/i.test(said(form, submitter, "action"));
    }

    // Behind the browser's own checks: where it would go, or what blocks it.
    function goes(form, submitter) {
        const block = (why) => void run.write(`submit ${run.number(form)} blocked ${why}`, { subject: run.facts(form) });
        if (!isInPage(form)) return block("disconnected");
        if (said(form, submitter, "method") === "dialog") return block("dialog");
        const url = urlOf(said(form, submitter, "action"));
        if (!url) return block("url");
        if (!/^https?:$/.test(url.protocol)) return block("scheme");
        return sent(form, submitter, url);
    }

    // What is heard of a form while the browser tries to submit it: the event, or which controls are invalid.
    function listen(form, act) {
        const heard = { submitted: false, submitter: null, invalid: [] };
        const root = run.bare(run.bare(form).getRootNode());
        const onSubmit = (event) => {
            event.preventDefault();
            Object.assign(heard, { submitted: true, submitter: event.submitter });
        };
        const onInvalid = (event) => {
            event.preventDefault();
            heard.invalid.push(event.target);
        };
        run.bare(form).addEventListener("submit", onSubmit);
        root.addEventListener("invalid", onInvalid, true);
        try {
            act();
        } finally {
            run.bare(form).removeEventListener("submit", onSubmit);
            root.removeEventListener("invalid", onInvalid, true);
        }
        return heard;
    }

    function tried(form, act) {
        const controls = run.elementsOf(form).map(run.facts);
        const { submitted, submitter, invalid } = listen(form, act);
        const at = run.lines.length;
        if (submitted) {
            goes(form, submitter);
            if (run.lines[at]) run.lines[at].controls = controls;
            return;
        }
        const why = invalid.length ? `invalid ${invalid.map(run.number).join(" ")}`
            : isInPage(form) ? "by nothing that the browser tells" : "disconnected";
        run.write(`submit ${run.number(form)} blocked ${why}`, { subject: run.facts(form), controls });
    }

    function request([operand, button], here) {
        const form = run.one("form", operand, here);
        const submitter = button && run.node(button, here);
        tried(form, () => prototype.requestSubmit.call(form, submitter));
    }

    function press([operand], here) {
        const button = run.one("button", operand, here);
        if (button.matches(":disabled")) return "ignored";
        const { form } = button;
        if (form && ["submit", "image"].includes(button.type)) tried(form, () => button.click());
        else button.click();
    }

    // The user's reset is that of a button, which stands in the form for as long as it is pressed. Where a fieldset around
    // the form disables it, the form is reset by a call.
    function userReset([operand], here) {
        const form = run.one("form", operand, here);
        if (!isInPage(form)) return void prototype.reset.call(form);
        const button = run.bare(document).createElement("button");
        button.type = "reset";
        Node.prototype.appendChild.call(form, button);
        const isOff = button.matches(":disabled");
        button.click();
        button.remove();
        if (isOff) prototype.reset.call(form);
    }

    Object.assign(run.operations, {
        submit: ([operand], here) => goes(run.one("form", operand, here), null),
        request,
        reset: ([operand], here) => prototype.reset.call(run.one("form", operand, here)),
        "user reset": userReset,
        "user press": press,
    });
});
