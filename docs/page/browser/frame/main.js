// The run itself: line after line, each with its reply; what is written goes to the page in pieces, so that it is
// there where the frame is taken away in the middle. The function's own text runs in the frame.
"use strict";
globalThis.CepageBrowser ??= {};
CepageBrowser.frame ??= [];

CepageBrowser.frame.push(function main(run) {
    const NO_COUNTERPART = ["user restore", "user autofill"];
    const PIECE = 200;
    const atTop = { self: () => { throw new TypeError("no body"); }, at: [] };

    const TURN = 20;
    let last = performance.now();

    // What waits in the backup element queue is a microtask, which has run behind an `await`. Now and then, and behind
    // what the user does, it is a turn of the event loop.
    async function turn({ word }) {
        if (!word.startsWith("user ") && performance.now() - last < TURN) return;
        await new Promise((resolve) => {
            const { port1, port2 } = new MessageChannel();
            port2.onmessage = resolve;
            port1.postMessage(null);
        });
        last = performance.now();
    }

    function post(more = {}) {
        parent.postMessage({ token: run.token, lines: run.lines.splice(0), ...more }, "*");
    }

    function doPart(form) {
        try {
            run.part(form);
        } catch (error) {
            run.write(`${form.line}: throw ${run.fault(error)}`, { reply: true, byPage: true });
        }
    }

    function replyTo(form) {
        try {
            run.step();
            return run.operate(form, atTop);
        } catch (error) {
            if (run.ended) return "";
            if (run.isOverflow(error)) run.ended = { why: "stack", detail: "", line: form.line };
            return `throw ${run.fault(error)}`;
        }
    }

    async function doCommand(form) {
        if (NO_COUNTERPART.includes(form.word)) {
            run.ended = { why: "line", detail: form.word, line: form.line };
            return;
        }
        run.asked = undefined;
        run.noted.clear();
        const reply = replyTo(form);
        const { asked } = run;
        await turn(form);
        await Promise.all(run.pending.splice(0));
        run.write(`${form.line}: ${reply}`, { reply: true, noted: [...run.noted], ...asked });
    }

    async function all(forms) {
        for (const form of forms) {
            run.line = form.line;
            if (form.bad) run.write(`${form.line}: bad ${form.bad}`, { reply: true, byPage: true });
            else if (form.part) doPart(form);
            else await doCommand(form);
            if (run.ended) break;
            if (run.lines.length > PIECE) post({ at: form.line });
        }
        post({ done: true, ended: run.ended, steps: run.steps });
    }

    window.addEventListener("message", ({ data }) => {
        Object.assign(run, { token: data.token, words: data.words, limits: data.limits, pending: [] });
        document.replaceChildren();
        run.number(document);
        all(data.forms);
    }, { once: true });
});
