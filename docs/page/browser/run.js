// A run in the reader's own browser: a frame of its own for each, without the page's origin, its code inline, taken
// away at its end or when its time is over. What is sent to it is the script's lines as they were read; what comes
// back is text. The limits and what ends a run are told here.
"use strict";
globalThis.CepageBrowser ??= {};

(() => {
    const LIMITS = { steps: 20000, depth: 40, milliseconds: 10000, lines: 100000 };
    // 40, since Chromium calls 43 callbacks within each other and then no more, and says nothing of it.
    const ENDS = {
        line: (detail) => `\`${detail}\` has no counterpart in a browser`,
        steps: (detail) => `${detail} steps are done, which is the limit of the page`,
        depth: (detail) => `callbacks and constructors stand ${detail} deep within each other, `
            + "which is the limit of the page",
        stack: () => "the browser has no more room for calls within each other",
        leaves: (detail) => `the attribute of \`${detail}\` could fetch something or go elsewhere, `
            + "so the page doesn't set it",
        time: (detail) => `${detail} milliseconds are over, and the frame was taken away`,
        anew: () => "the frame was loaded anew, so what ran in it is gone, and it was taken away",
        lines: (detail) => `${detail} lines are written, which is the limit of the page`,
        stopped: () => "the reader stopped it, and the frame was taken away",
    };

    const hexadecimal = (byte) => byte.toString(16).padStart(2, "0");
    const nonce = () => [...crypto.getRandomValues(new Uint8Array(16))].map(hexadecimal).join("");

    // The frame's document. Nothing is fetched, no form is sent, and no script runs but this one.
    function documentFor(code) {
        const key = nonce();
        const policy = `default-src 'none'; script-src 'nonce-${key}'; form-action 'none'`;
        return `<!DOCTYPE html><meta charset="utf-8"><meta http-equiv="Content-Security-Policy" content="${policy}">`
            + `<script nonce="${key}">${code.replace(/<\/(script)/gi, "<\\/$1")}</script>`;
    }

    function codeOfRunner() {
        const parts = CepageBrowser.frame.map((part) => `(${part})(run);`);
        return `"use strict";(() => { const run = {};${parts.join("\n")} })();`;
    }

    // It is laid out, since only what is laid out can be focused, and out of sight.
    function makeFrame(code) {
        const frame = document.createElement("iframe");
        frame.setAttribute("sandbox", "allow-scripts allow-forms");
        frame.setAttribute("aria-hidden", "true");
        frame.tabIndex = -1;
        frame.title = "the run";
        frame.style.cssText = "position:fixed;left:-2000px;top:0;width:800px;height:600px;border:0;";
        frame.srcdoc = documentFor(code);
        return frame;
    }

    // One run in a frame: what it wrote and what ended it. `message` is what the code is sent first.
    class FrameRun {
        constructor(code, message, limits, host) {
            Object.assign(this, { message, limits, lines: [], loads: 0, token: nonce(), begun: performance.now() });
            this.focused = document.activeElement;
            this.hearFocus = ({ target }) => { if (target !== this.frame) this.focused = target; };
            document.addEventListener("focusin", this.hearFocus);
            this.frame = makeFrame(code);
            this.result = new Promise((resolve) => { this.resolve = resolve; });
            this.hear = this.hear.bind(this);
            window.addEventListener("message", this.hear);
            this.frame.addEventListener("load", () => this.loaded());
            this.timer = setTimeout(() => this.late(), limits.milliseconds);
            host.append(this.frame);
        }

        // A frame that is loaded for a second time has gone elsewhere, or begun anew.
        loaded() {
            this.loads++;
            if (this.loads > 1) this.end({ why: "anew", detail: "", line: null });
            else this.frame.contentWindow.postMessage({ ...this.message, token: this.token, limits: this.limits }, "*");
        }

        hear({ source, data }) {
            if (source !== this.frame.contentWindow || !data || data.token !== this.token) return;
            for (const line of data.lines) this.lines.push(line);
            const most = this.limits.lines;
            if (data.done) this.end(data.ended, data.steps);
            else if (this.lines.length > most) this.end({ why: "lines", detail: most, line: data.at });
        }

        late() {
            this.end({ why: "time", detail: this.limits.milliseconds, line: null });
        }

        stop() {
            this.end({ why: "stopped", detail: "", line: null });
        }

        end(ended, steps = null) {
            clearTimeout(this.timer);
            window.removeEventListener("message", this.hear);
            document.removeEventListener("focusin", this.hearFocus);
            const { focused } = this;
            const hasFocus = document.activeElement === this.frame;
            this.frame.remove();
            if (hasFocus && focused && focused.isConnected) focused.focus({ preventScroll: true });
            this.resolve({ lines: this.lines, ended, steps, milliseconds: Math.round(performance.now() - this.begun) });
        }
    }

    function inFrame(code, message, limits = {}, host = document.body) {
        return new FrameRun(code, message, { ...LIMITS, ...limits }, host);
    }

    // The words of the command line that count here: the page's URL, the boundary, and as many steps as there is fuel.
    function wordsOf(words) {
        const given = (name, otherwise) => {
            const at = words.findIndex((word) => word === name || word.startsWith(`${name}=`));
            if (at < 0) return otherwise;
            return words[at] === name ? words[at + 1] : words[at].slice(name.length + 1);
        };
        return {
            url: given("--url", "http://page.test/"), boundary: given("--boundary", "cepageboundary"),
            fuel: Number(given("--fuel", 0)),
        };
    }

    // Begins the run of a script; `words` are those of the command line. Its `result` is a promise.
    function begin(script, words = [], limits = {}, host = document.body) {
        const forms = CepageBrowser.read(script);
        const read = wordsOf(words);
        const steps = Math.max(LIMITS.steps, read.fuel);
        const run = inFrame(codeOfRunner(), { forms, words: read }, { steps, ...limits }, host);
        run.result = run.result.then((result) => ({ ...result, forms }));
        return run;
    }

    const run = (script, words, limits) => begin(script, words, limits).result;

    const describeEnd = ({ why, detail }) => ENDS[why](detail);

    Object.assign(CepageBrowser, { begin, run, inFrame, describeEnd, LIMITS });
})();
