// The pane that shows a run in the reader's browser beside the program's transcript: `CepageBrowser.show(element,
// { script, words, transcript })`. Its markup stands in the element that it is given. It follows docs/porting.md.
"use strict";
globalThis.CepageBrowser ??= {};

(() => {
    const PIECE = 300, WIDEST = 20000, LONGEST = 2000000;
    const DOCS = "../";
    const MARKS = {
        same: { sign: "=", label: "the same" },
        explained: { sign: "≠", label: "explained" },
        unexplained: { sign: "!", label: "unexplained" },
        notAsked: { sign: "?", label: "not to be asked of a browser" },
        notRun: { sign: "·", label: "not run" },
    };
    const PARTS = [
        ["The browser's own", "constructors, callbacks and their order, what is thrown and reported, nodes, attributes, "
            + "form owners, disabled states, values, validity flags, which controls block a form, the submitter, the "
            + "entries, the bodies of multipart, and how a URL is parsed."],
        ["Put together by this page", "the lines themselves, which node has which number, which class a script has, the "
            + "method and the encoding that a form has, the URL from its action, the bodies of the other two encodings, "
            + "and that another scheme or the method `dialog` blocks. Nothing is sent."],
    ];

    function make(name, className = "", text = "") {
        const element = document.createElement(name);
        if (className) element.className = className;
        element.textContent = text;
        return element;
    }

    // A text as long as a page can show it; the rest is told by its length.
    function cut(text, most) {
        return text.length <= most ? text : `${text.slice(0, most)} … and ${text.length - most} characters more`;
    }

    function docsLink(link, text) {
        const anchor = make("a", "", text);
        anchor.href = DOCS + link;
        return anchor;
    }

    function browserName() {
        const { userAgent } = navigator;
        const found = /(Firefox|Edg|Chrome)\/(\d+)/.exec(userAgent) || /(?<=Version)(\/)(\d+).*Safari/.exec(userAgent);
        if (!found) return "This browser";
        return `${{ Edg: "Edge", "/": "Safari" }[found[1]] || found[1]} ${found[2]}`;
    }

    // A byte that is no UTF-8 stands in the page as U+FFFD. Where the program refused the line for it, it is one again.
    function withBytes(script, transcript) {
        const replies = transcript.split("\n").map((line) => /^(\d+): bad utf8$/.exec(line));
        const refused = new Set(replies.filter(Boolean).map(([, line]) => Number(line)));
        const asRead = (line, at) => (refused.has(at + 1) ? line.replaceAll("\ufffd", "\udcff") : line);
        return script.split("\n").map(asRead).join("\n");
    }

    // A text in code: each quoted text, and each word beyond ASCII, stands in a `bdi`, as in the page's other lists.
    function codeElement(className, text) {
        const element = make("code", className);
        const isApart = (part) => part[0] === '"' || /[^ -~]/.test(part);
        const parted = (piece) => (piece[0] !== '"' && isApart(piece) ? piece.split(/( +)/) : [piece]);
        const parts = CepageBrowser.pieces(text).flatMap(parted);
        element.append(...parts.map((part) => (isApart(part) ? make("bdi", "", part) : part)));
        return element;
    }

    const lineElement = (className, line) => codeElement(className, line ? cut(line.text, WIDEST) : "");

    function rowElement(row) {
        const { sign, label } = MARKS[row.mark];
        const element = make("div", `browser-row browser-${row.mark}`);
        const mark = make("span", "browser-mark", sign);
        mark.setAttribute("role", "img");
        mark.setAttribute("aria-label", label);
        element.append(mark, lineElement("browser-program", row.program), lineElement("browser-browser", row.browser));
        return element;
    }

    function reasonElement({ mark, reason: { name, link, text } }) {
        const element = make("p", "browser-reason");
        const sentence = `${text[0].toUpperCase()}${text.slice(1)}. `;
        const where = docsLink(link, `docs/${link.split("#")[0]}`);
        element.append(make("b", "", `${MARKS[mark].label}: ${name}. `), sentence, where);
        return element;
    }

    const differs = ({ rows }) => rows.some((row) => row.mark !== "same");

    function commandElement(command, text) {
        const element = make("section", `browser-command${differs(command) ? " browser-differs" : ""}`);
        const head = make("h3");
        const number = Number.isFinite(command.line) ? String(command.line) : "";
        head.append(make("span", "browser-number", number), codeElement("", text));
        element.append(head);
        // A reason stands once, behind the last row that it explains.
        command.rows.forEach((row, at) => {
            element.append(rowElement(row));
            const isLast = !command.rows.slice(at + 1).some((later) => later.reason === row.reason);
            if (row.reason && isLast) element.append(reasonElement(row));
        });
        return element;
    }

    class Pane {
        constructor(element, texts) {
            this.element = element;
            this.texts = texts;
            this.build();
        }

        build() {
            const bar = make("div", "browser-bar");
            this.button = make("button", "browser-start", "Run in this browser");
            this.next = make("button", "browser-next", "Next difference");
            this.status = make("p", "browser-summary");
            this.status.setAttribute("role", "status");
            this.onlyDiffering = make("input");
            this.onlyDiffering.type = "checkbox";
            const label = make("label", "browser-only");
            label.append(this.onlyDiffering, " only what differs");
            for (const button of [this.button, this.next]) button.type = "button";
            this.next.disabled = true;
            bar.append(this.button, this.next, label, docsLink("porting.md", "Porting a test"), this.status);
            this.ended = make("p", "browser-ended");
            this.list = make("div", "browser-list");
            this.list.tabIndex = 0;
            this.list.setAttribute("role", "region");
            this.list.setAttribute("aria-label", "The program's transcript and the browser's, side by side");
            this.element.classList.add("browser-pane");
            this.element.replaceChildren(bar, this.ended, this.list, this.parts());
            this.listen();
        }

        listen() {
            this.button.addEventListener("click", () => (this.running ? this.running.stop() : this.start()));
            this.next.addEventListener("click", () => this.toNext());
            this.list.addEventListener("keydown", ({ key }) => { if (key === "n" && !this.next.disabled) this.toNext(); });
            this.onlyDiffering.addEventListener("change", () => {
                this.list.classList.toggle("browser-brief", this.onlyDiffering.checked);
            });
        }

        // Which part is the browser's, and which one this page puts together; and the browser's transcript as a text.
        parts() {
            const details = make("details", "browser-parts");
            details.append(make("summary", "", "Which part is the browser's, and what it wrote as a text"));
            for (const [head, text] of PARTS) {
                const part = make("p");
                part.append(make("b", "", `${head}: `), text);
                details.append(part);
            }
            const more = make("p", "", "How a test of a browser becomes a script, and a script a test: ");
            more.append(docsLink("porting.md", "docs/porting.md"));
            this.text = make("pre", "browser-text");
            this.text.tabIndex = 0;
            this.text.setAttribute("aria-label", "The browser's transcript");
            details.append(more, this.text);
            return details;
        }

        async start() {
            const { script, words, transcript } = this.texts;
            this.status.textContent = "It runs …";
            this.ended.textContent = "";
            this.list.replaceChildren();
            this.button.textContent = "Stop";
            this.running = CepageBrowser.begin(withBytes(script, transcript), words, {}, this.element);
            const result = await this.running.result;
            this.running = null;
            this.button.textContent = "Run again";
            this.fill(CepageBrowser.compare(result, transcript), result);
        }

        fill(comparison, result) {
            this.comparison = comparison;
            this.at = -1;
            const { counts, ended } = comparison;
            const told = CepageBrowser.MARKS.filter((mark) => counts[mark] || mark === "same" || mark === "unexplained")
                .map((mark) => `${counts[mark]} ${MARKS[mark].label}`);
            this.status.textContent = `${browserName()}, ${result.milliseconds} ms. Lines: ${told.join(", ")}.`;
            if (ended) {
                const behind = result.lines.length ? ` behind line ${result.lines.at(-1).line}` : "";
                const place = ended.line === null ? behind : ` in line ${ended.line}`;
                const why = CepageBrowser.describeEnd(ended);
                this.ended.textContent = `The run ended${place}: ${why}. What follows was not run.`;
            }
            this.text.textContent = cut(result.lines.map(({ text }) => `${text}\n`).join(""), LONGEST);
            this.next.disabled = !comparison.commands.some(differs);
            this.shown = 0;
            const heads = make("div", "browser-row browser-heads");
            heads.append(make("span"), make("b", "", "The program wrote"), make("b", "", `${browserName()} did`));
            this.list.replaceChildren(heads);
            this.more();
        }

        // Shows so many commands more, and a button for the rest.
        more(wanted = PIECE) {
            const { commands } = this.comparison;
            const lines = this.texts.script.split("\n");
            const end = Math.min(commands.length, this.shown + wanted);
            this.list.querySelector(".browser-more")?.remove();
            const elementOf = (command) => commandElement(command, lines[command.line - 1] || "");
            this.list.append(...commands.slice(this.shown, end).map(elementOf));
            this.shown = end;
            if (end === commands.length) return;
            const left = commands.length - end;
            const button = make("button", "browser-more", `Show ${Math.min(PIECE, left)} commands more of ${left}`);
            button.type = "button";
            button.addEventListener("click", () => this.more());
            this.list.append(button);
        }

        // Goes to the next command that differs, behind the last one from the first again.
        toNext() {
            const { commands } = this.comparison;
            const behind = commands.findIndex((command, at) => at > this.at && differs(command));
            this.at = behind >= 0 ? behind : commands.findIndex(differs);
            if (this.at >= this.shown) this.more(this.at - this.shown + PIECE);
            const element = this.list.querySelectorAll(".browser-command")[this.at];
            this.list.querySelector(".browser-found")?.classList.remove("browser-found");
            element.classList.add("browser-found");
            element.scrollIntoView({ block: "center" });
        }
    }

    // Shows the pane in the element; nothing runs before the button is pressed, or `start` is called.
    function show(element, { script, words = [], transcript }) {
        return new Pane(element, { script, words, transcript });
    }

    Object.assign(CepageBrowser, { show });
})();
