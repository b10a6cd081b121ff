// Puts the pane into the page: the button beside the transcript opens it in place of the drawing, and runs the script
// that the page shows. Another script that is chosen closes it.
"use strict";
globalThis.CepageBrowser ??= {};

(() => {
    if (typeof document === "undefined") return;
    const find = (id) => document.getElementById(id);
    let pane = null;

    function open() {
        const { texts: { script }, run, example } = Cepage.page;
        // The lines as the page reads them, without a byte order mark and carriage returns.
        const transcript = run.lines.map((line) => `${line}\n`).join("");
        document.body.classList.add("compares");
        pane = CepageBrowser.show(find("browser-pane"), { script, words: example ? example.words : [], transcript });
        find("browser-close").focus();
        pane.start();
    }

    // Another script that is chosen leaves the focus where it is.
    function leave() {
        if (!pane) return;
        if (pane.running) pane.running.stop();
        pane = null;
        document.body.classList.remove("compares");
        find("browser-pane").replaceChildren();
    }

    function close() {
        leave();
        find("compare").focus();
    }

    find("compare").addEventListener("click", open);
    find("browser-close").addEventListener("click", close);
    // Also where the focus is on nothing, as behind a press on a text.
    addEventListener("keydown", (event) => { if (pane && event.key === "Escape" && !find("opener").open) close(); });
    Cepage.page.onShown = leave;
})();
