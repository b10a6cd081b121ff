// The panes: which of them are seen, as tabs where the window is narrow. Follows the ARIA practices for tabs. The style
// says at which widths there are three panes, two or one (docs/page.md, "What is seen").
"use strict";
globalThis.Cepage ??= {};

(function () {
    class Tabs {
        constructor(list) {
            this.tabs = [...list.querySelectorAll("[role=tab]")];
            for (const tab of this.tabs) tab.addEventListener("click", () => this.choose(this.paneOf(tab)));
            list.addEventListener("keydown", (event) => this.pressed(event));
            this.choose("drawing");
        }

        paneOf(tab) {
            return tab.getAttribute("aria-controls");
        }

        // Chooses the pane that is seen where there is room for one; the last other one stands beside the drawing
        // where there is room for two.
        choose(pane) {
            document.body.dataset.pane = pane;
            if (pane !== "drawing") document.body.dataset.side = pane;
            document.body.dataset.side ??= "transcript";
            for (const tab of this.tabs) {
                const chosen = this.paneOf(tab) === pane;
                tab.setAttribute("aria-selected", String(chosen));
                tab.tabIndex = chosen ? 0 : -1;
                tab.classList.toggle("side", this.paneOf(tab) === document.body.dataset.side);
            }
        }

        pressed(event) {
            const moves = { ArrowLeft: -1, ArrowRight: 1 };
            if (!Object.hasOwn(moves, event.key)) return;
            event.preventDefault();
            const shown = this.tabs.filter((tab) => tab.offsetParent !== null);
            const at = shown.indexOf(document.activeElement);
            const next = shown[(at + moves[event.key] + shown.length) % shown.length];
            this.choose(this.paneOf(next));
            next.focus();
        }
    }

    // What stands open around a row: the command, the two innermost rows, and how many more.
    function pathWords(view, index) {
        const { run } = view;
        const command = run.commandOf(index);
        // Each row around it but the heading is one level.
        const levels = Math.max(0, run.rows[index].depth - 1);
        if (levels === 0) return command >= 0 && command !== index ? `line ${run.rows[command].scriptLine || "?"}` : "at rest";
        const inner = run.rows[index].parent;
        const names = [inner, ...(levels > 1 ? [run.rows[inner].parent] : [])].map((at) => openWords(run, at)).reverse();
        const more = levels > 2 ? [`… ${Cepage.many(levels - 2, "more", "more")} …`] : [];
        return [`line ${run.rows[command]?.scriptLine || "?"}`, ...more, ...names].join(" › ");
    }

    function openWords(run, index) {
        const row = run.rows[index];
        if (row.kind === "operation") return Cepage.actionOf(run, index)?.text ?? "an operation";
        return row.kind === "upgrade" ? `#${row.node} upgrade` : `#${row.node} ${row.text}`;
    }

    Cepage.Tabs = Tabs;
    Cepage.pathWords = pathWords;
})();
