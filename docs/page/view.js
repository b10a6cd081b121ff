// Which rows of a run are shown, and where: all, or without the commands that nothing came of. Each row has a place, from
// 0, and the levels give the indentation of the rows that are seen together. Follows docs/page.md ("What is seen").
"use strict";
globalThis.Cepage ??= {};

(function () {
    // A command that nothing came of: it answered ok or a node, and nothing stands within it.
    function isEmpty(row, index) {
        return row.kind === "command" && row.end === index && row.reply !== null
            && (row.reply.answer === "ok" || row.reply.answer === "node");
    }

    class View {
        constructor(run, brief) {
            this.run = run;
            const places = new Int32Array(run.rows.length).fill(-1);
            const shown = [];
            run.rows.forEach((row, index) => {
                if (brief && isEmpty(row, index)) return;
                places[index] = shown.length;
                shown.push(index);
            });
            this.places = places;
            this.shown = Int32Array.from(shown);
            this.count();
        }

        // The place of a row, or -1 where it is left out.
        placeOf(index) {
            return index >= 0 ? this.places[index] : -1;
        }

        // The first row at this row or behind it that is shown; the last one where there is none behind.
        nearest(index) {
            let at = Math.max(0, index);
            while (at < this.places.length && this.places[at] < 0) at++;
            return at < this.places.length ? at : this.shown[this.shown.length - 1] ?? -1;
        }

        // Counts each row among those that stand directly in the same bracket, for screen readers.
        count() {
            this.position = new Int32Array(this.run.rows.length);
            this.size = new Int32Array(this.run.rows.length + 1);
            for (const index of this.shown) this.position[index] = ++this.size[this.run.rows[index].parent + 1];
        }

        // How many rows stand beside a row, itself among them.
        siblings(index) {
            return this.size[this.run.rows[index].parent + 1];
        }

        // The rows around a row, the innermost first.
        *around(index) {
            for (let at = this.run.rows[index].parent; at >= 0; at = this.run.rows[at].parent) yield at;
        }
    }

    // A gap between the depths that are seen takes so many steps at most.
    const GAP = 3;

    // The indentation of rows that are seen together. Levels above the shallowest one are cut, and so are those between
    // that no row seen stands at; where many are left the step shrinks.
    class Levels {
        constructor(depths, width) {
            const sorted = [...new Set(depths)].sort((one, other) => one - other);
            const columns = new Map();
            let column = 0;
            sorted.forEach((depth, at) => {
                const gap = at > 0 ? Math.min(depth - sorted[at - 1], GAP) : 0;
                // The levels of a gap that are kept are the deepest ones.
                for (let less = gap - 1; less >= 0; less--) columns.set(depth - less, ++column);
                if (at === 0) columns.set(depth, column);
            });
            this.columns = columns;
            const widest = width < 480 ? 12 : 18;
            this.step = Math.max(4, Math.min(widest, Math.floor(width * 0.42 / Math.max(1, column))));
        }

        // The offset of a depth in pixels, or -1 where that level is cut.
        x(depth) {
            const column = this.columns.get(depth);
            return column === undefined ? -1 : column * this.step;
        }
    }

    Cepage.View = View;
    Cepage.Levels = Levels;
})();
