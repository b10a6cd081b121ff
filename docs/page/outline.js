// The outline of a run: a tree of rows of equal height, of which only those that are seen are made. The focus stays on
// the tree, and `aria-activedescendant` names the row, which is kept in the page also where it is scrolled out of sight.
// Follows the ARIA practices for a tree.
"use strict";
globalThis.Cepage ??= {};

(function () {
    const HEIGHT = 26;
    // Rows beyond the edges that are made too.
    const MARGIN = 2;
    // Beyond this height Chromium places nothing.
    const TALLEST = 30000000;

    class Outline {
        constructor(tree, onFocus) {
            this.tree = tree;
            this.onFocus = onFocus;
            this.room = Cepage.make("div", "room");
            this.curves = Cepage.make("div", "curves");
            this.room.append(this.curves);
            tree.append(this.room);
            this.made = new Map();
            this.place = 0;
            this.hover = 0;
            this.top = 0;
            tree.addEventListener("scroll", () => this.scrolled());
            tree.addEventListener("click", (event) => this.clicked(event));
            tree.addEventListener("pointermove", (event) => this.pointed(event.target));
            tree.addEventListener("pointerleave", () => this.pointed(null));
        }

        // Shows a view, with the focus on this row.
        show(view, index) {
            this.view = view;
            this.forget();
            this.room.style.height = `${Math.min(TALLEST, view.shown.length * HEIGHT)}px`;
            this.place = Math.max(0, view.placeOf(index));
            this.measure();
            this.scrollTo(0);
            this.focusPlace(this.place);
        }

        forget() {
            for (const element of this.made.values()) element.remove();
            this.made.clear();
            this.hover = 0;
        }

        // How wide the tree is decides how many lanes there are.
        measure() {
            this.width = this.tree.clientWidth;
            this.height = this.tree.clientHeight;
            this.narrow = this.width < 480;
            this.gap = this.narrow ? 8 : 11;
            this.lanes = new Cepage.Lanes(this.view.run, this.narrow ? 6 : 14);
            const most = this.lanes.laneOf.size > 0 && [...this.lanes.laneOf.values()].includes(-1);
            this.offset = 18 + this.gap * this.lanes.used + (most ? 34 : 0);
            this.tree.classList.toggle("narrow", this.narrow);
        }

        // The row in focus stays in sight where it was.
        resized() {
            const above = this.place * HEIGHT - this.top;
            const inSight = above >= 0 && above + HEIGHT <= this.height;
            this.measure();
            if (this.view.shown.length > 0 && inSight) this.reveal();
            this.render();
        }

        get index() {
            return this.view.shown[this.place] ?? -1;
        }

        // The reaction in focus, or that the pointer is on.
        get strong() {
            return this.hover || (this.index >= 0 ? this.view.run.rows[this.index].reaction : 0);
        }

        // Puts the focus on a place, and brings it into sight.
        focusPlace(place) {
            if (this.view.shown.length === 0) {
                this.render();
                return;
            }
            this.place = Math.max(0, Math.min(place, this.view.shown.length - 1));
            this.reveal();
            // The other panes scroll before anything is changed.
            this.onFocus(this.index);
            this.render();
        }

        focusRow(index) {
            const place = this.view.placeOf(index);
            if (place >= 0) this.focusPlace(place);
        }

        // Scrolls so that the row in focus is seen: a far one in the middle.
        reveal() {
            const top = this.place * HEIGHT;
            const above = top - this.top;
            if (above >= 0 && above + HEIGHT <= this.height) return;
            const near = above > -4 * HEIGHT && above < this.height + 4 * HEIGHT;
            if (!near) this.scrollTo(top - (this.height - HEIGHT) / 2);
            else this.scrollTo(above < 0 ? top : top + HEIGHT - this.height);
        }

        // Scrolls without asking the browser where it stands, which would lay out all that has changed.
        scrollTo(top) {
            this.top = Math.max(0, Math.min(top, this.view.shown.length * HEIGHT - this.height));
            this.tree.scrollTop = this.top;
        }

        // Brings a place into the middle, and leaves the focus where it is.
        look(place) {
            this.scrollTo(place * HEIGHT - this.height / 2);
            this.render();
        }

        scrolled() {
            const { scrollTop } = this.tree;
            if (Math.abs(scrollTop - this.top) < 1) return;
            this.top = scrollTop;
            this.render();
        }

        // The places that are seen now.
        seen() {
            const count = this.view.shown.length;
            const first = Math.max(0, Math.min(count - 1, Math.floor(this.top / HEIGHT) - MARGIN));
            const last = Math.min(count - 1, Math.ceil((this.top + this.height) / HEIGHT) + MARGIN);
            const shown = Array.from(this.view.shown.subarray(first, last + 1));
            const levels = new Cepage.Levels(shown.map((index) => this.view.run.rows[index].depth), this.width);
            return { first, last, shown, levels, height: HEIGHT, gap: this.gap, offset: this.offset, view: this.view,
                lanes: this.lanes, strong: this.strong };
        }

        render() {
            const count = this.view?.shown.length ?? 0;
            this.tree.classList.toggle("empty", count === 0);
            if (count === 0) {
                this.curves.replaceChildren();
                this.tree.removeAttribute("aria-activedescendant");
                return;
            }
            const seen = this.seen();
            this.makeRows(seen);
            this.curves.replaceChildren(new Cepage.Curves(seen).picture(this.width));
            this.tree.setAttribute("aria-activedescendant", `row-${this.index}`);
            this.onSeen?.(seen);
        }

        // Makes the rows that are seen and lacking, takes away those that are not seen, and keeps the one in focus.
        makeRows(seen) {
            const wanted = new Set(seen.shown);
            if (this.index >= 0) wanted.add(this.index);
            for (const [index, element] of this.made) {
                if (wanted.has(index)) continue;
                element.remove();
                this.made.delete(index);
            }
            let before = this.curves;
            for (const index of [...wanted].sort((one, other) => one - other)) {
                const element = this.element(index);
                if (before.nextSibling !== element) before.after(element);
                this.placeRow(element, index, seen);
                before = element;
            }
        }

        element(index) {
            if (!this.made.has(index)) {
                const element = Cepage.rowElement(this.view, index);
                element.style.top = `${this.view.placeOf(index) * HEIGHT}px`;
                this.made.set(index, element);
            }
            return this.made.get(index);
        }

        placeRow(element, index, seen) {
            const row = this.view.run.rows[index];
            const left = this.offset + Math.max(0, seen.levels.x(row.depth));
            element.firstChild.style.paddingLeft = `${left}px`;
            element.classList.toggle("focused", index === this.index);
            element.classList.toggle("lit", seen.strong !== 0 && row.reaction === seen.strong);
            if (index === this.index) element.setAttribute("aria-selected", "true");
            else element.removeAttribute("aria-selected");
        }

        clicked(event) {
            const element = event.target.closest(".row");
            if (!element) return;
            this.focusRow(Number(element.dataset.row));
            if (event.target.closest(".tag")) this.across();
        }

        // Thickens the lane that the pointer is on.
        pointed(target) {
            const element = target?.closest(".row, [data-lane], [data-stub]");
            const { due, end, lane, stub } = element?.dataset ?? {};
            const hover = Cepage.numberOf(due ?? end ?? lane ?? stub ?? "0");
            if (hover === this.hover) return;
            this.hover = hover;
            this.render();
        }

        // The row at the other end of a reaction: -1 where there is none.
        otherEnd(index) {
            const row = this.view.run.rows[index];
            const reaction = row?.reaction ? this.view.run.reactions.get(row.reaction) : null;
            if (!reaction) return -1;
            return row.kind === "due" ? reaction.end : reaction.due;
        }

        across() {
            this.focusRow(this.otherEnd(this.index));
        }

        outwards() {
            const { parent } = this.view.run.rows[this.index];
            if (parent >= 0) this.focusRow(parent);
        }

        inwards() {
            const next = this.view.shown[this.place + 1];
            if (next !== undefined && this.view.run.rows[next].parent === this.index) this.focusRow(next);
        }

        // Goes to the next row of a list of rows, or back to the one before.
        step(list, forward) {
            const shown = list.filter((index) => this.view.placeOf(index) >= 0);
            const next = forward ? shown.find((index) => index > this.index)
                : shown.findLast((index) => index < this.index);
            if (next !== undefined) this.focusRow(next);
        }

        page(down) {
            const rows = Math.max(1, Math.floor(this.height / HEIGHT) - 1);
            this.focusPlace(this.place + (down ? rows : -rows));
        }

        // What a key does: undefined for one that does nothing here.
        act(key) {
            const { run } = this.view;
            const acts = {
                ArrowDown: () => this.focusPlace(this.place + 1),
                ArrowUp: () => this.focusPlace(this.place - 1),
                ArrowLeft: () => this.outwards(),
                ArrowRight: () => this.inwards(),
                PageDown: () => this.page(true),
                PageUp: () => this.page(false),
                Home: () => this.focusPlace(0),
                End: () => this.focusPlace(this.view.shown.length - 1),
                Enter: () => this.across(),
                " ": () => this.across(),
                n: () => this.step(run.faults, true),
                p: () => this.step(run.faults, false),
                "]": () => this.step(run.commands, true),
                "[": () => this.step(run.commands, false),
            };
            return Object.hasOwn(acts, key) ? acts[key] : undefined;
        }
    }

    Cepage.Outline = Outline;
    Cepage.ROW_HEIGHT = HEIGHT;
})();
