// A list of lines, of the script or of the transcript: only those that are seen are made. The focus stays on the list,
// and `aria-activedescendant` names the line. Follows the ARIA practices for a listbox.
"use strict";
globalThis.Cepage ??= {};

(function () {
    const HEIGHT = 20;
    const MARGIN = 4;

    class LineList {
        // `name` is that of the list; `onChoose` is told of a line that the reader goes to, and `onEnter` where Enter or
        // a second press goes on from it.
        constructor(element, name, onChoose, onEnter) {
            this.element = element;
            this.name = name;
            this.onChoose = onChoose;
            this.onEnter = onEnter;
            this.room = Cepage.make("div", "room");
            element.append(this.room);
            element.tabIndex = 0;
            element.setAttribute("role", "listbox");
            element.setAttribute("aria-label", name);
            this.top = 0;
            element.addEventListener("scroll", () => this.scrolled());
            element.addEventListener("click", (event) => this.clicked(event));
            element.addEventListener("keydown", (event) => this.pressed(event));
            this.texts = [];
            this.chosen = -1;
            this.soon = false;
            this.lit = () => "";
            this.look = () => "";
        }

        // Shows lines: their texts, and for each its number and its class.
        show(texts, numbers, look) {
            this.texts = texts;
            this.numbers = numbers;
            this.look = look;
            this.chosen = -1;
            this.room.style.height = `${texts.length * HEIGHT}px`;
            this.lit = () => "";
            this.height = this.element.clientHeight;
            this.scrollTo(0);
            this.render();
        }

        resized() {
            this.height = this.element.clientHeight;
            if (this.chosen >= 0) this.reveal(this.chosen);
            this.render();
        }

        scrollTo(top) {
            this.top = Math.max(0, Math.min(top, this.texts.length * HEIGHT - this.height));
            this.element.scrollTop = this.top;
        }

        scrolled() {
            const { scrollTop } = this.element;
            if (Math.abs(scrollTop - this.top) < 1) return;
            this.top = scrollTop;
            this.render();
        }

        // Lights the lines for which a class is told, and brings one of them into sight.
        light(lit, at) {
            this.lit = lit;
            this.chosen = at;
            if (at >= 0) this.reveal(at);
            this.renderSoon();
        }

        // Renders behind all that is done now: to scroll a pane while another one is changed would lay it out twice.
        renderSoon() {
            if (this.soon) return;
            this.soon = true;
            queueMicrotask(() => {
                this.soon = false;
                this.render();
            });
        }

        reveal(at) {
            const top = at * HEIGHT;
            if (this.height === 0 || (top >= this.top && top + HEIGHT <= this.top + this.height)) return;
            this.scrollTo(top - (this.height - HEIGHT) / 2);
        }

        render() {
            const first = Math.max(0, Math.floor(this.top / HEIGHT) - MARGIN);
            const last = Math.min(this.texts.length, Math.ceil((this.top + this.height) / HEIGHT) + MARGIN);
            const lines = [];
            for (let at = first; at < last; at++) lines.push(this.line(at));
            if (this.chosen >= 0 && this.chosen < this.texts.length && (this.chosen < first || this.chosen >= last)) {
                lines.push(this.line(this.chosen));
            }
            this.room.replaceChildren(...lines);
            if (this.chosen >= 0) this.element.setAttribute("aria-activedescendant", this.id(this.chosen));
            else this.element.removeAttribute("aria-activedescendant");
        }

        id(at) {
            return `${this.element.id}-${at}`;
        }

        line(at) {
            const line = Cepage.make("div", `line ${this.look(at)} ${this.lit(at)}`);
            line.id = this.id(at);
            line.dataset.at = at;
            line.style.top = `${at * HEIGHT}px`;
            line.setAttribute("role", "option");
            line.setAttribute("aria-posinset", at + 1);
            line.setAttribute("aria-setsize", this.texts.length);
            line.setAttribute("aria-selected", at === this.chosen ? "true" : "false");
            const text = this.texts[at].replace(/\r/g, "␍");
            line.setAttribute("aria-label", `${this.numbers(at)}: ${text || "blank"}`);
            line.title = text.length > 40 ? text.slice(0, 2000) : "";
            line.append(Cepage.make("span", "number", this.numbers(at)),
                Cepage.write(Cepage.make("span", "code"), text.slice(0, 2000), this.look(at) === "comment"));
            return line;
        }

        clicked(event) {
            const line = event.target.closest(".line");
            if (!line) return;
            const at = Number(line.dataset.at);
            if (at === this.chosen) this.onEnter();
            else this.choose(at);
        }

        choose(at) {
            if (this.texts.length === 0) return;
            this.chosen = Math.max(0, Math.min(at, this.texts.length - 1));
            this.reveal(this.chosen);
            this.renderSoon();
            this.onChoose(this.chosen);
        }

        pressed(event) {
            if (event.key === "Enter") this.onEnter();
            const page = Math.max(1, Math.floor(this.height / HEIGHT) - 1);
            const moves = { ArrowDown: 1, ArrowUp: -1, PageDown: page, PageUp: -page, Home: -Infinity, End: Infinity };
            if (!Object.hasOwn(moves, event.key) || event.ctrlKey || event.altKey || event.metaKey) return;
            event.preventDefault();
            const from = this.chosen < 0 && event.key === "ArrowDown" ? -1 : Math.max(0, this.chosen);
            this.choose(from + moves[event.key]);
        }
    }

    Cepage.LineList = LineList;
})();
