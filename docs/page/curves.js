// The lanes and the bars behind the rows that are seen, as one picture (SVG). A lane goes from `due` to where its
// reaction ended, as in a picture of branches; where a reaction has no lane a stub stands at each end. A bar at the left
// of what stands within a row ends where that ends. Follows docs/page.md ("What is seen": lanes, bars).
"use strict";
globalThis.Cepage ??= {};

(function () {
    const SPACE = "http://www.w3.org/2000/svg";
    const BEND = 5;
    const BARRED = new Set(["run", "upgrade", "operation"]);

    function draw(name, attributes) {
        const element = document.createElementNS(SPACE, name);
        for (const [key, value] of Object.entries(attributes)) element.setAttribute(key, value);
        return element;
    }

    // What is seen: the places from first to last, the height of a row, the levels and the lanes.
    class Curves {
        constructor(seen) {
            this.seen = seen;
        }

        // The middle of a row, within the picture.
        y(place) {
            return (place - this.seen.first + 0.5) * this.seen.height;
        }

        laneX(lane) {
            return 8 + lane * this.seen.gap;
        }

        // Where the content of a row begins.
        contentX(index) {
            return this.seen.offset + this.seen.levels.x(this.seen.view.run.rows[index].depth) - 4;
        }

        isSeen(place) {
            return place >= this.seen.first && place <= this.seen.last;
        }

        group(number, kind) {
            const { view, strong } = this.seen;
            const reaction = view.run.reactions.get(number);
            const states = [kind, reaction.ended || "waits", strong === number ? "strong" : ""];
            const group = draw("g", { class: states.filter(Boolean).join(" "), [`data-${kind}`]: number });
            group.style.setProperty("--hue", Cepage.hueOf(reaction.node).toFixed(1));
            return group;
        }

        // The two places of a reaction, and the rows: the end is behind the last row where it waits.
        ends(number) {
            const { view } = this.seen;
            const { due, end } = view.run.reactions.get(number);
            return { due, end, from: view.placeOf(due), to: end < 0 ? view.shown.length : view.placeOf(end) };
        }

        lane(number, lane) {
            const { due, end, from, to } = this.ends(number);
            const x = this.laneX(lane);
            const begins = this.isSeen(from);
            const finishes = end >= 0 && this.isSeen(to);
            const top = begins ? this.y(from) : -10;
            const bottom = finishes ? this.y(to) : this.y(Math.min(to, this.seen.last + 2)) - (end < 0 ? this.seen.height / 2 : 0);
            const path = [
                begins ? `M${this.contentX(due)} ${top}H${x + BEND}Q${x} ${top} ${x} ${top + BEND}` : `M${x} ${top}`,
                finishes ? `V${bottom - BEND}Q${x} ${bottom} ${x + BEND} ${bottom}H${this.contentX(end)}` : `V${bottom}`,
            ];
            const group = this.group(number, "lane");
            group.append(draw("path", { d: path.join("") }));
            if (begins) group.append(draw("circle", { cx: x, cy: top + BEND, r: 2.5 }));
            if (end < 0 && this.isSeen(to - 1)) group.append(draw("path", { d: `M${x - 4} ${bottom - 4}H${x + 4}` }));
            return group;
        }

        // A stub at one end of a reaction, with its number.
        stub(number, index, place, down) {
            const y = this.y(place);
            const content = this.contentX(index);
            const x = Math.min(this.seen.offset - 8, content - 8);
            const group = this.group(number, "stub");
            const turn = down ? 7 : -7;
            group.append(draw("path", { d: `M${content} ${y}H${x}V${y + turn}` }));
            group.append(draw("path", { d: `M${x - 3} ${y + turn - turn / 3}L${x} ${y + turn}L${x + 3} ${y + turn - turn / 3}` }));
            const text = draw("text", { x: x - 5, y: y + 3.5 });
            text.textContent = number;
            group.append(text);
            return group;
        }

        stubs(number) {
            const { due, end, from, to } = this.ends(number);
            const parts = [];
            if (this.isSeen(from)) parts.push(this.stub(number, due, from, true));
            if (end >= 0 && this.isSeen(to)) parts.push(this.stub(number, end, to, false));
            return parts;
        }

        // The reactions of which something is drawn here: those whose lane passes, and those with a row that is seen.
        numbers() {
            const { view, lanes, first, last, strong } = this.seen;
            const { rows } = view.run;
            const numbers = new Set(lanes.passing(view.shown[first], view.shown[last]));
            for (let place = first; place <= last; place++) {
                const { reaction } = rows[view.shown[place]];
                if (reaction) numbers.add(reaction);
            }
            if (strong && view.run.reactions.has(strong)) {
                const { from, to } = this.ends(strong);
                if (from <= last && to >= first) numbers.add(strong);
            }
            return [...numbers];
        }

        reactions() {
            const { lanes, strong } = this.seen;
            const parts = [];
            for (const number of this.numbers()) {
                const lane = lanes.laneOf.get(number);
                if (lane >= 0) parts.push(this.lane(number, lane));
                else parts.push(...this.stubs(number));
                // The one in focus has a whole line in any case.
                if (lane < 0 && number === strong) parts.push(this.lane(number, lanes.used));
            }
            // The one in focus lies over the others.
            return parts.sort((one, other) => one.classList.contains("strong") - other.classList.contains("strong"));
        }

        // The bars: one for each row that something seen stands within.
        bars() {
            const { view, first, shown, levels } = this.seen;
            const open = [];
            for (const index of view.around(view.shown[first])) {
                if (levels.x(view.run.rows[index].depth + 1) >= 0) open.push(index);
            }
            return [...open, ...shown].map((index) => this.bar(index)).filter(Boolean);
        }

        bar(index) {
            const { view, first, last, offset, levels } = this.seen;
            const row = view.run.rows[index];
            if (!BARRED.has(row.kind) || row.end === index) return null;
            const x = levels.x(row.depth + 1);
            const from = Math.max(first, view.placeOf(index) + 1);
            const to = Math.min(last, view.placeOf(row.end));
            if (x < 0 || from > to) return null;
            const wide = row.kind !== "operation";
            const bar = draw("rect", { class: wide ? "bar" : "bar thin", x: offset + x - 11, width: wide ? 3 : 1,
                y: (from - first) * this.seen.height, height: (to - from + 1) * this.seen.height, "data-within": index });
            if (wide) bar.style.setProperty("--hue", Cepage.hueOf(row.node).toFixed(1));
            return bar;
        }

        picture(width) {
            const height = (this.seen.last - this.seen.first + 1) * this.seen.height;
            const picture = draw("svg", { width, height, "aria-hidden": "true" });
            picture.style.top = `${this.seen.first * this.seen.height}px`;
            picture.append(...this.bars(), ...this.reactions());
            return picture;
        }
    }

    Cepage.Curves = Curves;
})();
