// The strip beside the outline: the whole run at once. Each row is a mark in its element's hue, the deeper the further to
// the right; faults have a narrow column of their own at the left. A frame shows what is seen; pressing goes there. Follows
// docs/page.md ("What is seen": the strip).
"use strict";
globalThis.Cepage ??= {};

(function () {
    // At most so many rows are looked at for each line of pixels.
    const LOOKS = 8;
    const FAULTS = 6;

    class Strip {
        // `goTo` scrolls the outline.
        constructor(element, goTo) {
            this.element = element;
            this.goTo = goTo;
            this.canvas = element.querySelector("canvas");
            this.frame = element.querySelector(".seen");
            element.addEventListener("pointerdown", (event) => {
                element.setPointerCapture(event.pointerId);
                this.go(event);
            });
            element.addEventListener("pointermove", (event) => {
                if (element.hasPointerCapture(event.pointerId)) this.go(event);
            });
        }

        // How tall the run is drawn: a short one does not fill the strip.
        get tall() {
            return Math.min(this.height, this.view.shown.length * 6);
        }

        go(event) {
            const y = event.clientY - this.element.getBoundingClientRect().top;
            const place = y / Math.max(1, this.tall) * this.view.shown.length;
            this.goTo(place);
        }

        show(view) {
            this.view = view;
            const { clientWidth: width, clientHeight: height } = this.element;
            this.height = height;
            const ratio = globalThis.devicePixelRatio || 1;
            this.canvas.width = Math.max(1, Math.round(width * ratio));
            this.canvas.height = Math.max(1, Math.round(height * ratio));
            const pen = this.canvas.getContext("2d");
            pen.scale(ratio, ratio);
            const style = getComputedStyle(this.element);
            this.light = style.getPropertyValue("--mark-light").trim();
            this.chroma = style.getPropertyValue("--mark-chroma").trim();
            const deepest = Math.max(4, view.run.deepest);
            const room = width - FAULTS - 10;
            this.paint(pen, (row) => FAULTS + 2 + Math.min(room, room * (row.depth - 1) / deepest));
            this.paintFaults(pen, style.getPropertyValue("--fault").trim());
        }

        paint(pen, x) {
            const { shown, run } = this.view;
            const { tall } = this;
            const lines = Math.max(1, Math.min(shown.length, Math.floor(tall / 2)));
            const height = Math.max(2, tall / lines - 1);
            for (let line = 0; line < lines; line++) {
                const from = Math.floor(line / lines * shown.length);
                const to = Math.floor((line + 1) / lines * shown.length);
                const leap = Math.max(1, Math.ceil((to - from) / LOOKS));
                for (let place = from; place < to; place += leap) {
                    const row = run.rows[shown[place]];
                    if (!row.node) continue;
                    pen.fillStyle = `oklch(${this.light} ${this.chroma} ${Cepage.hueOf(row.node).toFixed(0)})`;
                    pen.fillRect(x(row), line / lines * tall, 8, height);
                }
            }
        }

        paintFaults(pen, colour) {
            const { shown, run } = this.view;
            const height = Math.max(3, this.tall / shown.length - 1);
            pen.fillStyle = colour;
            for (const index of run.faults) {
                const place = this.view.placeOf(index);
                if (place >= 0) pen.fillRect(0, place / shown.length * this.tall, FAULTS, height);
            }
        }

        // Puts the frame around what is seen: the outline stands at this offset, and is so high.
        seen(top, height) {
            const rows = this.view.shown.length * Cepage.ROW_HEIGHT;
            const scale = rows > 0 ? this.tall / rows : 0;
            this.frame.style.top = `${top * scale}px`;
            this.frame.style.height = `${Math.max(6, Math.min(this.tall, height * scale))}px`;
        }
    }

    Cepage.Strip = Strip;
})();
