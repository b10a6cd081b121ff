// The lanes of the reactions that wait: each goes from the row where its reaction became due to the one where it ran or
// was dropped, in the lowest lane that is free. Where all lanes are taken the reaction has none, and a stub is drawn at
// each end. Follows docs/order.md ("Words for a trace").
"use strict";
globalThis.Cepage ??= {};

(function () {
    // Takes the lowest of so many lanes.
    class Free {
        constructor(count) {
            this.taken = new Array(count).fill(false);
        }

        take() {
            const lane = this.taken.indexOf(false);
            if (lane >= 0) this.taken[lane] = true;
            return lane;
        }

        give(lane) {
            if (lane >= 0) this.taken[lane] = false;
        }
    }

    class Lanes {
        // Gives a lane to each reaction of the run, of so many lanes at most.
        constructor(run, most) {
            this.run = run;
            this.laneOf = new Map();
            this.inLane = Array.from({ length: most }, () => []);
            // How many reactions wait behind each row.
            this.waiting = new Int32Array(run.rows.length);
            this.used = 0;
            const free = new Free(most);
            let waits = 0;
            run.rows.forEach((row, index) => {
                if (row.kind === "due") {
                    waits++;
                    this.assign(row.reaction, free.take());
                } else if (row.kind === "run" || row.kind === "drop") {
                    waits--;
                    free.give(this.laneOf.get(row.reaction));
                }
                this.waiting[index] = waits;
            });
        }

        assign(number, lane) {
            this.laneOf.set(number, lane);
            if (lane < 0) return;
            this.inLane[lane].push(number);
            this.used = Math.max(this.used, lane + 1);
        }

        // The row of the end of a reaction; the last row and one more where it waits.
        endOf(number) {
            const { end } = this.run.reactions.get(number);
            return end < 0 ? this.run.rows.length : end;
        }

        // The reactions whose lane passes a stretch of rows: those with an end there are not left out.
        passing(first, last) {
            const found = [];
            for (const numbers of this.inLane) {
                let at = this.firstEnding(numbers, first);
                while (at < numbers.length && this.run.reactions.get(numbers[at]).due <= last) found.push(numbers[at++]);
            }
            return found;
        }

        // The first reaction of a lane that ends at this row or behind it.
        firstEnding(numbers, row) {
            let low = 0;
            let high = numbers.length;
            while (low < high) {
                const middle = (low + high) >> 1;
                if (this.endOf(numbers[middle]) < row) low = middle + 1;
                else high = middle;
            }
            return low;
        }
    }

    Cepage.Lanes = Lanes;
})();
