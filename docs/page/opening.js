// What the reader opens: an example, files that are chosen or dropped, or text that is pasted. Which of the two a text is,
// a script or a transcript, is told from its lines. Nothing is sent anywhere: files are read by the browser itself. Follows
// docs/page.md ("A run of your own").
"use strict";
globalThis.Cepage ??= {};

(function () {
    // So many lines are looked at to tell what a text is.
    const LOOKS = 400;
    // A text of more characters is not shown in a box.
    const LONG = 200000;

    // Tells whether a text is a transcript, by whether more of its lines are events or lines of a script.
    function isTranscript(text) {
        let events = 0;
        let commands = 0;
        for (const line of Cepage.cutLines(text.slice(0, 200000)).lines.slice(0, LOOKS)) {
            if (Cepage.readEvent(line).kind !== "unreadable") events++;
            else if (["part", "command", "comment"].includes(Cepage.kindOfLine(line))) commands++;
        }
        return events > commands;
    }

    // The text of a file; bytes that are no UTF-8 are read as U+FFFD.
    async function readFile(file) {
        return new TextDecoder("utf-8", { ignoreBOM: true }).decode(await file.arrayBuffer());
    }

    class Opener {
        // `onOpen` is given the two texts and the names of what they came from.
        constructor(dialog, onOpen) {
            this.dialog = dialog;
            this.onOpen = onOpen;
            this.forget();
            const find = (id) => document.getElementById(id);
            this.boxes = { script: find("paste-script"), transcript: find("paste-transcript") };
            this.files = { script: find("file-script"), transcript: find("file-transcript") };
            this.read = {};
            for (const kind of ["script", "transcript"]) {
                this.files[kind].addEventListener("change", () => this.chosen(kind));
                this.boxes[kind].addEventListener("input", () => delete this.read[kind]);
            }
            find("open").addEventListener("click", () => dialog.showModal());
            find("cancel").addEventListener("click", () => dialog.close());
            find("draw").addEventListener("click", () => this.draw());
            this.listen();
        }

        listen() {
            addEventListener("dragover", (event) => {
                event.preventDefault();
                document.body.classList.add("dropping");
            });
            addEventListener("dragleave", () => document.body.classList.remove("dropping"));
            addEventListener("drop", (event) => {
                event.preventDefault();
                document.body.classList.remove("dropping");
                this.dropped(event.dataTransfer, "dropped text");
            });
            addEventListener("paste", (event) => {
                if (event.target.closest?.("textarea, input")) return;
                this.dropped(event.clipboardData, "pasted text");
            });
        }

        forget() {
            this.own = { script: "", transcript: "", names: {} };
        }

        // A file that was chosen is kept as it is: a box would change its line ends. A long one is not put into the box.
        async chosen(kind) {
            const [file] = this.files[kind].files;
            if (!file) return;
            const text = await readFile(file);
            this.boxes[kind].value = text.length > LONG ? "" : text;
            this.boxes[kind].placeholder = `${file.name}, ${Cepage.many(text.length, "character", "characters")}`;
            this.read[kind] = { text, name: file.name };
        }

        // What was dropped or pasted: files, or else a text, which gets this name.
        async dropped(data, name) {
            const texts = [];
            const files = [...data.files];
            const text = data.getData("text/plain");
            for (const file of files) texts.push({ text: await readFile(file), name: file.name });
            if (files.length === 0 && text) texts.push({ text, name });
            if (texts.length > 0) this.take(texts);
        }

        // Takes one text or several. A transcript joins the script that is there. A script that comes alone begins anew,
        // unless a transcript waits for one.
        take(texts) {
            const sorted = texts.map(({ text, name }) => ({ text, name, transcript: isTranscript(text) }));
            const script = sorted.find((one) => !one.transcript);
            const transcript = sorted.find((one) => one.transcript);
            if (script) {
                const { own } = this;
                const waits = own.script === "" ? own : { transcript: "", names: {} };
                this.own = { script: script.text, transcript: waits.transcript, names: { ...waits.names, script: script.name } };
            }
            if (transcript) {
                this.own.transcript = transcript.text;
                this.own.names.transcript = transcript.name;
            }
            this.dialog.close();
            this.onOpen(this.own);
        }

        // Draws what is in the two boxes. Where each is in the other's place they are taken as what they are.
        draw() {
            const given = (kind) => this.read[kind] ?? { text: this.boxes[kind].value, name: "the text that was put in" };
            let [script, transcript] = [given("script"), given("transcript")];
            const swapped = isTranscript(script.text) && transcript.text && !isTranscript(transcript.text);
            if (swapped) [script, transcript] = [transcript, script];
            this.own = { script: script.text, transcript: transcript.text,
                names: { script: script.name, transcript: transcript.name } };
            this.dialog.close();
            this.onOpen(this.own);
        }
    }

    Cepage.isTranscript = isTranscript;
    Cepage.Opener = Opener;
})();
