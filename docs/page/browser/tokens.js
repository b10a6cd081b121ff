// A script cut into lines and a line into tokens, as docs/language.md says under "Lines" and "Tokens".
// This reader is the page's own: the program has another one, which is proved.
"use strict";
globalThis.CepageBrowser ??= {};

(() => {
    const SPACE = 0x20, LINE_FEED = 0x0a, QUOTE = '"', BACKSLASH = "\\";
    const LONGEST = 4096, MOST = 16777216;
    const SHORT_ESCAPES = { "\\": "\\", '"': '"', n: "\n", r: "\r", t: "\t" };

    const encoder = new TextEncoder();
    const decoder = new TextDecoder("utf-8", { fatal: true, ignoreBOM: true });

    // The bytes of a text. A surrogate from U+DC80 to U+DCFF that stands alone is a byte that is not UTF-8.
    function bytesOf(text) {
        if (!/[\udc80-\udcff]/u.test(text)) return encoder.encode(text);
        const bytes = [];
        for (const sign of text) {
            if (/[\udc80-\udcff]/u.test(sign)) bytes.push(sign.charCodeAt(0) - 0xdc00);
            else for (const byte of encoder.encode(sign)) bytes.push(byte);
        }
        return Uint8Array.from(bytes);
    }

    // Of a longer script the lines are read that end within the limit.
    function cutLines(all) {
        const bytes = all.subarray(0, MOST);
        const lines = [];
        let begin = 0;
        for (let end = bytes.indexOf(LINE_FEED); end >= 0; end = bytes.indexOf(LINE_FEED, begin)) {
            lines.push(bytes.subarray(begin, end));
            begin = end + 1;
        }
        if (begin < bytes.length && all.length <= MOST) lines.push(bytes.subarray(begin));
        return lines;
    }

    function textOf(bytes) {
        try {
            return decoder.decode(bytes);
        } catch {
            return null;
        }
    }

    function isBlank(text) {
        return /^ *(#|$)/.test(text);
    }

    // Where the quoted token that begins here ends: behind its second quote, or -1.
    function endOfQuoted(text, begin) {
        for (let at = begin + 1; at < text.length; at++) {
            if (text[at] === BACKSLASH) at++;
            else if (text[at] === QUOTE) return at + 1;
        }
        return -1;
    }

    function endOfBare(text, begin) {
        const end = text.indexOf(" ", begin);
        return end < 0 ? text.length : end;
    }

    // The pieces of a line as they stand, or null where quotes are wrong.
    function cutPieces(text) {
        const pieces = [];
        let at = 0;
        while (at < text.length) {
            if (text.charCodeAt(at) === SPACE) { at++; continue; }
            const quoted = text[at] === QUOTE;
            const end = quoted ? endOfQuoted(text, at) : endOfBare(text, at);
            if (end < 0 || (quoted && end < text.length && text[end] !== " ")) return null;
            const stands = quoted ? text.slice(at + 1, end - 1) : text.slice(at, end);
            if (!quoted && stands.includes(QUOTE)) return null;
            pieces.push({ quoted, stands });
            at = end;
        }
        return pieces;
    }

    // What stands between quotes, read; null where a backslash begins no escape.
    function unescape(stands) {
        let wrong = false;
        const text = stands.replace(/\\(?:u\{([0-9a-fA-F]{1,6})\}|([^]?))/gu, (whole, digits, letter) => {
            if (digits !== undefined) {
                const code = parseInt(digits, 16);
                if (code <= 0x10ffff && (code < 0xd800 || code > 0xdfff)) return String.fromCodePoint(code);
            } else if (Object.hasOwn(SHORT_ESCAPES, letter)) return SHORT_ESCAPES[letter];
            wrong = true;
            return "";
        });
        return wrong ? null : text;
    }

    function tokenOf({ quoted, stands }) {
        return { quoted, text: quoted ? unescape(stands) : stands };
    }

    // The tokens of one line: { blank }, { bad } or { tokens }.
    function tokensOf(bytes) {
        if (bytes.length > LONGEST) return { bad: "long" };
        const text = textOf(bytes);
        if (text === null) return { bad: "utf8" };
        if (isBlank(text)) return { blank: true };
        const pieces = cutPieces(text);
        if (!pieces) return { bad: "quote" };
        const tokens = pieces.map(tokenOf);
        if (tokens.some((token) => token.text === null)) return { bad: "escape" };
        const bare = pieces.filter((piece) => !piece.quoted);
        if (/[\0-\x1f\x7f]/.test(text) || bare.some((piece) => piece.stands.includes(BACKSLASH))) return { bad: "word" };
        return { tokens };
    }

    Object.assign(CepageBrowser, { bytesOf, cutLines, endOfQuoted, tokensOf });
})();
