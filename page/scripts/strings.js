// Reads strings: with escapes, as C, Rust, Python and shells write bytes, or with hexadecimal digits or base64 in quotes.
"use strict";
Wolfaren.strings = (function () {
    const PREFIX = /(?<![\w$])(?:br|rb|b|\$)$/i, LONGEST_PREFIX = 2;
    const INSIDE = { '"': /(?:[^"\\\n]|\\[^])*/y, "'": /(?:[^'\\\n]|\\[^])*/y };
    const ESCAPED = /\\x[0-9a-f]{2}/i;
    const LETTERS = { n: 10, t: 9, r: 13, a: 7, b: 8, f: 12, v: 11, e: 27, "\\": 92, "'": 39, '"': 34, "?": 63 };
    const CHARACTER = /\\(?:x([0-9a-f]{1,2})|([0-7]{1,3})|([ntrabfve\\'"?])|\r?\n)|[\x20-\x5b\x5d-\x7e]/iy;
    const LEAST_DIGITS = 16;
    const { note } = Wolfaren.input;

    function read(text) {
        const literals = literalsIn(text);
        if (literals.length === 0) return ESCAPED.test(text) ? readBare(text) : null;
        const decode = decoderOf(text, literals);
        return decode ? readLiterals(text, literals, decode) : null;
    }
    // Finds the strings. Where a quote isn't closed before the end of its line, none in between is closed there either: they
    // are passed over, so that each character is looked at few times.
    function literalsIn(text) {
        const found = [], unclosed = { '"': 0, "'": 0 };
        let end = 0;
        for (const { index, 0: quote } of text.matchAll(/["']/g)) {
            if (index < end || index < unclosed[quote]) continue;
            INSIDE[quote].lastIndex = index + 1;
            const to = index + 1 + INSIDE[quote].exec(text)[0].length;
            if (text[to] !== quote) {
                unclosed[quote] = to;
                continue;
            }
            found.push(literalOf(text, end, index, to));
            end = to + 1;
        }
        return found;
    }
    // Returns the string between two quotes. The string before it ends at `last`.
    function literalOf(text, last, quote, to) {
        const prefix = PREFIX.exec(text.slice(Math.max(last, quote - LONGEST_PREFIX - 1), quote)), start = quote - (prefix ? prefix[0].length : 0);
        return { start, from: quote + 1, to, end: to + 1, isBytes: prefix !== null && prefix[0] !== "$", content: text.slice(quote + 1, to) };
    }
    // Returns how the content of the strings is read, with the name of the format; null if they aren't bytes.
    function decoderOf(text, literals) {
        const all = (test) => literals.every((it) => test(it.content)), isHexadecimal = all((it) => /^[\s0-9a-f:,-]*$|^0x[0-9a-f]{1,2}$/i.test(it));
        if (isHexadecimal && !literals.some(isShortBytes)) return { format: "hexadecimal digits in quotes", push: pushHexadecimal };
        if (all(Wolfaren.base64.isBase64)) return { format: "base64 in quotes", push: pushBase64 };
        const isEscaped = literals.some((it) => it.isBytes) || /\\/.test(text);
        return isEscaped ? { format: "an escaped string", push: pushEscaped } : null;
    }
    // Digits in a string of bytes are hexadecimal if there are as many as no packet begins with.
    function isShortBytes(literal) {
        return literal.isBytes && (literal.content.length < LEAST_DIGITS || literal.content.length % 2 === 1);
    }
    // Reads all strings. A comma, a semicolon or an assignment separates packets, unless the strings are single bytes.
    function readLiterals(text, literals, decode) {
        const packets = [], unread = [], isList = literals.length > 1 && literals.every((it) => it.content.length <= 4 && !it.isBytes);
        let at = 0, depth = 0;
        for (const it of literals) {
            const gap = text.slice(at, it.start);
            depth += gap.split("(").length - gap.split(")").length;
            if (packets.length === 0 || (!isList && separates(gap, it, depth))) packets.push([]);
            Wolfaren.code.check(text, at, it.start, unread, "outside the quotes");
            decode.push(packets[packets.length - 1], unread, text, it.from, it.to);
            at = it.end;
        }
        Wolfaren.code.check(text, at, text.length, unread, "outside the quotes");
        return { packets, unread, format: decode.format, leftOut: hasCode(text, literals) ? ["the program text around it"] : [] };
    }
    // In Python, strings of bytes on lines of their own are apart, except in parentheses.
    function separates(gap, literal, depth) {
        return /[,;=]/.test(gap) || (literal.isBytes && depth <= 0 && /(?<!\\)\r?\n/.test(gap));
    }
    function hasCode(text, literals) {
        const gaps = literals.map((it, i) => text.slice(i === 0 ? 0 : literals[i - 1].end, it.start));
        return [...gaps, text.slice(literals[literals.length - 1].end)].some(Wolfaren.code.hasWords);
    }
    function pushHexadecimal(bytes, unread, text, from, to) {
        bytes.push(...Wolfaren.digits.readBlock(text, { from, to }, unread));
    }
    function pushBase64(bytes, unread, text, from, to) {
        bytes.push(...Wolfaren.base64.decode(text.slice(from, to)));
    }
    function pushEscaped(bytes, unread, text, from, to) {
        const part = text.slice(from, to);
        for (let at = 0; at < part.length;) at += pushCharacter(bytes, unread, part, at, from);
    }
    // Reads an escape or a character of a part of the text, which begins at `from`. Returns its length.
    function pushCharacter(bytes, unread, part, at, from) {
        CHARACTER.lastIndex = at;
        const found = CHARACTER.exec(part), isEscape = part[at] === "\\", len = found ? found[0].length : isEscape ? Math.min(2, part.length - at) : 1;
        const value = found ? valueOf(found) : NaN;
        if (value <= 255) bytes.push(value);
        else if (value > 255) note(unread, from + at, from + at + len, "an octal number above 377");
        else if (!found) note(unread, from + at, from + at + len, isEscape ? "an unknown escape" : "not an ASCII character");
        return len;
    }
    // Returns the value of a byte; NaN for a line that is continued.
    function valueOf(found) {
        if (found[1] !== undefined) return Number.parseInt(found[1], 16);
        if (found[2] !== undefined) return Number.parseInt(found[2], 8);
        if (found[3] !== undefined) return LETTERS[found[3].toLowerCase()];
        return /\n$/.test(found[0]) ? NaN : found[0].charCodeAt(0);
    }
    // Reads escapes without quotes. What lies between them is bytes too, unless it is the same white space or comma each time.
    function readBare(text) {
        const bytes = [], unread = [];
        let at = 0;
        for (const line of text.split("\n")) {
            const kept = line.trim().replace(/\\$/, "").trimEnd(), start = at + line.length - line.trimStart().length;
            const gaps = kept.split(/\\x[0-9a-f]{2}/i), isSeparated = gaps.length > 2 && gaps[0] === "" && areSeparators(gaps.slice(1));
            if (isSeparated) pushSeparated(bytes, kept);
            else pushEscaped(bytes, unread, text, start, start + kept.length);
            at += line.length + 1;
        }
        return { packets: [bytes], unread, format: "an escaped string without quotes", leftOut: [] };
    }
    function areSeparators(gaps) {
        const last = gaps[gaps.length - 1].trim(), first = gaps[0];
        return /^(?:\s+|\s*[,;]\s*)$/.test(first) && gaps.slice(0, -1).every((it) => it === first) && (last === "" || last === first.trim());
    }
    function pushSeparated(bytes, line) {
        for (const it of line.matchAll(/\\x([0-9a-f]{2})/gi)) bytes.push(Number.parseInt(it[1], 16));
    }
    return { read };
})();
