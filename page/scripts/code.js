// Looks at the program text around the strings and lists of bytes in a paste.
"use strict";
Wolfaren.code = (function () {
    // White space and continued lines, a type of an array in Rust, operators, options of commands, and names.
    const SKIPPED = new RegExp([/\s+|\\\r?\n/, /\[\s*[a-z]\w*\s*;\s*\w+\s*\]/, />>>|\.{3}|->|-[a-z]+\b|[-+=(){}[\],;:.*&|!<>$]/,
        /[a-z_$][\w.$]*(?:[ \t]*\[\w*\])*/].map((it) => it.source).join("|"), "iy");
    const COMMENT = /\/(?:\/|\*)/g, COMMENT_OR_HASH = /\/(?:\/|\*)|#/g;

    // Notes what isn't program text in a range. Digits there might be bytes that lost their quotes or brackets.
    function check(text, from, to, unread, why) {
        const code = withoutComments(text.slice(from, to), (it) => " ".repeat(it.length), COMMENT_OR_HASH);
        for (let at = 0; at < code.length;) {
            SKIPPED.lastIndex = at;
            const found = SKIPPED.exec(code), len = found ? found[0].length : 1;
            if (!found || isBytes(found[0], code.slice(at + len))) Wolfaren.input.note(unread, from + at, from + at + len, why);
            at += len;
        }
    }
    // Replaces each comment by a text of the same length. The end of a comment is looked for once, so that no text takes
    // longer than a multiple of its length: after the last end, no further comment has one.
    function withoutComments(text, fill, starts = COMMENT) {
        const pieces = [], last = text.lastIndexOf("*/");
        let from = 0;
        for (const { index, 0: sign } of text.matchAll(starts)) {
            if (index < from || (sign === "/*" && index + 2 > last)) continue;
            const end = sign === "/*" ? text.indexOf("*/", index + 2) + 2 : endOfLine(text, index);
            pieces.push(text.slice(from, index), fill(text.slice(index, end)));
            from = end;
        }
        return pieces.join("") + text.slice(from);
    }
    function endOfLine(text, at) {
        const end = text.indexOf("\n", at);
        return end < 0 ? text.length : end;
    }
    function isBytes(word, after) {
        return word.length > 1 && word.length % 2 === 0 && /^[0-9a-f]+$/i.test(word) && !/^\s*[=([.]/.test(after);
    }
    // Returns whether a range has program text other than separators.
    function hasWords(text) {
        return /[a-z_$]|\/[/*]|=/i.test(text);
    }
    return { check, hasWords, withoutComments };
})();
