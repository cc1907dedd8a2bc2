// Measures texts, and breaks them into lines. The fonts are those of style.css.
"use strict";
Wolfaren.letters = (function () {
    const SANS = 'system-ui, "DejaVu Sans", sans-serif', MONO = '"DejaVu Sans Mono", ui-monospace, monospace';
    const FONTS = { name: `600 11.5px ${SANS}`, field: `11px ${SANS}`, value: `11px ${MONO}` };
    const context = document.createElement("canvas").getContext("2d");

    // Returns the width of a text in pixels.
    function widthOf(text, font) {
        context.font = FONTS[font];
        return context.measureText(text).width;
    }
    // Breaks a text into lines of at most this width. A word that is wider is broken too: after a hyphen, or else anywhere.
    function linesOf(text, font, most) {
        const lines = [""];
        for (const word of text.split(" ").flatMap((it) => piecesOf(it, font, most))) {
            const last = lines[lines.length - 1], joined = last === "" ? word : `${last} ${word}`;
            if (last !== "" && widthOf(joined, font) > most) lines.push(word);
            else lines[lines.length - 1] = joined;
        }
        return lines;
    }
    function piecesOf(word, font, most) {
        const pieces = [""];
        const isRoomFor = (text) => pieces[pieces.length - 1] === "" || widthOf(pieces[pieces.length - 1] + text, font) <= most;
        for (const part of word.split(/(?<=-)/)) {
            if (!isRoomFor(part)) pieces.push("");
            for (const letter of part) {
                if (!isRoomFor(letter)) pieces.push("");
                pieces[pieces.length - 1] += letter;
            }
        }
        return pieces;
    }
    return { widthOf, linesOf };
})();
