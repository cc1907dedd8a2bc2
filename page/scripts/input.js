// Reads packets from pasted text. Each format has a reader, which returns null for any other text, and otherwise
// { packets, unread, format, leftOut }: the bytes of each packet, the unreadable ranges of the text as
// { start, end, why }, the name of the format, and what of the text isn't bytes.
"use strict";
Wolfaren.input = (function () {
    const READERS = ["dump", "strings", "lists", "base64", "digits"];

    function read(text) {
        for (const name of READERS) {
            const found = Wolfaren[name].read(text);
            if (found) return { ...found, packets: found.packets.map((it) => Uint8Array.from(it)), unread: sorted(found.unread) };
        }
        return null;
    }
    function sorted(unread) {
        return unread.sort((one, other) => one.start - other.start);
    }
    // Notes that a range of the text is unread. Joins it with the range before it, if that has the same reason.
    function note(unread, start, end, why) {
        const last = unread[unread.length - 1];
        if (last && last.end === start && last.why === why) last.end = end;
        else if (end > start) unread.push({ start, end, why });
    }
    // Returns what a reader returns for a text of its format that may have several meanings.
    function refuse(text, format, why) {
        const start = text.length - text.trimStart().length;
        return { packets: [], unread: [{ start, end: text.trimEnd().length, why }], format, leftOut: [] };
    }
    return { read, note, refuse };
})();
