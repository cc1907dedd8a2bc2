// Reads hexadecimal digits, with separators between them. This is the last reader: it takes any text.
"use strict";
Wolfaren.digits = (function () {
    const SKIPPED = /\s+|[,;:{}[\]"'-]|\\\r?\n|0x(?=[0-9a-f])/iy;
    const ADDRESS = /0x[0-9a-f]{3,}(?:[ \t]*<[^>\n]*>)?:(?=[ \t])/iy;
    const DIGITS = /[0-9a-f]+/iy;
    const NO_DIGIT = "not a hexadecimal digit";
    const { note, refuse } = Wolfaren.input;

    function read(original) {
        const text = Wolfaren.code.withoutComments(original, (it) => ",".repeat(it.length));
        const unread = [], blocks = blocksOf(text).map((it) => readBlock(text, it, unread)).filter((it) => it.length > 0);
        if (isProse(blocks, unread)) return refuse(original, "text", "most of this isn't hexadecimal digits, and no other format was recognized");
        const lines = linesOf(text).map((it) => readBlock(text, it, []));
        return { packets: packetsOf(blocks, lines), unread, format: "hexadecimal digits", leftOut: text === original ? [] : ["comments"] };
    }
    // Words of prose have some digits, too: a to f.
    function isProse(blocks, unread) {
        const others = unread.filter((it) => it.why === NO_DIGIT).reduce((sum, it) => sum + it.end - it.start, 0);
        return others > 2 * blocks.reduce((sum, it) => sum + it.length, 0);
    }
    // A blank line separates packets, and so does each line if it has a whole packet.
    function packetsOf(blocks, lines) {
        if (lines.length > 1 && lines.every(Wolfaren.kind.isComplete)) return lines;
        return blocks.length > 1 && Wolfaren.kind.isComplete(blocks.flat()) ? [blocks.flat()] : blocks;
    }
    function ranges(text, separator) {
        const found = [];
        let from = 0;
        for (const it of [...text.matchAll(separator), { index: text.length, 0: "" }]) {
            if (text.slice(from, it.index).trim() !== "") found.push({ from, to: it.index });
            from = it.index + it[0].length;
        }
        return found;
    }
    function blocksOf(text) {
        return ranges(text, /\n[ \t\r]*\n/g);
    }
    function linesOf(text) {
        return ranges(text, /\n/g);
    }
    function readBlock(text, { from, to }, unread) {
        const bytes = [];
        for (let at = from; at < to;) at += readToken(text, at, bytes, unread);
        return bytes;
    }
    // Reads a separator, an address or digits. Returns the length of what was read.
    function readToken(text, at, bytes, unread) {
        const address = at === 0 || text[at - 1] === "\n" ? lengthAt(ADDRESS, text, at) : 0;
        if (address > 0) note(unread, at, at + address, "an address, not bytes");
        const skipped = address || lengthAt(SKIPPED, text, at), found = skipped > 0 ? 0 : lengthAt(DIGITS, text, at);
        if (found > 0) pushDigits(bytes, unread, text.slice(at, at + found), at, /0x$/i.test(text.slice(Math.max(0, at - 2), at)));
        else if (skipped === 0) note(unread, at, at + 1, NO_DIGIT);
        return skipped || found || 1;
    }
    // Returns the length of what fits an expression at a place in the text.
    function lengthAt(expression, text, at) {
        expression.lastIndex = at;
        const found = expression.exec(text);
        return found ? found[0].length : 0;
    }
    // In a long run of digits, only an odd last one is unread. In a short run, any digit might be the missing one. After 0x,
    // one digit is a byte.
    function pushDigits(bytes, unread, digits, at, isPrefixed) {
        if (digits.length === 1 && isPrefixed) return bytes.push(Number.parseInt(digits, 16));
        const isEven = digits.length % 2 === 0, read = isEven ? digits.length : digits.length > 8 ? digits.length - 1 : 0;
        pushHex(bytes, digits.slice(0, read));
        note(unread, at + read, at + digits.length, "an odd number of digits");
    }
    function pushHex(bytes, digits) {
        for (let i = 0; i < digits.length; i += 2) bytes.push(Number.parseInt(digits.slice(i, i + 2), 16));
    }
    return { read, readBlock, pushHex };
})();
