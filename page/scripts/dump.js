// Reads dumps, whose rows begin with an offset: those of tcpdump, xxd, hexdump, od and Wireshark.
"use strict";
Wolfaren.dump = (function () {
    const ROW = /^(\s*(?:0x)?)([0-9a-f]{4,16})(:?)([ \t]+)(?=[0-9a-f]{2})/i;
    // An offset after other text, as the kernel prints the bytes of a packet.
    const PREFIXED = /\b([0-9a-f]{8})(:)([ \t]+)(?=[0-9a-f]{2}\b)/i;
    const END = /^\s*(?:0x)?([0-9a-f]{4,16})\s*$/i;
    const MOST_BYTES = 1 << 20;
    const USE = "use hexdump -C, xxd, or od -t x1";
    const { note, refuse } = Wolfaren.input;

    function read(text) {
        const lines = linesOf(text), rows = lines.filter((it) => it.kind === "row");
        rows.forEach((it, i) => Object.assign(it, columnsOf(it.line.slice(it.head), hasMiddle(rows, i))));
        if (!isDump(rows)) return null;
        const style = styleOf(rows);
        return style.why ? refuse(text, style.format, style.why) : readBest(text, lines, style);
    }
    // Reads the lines by each possible radix of their offsets, and returns the result in which most of them fit.
    function readBest(text, lines, style) {
        const all = radixesOf(lines.filter((it) => it.kind === "row")).map((radix) => readLines(lines, radix, style));
        const least = Math.min(...all.map((it) => it.unread.length)), best = all.filter((it) => it.unread.length === least);
        const isOne = best.every((it) => JSON.stringify(it.packets) === JSON.stringify(best[0].packets));
        return isOne ? best[0] : refuse(text, style.format, "after the repeated rows, offsets may be octal or hexadecimal: use hexdump -C, xxd, or od -v");
    }
    function linesOf(text) {
        let at = 0;
        return text.split("\n").map((whole) => {
            const line = whole.replace(/\r$/, ""), start = at;
            at += whole.length + 1;
            return { line, start, ...kindOf(line) };
        });
    }
    function kindOf(line) {
        const row = ROW.exec(line) || prefixedRow(line), end = row ? null : END.exec(line);
        if (row) return rowOf(line, row);
        if (end) return { kind: "end", offset: end[1] };
        return { kind: line.trim() === "" ? "blank" : line.trim() === "*" ? "star" : "other" };
    }
    function prefixedRow(line) {
        const found = PREFIXED.exec(line), prefix = found ? line.slice(0, found.index) : "";
        return /[^0-9a-f\s]/i.test(prefix) ? [prefix + found[0], prefix, found[1], found[2], found[3]] : null;
    }
    // A marked row can't be a line of digits without an offset.
    function rowOf(line, [head, before, offset, colon, spaces]) {
        const hasColon = colon === ":", isMarked = hasColon || /0x$/i.test(before) || spaces.length > 1 || spaces === "\t";
        return { kind: "row", offset, isMarked, hasColon, isIndented: /^\s*[0-9a-f]{8}: {2}/i.test(line), head: head.length,
            hasPrefix: /\S/.test(before.replace(/0x$/i, "")) };
    }
    // Whether two spaces may be in the middle of the 16 bytes of a row, and don't yet separate the column of text.
    function hasMiddle(rows, at) {
        const next = rows[at + 1] || rows[at], former = rows[at + 1] ? rows[at] : rows[at - 1] || rows[at];
        const len = valueOf(next.offset, 16) - valueOf(former.offset, 16);
        return len > 0 ? len !== 8 : !rows[at].hasColon;
    }
    // Splits a row into its digits and a column of text, which two or more spaces separate.
    function columnsOf(rest, isMiddleKept) {
        const group = /([0-9a-f]+)(\s*)/iy, groups = [];
        let len = 0, count = 0;
        for (let found = group.exec(rest); found; found = group.exec(rest)) {
            if (found[1].length % 2 === 1 && found[1].length !== 3) return { groups, len, why: "an odd number of digits" };
            groups.push(found[1]);
            len += found[0].length;
            count += found[1].length;
            if (found[2] === "" && len < rest.length) return { groups, len, why: "not a hexadecimal digit" };
            if (found[2].length > 1 && !(isMiddleKept && groups.length === 8 && count === 16 && found[2].length === 2)) break;
        }
        return { groups, len, why: "" };
    }
    function byteCount(row) {
        return row.groups.every((it) => it.length === 3) ? row.groups.length : Math.ceil(row.groups.join("").length / 2);
    }
    // od writes octal offsets of 7 digits, or decimal ones with -A d, and hexdump hexadecimal ones, but not with single bytes.
    function radixesOf(rows) {
        const isOpen = rows.every((it) => /^[0-9a-f]{7}$/i.test(it.offset) && !it.hasColon);
        if (!isOpen) return [16];
        return rows.every((it) => it.groups.every((group) => group.length === 2)) ? [8, 10] : [16, 8, 10];
    }
    function follows(row, next, radix) {
        return valueOf(next.offset, radix) === valueOf(row.offset, radix) + byteCount(row);
    }
    function valueOf(digits, radix) {
        return (radix === 8 ? /^[0-7]+$/ : radix === 10 ? /^[0-9]+$/ : /^[0-9a-f]+$/i).test(digits) ? Number.parseInt(digits, radix) : NaN;
    }
    // The first offset is 0, or the second one fits. What looks like an offset might be the first word of several.
    function isDump(rows) {
        if (rows.length === 0) return false;
        const [first, second] = rows;
        if (second && radixesOf(rows).some((radix) => follows(first, second, radix))) return true;
        return valueOf(first.offset, 16) === 0 && (first.isMarked || first.groups.length === 0 || first.groups[0].length !== first.offset.length);
    }
    // Returns the format: how bytes are made of groups of digits, or why that isn't known.
    function styleOf(rows) {
        const groups = rows.flatMap((it) => it.groups), isAll = (test) => groups.every((it) => test.test(it));
        const isPlain = rows.every((it) => /^[0-9a-f]{6,7}$/i.test(it.offset) && !/[x:]/i.test(it.line.slice(0, it.head)));
        const hasColumns = rows.some((it) => it.line.slice(it.head + it.len).trim() !== "");
        if (groups.some((it) => it.length === 3)) return octalStyle(isAll, groups);
        if (isPlain && hasColumns && rows.some(hasNumbers)) return spacedStyle(rows);
        if (isPlain) return plainStyle(isAll, groups);
        if (groups.some((it) => it.length > 4) || rows.some((it) => it.isIndented)) return longStyle(rows);
        return { format: "a dump with offsets" };
    }
    // hexdump and od write words of two bytes in the byte order of the machine, which is nearly always little-endian.
    function plainStyle(isAll, groups) {
        if (groups.length > 0 && isAll(/^[0-9a-f]{2}$/i)) return { format: "a dump with offsets" };
        if (groups.length > 0 && isAll(/^[0-9a-f]{4}$/i)) return { format: "a dump of hexdump or od: words of two bytes, which are swapped", isSwapped: true };
        return { format: "a dump", why: `these numbers aren't hexadecimal bytes: ${USE}` };
    }
    function hasNumbers(row) {
        return /^[0-9a-f]+(?:\s+[0-9a-f]+)*$/i.test(row.line.slice(row.head + row.len).trim());
    }
    function octalStyle(isAll, groups) {
        const isOctal = isAll(/^[0-3][0-7]{2}$/) && groups.some((it) => it.startsWith("0"));
        return isOctal ? { format: "a dump with octal bytes", isOctal } : { format: "a dump", why: `these numbers aren't hexadecimal bytes: ${USE}` };
    }
    // hexdump -x writes words far apart, as od writes decimal numbers.
    function spacedStyle(rows) {
        const texts = rows.map((it) => it.line.slice(it.head).trim().split(/\s+/));
        if (!texts.flat().every((it) => /^[0-9a-f]{4}$/i.test(it))) return { format: "a dump", why: `these numbers aren't hexadecimal bytes: ${USE}` };
        rows.forEach((it, i) => Object.assign(it, { groups: texts[i], len: it.line.length - it.head }));
        return { format: "a dump of hexdump: words of two bytes, which are swapped", isSwapped: true };
    }
    // Groups of four bytes may be swapped, as xxd -e writes them, or not. The column of text decides. xxd -e indents a last
    // group with fewer bytes.
    function longStyle(rows) {
        const format = "a dump with groups of four bytes", isSwapped = rows.every((it) => hasText(it, swapped(it.groups)));
        const isWritten = rows.every((it) => hasText(it, it.groups.join("")));
        if (isSwapped === isWritten) return { format, why: "groups of four bytes may be swapped (xxd -e) or not (xxd -g 4): use xxd alone" };
        return isSwapped ? { format: `${format}, which are swapped`, isSwapped } : { format };
    }
    function hasText(row, digits) {
        const text = row.line.slice(row.head + row.len).trimEnd();
        if (text.length !== digits.length / 2) return false;
        return Array.from(text).every((it, i) => it === "." || it.charCodeAt(0) === Number.parseInt(digits.slice(2 * i, 2 * i + 2), 16));
    }
    function swapped(groups) {
        return groups.map((it) => it.match(/../g).reverse().join("")).join("");
    }
    function bytesOf(row, style) {
        if (style.isOctal) return row.groups.map((it) => Number.parseInt(it, 8));
        const bytes = [];
        Wolfaren.digits.pushHex(bytes, style.isSwapped ? swapped(row.groups) : row.groups.join(""));
        return bytes;
    }
    function readLines(lines, radix, style) {
        const dump = { packets: [], unread: [], radix, style, pending: [], headings: 0, isRepeated: false, hasText: false, hasPrefix: false, base: 0, row: [] };
        for (const it of lines) TAKE[it.kind](dump, it);
        if (dump.isRepeated) noteLine(dump, dump.star, "no offset after the repeated rows");
        for (const it of dump.pending) noteLine(dump, it, "no offset");
        const leftOut = dump.headings > 0 ? [dump.headings === 1 ? "1 line of headings" : `${dump.headings} lines of headings`] : [];
        if (dump.hasPrefix) leftOut.push("what precedes the offsets");
        if (dump.hasText) leftOut.push("the column of text");
        return { packets: dump.packets, unread: dump.unread, format: style.format, leftOut };
    }
    const TAKE = { row: takeRow, end: takeEnd, star: takeStar, blank: () => {}, other: (dump, it) => dump.pending.push(it) };

    function noteLine(dump, it, why) {
        note(dump.unread, it.start, it.start + it.line.length, why);
    }
    function current(dump) {
        return dump.packets[dump.packets.length - 1];
    }
    function endOf(dump) {
        return dump.base + current(dump).length;
    }
    function takeRow(dump, it) {
        const offset = valueOf(it.offset, dump.radix), isFirst = dump.packets.length === 0 || offset === 0;
        if (isFirst) begin(dump, offset);
        else repeat(dump, offset, it);
        const expected = endOf(dump).toString(dump.radix).padStart(it.offset.length, "0");
        if (offset !== endOf(dump)) return noteLine(dump, it, `offset ${it.offset}, where ${expected} was expected`);
        settle(dump, isFirst);
        dump.row = bytesOf(it, dump.style);
        dump.hasPrefix = dump.hasPrefix || it.hasPrefix;
        current(dump).push(...dump.row);
        checkColumn(dump, it);
    }
    function begin(dump, offset) {
        Object.assign(dump, { base: offset, row: [], isRepeated: false });
        dump.packets.push([]);
    }
    // Lines before the first row of a packet are headings, unless they have nothing but digits.
    function settle(dump, isFirst) {
        for (const it of dump.pending) {
            if (isFirst && !/^[0-9a-f\s]*$/i.test(it.line)) dump.headings += 1;
            else noteLine(dump, it, "no offset");
        }
        dump.pending = [];
    }
    function checkColumn(dump, it) {
        const start = it.start + it.head + it.len, text = it.line.slice(it.head + it.len).trim();
        if (it.why) return note(dump.unread, start, it.start + it.line.length, it.why);
        if (text.length > dump.row.length + 3) return note(dump.unread, start, it.start + it.line.length, "more than the text of the row");
        dump.hasText = dump.hasText || text !== "";
    }
    function takeStar(dump, it) {
        if (dump.row.length > 0) Object.assign(dump, { isRepeated: true, star: it });
        else noteLine(dump, it, "no row to repeat");
    }
    // After a line with an asterisk, the row before it is repeated up to the next offset.
    function repeat(dump, offset, it) {
        const missing = offset - endOf(dump);
        if (!dump.isRepeated) return;
        dump.isRepeated = false;
        const isWhole = missing >= 0 && missing % dump.row.length === 0 && offset <= MOST_BYTES;
        if (!isWhole) return noteLine(dump, dump.star, `no whole rows up to offset ${it.offset}`);
        for (let left = missing; left > 0; left -= dump.row.length) current(dump).push(...dump.row);
    }
    // The last line of hexdump and od is the length. Of a last word with one byte, the other is 0.
    function takeEnd(dump, it) {
        const offset = valueOf(it.offset, dump.radix);
        if (dump.packets.length === 0) return dump.pending.push(it);
        repeat(dump, offset, it);
        const isOdd = dump.style.isSwapped && offset === endOf(dump) - 1 && current(dump)[offset - dump.base] === 0;
        if (isOdd) current(dump).pop();
        else if (offset !== endOf(dump)) noteLine(dump, it, `the bytes end at offset ${endOf(dump).toString(dump.radix)}`);
    }
    return { read };
})();
