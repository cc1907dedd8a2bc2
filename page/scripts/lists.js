// Reads lists of numbers: arrays of C and other languages, and decimal numbers.
"use strict";
Wolfaren.lists = (function () {
    const GROUP = /[[{(]([^[\]{}()]*)(?:[\]})]|$)/g;
    const AFTER_NAME = /(?<=[\w\]]\s*)\[/y;
    const BINARY = /^0b[01]{1,8}$/i;
    const NUMBER = /^-?(?:0x[0-9a-f]+|[0-9a-f]+)(?:_?u8|u)?$/i;
    const SEVERAL = "these numbers may be decimal, octal or hexadecimal: write hexadecimal ones with 0x in front, or as two digits each without brackets";
    const { note, refuse } = Wolfaren.input;

    function read(text) {
        const blank = Wolfaren.code.withoutComments(text, (it) => it.replace(/[^\n]/g, " "));
        const groups = [...blank.matchAll(GROUP)].map(groupOf).filter((it) => isList(it, blank));
        if (groups.length > 0) return readGroups(text, blank, groups);
        return /^(?:0b[01]|[\d\s,;])+$/i.test(blank) ? readBare(text, blank) : null;
    }
    function groupOf(found) {
        return { start: found.index, end: found.index + found[0].length, ...tokensOf(found[1], found.index + 1) };
    }
    function tokensOf(content, at) {
        const tokens = [...content.matchAll(/[^\s,;]+/g)].map((it) => ({ text: it[0], at: at + it.index }));
        return { tokens, hasCommas: content.includes(",") };
    }
    // A list has numbers with commas between them. A number in brackets after a name is the size of an array.
    function isList(group, text) {
        AFTER_NAME.lastIndex = group.start;
        const isSize = AFTER_NAME.test(text) && !group.hasCommas;
        const isEnough = group.hasCommas || group.tokens.some((it) => /^0x/i.test(it.text));
        return !isSize && isEnough && group.tokens.length > 0 && group.tokens.filter((it) => NUMBER.test(it.text)).length * 2 > group.tokens.length;
    }
    function readGroups(text, blank, groups) {
        const packets = [], unread = [];
        let at = 0;
        for (const it of groups) {
            Wolfaren.code.check(blank, at, it.start, unread, "outside the list");
            packets.push(valuesOf(it, unread));
            at = it.end;
        }
        Wolfaren.code.check(blank, at, text.length, unread, "outside the list");
        const gaps = [...groups, { start: text.length }].map((it, i) => text.slice(i === 0 ? 0 : groups[i - 1].end, it.start));
        const leftOut = gaps.some(Wolfaren.code.hasWords) ? ["the program text around it"] : [];
        return { packets: packets.filter((it) => it.length > 0), unread, format: `an array${notationText(groups)}`, leftOut };
    }
    function notationText(groups) {
        const notations = new Set(groups.map((it) => notationOf(it.tokens.map((token) => token.text), true)));
        return ["decimal", "binary"].filter((it) => notations.size === 1 && notations.has(it)).map((it) => ` of ${it} numbers`).join("");
    }
    function valuesOf(group, unread) {
        const texts = group.tokens.map((it) => it.text), notation = notationOf(texts, true), bytes = [];
        if (notation === "") note(unread, group.start, group.end, SEVERAL);
        else for (const it of group.tokens) pushNumber(bytes, unread, it, notation);
        return bytes;
    }
    // Returns `prefixed` or `binary` if the numbers say what they are, `decimal` or `hexadecimal` if only that is possible,
    // else "".
    function notationOf(texts, isArray) {
        if (texts.length > 1 && texts.every((it) => BINARY.test(it))) return "binary";
        if (texts.some((it) => /^-?0x/i.test(it))) return "prefixed";
        const isAll = (test) => texts.every((it) => test.test(it)), isSome = (test) => texts.some((it) => test.test(it));
        if (isSome(/[a-f]/i)) return isAll(/^(?:[0-9a-f]{2})+$/i) ? "hexadecimal" : "";
        if (isSome(/^0\d/)) return isAll(/^\d\d$/) && !isArray ? "hexadecimal" : "";
        if (isAll(/^\d\d$/)) return isArray ? "" : "hexadecimal";
        const areBytes = texts.every((it) => Number(it) >= -128 && Number(it) <= 255);
        return areBytes && (isArray || isSome(/^\d{3}$/)) ? "decimal" : "";
    }
    function pushNumber(bytes, unread, { text, at }, notation) {
        if (notation === "binary") return bytes.push(Number.parseInt(text.slice(2), 2));
        const digits = text.replace(/_?u8$|u$/i, ""), isPrefixed = /^0x/i.test(digits);
        const isHexadecimal = isPrefixed || notation === "hexadecimal", hex = digits.replace(/^0x/i, "");
        if (isHexadecimal && /^[0-9a-f]+$/i.test(hex) && (hex.length === 1 || hex.length % 2 === 0)) Wolfaren.digits.pushHex(bytes, hex);
        else if (!isHexadecimal && /^(?:-?[1-9]\d{0,2}|0)$/.test(digits) && Number(digits) >= -128 && Number(digits) <= 255) bytes.push(Number(digits) & 255);
        else note(unread, at, at + text.length, "not a byte");
    }
    // Reads numbers without brackets. Those of two digits are left to the reader of hexadecimal digits, as are long ones.
    function readBare(text, blank) {
        const { tokens } = tokensOf(blank, 0), texts = tokens.map((it) => it.text), bytes = [];
        const isMixed = texts.some((it) => it.length % 2 === 1) && texts.every((it) => it.length <= 3 && !/^0\d?$/.test(it.replace(/^0$/, "")));
        const isPadded = texts.every((it) => it.length === 3), notation = notationOf(texts, false);
        const isOctal = texts.some((it) => it.length % 2 === 1) && texts.some((it) => /^0\d{2,3}$/.test(it)) && texts.every((it) => /^[0-7]{1,4}$/.test(it));
        if (texts.length < 2 || !(isMixed || isPadded || isOctal || notation === "binary")) return null;
        if (!["decimal", "binary"].includes(notation)) return refuse(text, "numbers", SEVERAL);
        for (const it of tokens) pushNumber(bytes, [], it, notation);
        return { packets: [bytes], unread: [], format: `${notation} numbers`, leftOut: [] };
    }
    return { read };
})();
