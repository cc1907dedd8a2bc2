// Reads base64 (RFC 4648, sections 4 and 5).
"use strict";
Wolfaren.base64 = (function () {
    const LEAST = 16, LEAST_OTHERS = 3;

    // Text is base64 if it decodes, is encoded in the one way that RFC 4648 allows, and has letters that neither base32 has
    // nor hexadecimal digits with a slip of the keyboard.
    function isBase64(text) {
        const compact = text.replace(/\s/g, ""), others = new Set(compact.replace(/[0-9a-f]/gi, ""));
        if (compact.length < LEAST || others.size < LEAST_OTHERS || !/[a-z]/.test(compact)) return false;
        if (!/^(?:[a-z0-9+/]+|[a-z0-9_-]+)={0,2}$/i.test(compact)) return false;
        const bytes = decode(compact);
        return bytes !== null && encode(bytes) === standard(compact);
    }
    function standard(text) {
        const digits = text.replace(/[\s=]/g, "").replace(/-/g, "+").replace(/_/g, "/");
        return digits + "=".repeat((4 - digits.length % 4) % 4);
    }
    function decode(text) {
        const digits = standard(text);
        return digits.endsWith("===") ? null : Array.from(atob(digits), (it) => it.charCodeAt(0));
    }
    function encode(bytes) {
        return btoa(bytes.map((it) => String.fromCharCode(it)).join(""));
    }
    // Each line is a packet, unless the lines are those of one text that was wrapped: all but the last equally long.
    function read(text) {
        const lines = text.split("\n").map((it) => it.trim()).filter((it) => it !== "");
        if (lines.some((it) => /\s/.test(it)) || lines.length === 0) return null;
        const isWrapped = lines.slice(0, -1).every((it) => it.length === lines[0].length && !it.endsWith("=")) && lines[lines.length - 1].length <= lines[0].length;
        const texts = isWrapped ? [lines.join("")] : lines;
        if (!texts.every(isBase64)) return null;
        return { packets: texts.map(decode), unread: [], format: "base64", leftOut: [] };
    }
    return { read, isBase64, decode };
})();
