// Calls the library, of whose functions include/wolfaren.h has the documentation.
"use strict";
Wolfaren.library = (function () {
    const { PAIR, IS_WIDE, sizeOf, read, write, lay, copy, passed, passedPair, text } = Wolfaren.memory;
    // The smallest module with a memory of 64-bit addresses.
    const WIDE = new Uint8Array([0, 97, 115, 109, 1, 0, 0, 0, 5, 3, 1, 4, 1]);
    const NAME = IS_WIDE ? `the formally verified library, which ${Wolfaren.compiler} has compiled to 64-bit WebAssembly`
        : `the Rust package that is made of formally verified source, which ${Wolfaren.compiler} has compiled to WebAssembly`;
    const WHY_NOT = IS_WIDE ? "This browser doesn't support 64-bit WebAssembly memory, which the library needs. Chromium 133, Firefox 134 and later do."
        : "This browser doesn't support WebAssembly, which the library needs.";
    const NEEDS = 2, ENDED = 3, MOST_TEXT = 256;
    let calls = null;

    function isSupported() {
        return typeof WebAssembly === "object" && (!IS_WIDE || WebAssembly.validate(WIDE));
    }
    async function load() {
        const module = Uint8Array.from(atob(Wolfaren.module), (it) => it.charCodeAt(0));
        calls = (await WebAssembly.instantiate(module, {})).instance.exports;
        Wolfaren.memory.use(calls.memory);
    }
    // Returns the headers that a call has stored, each with its struct of six places, numbered from 1.
    function headersAt(at, count) {
        const size = sizeOf("header"), headers = Array.from({ length: count }, (_, i) => read("header", at + i * size));
        for (let from = 0, struct = 1; from < count; struct++) {
            const len = Number(calls.wolfaren_run_len(passed(at + from * size), passed(count - from)));
            headers.slice(from, from + len).forEach((it) => (it.struct = struct));
            from += len;
        }
        return headers;
    }
    // Returns how many headers these bytes can have at most.
    function mostHeaders(bytes) {
        return Math.floor(bytes.length / 8) + 1;
    }
    // Parses the longest chain that starts with the number `first`. `version` is 6 or 4.
    function parseChain(version, first, bytes) {
        const most = mostHeaders(bytes), [from, at, headers] = lay(bytes.length, sizeOf("chain"), sizeOf("header", most));
        copy(bytes, from);
        const call = version === 6 ? calls.wolfaren_parse_chain : calls.wolfaren_parse_ipv4_chain;
        call(first, passed(from), passed(bytes.length), passed(headers), passed(most), passed(at));
        const chain = read("chain", at);
        return { ...chain, headers: headersAt(headers, chain.headers) };
    }
    // Dissects the packet at the start of the bytes, which may be any bytes.
    function dissect(bytes) {
        const most = mostHeaders(bytes), [from, pair, at, headers] = lay(bytes.length, PAIR, sizeOf("dissection"), sizeOf("header", most));
        copy(bytes, from);
        calls.wolfaren_dissect(...passedPair(pair, from, bytes.length), passed(headers), passed(most), passed(at));
        const packet = read("dissection", at);
        return { ...packet, headers: headersAt(headers, packet.headers) };
    }
    // Finds the IP packet in a frame. Returns null if the link type isn't supported.
    function findIp(linkType, frame) {
        const [from, pair, at] = lay(frame.length, PAIR, sizeOf("frame"));
        copy(frame, from);
        return calls.wolfaren_find_ip(linkType, ...passedPair(pair, from, frame.length), passed(at)) ? read("frame", at) : null;
    }
    // Reads the records and blocks of a capture, which are in the library's memory a part at a time, with memory for the
    // description of `room` interfaces. Returns { form, records }. The last record has no frame and says why; each has the offset
    // `at` which it begins. If the bytes begin no capture, `form` is null and the last record has the error.
    function readCapture(bytes, limit, room) {
        const PART = 1 << 20, sizes = [PAIR, sizeOf("capture"), sizeOf("record"), sizeOf("capture_error"), sizeOf("interface", room)];
        const [pair, capture, record, error, interfaces, part] = lay(...sizes, PART), records = [];
        write("capture", capture, { interfaces, room, limit });
        copy(bytes.subarray(0, PART), part);
        const isBegun = calls.wolfaren_begin_capture(passed(capture), ...passedPair(pair, part, Math.min(PART, bytes.length)), passed(error));
        if (!isBegun) return { form: null, records: [{ error: read("capture_error", error) }] };
        const { form } = read("capture", capture);
        for (let from = 0, end = Math.min(PART, bytes.length); ;) {
            const at = Number(read("capture", capture).offset);
            calls.wolfaren_next_record(passed(capture), ...passedPair(pair, part + at - from, end - at), passed(record));
            const found = { ...read("record", record), at };
            const isShort = (found.kind === NEEDS || found.kind === ENDED) && end < bytes.length;
            if (!isShort) records.push(found);
            if (!isShort && found.kind >= NEEDS) return { form, records };
            if (!isShort) continue;
            [from, end] = [at, Math.min(at + Math.max(PART, found.needed), bytes.length)];
            lay(...sizes, end - from);
            copy(bytes.subarray(from, end), part);
        }
    }
    // Returns an error in a capture as text.
    function captureErrorText(error) {
        const [at, said] = lay(sizeOf("capture_error"), MOST_TEXT);
        write("capture_error", at, error);
        return text(said, Number(calls.wolfaren_capture_error_text(passed(at), passed(said), passed(MOST_TEXT))));
    }
    // Returns the word for a code: that which the call stores as a slice with a 0 at its end.
    function word(call, code) {
        const [at] = lay(sizeOf("name"));
        call(code, passed(at));
        const found = read("name", at);
        return text(found.text, found.size - 1);
    }
    const kindWord = (kind) => word(calls.wolfaren_find_kind_word, kind);
    const layerWord = (layer) => word(calls.wolfaren_find_layer_word, layer);
    const numberWord = (number) => word(calls.wolfaren_find_number_word, number);
    return { NAME, WHY_NOT, isSupported, load, parseChain, dissect, findIp, readCapture, captureErrorText, kindWord, layerWord, numberWord };
})();
