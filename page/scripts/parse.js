// Parses bytes into parts: { parts, fault, ... }. Headers lie where the library says they do.
"use strict";
Wolfaren.parse = (function () {
    // The codes of include/wolfaren.h.
    const ATOMIC = 1, AT_TRUNCATED_HEADER = 2;
    const PLACES = { 0: 0, 60: 1, 43: 2, 44: 3, 51: 4 };

    // Parses the bytes. `kind` is one of those in kind.js, except for a capture. `number` is that with which a chain starts, or the
    // link type of a frame. `wire` is the frame's original length, if that is known.
    function parse(kind, number, bytes, wire) {
        const model = { kind, number, bytes, wire, parts: [], fault: null, headers: [], packet: null, note: "" };
        if (kind === "chain6" || kind === "chain4") return parseChain(model, kind === "chain6" ? 6 : 4);
        if (kind === "packet") return parsePacket(model, 0);
        const link = Wolfaren.frames.find(kind, number, bytes);
        if (link === null) return unparsed(bytes, `link type ${number} isn't supported`);
        const base = pushLink(model, link);
        return base < 0 ? model : parsePacket(model, base);
    }
    function push(model, style, name, offset, len, more) {
        if (len > 0) model.parts.push({ style, name, offset, len, ...more });
    }
    // Adds the headers before the IP packet. Returns their length in bytes, or -1 if there is no IP packet.
    function pushLink(model, link) {
        const all = model.bytes.length;
        push(model, "link", link.name, 0, link.isTruncated ? all : link.offset, {});
        if (link.isIp) return link.offset;
        if (link.isTruncated && model.wire <= all) return noteShort(model, link.name);
        if (link.isTruncated) model.fault = { offset: all, isTruncated: true, name: `${link.name} header`, text: `the ${link.name} header is incomplete` };
        else push(model, "rest", "payload of the frame", link.offset, all - link.offset, {});
        model.note = link.isTruncated ? "" : `${link.said ? `${link.said}, ` : ""}not IP`;
        return -1;
    }
    // Notes that a frame of which all bytes were captured is too short for its headers: there is no IP packet.
    function noteShort(model, name) {
        model.note = `too short for a header of ${name}, not IP`;
        return -1;
    }
    // Takes bytes whose link layer isn't supported as they are.
    function unparsed(bytes, why) {
        const model = { kind: "other", bytes, parts: [], fault: null, headers: [], packet: null, note: why };
        push(model, "rest", "not parsed", 0, bytes.length, {});
        return model;
    }
    function parseChain(model, version) {
        const chain = Wolfaren.library.parseChain(version, model.number, model.bytes);
        pushHeaders(model, chain.headers, 0);
        pushRest(model, chain.nextHeader, chain.fragmented === 1 && chain.fault.kind === 0, chain.len, model.bytes.length - chain.len, false);
        if (chain.fault.kind !== 0) model.fault = faultAt(chain.fault, chain.len, false);
        return model;
    }
    function faultAt(fault, offset, isTruncated) {
        return { kind: fault.kind, offset, isTruncated, name: Wolfaren.faults.nameOf(fault, isTruncated), text: Wolfaren.faults.textOf(fault, offset) };
    }
    function pushHeaders(model, headers, base) {
        model.headers = headers.map((it) => ({ ...it, offset: it.offset + base, next: it.nextHeader }));
        for (const it of model.headers) push(model, Wolfaren.names.styles[it.number], Wolfaren.library.numberWord(it.number), it.offset, it.len, { ...it, isHeader: true });
    }
    // Adds the payload. That of a fragment is part of one, in the colour of the fragment header. A truncated header is in the
    // colour of its kind.
    function pushRest(model, next, isFragment, at, len, isTruncated) {
        const name = isFragment ? "part of payload" : Wolfaren.library.numberWord(next) || "payload";
        const style = isTruncated ? `${Wolfaren.names.styles[next]} incomplete` : isFragment ? "rest of-fragment" : "rest";
        Object.assign(model, { next, isFragment, restLen: len });
        push(model, style, name, at, len, { isRest: true, number: next });
    }
    function parsePacket(model, base) {
        const packet = Wolfaren.library.dissect(model.bytes.subarray(base)), fault = packet.fault;
        model.packet = packet;
        if (packet.version === 0) push(model, "rest", "not parsed", base, packet.padding, {});
        else pushPacket(model, base, packet);
        const offset = base + (fault.kind === Wolfaren.faults.TOO_SHORT ? fault.offset : packet.payloadOffset);
        if (fault.kind !== 0) model.fault = faultAt(fault, offset, packet.end === AT_TRUNCATED_HEADER);
        return model;
    }
    function pushPacket(model, base, packet) {
        const version = packet.version, nextAt = version === 6 ? 6 : 9, at = base + packet.payloadOffset;
        const isFragment = packet.fragment > ATOMIC && packet.fault.kind === 0;
        push(model, "base", `IPv${version}`, base, packet.baseLen, { version, next: model.bytes[base + nextAt], nextAt });
        pushHeaders(model, packet.headers, base);
        pushRest(model, packet.payloadNumber, isFragment, at, packet.payloadLen, packet.end === AT_TRUNCATED_HEADER);
        push(model, isFragment ? "missing of-fragment" : "missing", "missing", at + packet.payloadLen, packet.missing, { isMissing: true });
        push(model, "beyond", "padding", at + packet.payloadLen, packet.padding, {});
        const holder = fragmentHolder(model, version);
        if (packet.fragment !== 0 && holder) holder.fragment = packet;
    }
    // Returns the header that says which fragment the packet is: of IPv6, the first fragment header with an offset or more
    // fragments, or else the first one.
    function fragmentHolder(model, version) {
        if (version === 4) return model.parts.find((it) => it.version);
        const all = model.parts.filter((it) => it.style === "fragment");
        return all.find((it) => ((model.bytes[it.offset + 2] << 8 | model.bytes[it.offset + 3]) & 0xfff9) !== 0) || all[0];
    }
    // Returns, for each header, the struct of six places that it goes into, by the library, and its place there.
    function placesOf(headers) {
        let isAfterRouting = false;
        return headers.map((it, i) => {
            if (i > 0 && headers[i - 1].struct !== it.struct) isAfterRouting = false;
            const place = it.number === 60 && isAfterRouting ? 5 : PLACES[it.number];
            isAfterRouting = isAfterRouting || it.number === 43;
            return { struct: it.struct, place };
        });
    }
    return { parse, unparsed, placesOf };
})();
