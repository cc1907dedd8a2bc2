// Finds out what kind of bytes a packet is: a capture, an IP packet, or a frame of a link layer.
"use strict";
Wolfaren.kind = (function () {
    const NAMES = { packet: "an IP packet", ethernet: "an Ethernet frame", cooked: "a Linux cooked frame", cooked2: "a Linux cooked frame, version 2",
        loopback: "a loopback frame", ppp: "a PPP frame", frame: "a frame of another link type", chain6: "an IPv6 chain of headers", chain4: "an IPv4 chain of headers", capture: "a capture" };
    const MAGICS = ["a1b2c3d4", "d4c3b2a1", "a1b23c4d", "4d3cb2a1", "0a0d0d0a"];
    // EtherTypes of frames without an IP packet: ARP, MPLS, PPPoE, LLDP and others.
    const OTHER_TYPES = [0x0806, 0x8035, 0x8847, 0x8848, 0x8863, 0x8864, 0x88cc, 0x888e, 0x88f7];
    const LEAST_CAPTURE = 24, LEAST_FRAME = 14, LEAST_PADDED = 60, MOST_FRAME_LEN = 1500;

    // Returns { kind, why }. `why` is empty if nothing was recognized: then the kind is `packet`.
    function find(bytes) {
        if (isCapture(bytes)) return { kind: "capture", why: "by its first four bytes" };
        if (isWhole(bytes)) return { kind: "packet", why: "by its version and length" };
        const link = ["ethernet", "cooked", "cooked2", "loopback"].find((it) => carriesIp(it, bytes));
        if (link) return { kind: link, why: link === "loopback" ? "by its address family" : "by its EtherType" };
        if (statedLen(bytes) !== null) return { kind: "packet", why: "by its version" };
        return isOtherFrame(bytes) ? { kind: "ethernet", why: "by its EtherType" } : { kind: "packet", why: "" };
    }
    function isCapture(bytes) {
        return bytes.length >= LEAST_CAPTURE && MAGICS.includes(Array.from(bytes.slice(0, 4), (it) => it.toString(16).padStart(2, "0")).join(""));
    }
    function half(bytes, at) {
        return bytes[at] * 256 + bytes[at + 1];
    }
    // Returns the length that an IP header states; null if there is none.
    function statedLen(bytes) {
        const version = bytes[0] >> 4;
        if (version === 6 && bytes.length >= 6) return half(bytes, 4) === 0 ? 0 : 40 + half(bytes, 4);
        return version === 4 && bytes.length >= 4 && (bytes[0] & 15) >= 5 ? half(bytes, 2) : null;
    }
    // Returns whether the bytes are an IP packet with the length that its header states.
    function isWhole(bytes) {
        return bytes.length >= 20 && statedLen(bytes) === bytes.length;
    }
    // Returns whether the bytes are a whole IP packet, or an Ethernet frame with one, which may be padded to the least length.
    function isComplete(bytes) {
        const frame = Wolfaren.frames.find("ethernet", 0, Uint8Array.from(bytes)), packet = bytes.slice(frame.offset);
        const isPadded = bytes.length === LEAST_PADDED && statedLen(packet) > 0 && statedLen(packet) < packet.length;
        return isWhole(bytes) || (frame.isIp && (isWhole(packet) || isPadded));
    }
    function carriesIp(kind, bytes) {
        const found = Wolfaren.frames.find(kind, 0, bytes);
        return found.isIp && isPlausible(kind, bytes) && statedLen(bytes.slice(found.offset)) !== null;
    }
    // The first fields of cooked frames have few values: a direction, or bytes that are 0.
    function isPlausible(kind, bytes) {
        if (kind === "cooked") return half(bytes, 0) <= 4 && half(bytes, 4) <= 8;
        return kind !== "cooked2" || half(bytes, 2) === 0;
    }
    function isOtherFrame(bytes) {
        if (bytes.length < LEAST_FRAME) return false;
        const type = half(bytes, 12), isLlc = type >= 3 && type <= MOST_FRAME_LEN && type + LEAST_FRAME <= bytes.length && bytes[0] % 2 === 1;
        return OTHER_TYPES.includes(type) || [0x8100, 0x88a8].includes(type) || isLlc;
    }
    return { NAMES, find, isComplete };
})();
