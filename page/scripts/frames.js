// Frames of link layers: those of a capture, and the IP packet in one.
"use strict";
Wolfaren.frames = (function () {
    // The link types (www.tcpdump.org/linktypes.html) of the kinds of frames that have a name of their own in links to the page,
    // and those whose frames are IP packets.
    const TYPES = { ethernet: 1, cooked: 113, cooked2: 276, loopback: 0, ppp: 9 };
    const KINDS = { 0: "loopback", 1: "ethernet", 9: "ppp", 12: "packet", 101: "packet", 108: "loopback", 113: "cooked", 228: "packet", 229: "packet", 276: "cooked2" };
    const NAMES = { 0: "loopback", 1: "Ethernet", 6: "Token Ring", 8: "SLIP", 9: "PPP", 10: "FDDI", 50: "PPP", 51: "PPPoE", 104: "Cisco HDLC", 105: "802.11",
        107: "Frame Relay", 113: "Linux cooked", 127: "radiotap", 192: "PPI", 239: "netfilter log", 242: "InfiniBand", 276: "Linux cooked" };
    // The codes of include/wolfaren.h: the ends of frames, and how the numbers are written that say what follows.
    const IP = 0, TRUNCATED = 2, ARP = 0x0806;
    const NUMBERS = [["", 0], ["EtherType", 4], ["LLC", 2], ["PPP", 4], ["NLPID", 2], ["family", 0], ["802.11", 2]];
    // What captures are: classic ones with times in microseconds write six digits. Longer records and more interfaces are refused.
    const PCAPNG = 0, MICROSECONDS = 1, UNKNOWN_MAGIC = 1, FRAME = 0, NEEDS = 2, ERROR = 4;
    const LONGEST = 1 << 28, MOST_INTERFACES = 1 << 16, LEAST_INTERFACE = 20;

    function typeOf(kind, number) {
        return kind === "frame" ? number : TYPES[kind];
    }
    function nameOf(type) {
        return NAMES[type] || `link type ${type}`;
    }
    // Returns the name of the link layer, where the IP packet begins or the headers end, whether there is one, the number that
    // says what follows, and whether a header is truncated there. Returns null if the link type isn't supported.
    function find(kind, number, bytes) {
        const type = typeOf(kind, number), found = Wolfaren.library.findIp(type, bytes);
        return found && { name: nameOf(type), offset: found.offset, isIp: found.end === IP, isTruncated: found.end === TRUNCATED, said: numberText(found) };
    }
    function numberText({ numberKind, number }) {
        const [name, digits] = NUMBERS[numberKind];
        const text = digits > 0 ? `0x${number.toString(16).padStart(digits, "0")}` : number;
        return name === "" ? "" : `${name} ${text}${name === "EtherType" && number === ARP ? " (ARP)" : ""}`;
    }
    // Reads the packets of a capture. Returns { packets, error }. Each packet is { bytes, wire, time, kind, number, why }: its
    // frame, the frame's original length, and the kind of its bytes by the link type; if that isn't supported, `kind` is null and
    // `why` says so.
    function readCapture(buffer) {
        const bytes = new Uint8Array(buffer), room = Math.min(MOST_INTERFACES, Math.floor(bytes.length / LEAST_INTERFACE) + 1);
        const { form, records } = Wolfaren.library.readCapture(bytes, LONGEST, room), last = records.pop();
        if (form === null) return { packets: [], error: beginText(last.error) };
        const frames = records.filter((it) => it.kind === FRAME), kinds = new Map();
        const packets = frames.map((it) => {
            if (!kinds.has(it.linkType)) kinds.set(it.linkType, kindOf(it.linkType));
            const at = it.at + it.offset;
            return { ...kinds.get(it.linkType), bytes: bytes.subarray(at, at + it.len), wire: it.originalLen, time: it.hasTime ? timeText(it.time, form === MICROSECONDS ? 6 : 9) : "no time" };
        });
        return { packets, error: endText(last, form, bytes.length) };
    }
    function kindOf(type) {
        const why = "by the link type of the capture";
        if (KINDS[type]) return { kind: KINDS[type], why };
        const isSupported = Wolfaren.library.findIp(type, new Uint8Array(0)) !== null;
        return isSupported ? { kind: "frame", number: type, why } : { kind: null, why: `link type ${type} isn't supported` };
    }
    function beginText(error) {
        if (error.kind === 0) return "The file is too short to be a capture.";
        return error.kind === UNKNOWN_MAGIC ? "Unknown file format. This page reads pcap and pcapng files; decompress others first." : errorText(error);
    }
    function errorText(error) {
        return `The ${Wolfaren.library.captureErrorText(error)}.`;
    }
    function endText(last, form, len) {
        if (last.kind === ERROR) return errorText(last.error);
        const name = form === PCAPNG ? "block" : "record";
        return last.kind === NEEDS ? `The file ends within the ${name} at offset ${last.at}: ${len - last.at} of ${last.needed} bytes are there.` : "";
    }
    // Returns a time in nanoseconds in UTC as RFC 3339 writes it, with so many digits after the point; after the year 9999, a
    // number of seconds.
    function timeText(nanoseconds, digits) {
        const seconds = nanoseconds / 1000000000n, date = new Date(Number(seconds) * 1000);
        const fraction = String(nanoseconds % 1000000000n).padStart(9, "0").slice(0, digits);
        return date.getUTCFullYear() <= 9999 ? `${date.toISOString().slice(0, 19)}.${fraction}Z` : `${seconds}.${fraction}`;
    }
    return { find, nameOf, readCapture };
})();
