// Decodes the fields of a header as [name, bits, value], in the order in which the RFCs list them.
"use strict";
Wolfaren.fields = (function () {
    function hex(bytes) {
        return Array.from(bytes, (it) => it.toString(16).padStart(2, "0")).join("");
    }
    function shown(bytes, most) {
        return bytes.length > most ? `${hex(bytes.subarray(0, most))}…` : hex(bytes);
    }
    function named(number) {
        return `${number} ${Wolfaren.library.numberWord(number)}`.trim();
    }
    function of(part, bytes) {
        const b = bytes.subarray(part.offset, part.offset + part.len);
        if (part.version === 6) return ipv6(b);
        if (part.version === 4) return ipv4(b);
        if (part.style === "fragment") return fragment(b);
        if (part.style === "authentication") return authentication(b);
        if (part.style === "routing") return routing(b);
        if (part.style === "hop" || part.style === "destination") return options(b);
        return [];
    }
    function word(b, at) {
        return new DataView(b.buffer, b.byteOffset).getUint32(at);
    }
    function half(b, at) {
        return b[at] * 256 + b[at + 1];
    }
    function address6(b) {
        const groups = Array.from({ length: 8 }, (_, i) => half(b, 2 * i).toString(16));
        return new URL(`http://[${groups.join(":")}]/`).hostname.slice(1, -1);
    }
    // Returns the source and the destination address of an IP header.
    function addresses(part, bytes) {
        const b = bytes.subarray(part.offset, part.offset + part.len);
        return part.version === 6 ? [address6(b.subarray(8, 24)), address6(b.subarray(24, 40))] : [b.subarray(12, 16).join("."), b.subarray(16, 20).join(".")];
    }
    // RFC 8200, section 3.
    function ipv6(b) {
        return [["Version", 4, b[0] >> 4], ["Traffic Class", 8, "0x" + ((b[0] & 15) << 4 | b[1] >> 4).toString(16)], ["Flow Label", 20, "0x" + (word(b, 0) & 0xfffff).toString(16)],
            ["Payload Length", 16, half(b, 4)], ["Next Header", 8, named(b[6])], ["Hop Limit", 8, b[7]],
            ["Source Address", 128, address6(b.subarray(8, 24))], ["Destination Address", 128, address6(b.subarray(24, 40))]];
    }
    // RFC 791, section 3.1.
    function ipv4(b) {
        const found = [["Version", 4, b[0] >> 4], ["IHL", 4, b[0] & 15], ["Type of Service", 8, "0x" + b[1].toString(16)], ["Total Length", 16, half(b, 2)],
            ["Identification", 16, "0x" + half(b, 4).toString(16).padStart(4, "0")], ["Flags", 3, b[6] >> 5], ["Fragment Offset", 13, half(b, 6) & 0x1fff],
            ["Time to Live", 8, b[8]], ["Protocol", 8, named(b[9])], ["Header Checksum", 16, "0x" + half(b, 10).toString(16)],
            ["Source Address", 32, b.subarray(12, 16).join(".")], ["Destination Address", 32, b.subarray(16, 20).join(".")]];
        if (b.length > 20) found.push(["Options", (b.length - 20) * 8, shown(b.subarray(20), 20)]);
        return found;
    }
    // RFC 8200, section 4.5.
    function fragment(b) {
        return [["Next Header", 8, named(b[0])], ["Reserved", 8, b[1]], ["Fragment Offset", 13, half(b, 2) >> 3], ["Res", 2, b[3] >> 1 & 3], ["M", 1, b[3] & 1],
            ["Identification", 32, "0x" + word(b, 4).toString(16).padStart(8, "0")]];
    }
    // RFC 4302, section 2.
    function authentication(b) {
        const found = [["Next Header", 8, named(b[0])], ["Payload Len", 8, b[1]], ["Reserved", 16, half(b, 2)],
            ["Security Parameters Index", 32, "0x" + word(b, 4).toString(16).padStart(8, "0")], ["Sequence Number", 32, word(b, 8)]];
        if (b.length > 12) found.push(["Integrity Check Value", (b.length - 12) * 8, shown(b.subarray(12), 24)]);
        return found;
    }
    // RFC 8200, section 4.4.
    function routing(b) {
        return [["Next Header", 8, named(b[0])], ["Hdr Ext Len", 8, b[1]], ["Routing Type", 8, b[2]], ["Segments Left", 8, b[3]], ["Type-specific data", (b.length - 4) * 8, shown(b.subarray(4), 24)]];
    }
    // RFC 8200, sections 4.3 and 4.6.
    function options(b) {
        return [["Next Header", 8, named(b[0])], ["Hdr Ext Len", 8, b[1]], ["Options", (b.length - 2) * 8, shown(b.subarray(2), 24)]];
    }
    return { of, addresses };
})();
