// Puts errors and truncated headers into words.
"use strict";
Wolfaren.faults = (function () {
    // The codes of include/wolfaren.h.
    const TOO_SHORT = 1, HOP_BY_HOP_NOT_AT_START = 2, ZERO_PAYLOAD_LEN = 3, UNSUPPORTED_IP_VERSION = 4;
    const LAYERS = { 2: 8, 3: 4, 4: 1, 5: 2 };

    // Returns the layer of an error: the faulty header, or the packet.
    function layerOf(fault) {
        return fault.header || LAYERS[fault.kind] || fault.layer;
    }
    // Returns the name of an error as `ipcap stat` has it, without its kind for a truncated header.
    function nameOf(fault, isTruncated) {
        const layer = Wolfaren.library.layerWord(layerOf(fault));
        return isTruncated ? layer : `${Wolfaren.library.kindWord(fault.kind)} ${layer}`;
    }
    // Returns a sentence. `offset` counts from the start of the bytes on the page.
    function textOf(fault, offset) {
        const layer = Wolfaren.names.layerWords[layerOf(fault)], source = Wolfaren.names.lengthSources[fault.lenSource];
        const lengths = `${fault.requiredLen} needed, ${fault.len} there${source ? ` by ${source}` : ""}`;
        if (fault.kind === TOO_SHORT) return `not enough bytes for ${layer} at offset ${offset}: ${lengths}`;
        if (fault.kind === HOP_BY_HOP_NOT_AT_START) return `${layer} at offset ${offset} doesn't follow the IPv6 header directly`;
        if (fault.kind === ZERO_PAYLOAD_LEN) return `the length field of ${layer} at offset ${offset} is 0`;
        if (fault.kind === UNSUPPORTED_IP_VERSION) return `the IP version is ${fault.value}, where 4 or 6 is required`;
        return `the internet header length of the IPv4 header is ${fault.value}, where at least 5 is required`;
    }
    return { TOO_SHORT, UNSUPPORTED_IP_VERSION, nameOf, textOf };
})();
