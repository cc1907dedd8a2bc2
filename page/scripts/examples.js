// The gallery of examples: a link for each, with a strip in the colours of its headers.
"use strict";
Wolfaren.examples = (function () {
    const ADDRESSES = "20010db800000000000000000000000120010db8000000000000000000000002";
    const ALL = [
        ["Three headers and UDP", `packet:6000000000280040${ADDRESSES}2b000104000000003300000000000000110200000000010000000007a1b2c3d4003530390008abcd`],
        ["A first fragment", `packet:6000000000182b40${ADDRESSES}2c0000000000000011000001000000070035303900080000`],
        ["A later fragment", `packet:6000000000102c40${ADDRESSES}3c0005c900000007deadbeef00000000`],
        ["A fault: the routing header is too long", `packet:6000000000183c40${ADDRESSES}2b0001040000000033020000000000001100000000000000`],
        ["Truncated by the snap length", `packet:6000000000203c40${ADDRESSES}2c000104000000001100`],
        ["IPv4 with authentication, and padding", "packet:450000240007000040330000c0000201c00002021102000000000100000000010909090900350035000000"],
        ["An Ethernet frame with a VLAN tag", `ethernet:3333000000010200000000018100006486dd6000000000083aff${ADDRESSES}8000000000010001`],
        ["Two structs of six places", `packet:places:6000000000202b40${ADDRESSES}3c000000000000002b0001040000000011000000000000000035303900080000`],
    ];

    function show(list) {
        list.closest("nav").hidden = false;
        list.replaceChildren(...ALL.map(([title, link]) => {
            const item = document.createElement("li"), made = Object.assign(document.createElement("a"), { href: `#${link}` });
            made.append(stripOf(link), title);
            item.append(made);
            return item;
        }));
    }
    function stripOf(link) {
        const [kind, ...rest] = link.split(":"), bytes = [];
        Wolfaren.digits.pushHex(bytes, rest[rest.length - 1]);
        const model = Wolfaren.parse.parse(kind, 0, Uint8Array.from(bytes)), end = Math.max(...model.parts.map((it) => it.offset + it.len));
        const svg = Wolfaren.picture.make("svg", { viewBox: `0 0 ${end} 10`, preserveAspectRatio: "none", "aria-hidden": "true", class: "strip" });
        const bar = (x, width, style) => svg.append(Wolfaren.picture.make("rect", { x, y: 1, width, height: 8, class: style }));
        for (const it of model.parts) bar(it.offset, it.len, `run ${it.style}`);
        if (model.fault) bar(Math.min(model.fault.offset, end - 2), 2, Wolfaren.table.endWord(model.fault));
        return svg;
    }
    return { ALL, show };
})();
