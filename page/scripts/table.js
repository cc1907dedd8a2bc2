// Describes the packet in a sentence, and in a table with a row for each part.
"use strict";
Wolfaren.table = (function () {
    const HEAD = ["Offset", "Bytes", "Number", "What", "Next", "Remark"];
    const WHATS = { packet: "A packet", chain6: "An IPv6 chain", chain4: "An IPv4 chain" };

    function element(name, text, more) {
        return Object.assign(document.createElement(name), { textContent: text, ...more });
    }
    function show(table, model, withPlaces) {
        table.replaceChildren(element("caption", "Each part with its offset and length in bytes"));
        const head = table.createTHead().insertRow();
        for (const it of HEAD) head.append(element("th", it, { scope: "col" }));
        const body = table.createTBody();
        for (const part of model.parts) addRow(body, cellsOf(part, model, withPlaces), part.style);
        if (model.fault) addRow(body, [model.fault.offset, "", "", endWord(model.fault), "", model.fault.name], endWord(model.fault));
    }
    function endWord(fault) {
        return fault.isTruncated ? "truncated" : "fault";
    }
    function cellsOf(part, model, withPlaces) {
        const number = part.number === undefined ? "" : part.number;
        const next = part.next === undefined ? "" : part.next;
        return [part.offset, part.len, number, part.name, next, remarkOf(part, model, withPlaces)];
    }
    function remarkOf(part, model, withPlaces) {
        const said = [];
        if (part.version) said.push(model.packet.statedLen === 0 ? "no stated length" : `stated length ${model.packet.statedLen}`);
        if (part.fragment) said.push(fragmentText(part.fragment, part.version === 4 ? 4 : 8));
        if (withPlaces && part.place !== undefined) said.push(`struct ${part.struct}, ${Wolfaren.names.places[part.place]}`);
        return said.join("; ");
    }
    function fragmentText(packet, digits) {
        const identification = `0x${packet.identification.toString(16).padStart(digits, "0")}`;
        return `${Wolfaren.names.fragments[packet.fragment]} fragment, identification ${identification}, offset ${packet.fragmentOffset}`;
    }
    function addRow(body, cells, style) {
        const row = body.insertRow();
        row.className = style;
        cells.forEach((it, i) => (i === 3 ? row.append(element("th", it, { scope: "row" })) : (row.insertCell().textContent = it)));
    }
    function sentence(model) {
        if (model.bytes.length === 0) return "No bytes yet.";
        const version = model.parts.find((it) => it.version), link = model.parts.find((it) => it.style === "link");
        const what = WHATS[model.kind] || "A frame", start = `${what} of ${Wolfaren.names.bytes(model.bytes.length)}`;
        const said = [...(link ? [link.name] : []), ...(version ? [`IPv${version.version}`] : []), ...headersText(model.headers), ...(model.note ? [model.note] : [])];
        return `${start}${said.length > 0 ? `: ${said.join(", ")}` : ""}${restText(model)}${endText(model)}.`;
    }
    function headersText(headers) {
        const all = headers.map((it) => `${Wolfaren.library.numberWord(it.number)} (${it.len})`);
        return all.length > 8 ? [...all.slice(0, 6), `${all.length - 6} more headers`] : all;
    }
    function restText(model) {
        if (model.next === undefined || model.fault) return "";
        const name = Wolfaren.library.numberWord(model.next), missing = model.packet ? model.packet.missing : 0;
        const what = !model.isFragment ? name || "a payload" : name ? `part of a payload of ${name}` : "part of a payload";
        return `; then ${what} (${model.next}) with ${Wolfaren.names.bytes(model.restLen)}${missing > 0 ? `, ${missing} missing` : ""}`;
    }
    function endText(model) {
        if (!model.fault) return "";
        return `; then a ${model.fault.isTruncated ? "truncated header" : "fault"} at byte ${model.fault.offset}`;
    }
    return { show, sentence, endWord };
})();
