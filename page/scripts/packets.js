// The list of the packets of a capture or of a paste: the text of each, as `ipcap show --one-line` writes it up to the chain,
// without ports, and a mark on those with a fault or a truncated header. The list is one stop for the Tab key.
"use strict";
Wolfaren.packets = (function () {
    const MOST_LISTED = 10000, MOST_NUMBERS = 64;
    const at = (id) => document.getElementById(id);
    let chosen = -1, count = 0, onChoose = () => {};

    // Shows the list of models, with each one's packet. Returns how many of those listed have a fault, how many are truncated,
    // and how many aren't listed.
    function show(packets, parse) {
        const counts = { fault: 0, truncated: 0, left: Math.max(0, packets.length - MOST_LISTED) };
        count = Math.min(packets.length, MOST_LISTED);
        chosen = -1;
        at("packets").hidden = count === 0;
        at("packet-list").replaceChildren(...packets.slice(0, MOST_LISTED).map((it, i) => item(it, i, parse(it), counts)));
        return counts;
    }
    function item(packet, index, model, counts) {
        const end = model.fault ? Wolfaren.table.endWord(model.fault) : "";
        const made = Object.assign(document.createElement("li"), { id: `packet-${index}`, className: end });
        made.setAttribute("role", "option");
        made.dataset.index = index;
        made.append(titleOf(packet, index, model));
        if (end) made.append(" ", Object.assign(document.createElement("strong"), { textContent: end }));
        if (end) counts[end] += 1;
        return made;
    }
    function titleOf(packet, index, model) {
        const captured = packet.bytes.length, wire = Math.max(packet.wire || 0, captured), said = [];
        if (packet.time) said.push(packet.time);
        if (model.packet && model.packet.version) said.push(addressesOf(model));
        said.push(`${captured < wire ? `${captured} of ` : ""}${wire} bytes`);
        if (!model.packet && model.note) said.push(model.note);
        if (model.packet && packet.time) said.push(`IP at ${linkLen(model)}`);
        return `packet ${index + 1}: ${said.join(", ")}${model.packet ? `: ${chainOf(model)}` : ""}`;
    }
    function linkLen(model) {
        const link = model.parts.find((it) => it.style === "link");
        return link ? link.len : 0;
    }
    function addressesOf(model) {
        const base = model.parts.find((it) => it.version);
        return Wolfaren.fields.addresses(base, model.bytes).join(" > ");
    }
    // Returns the chain as `ipcap stat` writes it; the mark of the packet says that it ends with a fault or truncated.
    function chainOf(model) {
        if (model.packet.version === 0) return "unread base header";
        const numbers = model.headers.map((it) => it.number), few = numbers.length > MOST_NUMBERS ? `${numbers.length} headers` : numbers.join(",");
        return `IPv${model.packet.version} ${few}${few === "" ? "" : " "}-> ${model.packet.payloadNumber}`;
    }
    function choose(index) {
        if (index < 0 || index >= count) return;
        const list = at("packet-list");
        if (list.children[chosen]) list.children[chosen].removeAttribute("aria-selected");
        chosen = index;
        list.children[chosen].setAttribute("aria-selected", "true");
        list.setAttribute("aria-activedescendant", `packet-${chosen}`);
        reveal(list, list.children[chosen]);
        onChoose(index);
    }
    // Scrolls the list, but not the page.
    function reveal(list, it) {
        if (it.offsetTop < list.scrollTop) list.scrollTop = it.offsetTop;
        else if (it.offsetTop + it.offsetHeight > list.scrollTop + list.clientHeight) list.scrollTop = it.offsetTop + it.offsetHeight - list.clientHeight;
    }
    function onKey(event) {
        const to = { ArrowDown: chosen + 1, ArrowUp: chosen - 1, Home: 0, End: count - 1 }[event.key];
        if (to === undefined) return;
        event.preventDefault();
        choose(to);
    }
    // Calls a function with the index of each packet that is chosen.
    function listen(call) {
        onChoose = call;
        at("packet-list").addEventListener("keydown", onKey);
        at("packet-list").addEventListener("click", (event) => {
            const found = event.target.closest("li");
            if (found) choose(Number(found.dataset.index));
        });
    }
    return { show, choose, listen };
})();
