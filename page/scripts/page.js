// Connects the controls to the rest.
"use strict";
Wolfaren.page = (function () {
    const LINK = /^#(packet|ethernet|cooked|cooked2|loopback|ppp|frame|chain6|chain4)(?::(\d{1,5}))?(:places)?:([0-9a-f]*)$/i;
    const EXAMPLE = "6000000000202b40 20010db8000000000000000000000001 20010db8000000000000000000000002\n3c00000000000000 2c00010400000000 1100000100000007 0035303900080000";
    const STYLES = ["fill", "stroke", "stroke-width", "stroke-dasharray", "font-family", "font-size", "font-weight", "text-anchor", "dominant-baseline",
        "text-decoration"];
    const EMPTY = { bytes: new Uint8Array(0) };
    // The kinds that need a number, and the greatest one.
    const NUMBERED = { chain6: 255, chain4: 255, frame: 65535 };
    const at = (id) => document.getElementById(id);
    // The packets of the list, the one that is drawn, and what was read from the text.
    let packets = [], packet = EMPTY, reading = null, isFromFile = false, model = null, drawn = null, width = 0;

    function numberFor(kind) {
        return Math.min(NUMBERED[kind] || 0, Math.max(0, Math.trunc(Number(at("number").value)) || 0));
    }
    // Returns the kind of a packet and its number: the chosen one, that of the capture, or what the bytes look like.
    function kindOf(it) {
        const chosen = at("kind").value;
        if (chosen !== "auto") return { kind: chosen, number: numberFor(chosen), why: "" };
        return it.kind === undefined ? Wolfaren.kind.find(it.bytes) : it;
    }
    function parse(it) {
        const { kind, number = 0, why } = kindOf(it);
        if (kind === null) return Wolfaren.parse.unparsed(it.bytes, why);
        const parsed = Wolfaren.parse.parse(kind === "capture" ? "packet" : kind, number, it.bytes, it.wire);
        return Object.assign(parsed, { hint: hintOf(kind, it.bytes, parsed) });
    }
    // Returns the kind that the bytes look like if another one was chosen. It explains an error in the IP version better than
    // the number there.
    function hintOf(kind, bytes, parsed) {
        const found = Wolfaren.kind.find(bytes);
        if (at("kind").value === "auto" || kind.startsWith("chain") || found.why === "" || found.kind === kind || !parsed.fault && !parsed.note) return "";
        if (parsed.fault && parsed.fault.kind === Wolfaren.faults.UNSUPPORTED_IP_VERSION) parsed.fault.text = "no IP header begins here";
        return found.kind;
    }
    function show() {
        model = parse(packet);
        addPlaces(model);
        at("number").hidden = NUMBERED[at("kind").value] === undefined;
        at("summary").textContent = Wolfaren.table.sentence(model);
        at("summary").className = `summary ${model.fault ? Wolfaren.table.endWord(model.fault) : ""}`;
        at("link").href = linkTo(model);
        at("nothing").hidden = packet.bytes.length > 0;
        at("something").hidden = packet.bytes.length === 0;
        showKind();
        drawAgain();
        Wolfaren.table.show(at("table"), model, at("places").checked);
    }
    function showKind() {
        at("found").textContent = at("kind").value === "auto" && packet.bytes.length > 0 ? foundText(kindOf(packet)) : "";
        at("hint").hidden = !model.hint;
        if (!model.hint) return;
        at("hint").querySelector("span").textContent = `These bytes look like ${Wolfaren.kind.NAMES[model.hint]}.`;
        at("take-hint").textContent = `Read them as ${Wolfaren.kind.NAMES[model.hint]}`;
    }
    function widthOfPage() {
        return Math.floor(at("main").getBoundingClientRect().width);
    }
    function foundText({ kind, number, why }) {
        if (kind === null) return `The ${why}.`;
        if (why === "") return "Nothing was recognized: taken as an IP packet.";
        return `This is ${Wolfaren.kind.NAMES[kind]}${kind === "frame" ? `, ${number}` : ""}, ${why}.`;
    }
    // Draws the packet for the width of the window.
    function drawAgain() {
        width = widthOfPage();
        const isFocused = drawn !== null && drawn.contains(document.activeElement);
        drawn = Wolfaren.picture.draw(model, at("places").checked, width);
        at("picture").replaceChildren(drawn);
        showFields(Math.max(0, model.parts.findIndex((it) => it.next !== undefined)));
        if (isFocused) drawn.querySelector("[data-part]").focus();
    }
    function addPlaces(model) {
        const headers = model.parts.filter((it) => it.isHeader);
        Wolfaren.parse.placesOf(model.headers).forEach((it, i) => Object.assign(headers[i], it));
        headers.forEach((it, i) => (it.isStructStart = i === 0 || headers[i - 1].struct !== it.struct));
    }
    function hexOf(bytes) {
        return Array.from(bytes, (it) => it.toString(16).padStart(2, "0")).join("");
    }
    function linkTo({ kind, number, bytes }) {
        return `#${kind === "other" ? "packet" : kind}${NUMBERED[kind] ? `:${number}` : ""}${at("places").checked ? ":places" : ""}:${hexOf(bytes)}`;
    }
    // Marks the unread parts of the text. A transparent copy of the text lies below the text field; only its marks show.
    function markUnread(text, unread) {
        const pieces = [];
        let from = 0;
        for (const it of unread) {
            pieces.push(text.slice(from, it.start), Object.assign(document.createElement("mark"), { textContent: text.slice(it.start, it.end) }));
            from = it.end;
        }
        at("marks").replaceChildren(...pieces, ...(pieces.length > 0 ? [text.slice(from), "\n"] : []));
        scrollMarks();
    }
    function scrollMarks() {
        at("marks").scrollTop = at("text").scrollTop;
    }
    function showUnread(unread) {
        const text = at("text").value;
        markUnread(text, unread);
        at("unread").hidden = unread.length === 0;
        at("unread").replaceChildren();
        if (unread.length === 0) return;
        const where = unread[0], from = Math.max(0, where.start - 24), line = text.slice(0, where.start).split("\n").length;
        const mark = Object.assign(document.createElement("mark"), { textContent: text.slice(where.start, Math.min(where.end, where.start + 40)) });
        const more = unread.length > 1 ? ` (and ${unread.length - 1} more)` : "";
        at("unread").append(`Can't read line ${line}: ${where.why}${more}: … ${text.slice(from, where.start)}`, mark, text.slice(where.end, where.end + 24));
        at("text").setAttribute("aria-describedby", "unread");
    }
    function showReading() {
        const count = reading ? reading.packets.reduce((sum, it) => sum + it.length, 0) : 0, isRead = count > 0 && !isFromFile;
        const several = isRead && reading.packets.length > 1 ? ` in ${reading.packets.length} packets` : "";
        const leftOut = isRead && reading.leftOut.length > 0 ? ` Left out: ${reading.leftOut.join(", ")}.` : "";
        at("reading").textContent = isRead ? `Read as ${reading.format}: ${Wolfaren.names.bytes(count)}${several}.${leftOut}` : "";
    }
    function showFields(index) {
        const part = model.parts[index];
        const fields = part ? Wolfaren.fields.of(part, model.bytes) : [];
        at("fields").replaceChildren();
        if (fields.length === 0) return;
        const head = Object.assign(document.createElement("h2"), { textContent: `${part.name}, ${Wolfaren.names.bytes(part.len)} at ${part.offset}` });
        at("fields").append(head, Wolfaren.figure.draw(part, fields, width));
    }
    function partOf(event) {
        const group = event.target.closest ? event.target.closest("[data-part]") : null;
        return group ? Number(group.dataset.part) : -1;
    }
    function onPoint(event) {
        const index = partOf(event);
        if (index >= 0 && Wolfaren.fields.of(model.parts[index], model.bytes).length > 0) showFields(index);
    }
    // Moves the focus within the picture, which is one stop for the Tab key.
    function onKey(event) {
        const groups = Array.from(at("picture").querySelectorAll("[data-part]")), from = groups.findIndex((it) => Number(it.dataset.part) === partOf(event));
        const to = { ArrowRight: from + 1, ArrowDown: from + 1, ArrowLeft: from - 1, ArrowUp: from - 1, Home: 0, End: groups.length - 1 }[event.key];
        if (to === undefined || from < 0) return;
        event.preventDefault();
        if (!groups[to]) return;
        groups[from].setAttribute("tabindex", -1);
        groups[to].setAttribute("tabindex", 0);
        groups[to].focus();
    }
    // Copies the page's styles into each element, since the file is displayed without the style sheet.
    function svgText() {
        const copy = drawn.cloneNode(true), from = drawn.querySelectorAll("*"), to = copy.querySelectorAll("*");
        from.forEach((it, i) => {
            const style = getComputedStyle(it);
            for (const name of STYLES) to[i].setAttribute(name, style.getPropertyValue(name));
            to[i].removeAttribute("tabindex");
        });
        copy.removeAttribute("style");
        const ground = { width: "100%", height: "100%", fill: getComputedStyle(document.body).backgroundColor };
        copy.prepend(Object.entries(ground).reduce((rect, it) => (rect.setAttribute(...it), rect), document.createElementNS(copy.namespaceURI, "rect")));
        return new XMLSerializer().serializeToString(copy);
    }
    function save() {
        const link = document.createElement("a");
        link.href = URL.createObjectURL(new Blob([svgText()], { type: "image/svg+xml" }));
        link.download = "packet.svg";
        link.click();
        setTimeout(() => URL.revokeObjectURL(link.href), 1000);
    }
    // Shows the packets of a file. What was shown before goes, even if the file has none.
    function take(buffer, isChosen) {
        isFromFile = true;
        if (!isChosen) at("file").value = "";
        at("text").value = "";
        showUnread([]);
        showCapture(Wolfaren.frames.readCapture(buffer));
    }
    function showCapture(found) {
        const text = list(found.packets);
        tell([found.packets.length === 0 && !found.error ? "The capture has no packets." : text, found.error].filter((it) => it !== "").join(" "));
        if (found.packets.length > 0) return Wolfaren.packets.choose(0);
        packet = EMPTY;
        show();
        showReading();
    }
    // Shows the list of packets. Returns what isn't listed.
    function list(all) {
        packets = all;
        const { fault, truncated, left } = Wolfaren.packets.show(packets, parse);
        const said = [[fault, "with a fault"], [truncated, "truncated"]].filter((it) => it[0] > 0).map((it) => it.join(" "));
        const looked = left > 0 ? `; of the first ${packets.length - left}` : "";
        at("packets-head").textContent = `${packets.length === 1 ? "1 packet" : `${packets.length} packets`}${said.length > 0 ? `${looked}, ${said.join(", ")}` : ""}`;
        return left > 0 ? `Only the first ${packets.length - left} of ${packets.length} packets are listed.` : "";
    }
    function tell(text) {
        at("told").hidden = text === "";
        at("told").textContent = text;
    }
    function pick(index) {
        packet = packets[index];
        if (isFromFile) at("text").value = hexOf(packet.bytes);
        if (isFromFile) showUnread([]);
        show();
        showReading();
    }
    // Reads the text. Bytes that are a capture are listed as one. The packets of a file stay listed while one is edited.
    function takeText() {
        reading = Wolfaren.input.read(at("text").value);
        tell("");
        showUnread(reading.unread);
        const { packets: found } = reading, isOne = found.length < 2, isCapture = isOne && found.length > 0 && kindOf({ bytes: found[0] }).kind === "capture";
        if (isCapture || !isOne) isFromFile = false;
        if (!isFromFile) at("file").value = ""; // or else it names a file of which nothing is shown
        if (isCapture) return showCapture(Wolfaren.frames.readCapture(Uint8Array.from(found[0]).buffer));
        if (!isOne) return showSeveral(found);
        if (!isFromFile) list([]);
        packet = found.length > 0 ? { bytes: found[0] } : EMPTY;
        show();
        showReading();
    }
    // Returns the choice for a link, which leaves the kind to be found out if that finds the kind of the link.
    function kindOfLink([, kind, , , digits]) {
        const bytes = [];
        Wolfaren.digits.pushHex(bytes, digits);
        return Wolfaren.kind.find(Uint8Array.from(bytes)).kind === kind.toLowerCase() ? "auto" : kind.toLowerCase();
    }
    // Lists the packets of a text, and draws the one with the number of that before.
    function showSeveral(found) {
        const index = Math.max(0, packets.indexOf(packet));
        tell(list(found.map((bytes) => ({ bytes }))));
        Wolfaren.packets.choose(Math.min(index, packets.length - 1));
    }
    // Shows the packet of the link. If it is drawn already, all stays as it is, such as the list of a capture.
    function takeLink() {
        const found = LINK.exec(location.hash);
        if (!found) return false;
        if (model && location.hash === linkTo(model)) return true;
        at("kind").value = kindOfLink(found);
        if (found[2] !== undefined) at("number").value = found[2];
        at("places").checked = found[3] !== undefined;
        at("text").value = found[4];
        isFromFile = false;
        takeText();
        return true;
    }
    function takeHint() {
        if (model.hint === "capture") at("kind").value = "auto";
        else at("kind").value = model.hint;
        changeKind();
    }
    // Parses all packets again by another kind.
    function changeKind() {
        if (packets.length === 0) return takeText();
        const index = packets.indexOf(packet);
        tell(list(packets));
        if (index >= 0) Wolfaren.packets.choose(index);
        else show();
    }
    function onInput(event) {
        if (event.target.id === "file") return;
        if (event.target.id === "kind" || event.target.id === "number") changeKind();
        else if (event.target.id === "places") show();
        else takeText();
    }
    function listenToFiles() {
        at("file").addEventListener("change", async (event) => event.target.files[0] && take(await event.target.files[0].arrayBuffer(), true));
        addEventListener("dragover", (event) => {
            event.preventDefault();
            at("drop").classList.add("over");
        });
        addEventListener("dragleave", (event) => event.relatedTarget === null && at("drop").classList.remove("over"));
        addEventListener("drop", async (event) => {
            event.preventDefault();
            at("drop").classList.remove("over");
            if (event.dataTransfer.files[0]) take(await event.dataTransfer.files[0].arrayBuffer());
        });
    }
    function listen() {
        at("form").addEventListener("input", onInput);
        at("form").addEventListener("submit", (event) => event.preventDefault());
        at("text").addEventListener("scroll", scrollMarks);
        at("take-hint").addEventListener("click", takeHint);
        Wolfaren.packets.listen(pick);
        at("picture").addEventListener("pointerover", onPoint);
        at("picture").addEventListener("focusin", onPoint);
        at("picture").addEventListener("keydown", onKey);
        at("save").addEventListener("click", save);
        addEventListener("hashchange", takeLink);
        addEventListener("resize", () => widthOfPage() !== width && drawAgain());
        listenToFiles();
    }
    async function begin() {
        if (!Wolfaren.library.isSupported()) {
            at("summary").textContent = Wolfaren.library.WHY_NOT;
            return;
        }
        await Wolfaren.library.load();
        at("parser").textContent = Wolfaren.library.NAME;
        listen();
        Wolfaren.examples.show(at("examples"));
        if (takeLink()) return;
        at("text").value = EXAMPLE;
        takeText();
        if (location.hash.length > 1) tell("The link has no packet that this page can read, so an example is shown.");
    }
    const ready = begin();
    return { ready, show, take, takeText, svgText };
})();
