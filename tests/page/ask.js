// Makes the function `ask`, which sends requests to the page and returns its replies.
"use strict";
window.ask = (function () {
    const at = (id) => document.getElementById(id);
    const violations = [];
    addEventListener("securitypolicyviolation", (event) => violations.push(event.effectiveDirective));

    function shown(id) {
        return at(id).hidden ? "" : at(id).textContent;
    }
    function rows() {
        return Array.from(at("table").tBodies[0].rows, (row) => Array.from(row.cells, (it) => it.textContent));
    }
    function link() {
        return at("link").getAttribute("href").split(":");
    }
    function texts(query) {
        return Array.from(at("picture").querySelectorAll(query), (it) => it.textContent);
    }
    function list() {
        return Array.from(at("packet-list").children, (it) => [it.textContent, it.className]);
    }
    function answer() {
        const why = at("picture").querySelector(".why"), marks = Array.from(at("marks").querySelectorAll("mark"), (it) => it.textContent);
        return { rows: rows(), hex: link().pop(), kind: link()[0].slice(1), text: at("text").value, unread: shown("unread"), told: shown("told"), marks,
            reading: at("reading").textContent, found: at("found").textContent, hint: shown("hint"), list: at("packets").hidden ? [] : list(),
            marked: at("marks").textContent, isEmpty: at("something").hidden,
            summary: at("summary").textContent, names: texts(".name"), styles: styles(), parts: texts("[data-part]").length, arrows: texts(".arrow").length,
            why: texts(".why").join(" "), colour: why ? getComputedStyle(why).fill : "", said: at("main").textContent };
    }
    function styles() {
        return Array.from(at("picture").querySelectorAll("[data-part]"), (it) => it.getAttribute("class").slice("part ".length));
    }
    // Waits until a condition holds.
    async function until(isThere) {
        for (let turn = 0; turn < 20000 && !isThere(); turn++) await new Promise((done) => setTimeout(done, 5));
    }
    async function reply(it) {
        if (it.violate !== undefined) return violate();
        if (it.size !== undefined) return [await reply(it.size), size()][1];
        if (it.drop !== undefined) return drop(it);
        if (it.choose !== undefined) return choose(it);
        if (it.read !== undefined) return Wolfaren.input.read(it.read).format;
        if (it.hash !== undefined) return follow(it.hash);
        if (it.use !== undefined) return { save: save(), keys: keys(), stops: stops() };
        if (it.names !== undefined) return Array.from({ length: 256 }, (_, i) => Wolfaren.library.numberWord(i));
        if (it.gallery !== undefined) return gallery();
        at("kind").value = it.kind;
        at("number").value = it.first || 0;
        at("places").checked = it.places === true;
        at("text").value = it.text;
        at("form").dispatchEvent(new Event("input"));
        if (it.press) at(it.press).click();
        return it.fields ? fields() : it.each ? each() : answer();
    }
    async function follow(hash) {
        at("table").replaceChildren();
        location.hash = hash;
        await until(() => at("table").tBodies.length > 0);
        return answer();
    }
    // Returns the fields of each part, as displayed when it has the focus.
    function fields() {
        return Array.from(at("picture").querySelectorAll("[data-part]"), (group) => {
            group.focus();
            return at("fields").querySelector("svg").getAttribute("aria-label");
        });
    }
    // Chooses each packet of the list. Returns the kind and the bytes of each, after what the page says.
    function each() {
        const found = Array.from(at("packet-list").children, (it) => {
            it.click();
            const [kind, ...rest] = link();
            return [kind.slice(1), rest.pop()];
        });
        return { ...answer(), each: at("packets").hidden ? [[link()[0].slice(1), link().pop()]] : found };
    }
    async function drop(it) {
        const transfer = transferOf(it.drop);
        at("kind").value = it.kind || "auto";
        at("packet-list").replaceChildren();
        at("told").hidden = true;
        dispatchEvent(new DragEvent("drop", { dataTransfer: transfer, cancelable: true }));
        await until(() => at("packet-list").children.length > 0 || !at("told").hidden);
        return it.head ? { told: shown("told"), head: at("packets-head").textContent } : it.keys ? chosenBy(it.keys) : it.link ? followOwn() : each();
    }
    // Chooses a file. Returns how many files the field names then, and after an example was taken.
    async function choose(it) {
        at("file").files = transferOf(it.choose).files;
        at("packet-list").replaceChildren();
        at("file").dispatchEvent(new Event("change"));
        await until(() => at("packet-list").children.length > 0);
        const chosen = at("file").files.length;
        await follow(it.then);
        return [chosen, at("file").files.length];
    }
    function transferOf(content) {
        const transfer = new DataTransfer();
        transfer.items.add(new File([Uint8Array.from(atob(content), (letter) => letter.charCodeAt(0))], "some.pcap"));
        return transfer;
    }
    // Follows the page's link to the packet that is drawn.
    async function followOwn() {
        const isFollowed = new Promise((done) => addEventListener("hashchange", () => setTimeout(done, 5), { once: true }));
        at("link").click();
        await isFollowed;
        return answer();
    }
    // Returns the index of the packet that is chosen after each key, and how many elements of the list the Tab key stops at.
    function chosenBy(names) {
        const items = () => Array.from(at("packet-list").children);
        at("packet-list").focus();
        const chosen = names.map((name) => {
            press(name);
            return items().findIndex((it) => it.hasAttribute("aria-selected"));
        });
        return { chosen, listStops: [at("packet-list"), ...items()].filter((it) => it.tabIndex >= 0).length };
    }
    // Checks that a saved picture is self-contained: XML whose shapes have colours of their own.
    function save() {
        const saved = new DOMParser().parseFromString(Wolfaren.page.svgText(), "image/svg+xml");
        const runs = Array.from(saved.querySelectorAll("rect.run"), (it) => it.getAttribute("fill"));
        return { root: saved.documentElement.nodeName, runs: runs.length, coloured: runs.filter((it) => it.startsWith("rgb")).length, colours: new Set(runs).size };
    }
    function press(key) {
        document.activeElement.dispatchEvent(new KeyboardEvent("keydown", { key, bubbles: true, cancelable: true }));
        return document.activeElement.dataset.part;
    }
    function keys() {
        at("picture").querySelector("[data-part]").focus();
        const before = at("fields").querySelector("h2").textContent;
        const right = press("ArrowRight"), after = at("fields").querySelector("h2").textContent;
        return [before, right, after, press("End"), press("ArrowDown"), press("Home"), press("ArrowUp")];
    }
    // Returns how many elements of the picture the Tab key stops at.
    function stops() {
        return Array.from(at("picture").querySelectorAll("*")).filter((it) => it.tabIndex >= 0).length;
    }
    async function gallery() {
        const links = Array.from(at("examples").querySelectorAll("a"), (it) => it.getAttribute("href")), found = [];
        for (const it of links) found.push([it, (await follow(it)).summary]);
        const box = at("drop").getBoundingClientRect();
        return { found, isShown: at("examples").getBoundingClientRect().height > 100, drop: box.width > 200 && box.height > 30 && at("drop").textContent.includes("Drop") };
    }
    // Returns what is cut or too small: texts that leave the window or their picture, and letters below 11 pixels.
    function size() {
        const wide = document.documentElement.clientWidth, letters = Array.from(document.querySelectorAll("#picture text, #fields text"));
        const all = Array.from(document.querySelectorAll("main *"), (it) => outside(it, wide));
        const wrong = [...all, ...letters.map(smallness), ...letters.map(tightness)].filter((it) => it !== "");
        const rows = Array.from(at("picture").querySelectorAll(".offset"), (it) => it.textContent);
        return { wide, wrong, rows, scrolls: document.documentElement.scrollWidth > wide, said: letters.map((it) => it.textContent).join(" ") };
    }
    function outside(it, wide) {
        const box = it.getBoundingClientRect(), isCut = it.matches("section, div, ol, li, ul, p, h2, label, td, th") && it.scrollWidth > it.clientWidth + 1;
        const isWrong = box.width > 0 && it.id !== "text" && (box.right > wide + 0.5 || box.left < 0 || isCut);
        return isWrong ? `${it.nodeName} ${it.textContent.slice(0, 40)} from ${box.left} to ${box.right}` : "";
    }
    function smallness(it) {
        const drawn = it.ownerSVGElement, pixels = parseFloat(getComputedStyle(it).fontSize) * drawn.getBoundingClientRect().width / drawn.viewBox.baseVal.width;
        return pixels < 11 ? `${it.textContent} has ${pixels} pixels` : "";
    }
    function tightness(it) {
        const inner = /field|value/.test(it.getAttribute("class")) ? it.parentNode.querySelector(".box") : it.ownerSVGElement;
        const box = it.getBoundingClientRect(), room = inner.getBoundingClientRect();
        return box.left < room.left - 0.5 || box.right > room.right + 0.5 ? `${it.textContent} is wider than its box` : "";
    }
    async function violate() {
        const image = new Image();
        image.src = "http://127.0.0.1:9/image";
        await fetch("http://127.0.0.1:9/fetch").catch(() => null);
        await until(() => violations.length >= 2);
        return violations;
    }
    return async function (questions) {
        await Wolfaren.page.ready;
        const replies = [];
        for (const it of questions) replies.push(await reply(it));
        return replies;
    };
})();
