// Draws the picture: rows of bytes in the colours of their headers, with an arrow from each next header field to what it
// names. A row has 16 bytes, or 8 where there is little room.
"use strict";
Wolfaren.picture = (function () {
    const SPACE = "http://www.w3.org/2000/svg";
    const CELL = 34, HIGH = 26, GAP = 36, TOP = 8, TEXT_HIGH = 14;
    const WIDE = { line: 16, left: 64, right: 40 }, NARROW = { line: 8, left: 52, right: 28 }, LEAST_WIDE = 560;
    const MOST_ROWS = 512, SHOWN_OF_PART = 6, SHOWN_OF_REST = 3;

    function make(name, attributes, text) {
        const made = document.createElementNS(SPACE, name);
        for (const [key, value] of Object.entries(attributes)) made.setAttribute(key, value);
        if (text !== undefined) made.textContent = text;
        return made;
    }
    // Returns the rows to draw: for a long part, only the first rows and the last. Each is { line, skipped }: the line, and
    // how many lines are left out in its place.
    function rowsOf(model, line, last) {
        const isKept = keptLines(model, line, last), rows = [];
        for (let at = 0; at <= last && rows.length < MOST_ROWS; at++) {
            if (isKept.has(at)) rows.push({ line: at, skipped: 0 });
            else if (rows.length > 0 && rows[rows.length - 1].skipped > 0) rows[rows.length - 1].skipped += 1;
            else rows.push({ line: at, skipped: 1 });
        }
        const drawn = rows.reduce((sum, it) => sum + Math.max(it.skipped, 1), 0);
        if (drawn <= last) rows.push({ line: drawn, skipped: last + 1 - drawn });
        return rows;
    }
    function keptLines(model, line, last) {
        const kept = new Set([last]);
        for (const part of model.parts) {
            const from = Math.floor(part.offset / line), to = Math.floor((part.offset + part.len - 1) / line);
            const most = part.isMissing ? 0 : part.isRest || part.style === "beyond" ? SHOWN_OF_REST : SHOWN_OF_PART;
            for (let at = from; at <= Math.min(to, from + most); at++) kept.add(at);
            kept.add(to);
        }
        if (model.fault) kept.add(Math.floor(model.fault.offset / line));
        return kept;
    }
    // Draws the picture for a width in pixels.
    function draw(model, withPlaces, width) {
        const sheet = layOut(model, withPlaces, width < LEAST_WIDE ? NARROW : WIDE);
        const svg = make("svg", { viewBox: `0 0 ${sheet.wide} ${sheet.high}`, role: "group", "aria-label": "The bytes, with their headers", xmlns: SPACE });
        svg.style.setProperty("max-width", `${sheet.wide * 1.25}px`);
        sheet.svg = svg;
        drawOffsets(sheet);
        model.parts.forEach((part, i) => drawPart(sheet, part, i));
        model.parts.forEach((part) => drawArrow(sheet, part));
        if (model.fault) drawFault(sheet);
        const first = svg.querySelector("[data-part]");
        if (first) first.setAttribute("tabindex", 0);
        return svg;
    }
    function layOut(model, withPlaces, { line, left, right }) {
        const faultAt = model.fault ? model.fault.offset : -1, ends = model.parts.map((it) => it.offset + it.len - 1);
        const rows = rowsOf(model, line, Math.floor(Math.max(model.bytes.length - 1, faultAt, 0, ...ends) / line)), rowOfLine = new Map();
        rows.forEach((it, i) => it.skipped || rowOfLine.set(it.line, i));
        const wide = left + line * CELL + right, targets = new Set(model.parts.filter((it) => it.next !== undefined).map((it) => it.offset + it.len));
        const why = model.fault ? Wolfaren.letters.linesOf(`${model.fault.isTruncated ? "truncated: " : ""}${model.fault.text}`, "name", wide - left) : [];
        const sheet = { model, withPlaces, line, left, wide, rows, rowOfLine, targets, why, labels: new Map() };
        placeLabels(sheet);
        placeRows(sheet, rowOfLine.get(Math.floor(faultAt / line)));
        return sheet;
    }
    // Places the names of the parts that begin in a row above it, each on a line of its own if there is no room beside.
    function placeLabels(sheet) {
        for (const part of sheet.model.parts.slice().reverse()) {
            const row = sheet.rowOfLine.get(Math.floor(part.offset / sheet.line));
            if (row === undefined) continue;
            const text = labelOf(sheet, part), begin = xOf(sheet, part.offset) + (sheet.targets.has(part.offset) ? CELL / 2 : 2);
            const wide = Wolfaren.letters.widthOf(text, "name"), x = Math.max(sheet.left, Math.min(begin, sheet.wide - wide)), end = x + wide;
            const taken = sheet.rows[row].labels || [], levels = taken.filter((it) => it.x < end + 4 && x < it.end + 4).map((it) => it.level + 1);
            const level = Math.max(0, ...levels);
            sheet.rows[row].labels = [...taken, { x, end, level }];
            sheet.labels.set(part, { text, x, level });
        }
    }
    // Returns the position of each row. Below the row with the error, there is room for its text.
    function placeRows(sheet, faultRow) {
        let y = TOP;
        sheet.rows.forEach((it, row) => {
            it.gap = GAP + TEXT_HIGH * Math.max(0, ...(it.labels || []).map((label) => label.level));
            it.y = y + it.gap;
            y = it.y + HIGH + (row === faultRow ? sheet.why.length * TEXT_HIGH : 0);
        });
        sheet.high = y + GAP;
    }
    function xOf(sheet, at) {
        return sheet.left + at % sheet.line * CELL;
    }
    // Returns the position of a byte in the picture, or null if its row isn't drawn.
    function spot(sheet, at) {
        const row = sheet.rowOfLine.get(Math.floor(at / sheet.line));
        return row === undefined ? null : { row, x: xOf(sheet, at), y: sheet.rows[row].y };
    }
    function drawOffsets(sheet) {
        for (const it of sheet.rows) {
            const y = it.y + HIGH / 2, from = it.line * sheet.line, to = (it.line + it.skipped) * sheet.line;
            const skipped = `${Wolfaren.names.bytes(to - from)} left out, from 0x${from.toString(16)}`;
            if (it.skipped === 0) sheet.svg.append(make("text", { x: sheet.left - 10, y, class: "offset" }, from.toString(16).padStart(4, "0")));
            else sheet.svg.append(make("text", { x: sheet.left + sheet.line * CELL / 2, y, class: "skipped" }, skipped));
        }
    }
    function drawPart(sheet, part, index) {
        const said = `${part.name}, ${Wolfaren.names.bytes(part.len)} at ${part.offset}`;
        const group = make("g", { class: `part ${part.style}`, tabindex: -1, "data-part": index, role: "img", "aria-label": said });
        const stop = part.offset + part.len;
        for (let line = Math.floor(part.offset / sheet.line); line * sheet.line < stop; line++) {
            if (sheet.rowOfLine.has(line)) drawRun(sheet, group, Math.max(part.offset, line * sheet.line), Math.min(stop, (line + 1) * sheet.line), part);
        }
        const at = spot(sheet, part.offset);
        if (at) nameGroup(sheet, group, part, at);
        if (group.childElementCount > 0) sheet.svg.append(group);
    }
    function nameGroup(sheet, group, part, at) {
        const { text, x, level } = sheet.labels.get(part);
        group.append(make("text", { x, y: at.y - 6 - level * TEXT_HIGH, class: "name" }, text));
        if (sheet.withPlaces && part.isStructStart) group.append(make("path", { d: `M${at.x} ${at.y - 16}v${HIGH + 22}`, class: "struct" }));
    }
    function drawRun(sheet, group, from, to, part) {
        const at = spot(sheet, from);
        group.append(make("rect", { x: at.x, y: at.y, width: (to - from) * CELL, height: HIGH, class: "run" }));
        for (let i = from; i < Math.min(to, sheet.model.bytes.length); i++) {
            const isNext = i === nextAt(part);
            const text = sheet.model.bytes[i].toString(16).padStart(2, "0");
            group.append(make("text", { x: xOf(sheet, i) + CELL / 2, y: at.y + HIGH / 2, class: isNext ? "byte next" : "byte" }, text));
        }
    }
    function labelOf(sheet, part) {
        if (part.isMissing) return `${Wolfaren.names.bytes(part.len)} missing`;
        const isPlaced = sheet.withPlaces && part.place !== undefined;
        const text = isPlaced ? `${part.isStructStart ? `struct ${part.struct} ▸ ` : ""}${Wolfaren.names.places[part.place]}` : part.name;
        return part.number === undefined ? text : `${text} ${part.number}`;
    }
    function nextAt(part) {
        return part.next === undefined ? -1 : part.offset + (part.nextAt || 0);
    }
    // Draws an arrow from a next header byte through the gap below its row to what follows the header.
    function drawArrow(sheet, part) {
        if (part.next === undefined) return;
        const from = spot(sheet, nextAt(part)), to = spot(sheet, part.offset + part.len);
        if (!from || !to || part.offset + part.len >= sheet.model.bytes.length) return;
        const isSameRow = to.row === from.row, below = from.y + HIGH, lane = below + (isSameRow ? 7 : 13);
        const x = from.x + CELL / 2 + 5, end = to.x + CELL / 2 - 7;
        let path = `M${x} ${below}V${lane}H${end}`;
        if (isSameRow) path += `V${below + 3}`;
        else if (to.row === from.row + 1) path += `V${to.y - 3}`;
        else path = `M${x} ${below}V${lane}H${sheet.left + sheet.line * CELL + 14}V${to.y - sheet.rows[to.row].gap + 13}H${end}V${to.y - 3}`;
        const tip = isSameRow ? [below + 1, 6] : [to.y - 1, -6];
        const group = make("g", { class: `arrow ${part.style}` });
        group.append(make("path", { d: path, class: "line" }), make("circle", { cx: x, cy: below, r: 2.5, class: "tip" }));
        group.append(make("path", { d: `M${end} ${tip[0]}l-4.5 ${tip[1]}h9z`, class: "tip" }));
        sheet.svg.append(group);
    }
    // Marks the byte with the error, or the first one of a truncated header, in another colour.
    function drawFault(sheet) {
        const fault = sheet.model.fault, at = spot(sheet, fault.offset);
        if (!at) return;
        const said = `${fault.isTruncated ? "Truncated" : "Error"} at ${fault.offset}: ${fault.text}`;
        const group = make("g", { class: fault.isTruncated ? "truncated" : "fault", role: "img", "aria-label": said });
        group.append(make("rect", { x: at.x + 1, y: at.y + 1, width: CELL - 2, height: HIGH - 2, class: "mark" }));
        if (!fault.isTruncated && fault.offset >= sheet.model.bytes.length) group.append(make("text", { x: at.x + CELL / 2, y: at.y + HIGH / 2, class: "byte" }, "×"));
        sheet.why.forEach((it, i) => group.append(make("text", { x: sheet.left, y: at.y + HIGH + 22 + i * TEXT_HIGH, class: "why" }, it)));
        sheet.svg.append(group);
    }
    return { make, draw };
})();
