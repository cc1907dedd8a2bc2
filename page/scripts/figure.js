// Draws a header as the RFCs do, 32 bits per row.
"use strict";
Wolfaren.figure = (function () {
    const LEAST_BIT = 9, MOST_BIT = 23, TEXT_HIGH = 13, RULER = 18, LARGE_FROM = 18, LARGE = 13 / 11;
    const { make } = Wolfaren.picture;

    // Places the fields in rows. A field of more than 32 bits has a row of its own.
    function boxesOf(fields, bitWide, scale) {
        const boxes = [], split = (text, font, wide) => Wolfaren.letters.linesOf(text, font, (wide - 1) / scale);
        let bit = 0, row = 0;
        for (const [name, bits, value] of fields) {
            const isTall = bits > 32, taken = isTall ? 32 - bit % 32 : bits, wide = taken * bitWide;
            boxes.push({ name, value, row, x: 1 + bit * bitWide, wide, names: split(name, "field", wide), values: split(String(value), "value", wide) });
            bit = (bit + taken) % 32;
            if (bit === 0) row += 1;
        }
        return boxes;
    }
    // Draws the fields of a part for a width in pixels. Letters have 11 pixels, or 13 if there is room.
    function draw(part, fields, width) {
        const bitWide = Math.min(MOST_BIT, Math.max(LEAST_BIT, (width - 2) / 32)), scale = bitWide >= LARGE_FROM ? LARGE : 1;
        const boxes = boxesOf(fields, bitWide, scale), tops = topsOf(boxes, TEXT_HIGH * scale), wide = 32 * bitWide + 2, high = tops[tops.length - 1] + 2;
        const said = fields.map((it) => `${it[0]} ${it[2]}`).join(", ");
        const style = scale > 1 ? `${part.style} large` : part.style;
        const svg = make("svg", { viewBox: `0 0 ${wide} ${high}`, width: wide, height: high, class: style, role: "img", "aria-label": said });
        for (let i = 0; i < 32; i++) svg.append(make("text", { x: 1 + (i + 0.5) * bitWide, y: 10, class: "bit" }, i % 10));
        for (const it of boxes) svg.append(drawBox(it, tops[it.row], tops[it.row + 1] - tops[it.row], TEXT_HIGH * scale));
        return svg;
    }
    // Returns the top of each row, and the bottom of the last one.
    function topsOf(boxes, textHigh) {
        const tops = [RULER];
        for (const it of boxes) it.high = (it.names.length + it.values.length) * textHigh + 8;
        for (let row = 0; row <= boxes[boxes.length - 1].row; row++) tops.push(tops[row] + Math.max(...boxes.filter((it) => it.row === row).map((it) => it.high)));
        return tops;
    }
    function drawBox(it, y, high, textHigh) {
        const box = make("g", {}), middle = it.x + it.wide / 2, from = y + (high - it.high) / 2 + 4 + textHigh / 2;
        box.append(make("title", {}, `${it.name}: ${it.value}`), make("rect", { x: it.x, y, width: it.wide, height: high, class: "box" }));
        it.names.forEach((line, i) => box.append(make("text", { x: middle, y: from + i * textHigh, class: "field" }, line)));
        it.values.forEach((line, i) => box.append(make("text", { x: middle, y: from + (it.names.length + i) * textHigh, class: "value" }, line)));
        return box;
    }
    return { draw };
})();
