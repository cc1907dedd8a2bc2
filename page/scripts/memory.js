// The library's memory, and the structs of include/wolfaren.h there. `make page` writes those to wolfaren.js, with the size of a
// pointer: 4 bytes if `rustc` has compiled the library, 8 if Rattle has.
"use strict";
Wolfaren.memory = (function () {
    const POINTER = Wolfaren.pointerSize, IS_WIDE = POINTER === 8, PAGE = 65536;
    const SIZES = { size: POINTER, u64: 8, u32: 4, u16: 2, u8: 1 };
    const layouts = {};
    let memory = null, start = 0;

    // Uses a memory after the part that the module itself uses.
    function use(it) {
        memory = it;
        start = memory.buffer.byteLength;
    }
    function up(at, unit) {
        return Math.ceil(at / unit) * unit;
    }
    // Returns how C lays out a type: its size, its alignment and, of a struct, its fields, each at a multiple of its alignment.
    function layoutOf(type) {
        if (SIZES[type]) return { size: SIZES[type], align: SIZES[type] };
        if (layouts[type]) return layouts[type];
        const found = { size: 0, align: 1, fields: [] };
        for (const [name, of] of Wolfaren.structs[type]) {
            const { size, align } = layoutOf(of), at = up(found.size, align);
            found.fields.push({ name, key: name.replace(/_(\w)/g, (_, letter) => letter.toUpperCase()), type: of, at });
            Object.assign(found, { size: at + size, align: Math.max(found.align, align) });
        }
        found.size = up(found.size, found.align);
        return (layouts[type] = found);
    }
    function sizeOf(type, count = 1) {
        return layoutOf(type).size * count;
    }
    // Returns a number, or a struct as an object. Numbers of type `u64` are BigInt.
    function valueAt(view, type, at) {
        const { size, fields } = layoutOf(type);
        if (fields) return Object.fromEntries(fields.map((it) => [it.key, valueAt(view, it.type, at + it.at)]));
        const value = size === 8 ? view.getBigUint64(at, true) : size === 4 ? view.getUint32(at, true) : size === 2 ? view.getUint16(at, true) : view.getUint8(at);
        return type === "size" ? Number(value) : value;
    }
    function read(type, at) {
        return valueAt(new DataView(memory.buffer), type, at);
    }
    function putNumber(type, at, value) {
        const bytes = new Uint8Array(memory.buffer, at, sizeOf(type));
        for (let i = 0, left = BigInt(value); i < bytes.length; i++, left >>= 8n) bytes[i] = Number(left & 255n);
    }
    // Writes a struct: these fields, and 0 in all others.
    function write(type, at, values) {
        const { size, fields } = layoutOf(type);
        new Uint8Array(memory.buffer, at, size).fill(0);
        for (const it of fields.filter(({ key }) => values[key] !== undefined)) putNumber(it.type, at + it.at, values[it.key]);
    }
    // Returns where parts of these sizes in bytes are, one after another. The memory grows as needed.
    function lay(...sizes) {
        let end = start;
        const places = sizes.map((size) => {
            const at = end;
            end = up(end + size, 8);
            return at;
        });
        const lacking = end - memory.buffer.byteLength;
        if (lacking > 0) memory.grow(passed(Math.ceil(lacking / PAGE)));
        return places;
    }
    function copy(bytes, at) {
        new Uint8Array(memory.buffer, at, bytes.length).set(bytes);
    }
    // Returns a size or pointer as a call takes it.
    function passed(number) {
        return IS_WIDE ? BigInt(number) : number;
    }
    // Returns bytes as calls take them that Rattle has compiled to take a struct of pointer and length, which WebAssembly passes
    // in memory: at `pair`, where PAIR bytes are. `rustc` has compiled them to take pointer and length.
    function passedPair(pair, at, len) {
        if (!IS_WIDE) return [at, len];
        putNumber("size", pair, at);
        putNumber("size", pair + POINTER, len);
        return [passed(pair)];
    }
    function text(at, len) {
        return String.fromCharCode(...new Uint8Array(memory.buffer, at, len));
    }
    return { PAIR: 2 * POINTER, IS_WIDE, use, layoutOf, sizeOf, read, write, lay, copy, passed, passedPair, text };
})();
