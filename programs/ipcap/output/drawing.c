#include "output/drawing.h"

#include <string.h>


/* A row shows 16 bytes, each in a cell of two digits and a space. */
enum { ROW_BYTES = 16, CELL = 3 };

/* How many bytes are drawn of a packet whose IP header is unreadable. */
enum { UNREAD_BYTES = 64 };

static const char fault_color[] = "\033[1;31m", plain_color[] = "\033[0m";

/* The bytes of one header, or of the payload. */
struct range {
    size_t begin;
    size_t end;
    const char *name;
    const char *color;
};

struct drawing {
    const struct parts *parts;
    struct writer *writer;
    bool in_color;
    size_t offset_width;     /* digits of the offset at the start of a row */
    size_t index;            /* of the next range */
    struct header_walk walk; /* up to the last extension header among the ranges so far */
    bool has_range;          /* there is a range at the current position */
    struct range range;      /* that range */
    bool is_named;           /* whether its name has been written */
};

static const char *header_color(uint8_t number)
{
    switch (number) {
        case WOLFAREN_HOP_BY_HOP: return "\033[33m";
        case WOLFAREN_ROUTING: return "\033[35m";
        case WOLFAREN_FRAGMENT: return "\033[34m";
        case WOLFAREN_AUTHENTICATION: return "\033[32m";
        default: return "\033[36m";
    }
}

/*
 * Stores the next range of a packet: the IP header, then each extension header, and the payload if the chain is complete.
 * Returns false after the last one.
 */
static bool next_range(struct drawing *drawing, struct range *range)
{
    const struct parts *parts = drawing->parts;
    const struct wolfaren_dissection *packet = &parts->packet;
    const size_t index = drawing->index++;
    if (packet->version == 0) return false;
    if (index == 0) {
        *range = (struct range){0, packet->base_len, packet->version == 4 ? "IPv4" : "IPv6", "\033[1m"};
        return true;
    }
    if (visit_header(parts, &drawing->walk)) {
        const struct wolfaren_header *header = &drawing->walk.header;
        *range = (struct range){header->offset, header->offset + header->len, wolfaren_number_word(header->number),
                                header_color(header->number)};
        return true;
    }
    if (index > packet->headers + 1 || end_of_chain(parts) != CHAIN_WHOLE || packet->payload_len == 0) return false;
    const char *name = is_fragment(parts) ? "part of payload" : wolfaren_number_word((uint8_t)packet->payload_number);
    *range = (struct range){packet->payload_offset, packet->payload_offset + packet->payload_len,
                            *name ? name : "payload", plain_color};
    return true;
}

static void set_color(const struct drawing *drawing, const char *color)
{
    if (drawing->in_color) put_text(drawing->writer, color);
}

/* Changes from one colour to the next, unless they are equal. Returns the next one. */
static const char *change_color(const struct drawing *drawing, const char *color, const char *next)
{
    if (drawing->in_color && strcmp(color, next) != 0) put_text(drawing->writer, next);
    return next;
}

/* Moves to the next range. */
static void move_on(struct drawing *drawing)
{
    drawing->has_range = next_range(drawing, &drawing->range);
    drawing->is_named = false;
}

/*
 * Moves on to the range that contains a byte, and returns where it ends, but at most `end`. The ranges follow one another
 * from byte 0 on: after the last one there is none.
 */
static size_t reach(struct drawing *drawing, size_t at, size_t end)
{
    while (drawing->has_range && drawing->range.end <= at) move_on(drawing);
    return drawing->has_range && drawing->range.end < end ? drawing->range.end : end;
}

/* Writes at least one byte in hexadecimal, with spaces between. */
static void put_cells(struct writer *writer, const uint8_t *bytes, size_t count)
{
    static const char digits[] = "0123456789abcdef";
    char *cell = next_bytes(writer, count * CELL);
    for (size_t i = 0; i < count; i++, cell += CELL) {
        cell[0] = digits[bytes[i] >> 4];
        cell[1] = digits[bytes[i] & 0x0f];
        cell[2] = ' ';
    }
    add_bytes(writer, count * CELL - 1);
}

/* Writes the bytes of a row. Takes a copy of `drawing`, so that the marks can start from the same state. */
static void write_bytes(struct drawing drawing, size_t row, size_t end)
{
    const char *color = plain_color;
    put_hexadecimal(drawing.writer, row, drawing.offset_width);
    if (row < end) put_byte(drawing.writer, ' ');
    for (size_t at = row, next; at < end; at = next) {
        next = reach(&drawing, at, end);
        put_byte(drawing.writer, ' ');
        color = change_color(&drawing, color, drawing.has_range ? drawing.range.color : plain_color);
        put_cells(drawing.writer, drawing.parts->bytes + at, next - at);
    }
    change_color(&drawing, color, plain_color);
    put_byte(drawing.writer, '\n');
}

/* Centres a name in a mark, with a space on either side if there is room. Returns false if the name doesn't fit. */
static bool center_name(char *mark, size_t width, const char *name)
{
    size_t len = strlen(name);
    if (len > width) return false;
    char *place = mark + (width - len) / 2;
    memcpy(place, name, len);
    if (width < len + 2) return true;
    place[-1] = ' ';
    place[len] = ' ';
    return true;
}

/* Writes the mark of the range below the bytes from `begin` up to `end`, with its name if it fits. */
static void write_mark(struct drawing *drawing, size_t begin, size_t end)
{
    const struct range *range = &drawing->range;
    size_t width = (end - begin) * CELL - 1;
    size_t left = begin == range->begin, right = end == range->end;
    set_color(drawing, range->color);
    char *mark = next_bytes(drawing->writer, width);
    memset(mark, '-', width);
    if (left) mark[0] = '[';
    if (right) mark[width - 1] = ']';
    if (!drawing->is_named) drawing->is_named = center_name(mark + left, width - left - right, range->name);
    add_bytes(drawing->writer, width);
    set_color(drawing, plain_color);
}

/* Writes spaces up to the cell of a row with this index. */
static void indent(const struct drawing *drawing, size_t cell)
{
    put_repeated(drawing->writer, ' ', drawing->offset_width + 2 + cell * CELL);
}

/* Writes the marks below a row. */
static void write_marks(struct drawing *drawing, size_t row, size_t end)
{
    size_t at = row;
    while (at < end) {
        size_t next = reach(drawing, at, end);
        if (!drawing->has_range) break;
        if (at == row) indent(drawing, 0);
        if (at > row) put_byte(drawing->writer, ' ');
        write_mark(drawing, at, next);
        at = next;
    }
    if (at > row) put_byte(drawing->writer, '\n');
}

/* Writes what is wrong with a header below the row in which it begins, with a caret below its first byte. */
static void write_fault(const struct drawing *drawing, size_t row)
{
    const struct parts *parts = drawing->parts;
    size_t at = fault_offset(parts);
    if (end_of_chain(parts) == CHAIN_WHOLE || at < row || at - row >= ROW_BYTES) return;
    indent(drawing, at - row);
    set_color(drawing, fault_color);
    put_text(drawing->writer, has_fault(parts) ? "^ " : "^ truncated: ");
    char text[WOLFAREN_TEXT_ROOM];
    wolfaren_fault_text(&parts->packet.fault, text, sizeof text);
    put_text(drawing->writer, text);
    set_color(drawing, plain_color);
    put_byte(drawing->writer, '\n');
}

/* Returns how many bytes are drawn: up to the end of the chain, and some more. */
static size_t shown_length(const struct parts *parts)
{
    size_t chain_end = parts->packet.payload_offset;
    size_t end = parts->packet.version == 0 ? UNREAD_BYTES : chain_end / ROW_BYTES * ROW_BYTES + 2 * ROW_BYTES;
    return end < parts->len ? end : parts->len;
}

/* Returns how many digits all offsets up to the last one need: at least 4. */
static size_t offset_width(size_t last)
{
    size_t width = 4;
    while (width < 16 && last >> 4 * width > 0) width++;
    return width;
}

/* Writes how many bytes more there are, or are missing. */
static void write_count(const struct drawing *drawing, const char *before, size_t count, const char *after)
{
    if (count == 0) return;
    indent(drawing, 0);
    put_text(drawing->writer, before);
    put_number(drawing->writer, count);
    put_text(drawing->writer, after);
}

void put_drawing(struct writer *writer, const struct parts *parts, bool in_color)
{
    size_t shown = shown_length(parts);
    size_t last = end_of_chain(parts) == CHAIN_WHOLE ? 0 : fault_offset(parts);
    size_t width = offset_width(shown > last ? shown - 1 : last);
    struct drawing drawing = {.parts = parts, .writer = writer, .in_color = in_color, .offset_width = width};
    move_on(&drawing);
    for (size_t row = 0; row < shown || row <= last; row += ROW_BYTES) {
        size_t left = shown > row ? shown - row : 0;
        size_t end = row + (left < ROW_BYTES ? left : ROW_BYTES);
        write_bytes(drawing, row, end);
        write_marks(&drawing, row, end);
        write_fault(&drawing, row);
    }
    write_count(&drawing, "and ", parts->len - shown, " bytes more\n");
    write_count(&drawing, "", parts->packet.missing, " bytes missing\n");
}
