/*
 * Tests the calls that write pcapng: the bytes of a file that is written out by hand after the draft's figures, what is read again of
 * it, in both byte orders, and each error.
 */
#include "wolfaren.h"

#include <stdio.h>
#include <stdlib.h>
#include <string.h>

enum { ROOM = 1024, INTERFACES = 2, LIMIT = 262144, COMMENT = 1, NANOSECONDS = 1000000000 };

static void expect(bool holds, const char *what)
{
    if (holds) return;
    fprintf(stderr, "writers: failed: %s\n", what);
    exit(1);
}

/* Bytes of the room that was asked for, so that sanitizers find a write beyond. */
struct room {
    uint8_t *bytes;
    size_t len;
};

static struct room make_room(size_t len)
{
    struct room room = {malloc(len > 0 ? len : 1), len};
    expect(room.bytes, "memory");
    memset(room.bytes, 0xaa, len);
    return room;
}

/* Whether no byte of the room was written. */
static bool is_untouched(struct room room)
{
    for (size_t i = 0; i < room.len; i++)
        if (room.bytes[i] != 0xaa) return false;
    return true;
}

static const struct wolfaren_interface micro = {1, 0, 1000000, 0}, nano = {101, 65535, NANOSECONDS, (uint64_t)-2};

/* A file with its most significant bytes first, after sections 3.5 and 4.1 to 4.3 of the draft. */
static const uint8_t file[] = {
    0x0a, 0x0d, 0x0d, 0x0a, 0, 0, 0, 28, 0x1a, 0x2b, 0x3c, 0x4d, 0, 1, 0, 0, 255, 255, 255, 255, 255, 255, 255, 255, 0, 0, 0, 28,
    0, 0, 0, 1, 0, 0, 0, 20, 0, 1, 0, 0, 0, 0, 0, 0, 0, 0, 0, 20,
    0, 0, 0, 1, 0, 0, 0, 44, 0, 101, 0, 0, 0, 0, 255, 255,
    0, 9, 0, 1, 9, 0, 0, 0, 0, 14, 0, 8, 255, 255, 255, 255, 255, 255, 255, 254, 0, 0, 0, 0, 0, 0, 0, 44,
    0, 0, 0, 6, 0, 0, 0, 52, 0, 0, 0, 1, 0, 0, 0, 2, 0, 0, 0, 3, 0, 0, 0, 5, 0, 0, 0, 99, 1, 2, 3, 4, 5, 0, 0, 0,
    0, 1, 0, 2, 'h', 'i', 0, 0, 0, 0, 0, 0, 0, 0, 0, 52,
};

/* Writes that file in a byte order, and returns its length. */
static size_t write_file(uint8_t order, uint8_t *out)
{
    static const uint8_t frame[] = {1, 2, 3, 4, 5};
    uint8_t options[12] = {0};
    struct wolfaren_enhanced_packet packet = {frame, sizeof frame, options, sizeof options, UINT64_C(2) << 32 | 3, 99, 1};
    size_t len, all = 0;
    expect(wolfaren_write_section(order, out, ROOM, &len) == WOLFAREN_WRITTEN && len == 28, "a section");
    all += len;
    expect(wolfaren_write_interface(order, &micro, out + all, ROOM - all, &len) == WOLFAREN_WRITTEN && len == 20, "an interface");
    all += len;
    expect(wolfaren_write_interface(order, &nano, out + all, ROOM - all, &len) == WOLFAREN_WRITTEN && len == 44, "another interface");
    all += len;
    expect(wolfaren_write_option(order, COMMENT, (const uint8_t *)"hi", 2, options, 8, &len) == WOLFAREN_WRITTEN && len == 8, "a comment");
    expect(wolfaren_write_enhanced_packet(order, &packet, out + all, ROOM - all, &len) == WOLFAREN_WRITTEN && len == 52, "a packet");
    return all + len;
}

static void test_bytes(void)
{
    uint8_t out[ROOM];
    expect(write_file(1, out) == sizeof file && memcmp(out, file, sizeof file) == 0, "the bytes of a file");
}

/* Reads the file again: its interfaces, and the packet with its time, 2^33 + 3 nanoseconds less 2 seconds. */
static void test_reading(uint8_t order)
{
    uint8_t out[ROOM];
    struct wolfaren_interface interfaces[INTERFACES];
    struct wolfaren_capture capture = {.interfaces = interfaces, .room = INTERFACES, .limit = LIMIT};
    struct wolfaren_capture_error error;
    struct wolfaren_record record;
    const size_t len = write_file(order, out);
    expect(wolfaren_begin_capture(&capture, out, len, &error), "a capture");
    for (int blocks = 0; blocks < 3; blocks++) {
        wolfaren_next_record(&capture, out + capture.offset, len - (size_t)capture.offset, &record);
        expect(record.kind == WOLFAREN_NEXT_BLOCK, "a block");
    }
    expect(interfaces[0].link_type == 1 && interfaces[0].snap_len == 0 && interfaces[0].ticks_per_second == 1000000
           && interfaces[0].offset == 0, "the first interface");
    expect(interfaces[1].link_type == 101 && interfaces[1].snap_len == 65535 && interfaces[1].ticks_per_second == NANOSECONDS
           && interfaces[1].offset == (uint64_t)-2, "the second interface");
    const size_t at = (size_t)capture.offset;
    wolfaren_next_record(&capture, out + at, len - at, &record);
    expect(record.kind == WOLFAREN_NEXT_FRAME && record.interface == 1 && record.link_type == 101, "a frame");
    expect(record.has_time && record.time == (UINT64_C(2) << 32) + 3 - UINT64_C(2) * NANOSECONDS, "its time");
    expect(record.len == 5 && record.original_len == 99 && memcmp(out + at + record.offset, "\1\2\3\4\5", 5) == 0, "its bytes");
    wolfaren_next_record(&capture, out + len, 0, &record);
    expect(record.kind == WOLFAREN_NEXT_ENDED, "the end");
}

/* Without room for one byte of the 52, nothing is written, and the length is that. */
static void test_room(void)
{
    static const uint8_t frame[] = {1};
    const struct wolfaren_enhanced_packet packet = {.captured = frame, .captured_len = 1, .original_len = 1};
    for (size_t room_len = 0; room_len <= 44; room_len++) {
        struct room room = make_room(room_len);
        size_t len = 0;
        bool is_written = wolfaren_write_section(0, room.bytes, room.len, &len) == WOLFAREN_WRITTEN;
        expect(len == 28 && is_written == (room_len >= 28) && (is_written || is_untouched(room)), "room for a section");
        memset(room.bytes, 0xaa, room.len);
        is_written = wolfaren_write_interface(0, &nano, room.bytes, room.len, &len) == WOLFAREN_WRITTEN;
        expect(len == 44 && is_written == (room_len >= 44) && (is_written || is_untouched(room)), "room for an interface");
        memset(room.bytes, 0xaa, room.len);
        is_written = wolfaren_write_option(0, COMMENT, frame, 1, room.bytes, room.len, &len) == WOLFAREN_WRITTEN;
        expect(len == 8 && is_written == (room_len >= 8) && (is_written || is_untouched(room)), "room for an option");
        memset(room.bytes, 0xaa, room.len);
        is_written = wolfaren_write_enhanced_packet(0, &packet, room.bytes, room.len, &len) == WOLFAREN_WRITTEN;
        expect(len == 36 && is_written == (room_len >= 36) && (is_written || is_untouched(room)), "room for a packet");
        free(room.bytes);
    }
}

static void test_errors(void)
{
    static const uint8_t truncated[] = {1, 0, 5, 0, 'a', 'b', 'c', 'd'};
    struct room room = make_room(ROOM);
    uint8_t *value = calloc(65536, 1);
    size_t len = 1;
    expect(value, "memory");
    expect(wolfaren_write_option(0, COMMENT, value, 65536, room.bytes, room.len, &len) == WOLFAREN_WRITE_TOO_LONG && len == 0, "a long option");
    free(value);
    struct wolfaren_interface odd = {1, 0, 3, 0};
    expect(wolfaren_write_interface(0, &odd, room.bytes, room.len, &len) == WOLFAREN_WRITE_RESOLUTION && len == 0, "3 ticks a second");
    struct wolfaren_enhanced_packet packet = {.options = truncated, .options_len = sizeof truncated};
    expect(wolfaren_write_enhanced_packet(0, &packet, room.bytes, room.len, &len) == WOLFAREN_WRITE_OPTIONS && len == 0, "an option that is truncated");
    packet.options_len = 6;
    expect(wolfaren_write_enhanced_packet(0, &packet, room.bytes, room.len, &len) == WOLFAREN_WRITE_OPTIONS, "options that aren't padded");
    expect(is_untouched(room), "nothing is written with an error");
    free(room.bytes);
}

int main(void)
{
    test_bytes();
    test_reading(0);
    test_reading(1);
    test_room();
    test_errors();
    puts("writers: passed");
    return 0;
}
