/*
 * Tests wolfaren_begin_capture and wolfaren_next_record: files of each form whole, cut at every byte and byte by byte, and what is
 * wrong with bad ones. Compares the frames with those that libpcap reads, where it is installed.
 */
#define _DEFAULT_SOURCE /* for the types of libpcap */

#include "wolfaren.h"

#include <stdio.h>
#include <stdlib.h>
#include <string.h>

#if defined(__has_include)
#if __has_include(<pcap/pcap.h>)
#define HAS_PCAP
#include <dlfcn.h>
#include <pcap/pcap.h>
#endif
#endif

enum { ROOM = 2048, FRAMES = 8, INTERFACES = 3, LIMIT = 262144, ETHERNET = 1, RAW = 101, SECONDS = 1700000000 };

static void expect(bool holds, const char *what)
{
    if (holds) return;
    fprintf(stderr, "records: failed: %s\n", what);
    exit(1);
}

/* A file in memory, with numbers in its byte order. */
struct file {
    uint8_t bytes[ROOM];
    size_t len;
    bool is_big_endian;
};

/* A frame that was read. */
struct seen {
    uint64_t time, end;
    uint32_t original_len, interface;
    uint16_t link_type;
    uint8_t has_time, bytes[64];
    size_t len;
};

/* What was read of a file, and why nothing more is. */
struct reading {
    struct seen frames[FRAMES];
    size_t count, blocks, place;
    struct wolfaren_record last;
};

static void put(struct file *file, uint64_t number, size_t len)
{
    for (size_t i = 0; i < len; i++)
        file->bytes[file->len++] = (uint8_t)(number >> 8 * (file->is_big_endian ? len - 1 - i : i));
}

/* Puts the captured bytes of a frame: each is the length plus its index. */
static void put_frame(struct file *file, size_t len)
{
    for (size_t i = 0; i < len; i++) file->bytes[file->len++] = (uint8_t)(len + i);
}

static void put_file_header(struct file *file, uint32_t magic, uint32_t link_type)
{
    put(file, magic, 4);
    put(file, 2, 2);
    put(file, 4, 2);
    put(file, 0, 8);
    put(file, 65535, 4);
    put(file, link_type, 4);
}

static void put_record(struct file *file, uint32_t fraction, uint32_t len, uint32_t original_len, bool is_modified)
{
    put(file, SECONDS, 4);
    put(file, fraction, 4);
    put(file, len, 4);
    put(file, original_len, 4);
    if (is_modified) put(file, 0, 8);
    put_frame(file, len);
}

/* Begins a block, and ends it: both total lengths are then put. Returns where it begins. */
static size_t begin_block(struct file *file, uint32_t type)
{
    put(file, type, 4);
    put(file, 0, 4);
    return file->len - 8;
}

static void end_block(struct file *file, size_t begin)
{
    while (file->len % 4 != 0) file->bytes[file->len++] = 0;
    size_t len = file->len + 4 - begin, end = file->len;
    put(file, len, 4);
    memcpy(file->bytes + begin + 4, file->bytes + end, 4);
}

static void put_section(struct file *file)
{
    size_t begin = begin_block(file, 0x0a0d0d0a);
    put(file, 0x1a2b3c4d, 4);
    put(file, 1, 2);
    put(file, 0, 2);
    put(file, UINT64_MAX, 8);
    end_block(file, begin);
}

/* Puts the description of an interface, with the options if_tsresol and if_tsoffset unless the resolution is 6. */
static void put_interface(struct file *file, uint16_t link_type, uint32_t snap_len, uint8_t resolution, uint64_t offset)
{
    size_t begin = begin_block(file, 1);
    put(file, link_type, 2);
    put(file, 0, 2);
    put(file, snap_len, 4);
    if (resolution != 6) {
        put(file, 9, 2);
        put(file, 1, 2);
        file->bytes[file->len++] = resolution;
        file->len += 3;
        put(file, 14, 2);
        put(file, 8, 2);
        put(file, offset, 8);
        put(file, 0, 4);
    }
    end_block(file, begin);
}

/* Puts an enhanced packet block, or an obsolete one (type 2), whose number of the interface has 16 bits. */
static void put_packet(struct file *file, uint32_t type, uint32_t interface, uint64_t ticks, uint32_t len, uint32_t original_len)
{
    size_t begin = begin_block(file, type);
    put(file, interface, type == 2 ? 2 : 4);
    if (type == 2) put(file, 0, 2);
    put(file, ticks >> 32, 4);
    put(file, ticks & UINT32_MAX, 4);
    put(file, len, 4);
    put(file, original_len, 4);
    put_frame(file, len);
    end_block(file, begin);
}

static void put_simple_packet(struct file *file, uint32_t len, uint32_t original_len)
{
    size_t begin = begin_block(file, 3);
    put(file, original_len, 4);
    put_frame(file, len);
    end_block(file, begin);
}

static void keep_frame(struct reading *reading, const uint8_t *bytes, const struct wolfaren_record *found, uint64_t end)
{
    struct seen *seen = &reading->frames[reading->count++];
    expect(reading->count <= FRAMES && found->len <= sizeof seen->bytes, "few small frames");
    expect(found->offset + found->len <= found->record_len, "captured bytes lie in the record");
    *seen = (struct seen){found->time, end, found->original_len, found->interface, found->link_type, found->has_time, {0}, found->len};
    memcpy(seen->bytes, bytes + found->offset, found->len);
}

/* Reads the records in the first `len` bytes from where the reading is on, in a copy that ends where its memory ends. */
static void read_on(struct reading *reading, struct wolfaren_capture *capture, const uint8_t *bytes, size_t len)
{
    do {
        size_t left = len - reading->place;
        uint8_t *copy = malloc(left > 0 ? left : 1);
        expect(copy != NULL && capture->offset == reading->place, "memory, and the offset");
        memcpy(copy, bytes + reading->place, left);
        wolfaren_next_record(capture, left > 0 ? copy : NULL, left, &reading->last);
        reading->place += reading->last.record_len;
        if (reading->last.kind == WOLFAREN_NEXT_FRAME) keep_frame(reading, copy, &reading->last, reading->place);
        if (reading->last.kind == WOLFAREN_NEXT_BLOCK) reading->blocks++;
        free(copy);
    } while (reading->last.kind <= WOLFAREN_NEXT_BLOCK);
}

/* Begins to read the first `len` bytes of a file, or returns false if there are fewer than 24. */
static bool begin(struct wolfaren_capture *capture, struct wolfaren_interface *interfaces, const uint8_t *bytes, size_t len)
{
    struct wolfaren_capture_error error;
    *capture = (struct wolfaren_capture){.interfaces = interfaces, .room = INTERFACES, .limit = LIMIT};
    bool has_begun = wolfaren_begin_capture(capture, bytes, len, &error);
    expect(error.kind == WOLFAREN_NO_CAPTURE_ERROR && has_begun == (len >= 24), "24 bytes begin a capture");
    return has_begun;
}

static struct reading read_bytes(const uint8_t *bytes, size_t len)
{
    struct wolfaren_interface interfaces[INTERFACES];
    struct wolfaren_capture capture;
    struct reading reading = {.count = 0};
    if (!begin(&capture, interfaces, bytes, len)) return reading;
    reading.place = (size_t)capture.offset;
    read_on(&reading, &capture, bytes, len);
    return reading;
}

/* A file that is cut at any byte has the frames that end before, and is then at its end, or needs more bytes. */
static void test_cuts(const struct file *file, const struct reading *whole)
{
    for (size_t len = 24; len <= file->len; len++) {
        struct reading reading = read_bytes(file->bytes, len);
        size_t count = 0;
        while (count < whole->count && whole->frames[count].end <= len) count++;
        expect(reading.count == count && memcmp(reading.frames, whole->frames, count * sizeof *whole->frames) == 0, "frames before a cut");
        bool is_ended = reading.last.kind == WOLFAREN_NEXT_ENDED;
        expect(is_ended == (reading.place == len), "the end");
        expect(is_ended || reading.last.kind == WOLFAREN_NEXT_NEEDS, "a truncated record");
        expect(is_ended || reading.last.needed > len - reading.place, "more bytes are needed than are there");
    }
}

/* A file that comes byte by byte has the same frames, and no byte too much is waited for. */
static void test_bytes(const struct file *file, const struct reading *whole)
{
    struct wolfaren_interface interfaces[INTERFACES], moved[INTERFACES];
    struct wolfaren_capture capture;
    struct reading reading = {.count = 0};
    for (size_t len = 0; len <= file->len; len++) {
        if (len <= 24 && !begin(&capture, interfaces, file->bytes, len)) continue;
        if (len == 24) reading.place = (size_t)capture.offset;
        memcpy(moved, interfaces, sizeof moved);
        capture.interfaces = moved;
        size_t count = reading.count;
        read_on(&reading, &capture, file->bytes, len);
        expect(reading.count == count || reading.frames[count].end == len, "a frame is returned as soon as it is there");
        memcpy(interfaces, moved, sizeof moved);
        capture.interfaces = interfaces;
    }
    expect(reading.count == whole->count && memcmp(reading.frames, whole->frames, sizeof reading.frames) == 0, "the frames byte by byte");
    expect(reading.last.kind == whole->last.kind, "the end byte by byte");
}

#ifdef HAS_PCAP

static struct {
    __typeof__(pcap_fopen_offline_with_tstamp_precision) *open;
    __typeof__(pcap_next_ex) *next;
    __typeof__(pcap_close) *close;
} libpcap;

static bool find_libpcap(void)
{
    void *library = dlopen("libpcap.so.0.8", RTLD_NOW);
    if (!library) library = dlopen("libpcap.so.1", RTLD_NOW);
    if (!library) return false;
    *(void **)&libpcap.open = dlsym(library, "pcap_fopen_offline_with_tstamp_precision");
    *(void **)&libpcap.next = dlsym(library, "pcap_next_ex");
    *(void **)&libpcap.close = dlsym(library, "pcap_close");
    return libpcap.open && libpcap.next && libpcap.close;
}

/* libpcap reads the same frames of the first `len` bytes of a file. */
static void test_libpcap(const uint8_t *bytes, size_t len)
{
    struct reading reading = read_bytes(bytes, len);
    char error[PCAP_ERRBUF_SIZE];
    FILE *file = tmpfile();
    expect(file && fwrite(bytes, 1, len, file) == len && fseek(file, 0, SEEK_SET) == 0, "a temporary file");
    pcap_t *handle = libpcap.open(file, PCAP_TSTAMP_PRECISION_NANO, error);
    expect(handle || reading.count == 0, "libpcap opens a file with frames");
    struct pcap_pkthdr *header;
    const u_char *frame;
    size_t count = 0;
    while (handle && libpcap.next(handle, &header, &frame) == 1) {
        const struct seen *seen = &reading.frames[count++];
        expect(count <= reading.count && header->caplen == seen->len && header->len == seen->original_len, "lengths as libpcap reads them");
        expect(memcmp(frame, seen->bytes, seen->len) == 0, "bytes as libpcap reads them");
        uint64_t time = (uint64_t)header->ts.tv_sec * 1000000000 + (uint64_t)header->ts.tv_usec;
        expect(!seen->has_time || time == seen->time, "time as libpcap reads it"); /* libpcap gives simple packets one */
    }
    expect(count == reading.count, "as many frames as libpcap reads");
    if (handle) libpcap.close(handle);
    else fclose(file);
}

static void test_against_libpcap(const struct file *file)
{
    static int is_there = -1;
    if (is_there < 0) is_there = find_libpcap();
    for (size_t len = 24; is_there && len <= file->len; len++) test_libpcap(file->bytes, len);
}

#else

static void test_against_libpcap(const struct file *file)
{
    (void)file;
}

#endif

/* Reads a file in each way, and returns what was read. */
static struct reading test_file(const struct file *file, size_t count, size_t blocks)
{
    struct reading whole = read_bytes(file->bytes, file->len);
    expect(whole.last.kind == WOLFAREN_NEXT_ENDED && whole.place == file->len, "all of a file is read");
    expect(whole.count == count && whole.blocks == blocks, "the number of frames and other blocks");
    test_cuts(file, &whole);
    test_bytes(file, &whole);
    return whole;
}

static void expect_frame(const struct seen *seen, uint64_t time, uint32_t len, uint32_t original_len, uint32_t interface, uint16_t link_type)
{
    expect(seen->has_time == (time > 0) && seen->time == time, "the time");
    expect(seen->len == len && seen->original_len == original_len, "the lengths");
    expect(seen->interface == interface && seen->link_type == link_type, "the interface and the link type");
    for (size_t i = 0; i < len; i++) expect(seen->bytes[i] == len + i, "the captured bytes");
}

static void test_classic_files(void)
{
    static const uint32_t magics[] = {0xa1b2c3d4, 0xa1b23c4d, 0xa1b2cd34};
    for (unsigned i = 0; i < 6; i++) {
        bool is_modified = i / 2 == 2;
        uint64_t unit = i / 2 == 1 ? 1 : 1000;
        struct file file = {.len = 0, .is_big_endian = i % 2};
        put_file_header(&file, magics[i / 2], RAW);
        put_record(&file, 999999, 3, 3, is_modified);
        put_record(&file, 0, 0, 40, is_modified);
        put_record(&file, 7, 40, 1500, is_modified);
        struct reading whole = test_file(&file, 3, 0);
        expect_frame(&whole.frames[0], SECONDS * UINT64_C(1000000000) + 999999 * unit, 3, 3, 0, RAW);
        expect_frame(&whole.frames[1], SECONDS * UINT64_C(1000000000), 0, 40, 0, RAW);
        expect_frame(&whole.frames[2], SECONDS * UINT64_C(1000000000) + 7 * unit, 40, 1500, 0, RAW);
        test_against_libpcap(&file);
    }
}

/* Puts a section with two interfaces, whose clocks have 10^9 and 2^10 ticks a second, a block of addresses and four packets. */
static void put_packets(struct file *file, uint16_t second_link_type)
{
    put_section(file);
    put_interface(file, ETHERNET, 0, 9, 60);
    put_interface(file, second_link_type, 0, 0x8a, (uint64_t)-1);
    end_block(file, begin_block(file, 4));
    put_packet(file, 6, 0, SECONDS * UINT64_C(1000000000) + 5, 21, 21);
    put_packet(file, 6, 1, SECONDS * UINT64_C(1024) + 512, 14, 60);
    put_simple_packet(file, 17, 17);
    put_packet(file, 2, 1, 1024, 4, 4);
}

static void expect_packets(const struct seen *frames, uint16_t second_link_type)
{
    expect_frame(&frames[0], (SECONDS + 60) * UINT64_C(1000000000) + 5, 21, 21, 0, ETHERNET);
    expect_frame(&frames[1], SECONDS * UINT64_C(1000000000) - 500000000, 14, 60, 1, second_link_type);
    expect_frame(&frames[2], 0, 17, 17, 0, ETHERNET);
    expect(frames[3].has_time == 1 && frames[3].time == 0 && frames[3].interface == 1 && frames[3].len == 4, "an obsolete packet");
}

static void test_pcapng_files(void)
{
    for (unsigned order = 0; order < 2; order++) {
        struct file file = {.len = 0, .is_big_endian = order}, sections = {.len = 0, .is_big_endian = order};
        put_packets(&file, ETHERNET);
        expect_packets(test_file(&file, 4, 4).frames, ETHERNET);
        test_against_libpcap(&file);
        put_packets(&sections, RAW);
        sections.is_big_endian = !order;
        put_packets(&sections, RAW);
        struct reading whole = test_file(&sections, 8, 8);
        expect_packets(whole.frames, RAW);
        expect_packets(whole.frames + 4, RAW);
    }
}

/* Reads a file up to an error, which has this kind, place, numbers and text. */
static void expect_error(const struct file *file, uint8_t kind, uint64_t offset, uint64_t value, uint64_t other, const char *text)
{
    char words[WOLFAREN_TEXT_ROOM];
    struct reading reading = read_bytes(file->bytes, file->len);
    const struct wolfaren_capture_error *error = &reading.last.error;
    expect(reading.last.kind == WOLFAREN_NEXT_ERROR && error->kind == kind, text);
    expect(error->offset == offset && error->value == value && error->other == other, text);
    expect(wolfaren_capture_error_text(error, words, sizeof words) == strlen(text) && strcmp(words, text) == 0, text);
}

static void test_bad_blocks(void)
{
    struct file file = {.len = 0}, bad;
    put_section(&file);
    put_interface(&file, ETHERNET, 0, 6, 0);
    bad = file;
    put_packet(&bad, 6, 1, 0, 4, 4);
    expect_error(&bad, WOLFAREN_UNKNOWN_INTERFACE, 48, 1, 0, "block at offset 48 has a packet of interface 1, which isn't described");
    bad = file;
    put_simple_packet(&bad, 4, 9);
    expect_error(&bad, WOLFAREN_LONG_PACKET, 48, 9, 4, "block at offset 48 states 9 captured bytes, 4 are left");
    bad = file;
    put_simple_packet(&bad, 13, 9);
    expect_error(&bad, WOLFAREN_SURPLUS, 48, 9, 16, "block at offset 48 states 9 captured bytes, and 16 are left");
    bad = file;
    end_block(&bad, begin_block(&bad, 4));
    bad.bytes[56]++;
    expect_error(&bad, WOLFAREN_BLOCK_LENGTHS, 48, 12, 13, "block at offset 48 states 12 bytes at its start and 13 at its end");
    bad = file;
    put(&bad, 5, 4);
    put(&bad, 14, 8);
    expect_error(&bad, WOLFAREN_BLOCK_LENGTH, 48, 14, 0, "block at offset 48 states 14 bytes, which is too few or no multiple of 4");
    bad = file;
    put(&bad, 5, 4);
    put(&bad, LIMIT + 4, 8);
    expect_error(&bad, WOLFAREN_LONG_BLOCK, 48, LIMIT + 4, LIMIT, "block at offset 48 states 262148 bytes, more than 262144");
    bad = file;
    for (int i = 0; i < INTERFACES; i++) put_interface(&bad, RAW, 0, 6, 0);
    expect_error(&bad, WOLFAREN_TOO_MANY_INTERFACES, 88, 3, 0,
                 "block at offset 88 describes one interface more than the 3 that there is memory for");
}

/* Puts a block of which the last option states so many bytes, after `fields` bytes of its fields and a whole option. */
static void put_bad_options(struct file *file, uint32_t type, size_t fields, uint16_t len)
{
    size_t begin = begin_block(file, type);
    if (type == 0x0a0d0d0a) {
        put(file, 0x1a2b3c4d, 4);
        put(file, 1, 4);
        fields -= 8;
    }
    memset(file->bytes + file->len, 0, fields);
    file->len += fields;
    put(file, 1, 2);
    put(file, 4, 2);
    put(file, 0x6b6b6b6b, 4);
    put(file, 1, 2);
    put(file, len, 2);
    put(file, 0, 4);
    end_block(file, begin);
}

/* An option that states more bytes than its block has is an error in each block that has options, but not after their end. */
static void test_bad_options(void)
{
    static const struct {
        uint32_t type;
        size_t fields;
    } kinds[] = {{0x0a0d0d0a, 16}, {1, 8}, {5, 12}, {6, 20}, {2, 20}};
    for (size_t i = 0; i < sizeof kinds / sizeof *kinds; i++) {
        struct file file = {.len = 0}, bad;
        put_section(&file);
        put_interface(&file, ETHERNET, 0, 6, 0);
        bad = file;
        put_bad_options(&bad, kinds[i].type, kinds[i].fields, 5);
        expect_error(&bad, WOLFAREN_LONG_OPTION, 48, 5, 4, "block at offset 48 has an option of 5 bytes, 4 are left");
        bad = file;
        put_bad_options(&bad, kinds[i].type, kinds[i].fields, 4);
        expect(read_bytes(bad.bytes, bad.len).last.kind == WOLFAREN_NEXT_ENDED, "whole options");
        bad.bytes[bad.len - 20] = 0; /* the code of the first option */
        bad.bytes[bad.len - 10] = 5;
        expect(read_bytes(bad.bytes, bad.len).last.kind == WOLFAREN_NEXT_ENDED, "bytes after the end of the options");
    }
}

static void test_bad_sections(void)
{
    struct file file = {.len = 0};
    put_section(&file);
    file.bytes[12] = 2;
    expect_error(&file, WOLFAREN_UNKNOWN_SECTION, 0, 2, 0, "block at offset 0 states version 2.0, not 1.0 or 1.2");
    file.bytes[12] = 1;
    file.bytes[14] = 1;
    expect_error(&file, WOLFAREN_UNKNOWN_SECTION, 0, 1, 1, "block at offset 0 states version 1.1, not 1.0 or 1.2");
    file.bytes[8] = 0;
    expect_error(&file, WOLFAREN_UNKNOWN_BYTE_ORDER, 0, 0, 0, "block at offset 0 has no byte-order magic");
}

static void test_bad_records(void)
{
    struct file file = {.len = 0};
    put_file_header(&file, 0xa1b2c3d4, ETHERNET);
    put_record(&file, 0, 4, 4, false);
    put(&file, 0, 8);
    put(&file, 3000000000, 8);
    expect_error(&file, WOLFAREN_LONG_RECORD, 44, 3000000000, LIMIT, "record at offset 44 states 3000000000 bytes, more than 262144");
}

static void expect_no_capture(const struct file *file, uint8_t kind, uint64_t value, const char *text)
{
    char words[WOLFAREN_TEXT_ROOM];
    struct wolfaren_capture capture = {.limit = LIMIT, .offset = 5}, before = capture;
    struct wolfaren_capture_error error;
    expect(!wolfaren_begin_capture(&capture, file->bytes, file->len, &error), text);
    expect(memcmp(&capture, &before, sizeof capture) == 0, "a reader is unchanged");
    expect(error.kind == kind && error.offset == 0 && error.value == value && error.other == 0, text);
    expect(wolfaren_capture_error_text(&error, words, sizeof words) == strlen(text) && strcmp(words, text) == 0, text);
}

static void test_other_files(void)
{
    struct file file = {.len = 0};
    put_file_header(&file, 0xa1b2c3d5, ETHERNET);
    expect_no_capture(&file, WOLFAREN_UNKNOWN_MAGIC, 0, "file header at offset 0 begins with no magic number of capture files");
    file.len = 23;
    expect_no_capture(&file, WOLFAREN_NO_CAPTURE_ERROR, 0, "");
    file = (struct file){.len = 0};
    put_file_header(&file, 0xa1b2c3d4, ETHERNET);
    file.bytes[4] = 3;
    expect_no_capture(&file, WOLFAREN_UNKNOWN_VERSION, 3, "file header at offset 0 states version 3, not 2");
}

/* Any values are a reader: more interfaces than there is memory for are none, and codes have no meaning beyond the last. */
static void test_any_values(void)
{
    struct file file = {.len = 0};
    struct wolfaren_record found;
    put_packet(&file, 6, 0, 0, 4, 4);
    struct wolfaren_capture capture = {.interface_count = SIZE_MAX, .limit = LIMIT, .form = 255};
    wolfaren_next_record(&capture, file.bytes, file.len, &found);
    expect(found.kind == WOLFAREN_NEXT_ERROR && found.error.kind == WOLFAREN_UNKNOWN_INTERFACE, "no memory for interfaces");
}

int main(void)
{
    test_classic_files();
    test_pcapng_files();
    test_bad_blocks();
    test_bad_options();
    test_bad_sections();
    test_bad_records();
    test_other_files();
    test_any_values();
    return 0;
}
