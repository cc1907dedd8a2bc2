/*
 * Tests wolfaren_defragmenter_init, _add, _packet, _give_up, _counts and _clear: packets whose fragments arrive in any order, contexts,
 * timeouts, full and nearly full tables, ECN code points, headers before the fragment header, checksums, the longest packets,
 * memory of any bytes, counts, and memory that is used only as far as packets need it.
 */
#define _DEFAULT_SOURCE

#include "wolfaren.h"

#include <stdio.h>
#include <stdlib.h>
#include <string.h>
#include <sys/mman.h>

enum { SLOTS = 4096, PIECES = 3, PIECE = 16, PIECE_LEN = 40 + 8 + PIECE };

static const uint64_t second = 1000000000;

static struct wolfaren_defragmenter *defragmenter;
static void *space;
static size_t space_len;

static void expect(bool holds, const char *what)
{
    if (holds) return;
    fprintf(stderr, "defragmenter: failed: %s\n", what);
    exit(1);
}

/* Returns memory of zeros of which no page is used. */
static void *reserve(size_t len)
{
    void *memory = mmap(NULL, len, PROT_READ | PROT_WRITE, MAP_PRIVATE | MAP_ANONYMOUS | MAP_NORESERVE, -1, 0);
    expect(memory != MAP_FAILED, "memory");
    madvise(memory, len, MADV_NOHUGEPAGE); /* pages of 4,096 bytes are counted */
    return memory;
}

/* Begins anew, with so many slots in fresh memory. */
static void begin(size_t slots)
{
    static const uint64_t seed[2] = {0x0123456789abcdef, 0xfedcba9876543210};
    if (space != NULL) munmap(space, space_len);
    space_len = wolfaren_defragmenter_size(slots);
    space = reserve(space_len);
    defragmenter = wolfaren_defragmenter_init(space, space_len, seed);
    expect((void *)defragmenter == space && defragmenter->slot_count == slots, "a defragmenter at the start of its memory");
    expect(defragmenter->settings.timeout == WOLFAREN_DEFAULT_TIMEOUT, "the timeout by default");
    expect(wolfaren_defragmenter_counts(defragmenter)->outcomes[WOLFAREN_NOT_FRAGMENT] == 0, "counts of nothing");
}

/* Writes a piece of an IPv6 packet with this identification: its payload has the bytes from 0 on (RFC 8200, section 4.5). */
static void write_piece(uint8_t *bytes, uint32_t identification, unsigned piece)
{
    unsigned offset = piece * PIECE | (piece < PIECES - 1 ? 1 : 0);
    memset(bytes, 0, PIECE_LEN);
    bytes[0] = 0x60;
    bytes[5] = 8 + PIECE;
    bytes[6] = 44;
    bytes[40] = 17;
    bytes[42] = (uint8_t)(offset >> 8);
    bytes[43] = (uint8_t)offset;
    for (int i = 0; i < 4; i++) bytes[44 + i] = (uint8_t)(identification >> (24 - 8 * i));
    for (unsigned i = 0; i < PIECE; i++) bytes[48 + i] = (uint8_t)(piece * PIECE + i);
}

/* Adds bytes that end where their memory ends, so that the sanitizer sees any byte read after them. */
static struct wolfaren_added add_in(uint32_t context, uint64_t time, const uint8_t *packet, size_t len)
{
    struct wolfaren_added added = {99, 99, 99};
    uint8_t *bytes = malloc(len > 0 ? len : 1);
    expect(bytes != NULL, "memory");
    memcpy(bytes, packet, len);
    wolfaren_defragmenter_add(defragmenter, context, len > 0 ? bytes : NULL, len, time, &added);
    free(bytes);
    return added;
}

static struct wolfaren_added add(uint64_t time, const uint8_t *packet, size_t len)
{
    return add_in(0, time, packet, len);
}

static struct wolfaren_added add_piece(uint64_t time, uint32_t identification, unsigned piece)
{
    uint8_t bytes[PIECE_LEN];
    write_piece(bytes, identification, piece);
    return add(time, bytes, sizeof bytes);
}

/* Whether a memory writes the whole packet, and needs exactly as many bytes as it writes. */
static bool is_whole(size_t slot)
{
    uint8_t out[40 + PIECES * PIECE + 1], wanted[40 + PIECES * PIECE] = {0x60, [5] = PIECES * PIECE, [6] = 17};
    size_t written = 99;
    for (unsigned i = 0; i < PIECES * PIECE; i++) wanted[40 + i] = (uint8_t)i;
    memset(out, 0xa5, sizeof out);
    if (wolfaren_defragmenter_packet(defragmenter, slot, out, sizeof wanted - 1, &written) || written != 0 || out[0] != 0xa5) return false;
    return wolfaren_defragmenter_packet(defragmenter, slot, out, sizeof wanted, &written) && written == sizeof wanted
        && memcmp(out, wanted, sizeof wanted) == 0 && out[sizeof wanted] == 0xa5;
}

static void test_orders(void)
{
    static const uint8_t orders[6][PIECES] = {{0, 1, 2}, {0, 2, 1}, {1, 0, 2}, {1, 2, 0}, {2, 0, 1}, {2, 1, 0}};
    begin(1);
    for (unsigned i = 0; i < 6; i++) {
        for (unsigned j = 0; j < PIECES; j++) {
            struct wolfaren_added added = add_piece(i, i, orders[i][j]);
            expect(added.slot == 0 && added.loss == WOLFAREN_NO_LOSS, "the only slot");
            expect(added.outcome == (j < PIECES - 1 ? WOLFAREN_MORE_WANTED : WOLFAREN_WHOLE), "the outcome of a piece");
        }
        expect(is_whole(0), "the whole packet");
    }
    expect(defragmenter->counts->outcomes[WOLFAREN_MORE_WANTED] == 12 && defragmenter->counts->outcomes[WOLFAREN_WHOLE] == 6, "counts of outcomes");
    expect(defragmenter->counts->losses[WOLFAREN_NO_LOSS] == 18 && defragmenter->counts->losses[WOLFAREN_DISPLACED] == 0, "counts of losses");
}

static void test_losses(void)
{
    begin(2);
    defragmenter->counts->outcomes[WOLFAREN_MORE_WANTED] = UINT64_MAX - 1;
    add_piece(7, 1, 0);
    expect(add_piece(5, 2, 0).slot == 1, "a free slot");
    struct wolfaren_added added = add_piece(8, 3, 0);
    expect(added.slot == 0 && added.loss == WOLFAREN_DISPLACED, "the packet that had its slot longest is given up");
    added = add_piece(8 + 60 * second, 3, 1);
    expect(added.slot == 0 && added.loss == WOLFAREN_NO_LOSS, "a packet after 60 seconds");
    added = add_piece(8 + 60 * second, 2, 1);
    expect(added.slot == 1 && added.loss == WOLFAREN_TIMED_OUT, "a packet after more than 60 seconds");
    expect(defragmenter->counts->outcomes[WOLFAREN_MORE_WANTED] == UINT64_MAX, "a count stops at the largest number");
    expect(defragmenter->counts->losses[WOLFAREN_TIMED_OUT] == 1 && defragmenter->counts->losses[WOLFAREN_DISPLACED] == 1, "counts of losses");
}

static void test_give_up(void)
{
    begin(2);
    add_piece(7, 1, 0);
    expect(!wolfaren_defragmenter_give_up(defragmenter, 0, 7 + 60 * second), "a packet after 60 seconds");
    expect(add_piece(7 + 60 * second, 1, 1).slot == 0, "the packet is still there");
    expect(wolfaren_defragmenter_give_up(defragmenter, 0, 8 + 60 * second), "a packet after more than 60 seconds");
    for (size_t i = 0; i < 3; i++)
        expect(!wolfaren_defragmenter_give_up(defragmenter, i, UINT64_MAX), "free slots, and one that isn't there");
    expect(defragmenter->counts->losses[WOLFAREN_TIMED_OUT] == 1 && defragmenter->counts->losses[WOLFAREN_DISPLACED] == 0, "one loss");
    expect(add_piece(8 + 60 * second, 1, 2).loss == WOLFAREN_NO_LOSS, "a free slot again");
    begin(1);
    add_piece(0, 1, 0);
    expect(!wolfaren_defragmenter_give_up(defragmenter, 0, 60 * second), "a packet of time 0 after 60 seconds");
    expect(wolfaren_defragmenter_give_up(defragmenter, 0, 1 + 60 * second), "a packet of time 0 after more than 60 seconds");
}

/* The caller says when packets are given up. Times may go backwards. */
static void test_timeout(void)
{
    begin(1);
    defragmenter->settings.timeout = 5;
    add_piece(10, 1, 0);
    expect(add_piece(15, 1, 1).loss == WOLFAREN_NO_LOSS, "a packet at the timeout");
    expect(add_piece(5, 1, 1).loss == WOLFAREN_NO_LOSS, "a fragment that arrived earlier");
    expect(add_piece(16, 1, 1).loss == WOLFAREN_TIMED_OUT, "a packet after the timeout");
    expect(add_piece(10, 1, 0).loss == WOLFAREN_TIMED_OUT, "a packet from the future");
    defragmenter->settings.timeout = 7;
    expect(!wolfaren_defragmenter_give_up(defragmenter, 0, 17) && !wolfaren_defragmenter_give_up(defragmenter, 0, 3),
           "at another timeout");
    expect(wolfaren_defragmenter_give_up(defragmenter, 0, 18), "after another timeout");
    add_piece(10, 1, 0);
    expect(wolfaren_defragmenter_give_up(defragmenter, 0, 2), "a packet from the future");
}

/* Fragments join only others of their context. */
static void test_contexts(void)
{
    uint8_t bytes[PIECE_LEN];
    begin(8);
    for (unsigned piece = 0; piece < PIECES; piece++) {
        write_piece(bytes, 1, piece);
        struct wolfaren_added added = add_in(piece == PIECES - 1 ? 6 : 5, 0, bytes, sizeof bytes);
        expect(added.outcome == WOLFAREN_MORE_WANTED, "a fragment in another context");
        expect(defragmenter->slots[added.slot].context == (piece == PIECES - 1 ? 6 : 5), "the context of a slot");
    }
    struct wolfaren_added added = add_in(5, 0, bytes, sizeof bytes);
    expect(added.outcome == WOLFAREN_WHOLE && is_whole(added.slot), "a whole packet of one context");
    for (unsigned piece = 0; piece < PIECES - 1; piece++) {
        write_piece(bytes, 1, piece);
        added = add_in(6, 0, bytes, sizeof bytes);
    }
    expect(added.outcome == WOLFAREN_WHOLE && is_whole(added.slot), "a whole packet of the other context");
    expect(defragmenter->counts->losses[WOLFAREN_NO_LOSS] == 2 * PIECES, "no losses");
}

static void test_outcomes(void)
{
    uint8_t bytes[PIECE_LEN];
    begin(1);
    expect(add(0, bytes, 0).outcome == WOLFAREN_NOT_FRAGMENT, "no bytes");
    write_piece(bytes, 1, 0);
    expect(add(0, bytes, PIECE_LEN - 1).outcome == WOLFAREN_BYTES_MISSING, "a byte is missing");
    bytes[40] = 60;
    bytes[49] = 9;
    expect(add(0, bytes, PIECE_LEN).outcome == WOLFAREN_FAULTY_FRAGMENT, "faulty headers");
    bytes[4] = bytes[5] = 0;
    bytes[40] = 17;
    expect(add(0, bytes, PIECE_LEN).outcome == WOLFAREN_NO_STATED_LENGTH, "no length");
    write_piece(bytes, 1, 0);
    bytes[5]--;
    expect(add(0, bytes, PIECE_LEN).outcome == WOLFAREN_UNALIGNED, "a length that isn't a multiple of 8");
    write_piece(bytes, 1, PIECES - 1);
    bytes[42] = bytes[43] = 0xf8 | 0x07;
    bytes[43] = 0xf8;
    expect(add(0, bytes, PIECE_LEN).outcome == WOLFAREN_TOO_LONG, "a payload that is too long");
    expect(add_piece(0, 1, 1).outcome == WOLFAREN_MORE_WANTED, "a piece");
    expect(add_piece(0, 1, 1).outcome == WOLFAREN_MORE_WANTED, "a repetition");
    write_piece(bytes, 1, 0);
    bytes[43] = 0;
    bytes[42] = 0;
    bytes[5] = 8 + 8;
    expect(add(0, bytes, PIECE_LEN).outcome == WOLFAREN_NOT_FRAGMENT, "an atomic fragment");
    write_piece(bytes, 1, 1);
    bytes[48] = 0xff;
    expect(add(0, bytes, PIECE_LEN).outcome == WOLFAREN_OVERLAP, "an overlap");
    expect(add_piece(0, 1, 0).outcome == WOLFAREN_ABANDONED, "a packet that was abandoned");
    expect(add_piece(0, 2, 2).loss == WOLFAREN_DISPLACED, "another packet");
    write_piece(bytes, 2, 2);
    bytes[43] = 3 * PIECE;
    expect(add(0, bytes, PIECE_LEN).outcome == WOLFAREN_TWO_ENDS, "two ends");
    expect(add_piece(0, 3, 0).loss == WOLFAREN_DISPLACED, "a third packet");
    write_piece(bytes, 3, 1);
    bytes[1] = 0x10;
    expect(add(0, bytes, PIECE_LEN).outcome == WOLFAREN_MIXED_ECN, "a fragment that is ECN-capable");
    for (size_t i = 0; i < 14; i++)
        expect(defragmenter->counts->outcomes[i] == (i == WOLFAREN_WHOLE || i == WOLFAREN_HEADERS_TOO_LONG || i == WOLFAREN_NO_SLOT ? 0
                                      : i == WOLFAREN_MORE_WANTED                            ? 4
                                      : i == 0                                              ? 2
                                                                                            : 1),
               "counts of outcomes");
    begin(0);
    expect(add(0, bytes, PIECE_LEN).outcome == WOLFAREN_NO_SLOT, "no slots");
    expect(defragmenter->counts->outcomes[WOLFAREN_NO_SLOT] == 1, "a count of no slots");
}

/* What became of packets has a text for each code, and for no other. */
static void test_texts(void)
{
    static const char *const outcomes[] = {
        "the packet is not a fragment", "fragments of the packet are missing", "the packet is whole",
        "the headers of the fragment are truncated or faulty", "the fragment states no length", "bytes of the fragment are missing",
        "the length of a fragment that is not the last is not a positive multiple of 8",
        "the payload is longer than 65535 bytes or than the buffer", "the fragment overlaps another one",
        "the fragments have two ends", "the packet was abandoned", "the headers of the first fragment are longer than the buffer",
        "there are no slots", "some fragments of the packet are ECN-capable, and others are not"};
    static const char *const losses[] = {"", "the packet was not whole in time", "all slots were in use, and the packet was the oldest"};
    char text[WOLFAREN_TEXT_ROOM];
    for (unsigned i = 0; i < 256; i++) {
        const char *outcome = i < sizeof outcomes / sizeof *outcomes ? outcomes[i] : "";
        const char *loss = i < sizeof losses / sizeof *losses ? losses[i] : "";
        expect(wolfaren_outcome_text((uint8_t)i, text, sizeof text) == strlen(outcome) && strcmp(text, outcome) == 0, outcome);
        expect(wolfaren_loss_text((uint8_t)i, text, sizeof text) == strlen(loss) && strcmp(text, loss) == 0, loss);
    }
    text[0] = 'x';
    expect(wolfaren_outcome_text(WOLFAREN_WHOLE, text, 19) == 19 && text[0] == 'x', "a text without room");
    expect(wolfaren_outcome_text(WOLFAREN_WHOLE, NULL, 0) == 19, "a text without any room");
}

/* A fragment that is refused by itself takes no slot, so that no packet is given up for it. */
static void test_refused(void)
{
    static uint8_t bytes[40 + 2 * 2048 + 8 + PIECE];
    begin(1);
    add_piece(0, 1, 0);
    struct wolfaren_slot before = defragmenter->slots[0];
    write_piece(bytes, 2, 0);
    bytes[5]--;
    struct wolfaren_added added = add(1, bytes, PIECE_LEN);
    expect(added.outcome == WOLFAREN_UNALIGNED && added.loss == WOLFAREN_NO_LOSS, "an unaligned fragment");
    write_piece(bytes, 2, PIECES - 1);
    bytes[42] = 0xff;
    bytes[43] = 0xf8;
    added = add(1, bytes, PIECE_LEN);
    expect(added.outcome == WOLFAREN_TOO_LONG && added.loss == WOLFAREN_NO_LOSS, "a fragment that ends too late");
    memset(bytes, 0, sizeof bytes);
    bytes[0] = 0x60;
    bytes[4] = (2 * 2048 + 8 + PIECE) >> 8;
    bytes[5] = (2 * 2048 + 8 + PIECE) & 0xff;
    bytes[6] = bytes[40] = 60;
    bytes[41] = bytes[40 + 2048 + 1] = 255;
    bytes[40 + 2048] = 44;
    bytes[40 + 2 * 2048] = 17;
    bytes[40 + 2 * 2048 + 3] = 1;
    added = add(1, bytes, sizeof bytes);
    expect(added.outcome == WOLFAREN_HEADERS_TOO_LONG && added.loss == WOLFAREN_NO_LOSS, "headers of 4,136 bytes");
    expect(memcmp(&before, &defragmenter->slots[0], sizeof before) == 0, "the slot is the other packet's");
    add_piece(1, 1, 1);
    expect(add_piece(1, 1, 2).outcome == WOLFAREN_WHOLE && is_whole(0), "the other packet");
}

/* Returns the checksum of a header in which its field is 0: the complement of the sum of its words (RFC 791, section 3.1). */
static unsigned checksum_of(const uint8_t *header, size_t len)
{
    unsigned sum = 0;
    for (size_t i = 0; i < len; i += 2) sum += (unsigned)header[i] << 8 | header[i + 1];
    while (sum > 0xffff) sum = (sum & 0xffff) + (sum >> 16);
    return ~sum & 0xffff;
}

/*
 * Writes the header of an IPv4 packet, with options that do nothing if it is longer than 20 bytes. `field` is the field with
 * the fragment offset.
 */
static void write_ipv4(uint8_t *bytes, size_t header_len, size_t payload_len, unsigned point, unsigned field)
{
    size_t len = header_len + payload_len;
    const uint8_t header[20] = {(uint8_t)(0x40 | header_len / 4), (uint8_t)(0x28 | point), (uint8_t)(len >> 8), (uint8_t)len,
                                0xab, 0xcd, (uint8_t)(field >> 8), (uint8_t)field, 64, 17, 0, 0, 192, 0, 2, 1, 192, 0, 2, 2};
    memcpy(bytes, header, sizeof header);
    memset(bytes + sizeof header, 1, header_len - sizeof header);
    unsigned checksum = checksum_of(bytes, header_len);
    bytes[10] = (uint8_t)(checksum >> 8);
    bytes[11] = (uint8_t)checksum;
}

/* Writes the base header of an IPv6 packet. */
static void write_ipv6(uint8_t *bytes, unsigned point, unsigned number, size_t len)
{
    memset(bytes, 0, 40);
    bytes[0] = 0x62;
    bytes[1] = (uint8_t)(0x81 | point << 4);
    bytes[2] = 0x23;
    bytes[3] = 0x45;
    bytes[5] = (uint8_t)len;
    bytes[6] = (uint8_t)number;
}

/* Writes one of two fragments with this ECN code point. Returns its length. */
static size_t write_half(uint8_t *bytes, unsigned version, unsigned half, unsigned point)
{
    size_t start = version == 4 ? 20 : 48;
    if (version == 4) write_ipv4(bytes, start, PIECE, point, half == 0 ? 0x2000 : PIECE / 8);
    if (version == 6) {
        const uint8_t header[8] = {17, 0, 0, half == 0 ? 1 : PIECE, 1, 2, 3, 4};
        write_ipv6(bytes, point, 44, 8 + PIECE);
        memcpy(bytes + 40, header, sizeof header);
    }
    for (size_t i = 0; i < PIECE; i++) bytes[start + i] = (uint8_t)(half * PIECE + i);
    return start + PIECE;
}

/* Whether a memory has the packet of two halves, with this ECN code point. */
static bool is_joined(size_t slot, unsigned version, unsigned point)
{
    uint8_t out[40 + 2 * PIECE], wanted[40 + 2 * PIECE];
    size_t start = version == 4 ? 20 : 40, written;
    if (version == 4) write_ipv4(wanted, start, 2 * PIECE, point, 0);
    if (version == 6) write_ipv6(wanted, point, 17, 2 * PIECE);
    for (size_t i = 0; i < 2 * PIECE; i++) wanted[start + i] = (uint8_t)i;
    return wolfaren_defragmenter_packet(defragmenter, slot, out, sizeof out, &written) && written == start + 2 * PIECE
        && memcmp(out, wanted, written) == 0;
}

enum { NOT_ECT, ECT_1, ECT_0, CE, MIXED };

/* The code point of a packet, by those of its first fragment and of its last one (RFC 3168, section 5.3). */
static const unsigned points[4][4] = {
    [NOT_ECT] = {[NOT_ECT] = NOT_ECT, [ECT_1] = MIXED, [ECT_0] = MIXED, [CE] = MIXED},
    [ECT_1] = {[NOT_ECT] = MIXED, [ECT_1] = ECT_1, [ECT_0] = ECT_1, [CE] = CE},
    [ECT_0] = {[NOT_ECT] = MIXED, [ECT_1] = ECT_0, [ECT_0] = ECT_0, [CE] = CE},
    [CE] = {[NOT_ECT] = MIXED, [ECT_1] = CE, [ECT_0] = CE, [CE] = CE},
};

/* Adds two fragments with these code points, the one with the index `before` first. */
static void test_pair(unsigned version, unsigned first, unsigned last, unsigned before)
{
    uint8_t bytes[48 + PIECE];
    begin(1);
    size_t len = write_half(bytes, version, before, before == 0 ? first : last);
    expect(add(0, bytes, len).outcome == WOLFAREN_MORE_WANTED, "the first one to arrive");
    len = write_half(bytes, version, 1 - before, before == 0 ? last : first);
    struct wolfaren_added added = add(0, bytes, len);
    expect(added.slot == 0, "the slot of the packet");
    if (points[first][last] < MIXED) {
        expect(added.outcome == WOLFAREN_WHOLE && is_joined(0, version, points[first][last]), "the code point of a packet");
        return;
    }
    expect(added.outcome == WOLFAREN_MIXED_ECN && !is_joined(0, version, first), "fragments that aren't joined");
    len = write_half(bytes, version, before, before == 0 ? first : last);
    expect(add(0, bytes, len).outcome == WOLFAREN_ABANDONED, "their packet is abandoned");
    expect(defragmenter->counts->outcomes[WOLFAREN_MIXED_ECN] == 1 && defragmenter->counts->outcomes[WOLFAREN_WHOLE] == 0, "counts of mixed code points");
}

static void test_ecn(void)
{
    for (unsigned i = 0; i < 64; i++) test_pair(i % 2 == 0 ? 4 : 6, i / 2 % 4, i / 8 % 4, i / 32);
}

enum { MOST_HEADERS = 5, OWN_DATA = 8 };

/*
 * Writes one of two fragments of an IPv6 packet with so many extension headers before the fragment header, or the whole packet
 * (RFC 8200, sections 4.1 and 4.5): hop-by-hop options, destination options, a routing header and again destination options,
 * of 8 bytes each. Returns its length.
 */
static size_t write_chain(uint8_t *bytes, unsigned headers, int half)
{
    static const uint8_t numbers[MOST_HEADERS] = {0, 60, 43, 60, 60};
    size_t at = 40, len = half < 0 ? 2 * OWN_DATA : OWN_DATA;
    unsigned last = half < 0 ? 17 : 44, fragment_len = half < 0 ? 0 : 8;
    write_ipv6(bytes, 0, headers > 0 ? numbers[0] : last, 8 * headers + fragment_len + len);
    for (unsigned i = 0; i < headers; i++, at += 8) {
        const uint8_t options[8] = {0, 0, 1, 4}, routing[8] = {0, 0, 253, 0, 0, 0, 0, 7};
        memcpy(bytes + at, numbers[i] == 43 ? routing : options, 8);
        bytes[at] = (uint8_t)(i + 1 < headers ? numbers[i + 1] : last);
    }
    const uint8_t header[8] = {17, 0, 0, half == 0 ? 1 : OWN_DATA, 0x80, 0, 0, 1};
    memcpy(bytes + at, header, fragment_len);
    at += fragment_len;
    for (size_t i = 0; i < len; i++) bytes[at + i] = (uint8_t)(half == 1 ? OWN_DATA + i : i);
    return at + len;
}

/* The headers of the first fragment, up to 80 bytes, are those of the packet, whichever others the last one has. */
static void test_headers(void)
{
    uint8_t bytes[40 + 8 * MOST_HEADERS + 8 + OWN_DATA], wanted[40 + 8 * MOST_HEADERS + 2 * OWN_DATA], out[sizeof wanted];
    for (unsigned i = 0; i < 2 * (MOST_HEADERS + 1) * (MOST_HEADERS + 1); i++) {
        const unsigned headers[2] = {i / 2 % (MOST_HEADERS + 1), i / 2 / (MOST_HEADERS + 1)};
        int before = (int)(i % 2);
        size_t written;
        begin(1);
        size_t len = write_chain(bytes, headers[before], before);
        expect(add(0, bytes, len).outcome == WOLFAREN_MORE_WANTED, "the first one to arrive");
        len = write_chain(bytes, headers[1 - before], 1 - before);
        expect(add(0, bytes, len).outcome == WOLFAREN_WHOLE, "a packet with headers");
        len = write_chain(wanted, headers[0], -1);
        expect(wolfaren_defragmenter_packet(defragmenter, 0, out, sizeof out, &written) && written == len && memcmp(out, wanted, len) == 0,
               "the headers of the first fragment");
    }
}

/*
 * The words of a whole packet's header, 0x4500, 0x0034, 0x4011, 0xc000, 0x0201, 0xc000 and 0x0202, have the sum 0x094a in ones'
 * complement. With an identification of 0xf6b5 it is 0xffff, whose complement is 0 (RFC 1071, section 1). The checksum is never
 * 0xffff, which only a header of zeros would have (RFC 1624, section 3): with one more the sum is 1.
 */
static void test_checksums(void)
{
    static const struct {
        uint8_t identification[2], checksum[2];
    } rows[] = {{{0xf6, 0xb4}, {0x00, 0x01}}, {{0xf6, 0xb5}, {0x00, 0x00}}, {{0xf6, 0xb6}, {0xff, 0xfe}}, {{0xf6, 0xb7}, {0xff, 0xfd}}};
    for (size_t i = 0; i < sizeof rows / sizeof *rows; i++) {
        uint8_t bytes[20 + PIECE], out[20 + 2 * PIECE];
        size_t written;
        begin(1);
        for (unsigned half = 0; half < 2; half++) {
            write_ipv4(bytes, 20, PIECE, 0, half == 0 ? 0x2000 : PIECE / 8);
            bytes[1] = 0;
            memset(bytes + 20, 0, PIECE);
            memcpy(bytes + 4, rows[i].identification, 2);
            expect(add(0, bytes, sizeof bytes).outcome == (half == 0 ? WOLFAREN_MORE_WANTED : WOLFAREN_WHOLE), "a half of a packet");
        }
        const uint8_t wanted[20] = {0x45, 0, 0, 0x34, rows[i].identification[0], rows[i].identification[1], 0, 0, 64, 17,
                                    rows[i].checksum[0], rows[i].checksum[1], 192, 0, 2, 1, 192, 0, 2, 2};
        expect(wolfaren_defragmenter_packet(defragmenter, 0, out, sizeof out, &written) && written == sizeof out, "a whole packet");
        expect(memcmp(out, wanted, sizeof wanted) == 0, "the checksum");
    }
}

enum { MIDDLE = 32760 };

/* Adds one of two fragments of an IPv4 packet, the second of which begins at MIDDLE. */
static struct wolfaren_added add_long(unsigned half, size_t header_len, size_t end)
{
    static uint8_t bytes[60 + 65535];
    size_t len = half == 0 ? MIDDLE : end - MIDDLE;
    memset(bytes, 0, sizeof bytes);
    write_ipv4(bytes, header_len, len, 0, half == 0 ? 0x2000 : MIDDLE / 8);
    return add(0, bytes, header_len + len);
}

/* The header and the payload of an IPv4 packet have at most 65,535 bytes (RFC 791, section 3.1). */
static void test_long_packets(void)
{
    static uint8_t out[WOLFAREN_WHOLE_PACKET_ROOM];
    size_t written;
    for (unsigned before = 0; before < 2; before++) {
        begin(1);
        add_long(before, 20, 65515);
        expect(add_long(1 - before, 20, 65515).outcome == WOLFAREN_WHOLE, "the longest packet");
        expect(wolfaren_defragmenter_packet(defragmenter, 0, out, sizeof out, &written) && written == 65535, "its length");
        for (size_t end = 65516; end <= 65520; end++) {
            const uint8_t outcomes[2] = {WOLFAREN_MORE_WANTED, WOLFAREN_TOO_LONG};
            expect(add_long(before, 20, end).outcome == outcomes[before], "a packet that is too long");
            expect(add_long(1 - before, 20, end).outcome == outcomes[1 - before], "a packet that is too long");
        }
        begin(1);
        expect(add_long(before, before == 0 ? 24 : 20, 65515).outcome == WOLFAREN_MORE_WANTED, "half of a packet with options");
        struct wolfaren_added added = add_long(1 - before, before == 0 ? 20 : 24, 65515);
        expect(added.outcome == WOLFAREN_TOO_LONG && added.slot == 0, "too long with the options of the first fragment");
        expect(!wolfaren_defragmenter_packet(defragmenter, 0, out, sizeof out, &written), "a packet that isn't whole");
    }
}

/* Slots, links and memories may have any bytes: each call returns, and stays within the memory. */
static void test_any_bytes(void)
{
    uint8_t out[64];
    size_t written;
    srand(1);
    for (int round = 0; round < 400; round++) {
        if (round % 40 == 0) begin(5);
        uint8_t *bytes = (uint8_t *)defragmenter->slots;
        size_t len = (size_t)((uint8_t *)defragmenter->memories - bytes);
        for (size_t i = 0; i < len; i++)
            if (rand() % (round % 40 + 1) == 0) bytes[i] = (uint8_t)(round % 2 ? rand() % 9 : rand());
        bytes = (uint8_t *)defragmenter->memories;
        for (size_t i = 0; i < sizeof *defragmenter->memories / 8; i++)
            bytes[rand() % (long)sizeof *defragmenter->memories] = (uint8_t)rand();
        if (round % 2) memset(bytes, round % 4 == 1 ? 0xff : 0, 64);
        for (unsigned piece = 0; piece < PIECES; piece++) add_piece((uint64_t)rand(), 1 + (uint32_t)rand() % 2, piece);
        wolfaren_defragmenter_give_up(defragmenter, (size_t)rand() % 6, (uint64_t)rand());
        if (wolfaren_defragmenter_packet(defragmenter, 0, out, sizeof out, &written)) expect(written <= sizeof out, "the length");
    }
    expect(wolfaren_defragmenter_clear(defragmenter), "free slots again");
    for (uint32_t i = 0; i < 5; i++) expect(add_piece(0, 100 + i, 0).slot == i, "one slot after another");
}

/* A packet is given up only if all slots are in use, whatever the hashes. */
static void test_nearly_full(void)
{
    begin(SLOTS);
    for (uint32_t i = 0; i < SLOTS - 1; i++) add_piece(0, 40000 + i, 0);
    for (uint32_t i = 0; i < 64; i++) {
        add_piece(0, i, 0);
        add_piece(0, i, 2);
        expect(add_piece(0, i, 1).outcome == WOLFAREN_WHOLE, "a whole packet among many");
    }
    for (uint32_t i = 0; i < SLOTS - 1; i++) add_piece(0, 40000 + i, 1);
    expect(defragmenter->counts->losses[WOLFAREN_DISPLACED] == 0, "no losses");
    for (uint32_t i = 0; i < SLOTS - 1; i++) expect(add_piece(0, 40000 + i, 2).outcome == WOLFAREN_WHOLE, "each of them is whole");
}

enum { EACH = 150, FIRST_LEN = 20 + PIECE, LAST_LEN = 20 + 2 };

/* Adds one of two fragments of the IPv4 packet with this identification, which the last one also has as its bytes. */
static struct wolfaren_added add_numbered(unsigned identification, unsigned half)
{
    uint8_t bytes[FIRST_LEN] = {0};
    write_ipv4(bytes, 20, half == 0 ? PIECE : 2, 0, half == 0 ? 0x2000 : PIECE / 8);
    bytes[4] = (uint8_t)(identification >> 8);
    bytes[5] = (uint8_t)identification;
    if (half == 1) memcpy(bytes + 20, bytes + 4, 2);
    return add(0, bytes, half == 0 ? FIRST_LEN : LAST_LEN);
}

/* Hundreds of packets are incomplete at once, whose identifications differ only in one bit, also the highest one. */
static void test_identifications(void)
{
    static const unsigned bits[4] = {0, 0x100, 0x4000, 0x8000};
    uint8_t out[20 + PIECE + 2];
    size_t written;
    begin(4 * EACH);
    for (unsigned i = 0; i < 4 * EACH; i++)
        expect(add_numbered(bits[i % 4] | i / 4, 0).slot == i, "a slot for each packet");
    for (unsigned i = 4 * EACH; i-- > 0;) {
        struct wolfaren_added added = add_numbered(bits[i % 4] | i / 4, 1);
        expect(added.outcome == WOLFAREN_WHOLE && added.slot == i && added.loss == WOLFAREN_NO_LOSS, "the packet of its slot");
        expect(wolfaren_defragmenter_packet(defragmenter, i, out, sizeof out, &written) && written == sizeof out, "a whole packet");
        expect((out[4] << 8 | out[5]) == (int)(bits[i % 4] | i / 4) && memcmp(out + 4, out + 20 + PIECE, 2) == 0, "its own last fragment");
    }
}

/* Memory that isn't enough, or not aligned, is refused. */
static void test_memory(void)
{
    static const uint64_t seed[2] = {1, 2};
    static uint64_t words[64];
    size_t none = wolfaren_defragmenter_size(0), one = wolfaren_defragmenter_size(1);
    expect(none <= sizeof words && one > sizeof(struct wolfaren_packet_memory), "sizes");
    expect(wolfaren_defragmenter_size(SIZE_MAX) == SIZE_MAX && wolfaren_defragmenter_size(SIZE_MAX / 1000) == SIZE_MAX, "large sizes");
    expect(wolfaren_defragmenter_init(words, none - 1, seed) == NULL, "memory that isn't enough");
    expect(wolfaren_defragmenter_init((uint8_t *)words + 4, none + 8, seed) == NULL, "memory that isn't aligned");
    expect(words[0] == 0 && words[1] == 0, "nothing is written");
    struct wolfaren_defragmenter *made = wolfaren_defragmenter_init(words, one - 1 < sizeof words ? one - 1 : sizeof words, seed);
    expect(made != NULL && made->slot_count == 0, "memory for no slot");
}

/* Wherever the memory begins, those of packets are within it, and begin at multiples of 1,024. */
static void test_places(void)
{
    static const uint64_t seed[2] = {1, 2};
    for (size_t slots = 1; slots < 40; slots++) {
        for (size_t start = 0; start < 4096; start += slots < 4 ? 8 : 1032) {
            size_t len = wolfaren_defragmenter_size(slots);
            uint8_t *memory = reserve(start + len);
            struct wolfaren_defragmenter *made = wolfaren_defragmenter_init(memory + start, len - 1, seed);
            expect(made != NULL && made->slot_count == slots - 1, "memory for one slot less");
            made = wolfaren_defragmenter_init(memory + start, len, seed);
            expect(made != NULL && made->slot_count == slots && made->memory_count == slots, "memory for the slots");
            expect((uintptr_t)made->memories % 1024 == 0, "a multiple of 1,024");
            expect(sizeof(size_t) < 8 || sizeof *made->memories % 1024 == 0, "multiples of 1,024");
            expect((uint8_t *)made->memories >= (uint8_t *)(made->chains.previous + made->chains.previous_count), "after the links");
            expect((uint8_t *)(made->memories + slots) <= memory + start + len, "within the memory");
            munmap(memory, start + len);
        }
    }
}

/* Returns how many pages with some of these bytes are used. */
static size_t used_pages(const void *start, size_t len)
{
    size_t before = (uintptr_t)start % 4096, pages = (before + len + 4095) / 4096, used = 0;
    unsigned char *residents = malloc(pages);
    expect(residents != NULL && mincore((uint8_t *)start - before, before + len, residents) == 0, "pages");
    for (size_t i = 0; i < pages; i++) used += residents[i] & 1;
    free(residents);
    return used;
}

/* A flood of fragments uses one page for each slot. */
static void test_pages(void)
{
    begin(SLOTS);
    expect(used_pages(space, space_len) <= 90, "pages of slots and links alone");
    for (uint32_t i = 0; i < 4 * SLOTS; i++) add_piece(i, i, 0);
    expect(used_pages(space, space_len) <= 90 + SLOTS, "pages that packets used");
    expect(defragmenter->counts->losses[WOLFAREN_DISPLACED] == 3 * SLOTS, "packets that were given up");
}

/* Writes one of two fragments of a packet, as long as an Ethernet frame allows. Returns its length. */
static size_t write_long(uint8_t *bytes, unsigned version, unsigned number, unsigned half)
{
    if (version == 4) {
        write_ipv4(bytes, 20, 1480, 0, half == 0 ? 0x2000 : 1480 / 8);
        bytes[5] = (uint8_t)number;
        memset(bytes + 20, (int)number, 1480);
        return 1500;
    }
    size_t len = half == 0 ? 1448 : 1452;
    const uint8_t header[8] = {17, 0, half == 0 ? 0 : 1448 >> 8, half == 0 ? 1 : 1448 & 0xff, 0, 0, 0, (uint8_t)number};
    write_ipv6(bytes, 0, 44, 0);
    bytes[4] = (uint8_t)((8 + len) >> 8);
    bytes[5] = (uint8_t)(8 + len);
    memcpy(bytes + 40, header, sizeof header);
    memset(bytes + 48, (int)number, len);
    return 48 + len;
}

enum { LONG = 64 };

static size_t pages_of_packets(void)
{
    return used_pages(defragmenter->memories, defragmenter->memory_count * sizeof *defragmenter->memories);
}

/* Adds two fragments of a packet in a slot that had none, and expects that they use at most two pages of 4,096 bytes. */
static void test_long_packet(unsigned version, unsigned number, unsigned before)
{
    static uint8_t out[WOLFAREN_WHOLE_PACKET_ROOM];
    uint8_t bytes[1500];
    size_t written, pages = pages_of_packets();
    expect(add(0, bytes, write_long(bytes, version, number, before)).outcome == WOLFAREN_MORE_WANTED, "one of two fragments");
    struct wolfaren_added added = add(0, bytes, write_long(bytes, version, number, 1 - before));
    expect(added.outcome == WOLFAREN_WHOLE && added.slot == number, "a whole packet in its slot");
    expect(wolfaren_defragmenter_packet(defragmenter, number, out, sizeof out, &written), "a packet that is written");
    expect(written == (version == 4 ? 2980 : 2940) && out[written - 1] == number, "its length");
    expect(pages_of_packets() <= pages + 2, "two pages");
}

/* Packets of two fragments of 1,500 bytes use two pages each, whatever becomes of them. */
static void test_long_fragments(void)
{
    uint8_t bytes[1500];
    for (unsigned round = 0; round < 4; round++) {
        unsigned version = round % 2 == 0 ? 4 : 6, before = round / 2;
        begin(LONG);
        expect(pages_of_packets() <= 1, "memories without packets, which may begin in the last page of links");
        for (unsigned i = 0; i < LONG; i++) test_long_packet(version, i, before);
        for (unsigned i = 0; i < LONG; i++) add(0, bytes, write_long(bytes, version, 255 - i, before));
        for (unsigned i = 0; i < LONG; i++) expect(wolfaren_defragmenter_give_up(defragmenter, i, 61 * second), "a packet that is given up");
        expect(wolfaren_defragmenter_clear(defragmenter), "free slots");
        expect(pages_of_packets() <= 1 + 2 * LONG, "packets that were given up");
    }
}

int main(void)
{
    test_orders();
    test_losses();
    test_give_up();
    test_timeout();
    test_contexts();
    test_outcomes();
    test_texts();
    test_refused();
    test_ecn();
    test_headers();
    test_checksums();
    test_long_packets();
    test_any_bytes();
    test_nearly_full();
    test_identifications();
    test_memory();
    test_places();
    if (sizeof(size_t) == 8) { /* memories of packets have another size otherwise, and need more pages */
        test_pages();
        test_long_fragments();
    }
    return 0;
}
