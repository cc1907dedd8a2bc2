/*
 * Tests wolfaren_rewrite: each request, for each chain of a few headers, against the single calls made one after another.
 */
#include "wolfaren.h"

#include <stdio.h>
#include <stdlib.h>
#include <string.h>

enum { MOST_HEADERS = 4, BASE_LEN = 40, MOST_LEN = 160, PAYLOAD_LEN = 12, FILL = 0x5a, UDP = 17, REQUESTS = 256 };

/* A packet, or why it isn't written. */
struct packet {
    uint8_t bytes[MOST_LEN];
    size_t len;
    uint8_t refusal;
    bool keeps_checksums;
};

/* What the headers of a packet have: reserved bits that are 1, and a flag in its fragment headers. */
struct variant {
    uint8_t bits;
    uint8_t more_fragments;
};

static void expect(bool holds, const char *what)
{
    if (holds) return;
    fprintf(stderr, "requests: failed: %s\n", what);
    exit(1);
}

/* Appends a header that leads to a number. Routing headers with an odd index have segments left. */
static void put_header(struct packet *packet, uint8_t number, uint8_t next_header, size_t index, struct variant variant)
{
    uint8_t *place = packet->bytes + packet->len;
    const size_t len = number == WOLFAREN_AUTHENTICATION ? 24 : number == WOLFAREN_FRAGMENT ? 8 : 16;
    memset(place, 0, len);
    place[0] = next_header;
    if (number == WOLFAREN_AUTHENTICATION) {
        place[1] = 4;
        place[2] = variant.bits;
    } else if (number == WOLFAREN_FRAGMENT) {
        place[1] = variant.bits;
        place[3] = variant.more_fragments | (variant.bits & 6);
    } else {
        place[1] = 1;
    }
    if (number == WOLFAREN_ROUTING) place[3] = index % 2;
    place[7] = (uint8_t)(index + 1);
    packet->len += len;
}

/* Builds a packet of headers with these numbers, and a payload. */
static struct packet built(const uint8_t *numbers, size_t count, struct variant variant)
{
    struct packet packet = {{0x60}, BASE_LEN, WOLFAREN_NOT_REFUSED, true};
    packet.bytes[6] = count > 0 ? numbers[0] : UDP;
    for (size_t i = 0; i < count; i++) put_header(&packet, numbers[i], i + 1 < count ? numbers[i + 1] : UDP, i, variant);
    memset(packet.bytes + packet.len, 0xd0, PAYLOAD_LEN);
    packet.len += PAYLOAD_LEN;
    packet.bytes[5] = (uint8_t)(packet.len - BASE_LEN);
    return packet;
}

/* The request with these bits. */
static struct wolfaren_request request_of(unsigned bits)
{
    return (struct wolfaren_request){bits & 1,      bits >> 1 & 1, bits >> 2 & 1, bits >> 3 & 1,
                                     bits >> 4 & 1, bits >> 5 & 1, bits >> 6 & 1, bits >> 7 & 1};
}

/* The numbers of the headers that a request leaves out. Authentication headers come first, since they cover the others. */
static size_t numbers_of(const struct wolfaren_request *request, uint8_t *numbers)
{
    size_t count = 0;
    if (request->without_authentication) numbers[count++] = WOLFAREN_AUTHENTICATION;
    if (request->without_hop_by_hop) numbers[count++] = WOLFAREN_HOP_BY_HOP;
    if (request->without_routing) numbers[count++] = WOLFAREN_ROUTING;
    if (request->without_fragment) numbers[count++] = WOLFAREN_FRAGMENT;
    if (request->without_destination_options) numbers[count++] = WOLFAREN_DESTINATION_OPTIONS;
    return count;
}

/* Takes what a single call wrote, or the refusal that comes first in their order. */
static void take(struct packet *packet, bool is_written, const uint8_t *out, const struct wolfaren_rewritten *done)
{
    if (is_written && packet->refusal == WOLFAREN_NOT_REFUSED) {
        memcpy(packet->bytes, out, done->len);
        packet->len = done->len;
        packet->keeps_checksums &= done->keeps_checksums;
    } else if (!is_written && (packet->refusal == WOLFAREN_NOT_REFUSED || done->refusal < packet->refusal)) {
        packet->refusal = done->refusal;
    }
}

/* Leaves headers out by single calls, one number after another. */
static void leave_out(struct packet *packet, const struct wolfaren_request *request)
{
    uint8_t numbers[5], out[MOST_LEN];
    const size_t count = numbers_of(request, numbers);
    for (size_t i = 0; i < count; i++) {
        struct wolfaren_rewritten done;
        bool is_written = wolfaren_remove_headers(packet->bytes, packet->len, numbers[i], request->may_be_invalid, out, MOST_LEN, &done);
        if (is_written || done.refusal != WOLFAREN_REFUSED_NO_HEADER) take(packet, is_written, out, &done);
    }
}

/* Makes the changes of a request by single calls. */
static struct packet changed(struct packet packet, const struct wolfaren_request *request)
{
    uint8_t out[MOST_LEN];
    struct wolfaren_rewritten done;
    leave_out(&packet, request);
    if (packet.refusal == WOLFAREN_NOT_REFUSED && request->clears)
        take(&packet, wolfaren_clear_reserved_bits(packet.bytes, packet.len, request->may_be_invalid, out, MOST_LEN, &done), out, &done);
    if (packet.refusal == WOLFAREN_NOT_REFUSED && request->orders)
        take(&packet, wolfaren_in_order(packet.bytes, packet.len, request->may_be_invalid, out, MOST_LEN, &done), out, &done);
    return packet;
}

/* Calls wolfaren_rewrite with a copy of a packet and so much room, which end where their memory does. */
static struct wolfaren_rewritten rewritten(const struct packet *packet, const struct wolfaren_request *request, uint8_t *out, size_t room)
{
    struct wolfaren_rewritten done = {99, 99, 99};
    uint8_t *bytes = malloc(packet->len), *place = malloc(room > 0 ? room : 1);
    expect(bytes && place, "memory");
    memcpy(bytes, packet->bytes, packet->len);
    memset(place, FILL, room > 0 ? room : 1);
    bool is_written = wolfaren_rewrite(bytes, packet->len, request, room > 0 ? place : NULL, room, &done);
    expect(is_written == (done.len > 0), "the result");
    expect(!is_written || done.refusal == WOLFAREN_NOT_REFUSED, "no refusal");
    expect(is_written || done.keeps_checksums == 0, "what is stored");
    expect(memcmp(bytes, packet->bytes, packet->len) == 0, "the packet itself is unchanged");
    for (size_t i = done.len; i < room; i++) expect(place[i] == FILL, "bytes after the packet are unchanged");
    memcpy(out, place, done.len);
    free(bytes);
    free(place);
    return done;
}

/* Compares a request with the single calls. */
static void test_request(const struct packet *packet, const struct wolfaren_request *request)
{
    const struct packet wanted = changed(*packet, request);
    const bool is_same = wanted.len == packet->len && memcmp(wanted.bytes, packet->bytes, packet->len) == 0;
    const bool is_changed = wanted.refusal == WOLFAREN_NOT_REFUSED && !is_same;
    uint8_t out[MOST_LEN];
    struct wolfaren_rewritten done = rewritten(packet, request, out, packet->len), first = rewritten(packet, request, out + done.len, 0);
    expect(done.refusal == wanted.refusal, "the refusal");
    expect(first.len == 0 && first.refusal == (is_changed ? WOLFAREN_REFUSED_NO_ROOM : wanted.refusal), "without room");
    if (!is_changed) {
        expect(done.len == 0, "nothing is written");
        return;
    }
    expect(done.len == wanted.len && memcmp(out, wanted.bytes, wanted.len) == 0, "the packet that is written");
    expect(done.keeps_checksums == wanted.keeps_checksums, "checksums");
    expect(rewritten(packet, request, out, wanted.len).len == wanted.len, "just enough room");
    expect(rewritten(packet, request, out, wanted.len - 1).refusal == WOLFAREN_REFUSED_NO_ROOM, "no room");
}

/* Tests all requests with the chains that begin with these headers. */
static void test_chains(uint8_t *numbers, size_t count, struct variant variant)
{
    static const uint8_t all[] = {43, 44, 51, 60, 0};
    const struct packet packet = built(numbers, count, variant);
    for (unsigned bits = 0; bits < REQUESTS; bits++) {
        const struct wolfaren_request request = request_of(bits);
        test_request(&packet, &request);
    }
    if (count == MOST_HEADERS) return;
    for (size_t i = 0; i < sizeof all - (count > 0); i++) {
        numbers[count] = all[i];
        test_chains(numbers, count + 1, variant);
    }
}

/* Tests packets that are refused whatever is changed, but only if something would be. */
static void test_faulty(void)
{
    static const uint8_t numbers[] = {WOLFAREN_HOP_BY_HOP, WOLFAREN_DESTINATION_OPTIONS};
    struct packet packet = built(numbers, 2, (struct variant){0, 0});
    const struct wolfaren_request nothing = {.without_routing = 1, .clears = 1, .orders = 1}, something = {.without_hop_by_hop = 1};
    uint8_t out[MOST_LEN];
    packet.len -= 1;
    expect(rewritten(&packet, &nothing, out, MOST_LEN).refusal == WOLFAREN_NOT_REFUSED, "nothing to change");
    expect(rewritten(&packet, &something, out, MOST_LEN).refusal == WOLFAREN_REFUSED_MISSING, "a byte is missing");
    packet.len = BASE_LEN + 20;
    expect(rewritten(&packet, &nothing, out, MOST_LEN).refusal == WOLFAREN_NOT_REFUSED, "nothing to change");
    expect(rewritten(&packet, &something, out, MOST_LEN).refusal == WOLFAREN_REFUSED_HEADERS, "a truncated header");
}

int main(void)
{
    static const struct variant variants[] = {{0, 0}, {0xf6, 0}, {0, 1}, {0xf6, 1}};
    uint8_t numbers[MOST_HEADERS];
    for (size_t i = 0; i < sizeof variants / sizeof *variants; i++) test_chains(numbers, 0, variants[i]);
    test_faulty();
    return 0;
}
