/*
 * Tests wolfaren_remove_headers, wolfaren_remove_header, wolfaren_with_header, wolfaren_recommended_index,
 * wolfaren_with_payload, wolfaren_clear_reserved_bits, wolfaren_has_reserved_bits, wolfaren_in_order and wolfaren_is_in_order: against
 * packets that are built here with the change, by RFC 8200, section 4, and RFC 791, section 3.1; each refusal; rooms of each
 * length; and any bytes.
 */
#include "wolfaren.h"

#include <stdio.h>
#include <stdlib.h>
#include <string.h>

enum { MOST_HEADERS = 4, IPV6_LEN = 40, MOST_LEN = 256, PAYLOAD = 12, PADDING = 5, FILL = 0x5a, UDP = 17 };

struct packet {
    uint8_t bytes[MOST_LEN];
    size_t len;
};

/* A header of an IPv6 packet. The tag is in its bytes, so that headers of one number differ. */
struct extension {
    uint8_t number;
    uint8_t tag;
};

static void expect(bool holds, const char *what)
{
    if (holds) return;
    fprintf(stderr, "rewrites: failed: %s\n", what);
    exit(1);
}

/* Appends a header that leads to a number, and returns its length. */
static size_t put_header(uint8_t *place, struct extension extension, uint8_t next_header)
{
    size_t len = extension.number == WOLFAREN_FRAGMENT ? 8 : extension.number == WOLFAREN_HOP_BY_HOP ? 16 : 24;
    memset(place, 0, len);
    place[0] = next_header;
    if (extension.number == WOLFAREN_AUTHENTICATION)
        place[1] = (uint8_t)(len / 4 - 2);
    else if (extension.number != WOLFAREN_FRAGMENT)
        place[1] = (uint8_t)(len / 8 - 1);
    place[7] = extension.tag;
    return len;
}

/* Bytes of a header or a payload, with their number. */
struct part {
    uint8_t number;
    const uint8_t *bytes;
    size_t len;
};

static const uint8_t data[PAYLOAD] = {0x80, 0x81, 0x82, 0x83, 0x84, 0x85, 0x86, 0x87, 0x88, 0x89, 0x8a, 0x8b};
static const struct part datagram = {UDP, data, PAYLOAD};

/* Builds an IPv6 packet of these headers and this payload. */
static struct packet built_with(const struct extension *extensions, size_t count, struct part payload)
{
    struct packet packet = {{0x61, 0x23, 0x45, 0x67, 0, 0, payload.number, 63}, IPV6_LEN};
    for (size_t i = 8; i < IPV6_LEN; i++) packet.bytes[i] = (uint8_t)i;
    if (count > 0) packet.bytes[6] = extensions[0].number;
    for (size_t i = 0; i < count; i++)
        packet.len += put_header(packet.bytes + packet.len, extensions[i], i + 1 < count ? extensions[i + 1].number : payload.number);
    if (payload.len > 0) memcpy(packet.bytes + packet.len, payload.bytes, payload.len);
    packet.len += payload.len;
    packet.bytes[5] = (uint8_t)(packet.len - IPV6_LEN);
    return packet;
}

/* Builds an IPv6 packet of these headers and the datagram. */
static struct packet built(const struct extension *extensions, size_t count)
{
    return built_with(extensions, count, datagram);
}

/* The checksum of an IPv4 header whose own is 0 (RFC 1071). */
static uint16_t checksum_of(const uint8_t *bytes, size_t len)
{
    uint32_t sum = 0;
    for (size_t i = 0; i < len; i += 2) sum += (uint32_t)bytes[i] << 8 | bytes[i + 1];
    while (sum > 0xffff) sum = (sum & 0xffff) + (sum >> 16);
    return (uint16_t)~sum;
}

/* Builds an IPv4 packet with an option, and an authentication header or none. */
static struct packet built_ipv4(bool has_header)
{
    struct packet packet = {{0x46, 0xb8, 0, 0, 0x12, 0x34, 0x40, 0, 64, UDP, 0, 0, 192, 0, 2, 1, 198, 51, 100, 2, 1, 1, 1, 1}, 24};
    const struct extension header = {WOLFAREN_AUTHENTICATION, 9};
    if (has_header) packet.bytes[9] = WOLFAREN_AUTHENTICATION;
    if (has_header) packet.len += put_header(packet.bytes + packet.len, header, UDP);
    memcpy(packet.bytes + packet.len, data, PAYLOAD);
    packet.len += PAYLOAD;
    packet.bytes[3] = (uint8_t)packet.len;
    uint16_t checksum = checksum_of(packet.bytes, 24);
    packet.bytes[10] = (uint8_t)(checksum >> 8);
    packet.bytes[11] = (uint8_t)checksum;
    return packet;
}

enum call { WITHOUT_NUMBER, WITHOUT_INDEX, WITH_HEADER, WITH_PAYLOAD, CLEARED, IN_ORDER };

/* What is changed: the number or the index of headers that are left out, or what is added, a header at an index. */
struct change {
    enum call call;
    size_t value;
    bool may_be_invalid;
    struct part added;
};

static const struct change first = {WITHOUT_INDEX, 0, false, {0, NULL, 0}}, clearing = {CLEARED, 0, false, {0, NULL, 0}};
static const struct change ordering = {IN_ORDER, 0, false, {0, NULL, 0}};

static struct change without_number(uint8_t number, bool may_be_invalid)
{
    return (struct change){WITHOUT_NUMBER, number, may_be_invalid, {0, NULL, 0}};
}

static struct change without_index(size_t index, bool may_be_invalid)
{
    return (struct change){WITHOUT_INDEX, index, may_be_invalid, {0, NULL, 0}};
}

static struct change with_header(struct part header, size_t index, bool may_be_invalid)
{
    return (struct change){WITH_HEADER, index, may_be_invalid, header};
}

static struct change with_payload(struct part payload, bool may_be_invalid)
{
    return (struct change){WITH_PAYLOAD, 0, may_be_invalid, payload};
}

/* Returns a copy of bytes that ends where its memory ends, so that the sanitizer sees any byte read or written after it. */
static uint8_t *copy_of(const uint8_t *bytes, size_t len)
{
    uint8_t *copy = malloc(len > 0 ? len : 1);
    expect(copy != NULL, "memory");
    if (len > 0) memcpy(copy, bytes, len);
    return copy;
}

/* Calls the library. */
static bool call(const uint8_t *bytes, size_t len, struct change change, const uint8_t *added, uint8_t *out, size_t room,
                 struct wolfaren_rewritten *done)
{
    const struct part *part = &change.added;
    const bool may = change.may_be_invalid;
    switch (change.call) {
    case WITHOUT_NUMBER: return wolfaren_remove_headers(bytes, len, (uint8_t)change.value, may, out, room, done);
    case WITHOUT_INDEX: return wolfaren_remove_header(bytes, len, change.value, may, out, room, done);
    case WITH_HEADER: return wolfaren_with_header(bytes, len, part->number, added, part->len, change.value, may, out, room, done);
    case WITH_PAYLOAD: return wolfaren_with_payload(bytes, len, part->number, added, part->len, may, out, room, done);
    case CLEARED: return wolfaren_clear_reserved_bits(bytes, len, may, out, room, done);
    default: return wolfaren_in_order(bytes, len, may, out, room, done);
    }
}

/* Changes a packet of `len` bytes, with room for `room` bytes, whose values before are FILL. */
static struct wolfaren_rewritten rewrite(const uint8_t *packet, size_t len, struct change change, size_t room, uint8_t *out)
{
    struct wolfaren_rewritten done = {99, 99, 99};
    uint8_t *bytes = copy_of(packet, len), *added = copy_of(change.added.bytes, change.added.len), *place = malloc(room > 0 ? room : 1);
    expect(place != NULL, "memory");
    memset(place, FILL, room);
    bool is_written = call(len > 0 ? bytes : NULL, len, change, change.added.len > 0 ? added : NULL, room > 0 ? place : NULL, room, &done);
    expect(is_written == (done.refusal == WOLFAREN_NOT_REFUSED), "the result");
    expect(is_written ? done.len > 0 && done.len <= room && done.keeps_checksums <= 1 : done.len == 0 && done.keeps_checksums == 0,
           "what is stored");
    expect(memcmp(bytes, packet, len) == 0, "the packet itself is unchanged");
    for (size_t i = done.len; i < room; i++) expect(place[i] == FILL, "bytes after the packet are unchanged");
    if (is_written && out) memcpy(out, place, done.len);
    free(bytes);
    free(added);
    free(place);
    return done;
}

/* Expects a packet to be written as another one. Bytes after it don't matter. */
static void expect_written(const struct packet *packet, struct change change, const struct packet *wanted)
{
    const size_t enough = packet->len + change.added.len;
    uint8_t bytes[MOST_LEN + PADDING], out[MOST_LEN];
    memset(bytes, 0xee, sizeof bytes);
    memcpy(bytes, packet->bytes, packet->len);
    for (size_t padding = 0; padding <= PADDING; padding += PADDING) {
        struct wolfaren_rewritten done = rewrite(bytes, packet->len + padding, change, wanted->len, out);
        expect(done.len == wanted->len && memcmp(out, wanted->bytes, wanted->len) == 0, "the packet that is written");
        expect(done.keeps_checksums == (change.call != WITH_PAYLOAD), "checksums");
    }
    expect(rewrite(packet->bytes, packet->len, change, enough, NULL).len == wanted->len, "room for the whole packet");
    for (size_t room = 0; room < wanted->len; room++)
        expect(rewrite(packet->bytes, packet->len, change, room, NULL).refusal == WOLFAREN_REFUSED_NO_ROOM, "no room");
}

static void expect_refused(const struct packet *packet, struct change change, uint8_t refusal, const char *what)
{
    expect(rewrite(packet->bytes, packet->len, change, packet->len + change.added.len, NULL).refusal == refusal, what);
}

static bool has_number(const struct extension *extensions, size_t count, uint8_t number)
{
    for (size_t i = 0; i < count; i++)
        if (extensions[i].number == number) return true;
    return false;
}

/* Whether an authentication header among the headers covers the one with this index: any but a fragment header before it. */
static bool is_covered(const struct extension *extensions, size_t index)
{
    return extensions[index].number != WOLFAREN_FRAGMENT || has_number(extensions, index, WOLFAREN_AUTHENTICATION);
}

/* Compares one selection of headers with the packet that is built without them. */
static void test_selection(const struct extension *extensions, size_t count, struct change change)
{
    const struct packet packet = built(extensions, count);
    struct extension kept[MOST_HEADERS] = {{0, 0}};
    size_t kept_count = 0;
    bool changes_covered = false;
    for (size_t i = 0; i < count; i++) {
        if (change.call == WITHOUT_NUMBER ? extensions[i].number != change.value : i != change.value)
            kept[kept_count++] = extensions[i];
        else
            changes_covered |= is_covered(extensions, i);
    }
    const struct packet wanted = built(kept, kept_count);
    if (kept_count == count)
        expect_refused(&packet, change, WOLFAREN_REFUSED_NO_HEADER, "no such header");
    else if (changes_covered && has_number(kept, kept_count, WOLFAREN_AUTHENTICATION) && !change.may_be_invalid)
        expect_refused(&packet, change, WOLFAREN_REFUSED_AUTHENTICATED, "an authentication header is kept");
    else
        expect_written(&packet, change, &wanted);
}

/* Compares one more header with the packet that is built with it. */
static void test_insertion(const struct extension *extensions, size_t count, struct extension new, size_t index, bool may_be_invalid)
{
    const struct packet packet = built(extensions, count);
    uint8_t bytes[MOST_LEN];
    const struct part header = {new.number, bytes, put_header(bytes, new, 99)};
    const struct change change = with_header(header, index, may_be_invalid);
    struct extension all[MOST_HEADERS + 1] = {{0, 0}};
    for (size_t i = 0, from = 0; i <= count && index <= count; i++) all[i] = i == index ? new : extensions[from++];
    const struct packet wanted = built(all, count + 1);
    if (new.number == UDP)
        expect_refused(&packet, change, WOLFAREN_REFUSED_NOT_A_HEADER, "no extension header");
    else if (index > count || (index > 0 && new.number == 0) || (index == 0 && count > 0 && extensions[0].number == 0))
        expect_refused(&packet, change, WOLFAREN_REFUSED_MISPLACED, "a header at another place");
    else if (has_number(extensions, count, WOLFAREN_AUTHENTICATION) && !may_be_invalid)
        expect_refused(&packet, change, WOLFAREN_REFUSED_AUTHENTICATED, "an authentication header before the change");
    else
        expect_written(&packet, change, &wanted);
}

/* Compares another payload with the packet that is built with it. */
static void test_payload(const struct extension *extensions, size_t count, struct part payload, bool may_be_invalid)
{
    const struct packet packet = built(extensions, count), wanted = built_with(extensions, count, payload);
    const struct change change = with_payload(payload, may_be_invalid);
    if (has_number(extensions, count, WOLFAREN_AUTHENTICATION) && !may_be_invalid)
        expect_refused(&packet, change, WOLFAREN_REFUSED_AUTHENTICATED, "an authentication header covers the payload");
    else if (payload.number != UDP && payload.number != 6)
        expect_refused(&packet, change, WOLFAREN_REFUSED_HEADER_FOLLOWS, "a payload that would be a header");
    else
        expect_written(&packet, change, &wanted);
}

/* Sets some reserved bits of the headers of a packet that was built of them. Returns whether one is set in a header that
 * authentication headers cover. */
static bool set_reserved(struct packet *packet, const struct extension *extensions, size_t count, uint8_t bits)
{
    uint8_t *place = packet->bytes + IPV6_LEN, ignored[MOST_LEN];
    bool is_covered_set = false;
    for (size_t i = 0; i < count; i++) {
        const bool is_fragment = extensions[i].number == WOLFAREN_FRAGMENT;
        if (is_fragment) {
            place[1] = bits & 0xf0;
            place[3] |= bits & 6;
        } else if (extensions[i].number == WOLFAREN_AUTHENTICATION) {
            place[2] = bits & 0xf0;
            place[3] = bits & 0x0f;
        }
        const bool is_set = extensions[i].number == WOLFAREN_AUTHENTICATION ? bits != 0 : is_fragment && (bits & 0xf6) != 0;
        is_covered_set |= is_set && is_covered(extensions, i);
        place += put_header(ignored, extensions[i], 0);
    }
    return is_covered_set;
}

/* Compares cleared reserved bits with the packet that is built without them. */
static void test_clearing(const struct extension *extensions, size_t count, uint8_t bits, bool may_be_invalid)
{
    const struct packet wanted = built(extensions, count);
    struct packet packet = wanted;
    const bool is_covered_set = set_reserved(&packet, extensions, count, bits);
    const struct change change = {CLEARED, 0, may_be_invalid, {0, NULL, 0}};
    if (is_covered_set && has_number(extensions, count, WOLFAREN_AUTHENTICATION) && !may_be_invalid)
        expect_refused(&packet, change, WOLFAREN_REFUSED_AUTHENTICATED, "an authentication header covers the bits");
    else
        expect_written(&packet, change, &wanted);
}

/* Returns where a header belongs (RFC 8200, section 4.1). Destination options before a routing header belong to it. */
static int rank(const struct extension *extensions, size_t count, size_t index)
{
    switch (extensions[index].number) {
    case WOLFAREN_HOP_BY_HOP: return 0;
    case WOLFAREN_ROUTING: return 1;
    case WOLFAREN_FRAGMENT: return 2;
    case WOLFAREN_AUTHENTICATION: return 3;
    default: return has_number(extensions + index, count - index, WOLFAREN_ROUTING) ? 1 : 4;
    }
}

/* Compares the headers in the recommended order with the packet that is built so. */
static void test_ordering(const struct extension *extensions, size_t count, bool may_be_invalid)
{
    const struct packet packet = built(extensions, count);
    struct extension ordered[MOST_HEADERS] = {{0, 0}};
    size_t placed = 0;
    for (int of = 0; of <= 4; of++)
        for (size_t i = 0; i < count; i++)
            if (rank(extensions, count, i) == of) ordered[placed++] = extensions[i];
    const struct packet wanted = built(ordered, count);
    const bool is_changed = memcmp(wanted.bytes, packet.bytes, packet.len) != 0;
    const struct change change = {IN_ORDER, 0, may_be_invalid, {0, NULL, 0}};
    if (is_changed && has_number(extensions, count, WOLFAREN_AUTHENTICATION) && !may_be_invalid)
        expect_refused(&packet, change, WOLFAREN_REFUSED_AUTHENTICATED, "an authentication header covers the order");
    else
        expect_written(&packet, change, &wanted);
}

/* Tests all changes of one chain. */
static void test_chain(const struct extension *extensions, size_t count)
{
    static const uint8_t numbers[] = {0, UDP, 43, 44, 51, 60, 255};
    static const uint8_t all_bits[] = {0, 0xff, 0x10, 0x02, 0x04, 0x01};
    for (int may = 0; may <= 1; may++) {
        for (size_t i = 0; i < sizeof numbers; i++) test_selection(extensions, count, without_number(numbers[i], may));
        for (size_t i = 0; i <= count; i++) test_selection(extensions, count, without_index(i, may));
        test_selection(extensions, count, without_index(SIZE_MAX, may));
        for (size_t i = 0; i < sizeof all_bits; i++) test_clearing(extensions, count, all_bits[i], may);
        test_ordering(extensions, count, may);
        for (size_t i = 0; i < 6; i++) {
            const struct part payload = {i == 0 ? 6 : numbers[i], data, i == 1 ? 0 : 7};
            test_payload(extensions, count, payload, may);
            for (size_t index = 0; index <= count + 1; index++)
                test_insertion(extensions, count, (struct extension){numbers[i], 0xcc}, index, may);
            test_insertion(extensions, count, (struct extension){numbers[i], 0xcc}, SIZE_MAX, may);
        }
    }
}

/* Tests all chains of up to MOST_HEADERS headers, of which only the first may be hop-by-hop options. */
static void test_chains(struct extension *extensions, size_t count)
{
    static const uint8_t numbers[] = {43, 44, 51, 60, 0};
    test_chain(extensions, count);
    if (count == MOST_HEADERS) return;
    for (size_t i = 0; i < sizeof numbers - (count > 0); i++) {
        extensions[count] = (struct extension){numbers[i], (uint8_t)(17 * count + 1)};
        test_chains(extensions, count + 1);
    }
}

static void test_ipv4(void)
{
    struct packet packet = built_ipv4(true);
    const struct packet wanted = built_ipv4(false);
    expect_written(&packet, first, &wanted);
    expect_written(&packet, without_number(WOLFAREN_AUTHENTICATION, false), &wanted);
    expect_refused(&wanted, first, WOLFAREN_REFUSED_NO_HEADER, "an IPv4 packet without a header");
    packet.bytes[10] ^= 0xff;
    expect_written(&packet, first, &wanted);
    packet.bytes[6] = 0x20;
    expect_refused(&packet, first, WOLFAREN_REFUSED_FRAGMENTED, "an IPv4 fragment");
    packet.bytes[7] = 1;
    expect_refused(&packet, first, WOLFAREN_REFUSED_LATER_FRAGMENT, "a later IPv4 fragment");
    packet = built_ipv4(true);
    packet.bytes[24] = WOLFAREN_AUTHENTICATION;
    expect_refused(&packet, first, WOLFAREN_REFUSED_HEADER_FOLLOWS, "a payload that would be a header");
}

/* An IPv4 packet with an authentication header, another payload, or reserved bits. */
static void test_more_ipv4(void)
{
    struct packet plain = built_ipv4(false), packet = built_ipv4(true);
    const struct packet wanted = packet;
    struct part header = {WOLFAREN_AUTHENTICATION, packet.bytes + 24, 24};
    expect_written(&plain, with_header(header, 0, false), &wanted);
    expect_refused(&plain, with_header(header, 1, false), WOLFAREN_REFUSED_MISPLACED, "an index of IPv4");
    expect_refused(&wanted, with_header(header, 0, true), WOLFAREN_REFUSED_MISPLACED, "a second header of IPv4");
    header.number = WOLFAREN_DESTINATION_OPTIONS;
    expect_refused(&plain, with_header(header, 0, false), WOLFAREN_REFUSED_NOT_A_HEADER, "a header of IPv6");
    const struct part authentication = {WOLFAREN_AUTHENTICATION, data, PAYLOAD};
    expect_written(&plain, with_payload(datagram, false), &plain);
    expect_written(&wanted, with_payload(datagram, true), &wanted);
    expect_refused(&wanted, with_payload(datagram, false), WOLFAREN_REFUSED_AUTHENTICATED, "a payload that is covered");
    expect_refused(&plain, with_payload(authentication, false), WOLFAREN_REFUSED_HEADER_FOLLOWS, "a payload that would be a header");
    expect_written(&plain, clearing, &plain);
    expect_written(&wanted, ordering, &wanted);
    packet.bytes[24 + 3] = 1;
    expect_written(&packet, (struct change){CLEARED, 0, true, {0, NULL, 0}}, &wanted);
    expect_refused(&packet, clearing, WOLFAREN_REFUSED_AUTHENTICATED, "a reserved bit of IPv4");
    packet.bytes[6] = 0x20;
    expect_refused(&packet, clearing, WOLFAREN_REFUSED_FRAGMENTED, "a reserved bit in an IPv4 fragment");
    expect_refused(&packet, with_payload(datagram, true), WOLFAREN_REFUSED_FRAGMENTED, "the payload of an IPv4 fragment");
    plain.bytes[6] = 0x20;
    header.number = WOLFAREN_AUTHENTICATION;
    expect_refused(&plain, with_header(header, 0, false), WOLFAREN_REFUSED_FRAGMENTED, "a header in an IPv4 fragment");
}

static void test_refusals(void)
{
    const struct extension extensions[] = {{0, 1}, {44, 2}, {60, 3}};
    const struct change fragment = without_number(44, false), last = without_index(2, false);
    struct packet packet = built(extensions, 3);
    uint8_t *offset = packet.bytes + IPV6_LEN + 16 + 3;
    *offset = 1;
    expect_refused(&packet, fragment, WOLFAREN_REFUSED_FRAGMENT_HEADER, "the fragment header of a fragment");
    expect_refused(&packet, last, WOLFAREN_REFUSED_FRAGMENTED, "a header that is fragmented");
    expect(rewrite(packet.bytes, packet.len, first, packet.len, NULL).len == packet.len - 16, "a first fragment");
    *offset = 9;
    expect(rewrite(packet.bytes, packet.len, first, packet.len, NULL).len == packet.len - 16, "a later fragment");
    expect_refused(&packet, fragment, WOLFAREN_REFUSED_FRAGMENT_HEADER, "the fragment header of a later fragment");
    packet = built(extensions, 3);
    for (size_t len = 0; len < packet.len; len++) {
        const uint8_t refusal = len < packet.len - PAYLOAD ? WOLFAREN_REFUSED_HEADERS : WOLFAREN_REFUSED_MISSING;
        expect(rewrite(packet.bytes, len, first, MOST_LEN, NULL).refusal == refusal, "a truncated packet");
    }
    packet.bytes[IPV6_LEN + 1] = 200;
    expect_refused(&packet, first, WOLFAREN_REFUSED_HEADERS, "faulty headers");
}

/* Each refusal has a text, and no other code has one. */
static void test_texts(void)
{
    static const char *const texts[] = {
        [WOLFAREN_NOT_REFUSED] = "",
        [WOLFAREN_REFUSED_HEADERS] = "the headers of the packet are truncated or faulty",
        [WOLFAREN_REFUSED_MISSING] = "bytes of the packet are missing",
        [WOLFAREN_REFUSED_LATER_FRAGMENT] = "the packet is a later fragment",
        [WOLFAREN_REFUSED_NOT_A_HEADER] = "the bytes are no extension header for the packet",
        [WOLFAREN_REFUSED_NO_HEADER] = "the packet has no such header",
        [WOLFAREN_REFUSED_FRAGMENT_HEADER] = "the header is that of a fragment",
        [WOLFAREN_REFUSED_MISPLACED] = "the header can't be at this place",
        [WOLFAREN_REFUSED_FRAGMENTED] = "the change is in the part that is fragmented",
        [WOLFAREN_REFUSED_AUTHENTICATED] = "an authentication header covers the change",
        [WOLFAREN_REFUSED_HEADER_FOLLOWS] = "the payload would be read as an extension header",
        [WOLFAREN_REFUSED_NO_LENGTH] = "the packet states no length",
        [WOLFAREN_REFUSED_NOT_A_JUMBOGRAM] = "the packet would no longer be a jumbogram",
        [WOLFAREN_REFUSED_TOO_LONG] = "the packet is too long for its length field",
        [WOLFAREN_REFUSED_NO_ROOM] = "the buffer is too short for the packet"};
    char text[WOLFAREN_TEXT_ROOM];
    for (unsigned i = 0; i < 256; i++) {
        const char *wanted = i < sizeof texts / sizeof *texts ? texts[i] : "";
        expect(wolfaren_refusal_text((uint8_t)i, text, sizeof text) == strlen(wanted) && strcmp(text, wanted) == 0, wanted);
    }
}

/* A packet with segments left loses its checksums, and one without a stated length isn't made shorter. */
static void test_fields(void)
{
    const struct extension extensions[] = {{43, 1}, {60, 2}};
    const struct change options = without_number(60, false);
    struct packet packet = built(extensions, 2);
    expect(rewrite(packet.bytes, packet.len, first, packet.len, NULL).keeps_checksums == 1, "no segments left");
    packet.bytes[IPV6_LEN + 3] = 1;
    expect(rewrite(packet.bytes, packet.len, first, packet.len, NULL).keeps_checksums == 0, "segments left");
    expect(rewrite(packet.bytes, packet.len, options, packet.len, NULL).keeps_checksums == 1, "another header than the routing header");
    packet.bytes[5] = 0;
    expect_refused(&packet, options, WOLFAREN_REFUSED_NO_LENGTH, "a length field of 0");
}

/* A fragment is changed only before its fragment header, and a header that is added must be one. */
static void test_more_refusals(void)
{
    const struct extension extensions[] = {{44, 2}, {44, 3}}, options = {60, 1};
    struct packet packet = built(extensions, 2);
    uint8_t bytes[MOST_LEN];
    struct part header = {60, bytes, put_header(bytes, options, 0)};
    packet.bytes[IPV6_LEN + 3] = 1;
    expect_refused(&packet, with_header(header, 1, false), WOLFAREN_REFUSED_FRAGMENTED, "a header that would be fragmented");
    expect_refused(&packet, with_payload(datagram, false), WOLFAREN_REFUSED_FRAGMENTED, "the payload of a fragment");
    expect(rewrite(packet.bytes, packet.len, with_header(header, 0, false), MOST_LEN, NULL).len == packet.len + 24, "a first fragment");
    packet.bytes[IPV6_LEN + 1] = 1;
    expect(rewrite(packet.bytes, packet.len, clearing, MOST_LEN, NULL).len == packet.len, "reserved bits of the fragment header");
    packet.bytes[IPV6_LEN + 8 + 1] = 1;
    expect_refused(&packet, clearing, WOLFAREN_REFUSED_FRAGMENTED, "a reserved bit that is fragmented");
    expect(rewrite(packet.bytes, packet.len, ordering, MOST_LEN, NULL).len == packet.len, "a first fragment in order");
    const struct extension unordered[] = {{44, 2}, {43, 3}};
    packet = built(unordered, 2);
    packet.bytes[IPV6_LEN + 3] = 1;
    expect_refused(&packet, ordering, WOLFAREN_REFUSED_FRAGMENTED, "the order of a first fragment");
    packet = built(extensions, 2);
    for (header.len = 0; header.len < 40; header.len++)
        expect_refused(&packet, with_header(header, 0, false), header.len == 24 ? WOLFAREN_NOT_REFUSED : WOLFAREN_REFUSED_NOT_A_HEADER, "a header's length");
    header = (struct part){44, bytes, 16};
    expect_refused(&packet, with_header(header, 0, false), WOLFAREN_REFUSED_NOT_A_HEADER, "the length of a fragment header");
    header.len = 8;
    bytes[3] = 1;
    expect_refused(&packet, with_header(header, 0, false), WOLFAREN_REFUSED_FRAGMENT_HEADER, "the fragment header of a fragment");
    header = (struct part){43, bytes, put_header(bytes, (struct extension){43, 1}, 0)};
    expect(rewrite(packet.bytes, packet.len, with_header(header, 0, false), MOST_LEN, NULL).keeps_checksums == 1, "no segments left");
    bytes[3] = 1;
    expect(rewrite(packet.bytes, packet.len, with_header(header, 0, false), MOST_LEN, NULL).keeps_checksums == 0, "segments left");
}

/* The longest payload that the length field can state. */
static void test_longest(void)
{
    static const uint8_t zeros[65536] = {0};
    const struct extension options = {60, 1};
    const struct packet packet = built(&options, 1), ipv4 = built_ipv4(false);
    for (size_t over = 0; over <= 1; over++) {
        const uint8_t refusal = over ? WOLFAREN_REFUSED_TOO_LONG : WOLFAREN_NOT_REFUSED;
        expect_refused(&packet, with_payload((struct part){UDP, zeros, 65535 - 24 + over}, false), refusal, "the longest payload");
        expect_refused(&ipv4, with_payload((struct part){UDP, zeros, 65535 - 24 + over}, false), refusal, "the longest payload of IPv4");
    }
}

/* Packets with a length field of 0, before whose payload bytes follow, keep their length. */
static void test_unstated(void)
{
    const struct extension extensions[] = {{0, 1}, {60, 2}};
    struct packet packet = built(extensions, 2), ipv4 = built_ipv4(true);
    packet.bytes[4] = packet.bytes[5] = ipv4.bytes[2] = ipv4.bytes[3] = 0;
    expect_refused(&packet, first, WOLFAREN_REFUSED_NO_LENGTH, "the first header");
    expect_refused(&packet, without_number(60, false), WOLFAREN_REFUSED_NO_LENGTH, "destination options");
    expect_refused(&ipv4, first, WOLFAREN_REFUSED_NO_LENGTH, "the header of IPv4");
    for (size_t len = 0; len <= PAYLOAD; len++) {
        const uint8_t refusal = len == PAYLOAD ? WOLFAREN_NOT_REFUSED : WOLFAREN_REFUSED_NO_LENGTH;
        expect_refused(&packet, with_payload((struct part){UDP, data, len}, false), refusal, "the length of the payload");
    }
    expect_refused(&packet, (struct change){CLEARED, 0, false, {0, NULL, 0}}, WOLFAREN_NOT_REFUSED, "cleared bits");
    expect_refused(&packet, (struct change){IN_ORDER, 0, false, {0, NULL, 0}}, WOLFAREN_NOT_REFUSED, "the order");
}

/* Any change of any packet that is made here. */
static struct change any_change(const uint8_t *header)
{
    static const uint8_t numbers[] = {0, 43, 44, 51, 60, 60, 61};
    const uint8_t number = numbers[(size_t)rand() % sizeof numbers];
    const bool may = rand() % 2;
    const size_t index = (size_t)rand() % 5;
    switch (rand() % 6) {
    case 0: return without_number(number, may);
    case 1: return without_index(index, may);
    case 2: return with_header((struct part){number, header, 24}, index, may);
    case 3: return with_payload(datagram, may);
    case 4: return (struct change){CLEARED, 0, may, {0, NULL, 0}};
    default: return (struct change){IN_ORDER, 0, may, {0, NULL, 0}};
    }
}

/* Any bytes may be passed: a packet that is written has a payload of the length that is wanted. */
static void test_any_bytes(void)
{
    static const struct extension extensions[] = {{0, 1}, {43, 2}, {44, 3}, {60, 4}};
    struct wolfaren_dissection before, after;
    uint8_t out[MOST_LEN], header[MOST_LEN];
    size_t counts[IN_ORDER + 1] = {0};
    put_header(header, (struct extension){60, 5}, 0);
    srand(1);
    for (int round = 0; round < 50000; round++) {
        struct packet packet = round % 4 == 0 ? built_ipv4(round % 8 == 0) : built(extensions, MOST_HEADERS);
        for (int i = rand() % 4; i > 0; i--) packet.bytes[(size_t)rand() % packet.len] = (uint8_t)rand();
        const struct change change = any_change(header);
        const struct wolfaren_rewritten done = rewrite(packet.bytes, packet.len, change, MOST_LEN, out);
        wolfaren_dissect(packet.bytes, packet.len, NULL, 0, &before);
        if (done.refusal != WOLFAREN_NOT_REFUSED) continue;
        wolfaren_dissect(out, done.len, NULL, 0, &after);
        const size_t more = change.call == WITH_HEADER, same = change.call >= WITH_PAYLOAD;
        expect(same || more ? after.headers == before.headers + more : after.headers < before.headers, "the number of headers");
        expect(after.padding == 0 && after.end == before.end && after.fault.kind == WOLFAREN_NO_FAULT, "headers");
        const bool is_new = change.call == WITH_PAYLOAD;
        const uint8_t *payload = is_new ? data : packet.bytes + before.payload_offset;
        expect(after.payload_len == (is_new ? PAYLOAD : before.payload_len) && memcmp(out + after.payload_offset, payload, after.payload_len) == 0
                   && after.payload_number == (is_new ? UDP : before.payload_number), "payloads");
        counts[change.call]++;
    }
    for (size_t i = 0; i <= IN_ORDER; i++) expect(counts[i] > 300, "packets that are written");
}

/* The recommended index of a header of a number in chains of headers by these numbers: hop-by-hop options first, routing and
 * what precedes it, fragment, authentication, destination options (RFC 8200, section 4.1). */
static void test_recommended_index(void)
{
    static const uint8_t chain[] = {0, 60, 43, 44, 51, 60}, numbers[] = {0, 43, 44, 51, 60, 17};
    static const size_t wanted[] = {1, 3, 4, 5, 6, 6};
    struct extension extensions[6];
    for (size_t i = 0; i < 6; i++) extensions[i] = (struct extension){chain[i], 1};
    const struct packet packet = built(extensions, 6), empty = built(extensions, 0);
    for (size_t i = 0; i < 6; i++) {
        expect(wolfaren_recommended_index(packet.bytes, packet.len, numbers[i]) == wanted[i], "the recommended index");
        expect(wolfaren_recommended_index(empty.bytes, empty.len, numbers[i]) == 0, "the only index");
    }
    expect(wolfaren_recommended_index(NULL, 0, 0) == 0, "no packet");
}

/* Whether a call writes the packet as it is. */
static bool is_unchanged(const struct packet *packet, enum call call)
{
    const struct change change = {call, 0, true, {0, NULL, 0}};
    uint8_t out[MOST_LEN];
    const size_t len = rewrite(packet->bytes, packet->len, change, MOST_LEN, out).len;
    return len == packet->len && memcmp(out, packet->bytes, len) == 0;
}

/* Each bit of a header that is neither its next header nor its length: of a fragment header byte 1 and two bits of byte 3 are
 * reserved, of an authentication header bytes 2 and 3, of others none. */
static void test_reserved_bits(void)
{
    static const struct extension extensions[] = {{0, 0}, {43, 0}, {44, 0}, {51, 0}, {60, 0}};
    for (size_t i = 0; i < sizeof extensions / sizeof *extensions; i++) {
        const uint8_t number = extensions[i].number;
        const struct packet plain = built(&extensions[i], 1);
        expect(!wolfaren_has_reserved_bits(plain.bytes, plain.len), "no bit is set");
        for (unsigned bit = number == WOLFAREN_FRAGMENT ? 8 : 16; bit < 64; bit++) {
            const unsigned byte = bit / 8;
            const bool is_reserved = number == WOLFAREN_FRAGMENT ? byte == 1 || bit == 29 || bit == 30
                                                                 : number == WOLFAREN_AUTHENTICATION && (byte == 2 || byte == 3);
            struct packet packet = plain;
            packet.bytes[IPV6_LEN + byte] |= (uint8_t)(0x80 >> bit % 8);
            expect(wolfaren_has_reserved_bits(packet.bytes, packet.len) == is_reserved, "a reserved bit");
            expect(is_unchanged(&packet, CLEARED) == !is_reserved, "a bit that is cleared");
        }
    }
    const struct extension several[] = {{0, 1}, {44, 2}, {60, 3}};
    struct packet packet = built(several, 3);
    packet.bytes[IPV6_LEN + 16 + 1] = 1;
    for (size_t len = 0; len <= packet.len; len++)
        expect(wolfaren_has_reserved_bits(packet.bytes, len) == (len >= IPV6_LEN + 16 + 8), "the header before the missing bytes");
    expect(!wolfaren_has_reserved_bits(NULL, 0), "no packet");
}

/* Chains in the order of RFC 8200, section 4.1, and in other orders. */
static void test_is_in_order(void)
{
    static const struct {
        size_t count;
        uint8_t numbers[6];
        bool is_in_order;
    } rows[] = {{0, {0}, true},          {1, {0}, true},          {6, {0, 60, 43, 44, 51, 60}, true}, {2, {60, 43}, true},
                {2, {43, 43}, true},     {2, {60, 60}, true},     {3, {60, 43, 60}, true},            {3, {43, 60, 43}, true},
                {2, {44, 43}, false},    {2, {60, 44}, false},    {2, {60, 51}, false},               {2, {51, 44}, false},
                {3, {44, 60, 43}, false}, {3, {60, 44, 43}, false}, {4, {0, 43, 60, 44}, false},      {3, {43, 51, 43}, false}};
    for (size_t i = 0; i < sizeof rows / sizeof *rows; i++) {
        struct extension extensions[6];
        for (size_t k = 0; k < rows[i].count; k++) extensions[k] = (struct extension){rows[i].numbers[k], (uint8_t)k};
        const struct packet packet = built(extensions, rows[i].count);
        expect(wolfaren_is_in_order(packet.bytes, packet.len) == rows[i].is_in_order, "the order");
        expect(is_unchanged(&packet, IN_ORDER) == rows[i].is_in_order, "an order that changes");
    }
    const struct extension extensions[] = {{44, 1}, {43, 2}};
    const struct packet packet = built(extensions, 2);
    for (size_t len = 0; len <= packet.len; len++)
        expect(wolfaren_is_in_order(packet.bytes, len) == (len < IPV6_LEN + 8 + 24), "the headers before the missing bytes");
    expect(wolfaren_is_in_order(NULL, 0), "no packet");
}

int main(void)
{
    struct extension extensions[MOST_HEADERS];
    test_chains(extensions, 0);
    test_ipv4();
    test_more_ipv4();
    test_refusals();
    test_texts();
    test_more_refusals();
    test_fields();
    test_longest();
    test_unstated();
    test_recommended_index();
    test_reserved_bits();
    test_is_in_order();
    test_any_bytes();
    return 0;
}
