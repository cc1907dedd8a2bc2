/*
 * Tests wolfaren_dissect and wolfaren_count_dissection: each end, for IPv4 and IPv6, packets truncated at every byte, and
 * short arrays. The expected values were worked out by hand from RFC 791, RFC 4302 and RFC 8200.
 */
#include "wolfaren.h"

#include <stdio.h>
#include <stdlib.h>
#include <string.h>

enum { IPV4_LEN = 20, IPV6_LEN = 40, MAX_AFTER = 64, MAX_HEADERS = 4 };

/* A packet: the fields of its IP header that matter here, and the bytes after that header. */
struct row {
    const char *name;
    uint8_t version;
    uint8_t number;         /* the next header field, or the protocol */
    uint16_t stated_len;    /* the payload length, or the total length */
    uint16_t fragment_bits; /* flags and fragment offset of IPv4 */
    uint8_t after[MAX_AFTER];
    size_t after_len;
    struct wolfaren_dissection wanted; /* without the version and the length of the IP header */
    struct wolfaren_header headers[MAX_HEADERS];
};

static void check(bool holds, const char *name, const char *what)
{
    if (!holds) {
        fprintf(stderr, "dissections: %s: %s\n", name, what);
        exit(1);
    }
}

static bool same_header(const struct wolfaren_header *a, const struct wolfaren_header *b)
{
    return a->offset == b->offset && a->len == b->len && a->number == b->number && a->next_header == b->next_header;
}

/* Returns a copy of the bytes that ends where its memory ends, so that the sanitizer sees any byte read after it. */
static uint8_t *exact_copy(const uint8_t *bytes, size_t len)
{
    uint8_t *copy = malloc(len > 0 ? len : 1);
    check(copy != NULL, "exact_copy", "memory");
    if (len > 0) memcpy(copy, bytes, len);
    return copy;
}

/*
 * Dissects the bytes with room for this many headers, and counts the packet in the same walk or not. Elements that aren't
 * written must keep their values.
 */
static void check_with_room(const char *name, bool is_counted, const uint8_t *bytes, size_t len, size_t room,
                            const struct wolfaren_dissection *wanted, const struct wolfaren_header *wanted_headers)
{
    struct wolfaren_header headers[MAX_HEADERS + 1];
    struct wolfaren_header stays;
    struct wolfaren_dissection found;
    memset(headers, 0xff, sizeof headers);
    memset(&stays, 0xff, sizeof stays);
    memset(&found, 0xff, sizeof found);
    if (is_counted) {
        struct wolfaren_statistics counts;
        wolfaren_init_statistics(&counts);
        wolfaren_count_dissection(&counts, bytes, len, room > 0 ? headers : NULL, room, &found);
        check(counts.packets == 1, name, "the count");
    } else {
        wolfaren_dissect(bytes, len, room > 0 ? headers : NULL, room, &found);
    }
    check(memcmp(&found, wanted, sizeof found) == 0, name, "the dissection");
    for (size_t i = 0; i <= MAX_HEADERS; i++) {
        bool is_written = i < room && i < wanted->headers;
        check(same_header(&headers[i], is_written ? &wanted_headers[i] : &stays), name, "the headers");
    }
}

/* Dissects the bytes without an array, and with one that is too short, long enough, and longer. */
static void check_dissection(const char *name, const uint8_t *bytes, size_t len,
                             const struct wolfaren_dissection *wanted, const struct wolfaren_header *headers)
{
    uint8_t *copy = exact_copy(bytes, len);
    for (size_t room = 0; room <= MAX_HEADERS + 1; room++) {
        check_with_room(name, false, copy, len, room, wanted, headers);
        check_with_room(name, true, copy, len, room, wanted, headers);
    }
    free(copy);
}

/* Writes the packet of a row, with its IP header from 192.0.2.1 to 192.0.2.2 or from 2001:db8::1 to 2001:db8::2. */
static size_t write_packet(const struct row *row, uint8_t *bytes)
{
    const uint8_t high = (uint8_t)(row->stated_len >> 8), low = (uint8_t)row->stated_len;
    const uint8_t ipv4[IPV4_LEN] = {0x45, 0, high, low, 0x12, 0x34, (uint8_t)(row->fragment_bits >> 8),
                                    (uint8_t)row->fragment_bits, 64, row->number, 0, 0, 192, 0, 2, 1, 192, 0, 2, 2};
    const uint8_t ipv6[IPV6_LEN] = {0x60, 0, 0, 0, high, low, row->number, 64, 0x20, 1, 0x0d, 0xb8, 0, 0, 0, 0, 0, 0, 0,
                                    0, 0, 0, 0, 1, 0x20, 1, 0x0d, 0xb8, 0, 0, 0, 0, 0, 0, 0, 0, 0, 0, 0, 2};
    const size_t base_len = row->version == 4 ? IPV4_LEN : IPV6_LEN;
    memcpy(bytes, row->version == 4 ? ipv4 : ipv6, base_len);
    memcpy(bytes + base_len, row->after, row->after_len);
    return base_len + row->after_len;
}

static void check_rows(const struct row *rows, size_t count)
{
    for (size_t i = 0; i < count; i++) {
        uint8_t bytes[IPV6_LEN + MAX_AFTER];
        struct wolfaren_dissection wanted = rows[i].wanted;
        const size_t len = write_packet(&rows[i], bytes);
        wanted.version = rows[i].version;
        wanted.base_len = len - rows[i].after_len;
        check_dissection(rows[i].name, bytes, len, &wanted, rows[i].headers);
    }
}

static void ipv6_payloads_and_fragments(void)
{
    static const struct row rows[] = {
        {.name = "IPv6: 8 bytes of UDP, and 3 bytes of padding",
         .version = 6, .number = 17, .stated_len = 8, .after_len = 11,
         .wanted = {.stated_len = 48, .payload_offset = 40, .payload_len = 8, .padding = 3, .payload_number = 17}},
        {.name = "IPv6: payload length 0",
         .version = 6, .number = 17, .stated_len = 0, .after_len = 11,
         .wanted = {.payload_offset = 40, .payload_len = 11, .payload_number = 17}},
        {.name = "IPv6: 8 of 20 bytes are here",
         .version = 6, .number = 17, .stated_len = 20, .after_len = 8,
         .wanted = {.stated_len = 60, .payload_offset = 40, .payload_len = 8, .missing = 12, .payload_number = 17}},
        {.name = "IPv6: an atomic fragment",
         .version = 6, .number = 44, .stated_len = 12, .after = {17, 0, 0, 0, 0, 0, 0, 9, 1, 2, 3, 4}, .after_len = 12,
         .wanted = {.stated_len = 52, .headers = 1, .payload_offset = 48, .payload_len = 4, .payload_number = 17,
                    .identification = 9, .fragment = WOLFAREN_ATOMIC_FRAGMENT},
         .headers = {{40, 8, 44, 17}}},
        {.name = "IPv6: a first fragment, with destination options after its header",
         .version = 6, .number = 44, .stated_len = 16,
         .after = {60, 0, 0, 1, 0, 0, 0, 9, 17, 0, 1, 4, 0, 0, 0, 0}, .after_len = 16,
         .wanted = {.stated_len = 56, .headers = 2, .payload_offset = 56, .payload_number = 17, .identification = 9,
                    .fragment = WOLFAREN_FIRST_FRAGMENT},
         .headers = {{40, 8, 44, 60}, {48, 8, 60, 17}}},
        {.name = "IPv6: a middle fragment at 8 * 185 bytes, whose payload isn't destination options",
         .version = 6, .number = 44, .stated_len = 16,
         .after = {60, 0, 0x05, 0xc9, 0, 0, 0, 7, 0xde, 0xad, 0xbe, 0xef, 0, 0, 0, 0}, .after_len = 16,
         .wanted = {.stated_len = 56, .headers = 1, .payload_offset = 48, .payload_len = 8, .payload_number = 60,
                    .identification = 7, .fragment_offset = 1480, .fragment = WOLFAREN_MIDDLE_FRAGMENT,
                    .end = WOLFAREN_AT_LATER_FRAGMENT},
         .headers = {{40, 8, 44, 60}}},
        {.name = "IPv6: a last fragment at 8 * 1 bytes",
         .version = 6, .number = 44, .stated_len = 8, .after = {60, 0, 0, 8, 0, 0, 1, 0}, .after_len = 8,
         .wanted = {.stated_len = 48, .headers = 1, .payload_offset = 48, .payload_number = 60, .identification = 256,
                    .fragment_offset = 8, .fragment = WOLFAREN_LAST_FRAGMENT, .end = WOLFAREN_AT_LATER_FRAGMENT},
         .headers = {{40, 8, 44, 60}}},
        {.name = "IPv6: an atomic fragment header before that of a last fragment",
         .version = 6, .number = 44, .stated_len = 16,
         .after = {44, 0, 0, 0, 0, 0, 0, 1, 17, 0, 0, 16, 0, 0, 0, 2}, .after_len = 16,
         .wanted = {.stated_len = 56, .headers = 2, .payload_offset = 56, .payload_number = 17, .identification = 2,
                    .fragment_offset = 16, .fragment = WOLFAREN_LAST_FRAGMENT, .end = WOLFAREN_AT_LATER_FRAGMENT},
         .headers = {{40, 8, 44, 44}, {48, 8, 44, 17}}},
    };
    check_rows(rows, sizeof rows / sizeof rows[0]);
}

static void ipv6_headers_that_are_not_whole(void)
{
    static const struct row rows[] = {
        {.name = "IPv6: 16 bytes of options, of which 8 are here",
         .version = 6, .number = 60, .stated_len = 16, .after = {17, 1}, .after_len = 8,
         .wanted = {.stated_len = 56, .payload_offset = 40, .payload_len = 8, .missing = 8, .payload_number = 60,
                    .fault = {16, 8, 40, WOLFAREN_TOO_SHORT, WOLFAREN_DESTINATION_OPTIONS_HEADER,
                              WOLFAREN_IPV6_EXTENSION_HEADER, WOLFAREN_SLICE, 0},
                    .end = WOLFAREN_AT_TRUNCATED_HEADER}},
        {.name = "IPv6: payload length 0, and 3 bytes of a fragment header",
         .version = 6, .number = 44, .stated_len = 0, .after = {17, 0, 0}, .after_len = 3,
         .wanted = {.payload_offset = 40, .payload_len = 3, .payload_number = 44,
                    .fault = {8, 3, 40, WOLFAREN_TOO_SHORT, WOLFAREN_FRAGMENT_HEADER, WOLFAREN_FRAGMENT_HEADER,
                              WOLFAREN_SLICE, 0},
                    .end = WOLFAREN_AT_TRUNCATED_HEADER}},
        {.name = "IPv6: 16 bytes of options in a payload of 8",
         .version = 6, .number = 60, .stated_len = 8, .after = {17, 1}, .after_len = 8,
         .wanted = {.stated_len = 48, .payload_offset = 40, .payload_len = 8, .payload_number = 60,
                    .fault = {16, 8, 40, WOLFAREN_TOO_SHORT, WOLFAREN_DESTINATION_OPTIONS_HEADER,
                              WOLFAREN_IPV6_EXTENSION_HEADER, WOLFAREN_IPV6_PAYLOAD_LENGTH, 0},
                    .end = WOLFAREN_AT_FAULT}},
        {.name = "IPv6: a routing header of 24 bytes in a payload of 16, of which 9 are here",
         .version = 6, .number = 43, .stated_len = 16, .after = {17, 2}, .after_len = 9,
         .wanted = {.stated_len = 56, .payload_offset = 40, .payload_len = 9, .missing = 7, .payload_number = 43,
                    .fault = {24, 16, 40, WOLFAREN_TOO_SHORT, WOLFAREN_ROUTING_HEADER, WOLFAREN_IPV6_EXTENSION_HEADER,
                              WOLFAREN_IPV6_PAYLOAD_LENGTH, 0},
                    .end = WOLFAREN_AT_FAULT}},
        {.name = "IPv6: hop-by-hop options after destination options",
         .version = 6, .number = 60, .stated_len = 16,
         .after = {0, 0, 1, 4, 0, 0, 0, 0, 17, 0, 1, 4, 0, 0, 0, 0}, .after_len = 16,
         .wanted = {.stated_len = 56, .headers = 1, .payload_offset = 48, .payload_len = 8, .payload_number = 0,
                    .fault = {.offset = 48, .kind = WOLFAREN_HOP_BY_HOP_NOT_AT_START, .header = WOLFAREN_HOP_BY_HOP_HEADER},
                    .end = WOLFAREN_AT_FAULT},
         .headers = {{40, 8, 60, 0}}},
        {.name = "IPv6: an authentication header of length 0",
         .version = 6, .number = 51, .stated_len = 12, .after = {17, 0}, .after_len = 12,
         .wanted = {.stated_len = 52, .payload_offset = 40, .payload_len = 12, .payload_number = 51,
                    .fault = {.offset = 40, .kind = WOLFAREN_ZERO_PAYLOAD_LEN, .header = WOLFAREN_AUTHENTICATION_HEADER},
                    .end = WOLFAREN_AT_FAULT}},
    };
    check_rows(rows, sizeof rows / sizeof rows[0]);
}

static void ipv4_payloads_and_fragments(void)
{
    static const struct row rows[] = {
        {.name = "IPv4: an authentication header, 2 bytes of payload and 1 of padding; don't fragment",
         .version = 4, .number = 51, .stated_len = 34, .fragment_bits = 0x4000,
         .after = {17, 1, 0, 0, 0, 0, 0, 1, 0, 0, 0, 2, 9, 9, 9}, .after_len = 15,
         .wanted = {.stated_len = 34, .headers = 1, .payload_offset = 32, .payload_len = 2, .padding = 1,
                    .payload_number = 17},
         .headers = {{20, 12, 51, 17}}},
        {.name = "IPv4: 4 of 10 bytes are here",
         .version = 4, .number = 17, .stated_len = 30, .after_len = 4,
         .wanted = {.stated_len = 30, .payload_offset = 20, .payload_len = 4, .missing = 6, .payload_number = 17}},
        {.name = "IPv4: total length 0",
         .version = 4, .number = 17, .stated_len = 0, .after_len = 4,
         .wanted = {.payload_offset = 20, .payload_len = 4, .payload_number = 17}},
        {.name = "IPv4: a first fragment",
         .version = 4, .number = 17, .stated_len = 24, .fragment_bits = 0x2000, .after_len = 4,
         .wanted = {.stated_len = 24, .payload_offset = 20, .payload_len = 4, .payload_number = 17,
                    .identification = 0x1234, .fragment = WOLFAREN_FIRST_FRAGMENT}},
        {.name = "IPv4: a middle fragment at 8 * 8191 bytes, with total length 0",
         .version = 4, .number = 17, .stated_len = 0, .fragment_bits = 0x3fff, .after_len = 4,
         .wanted = {.payload_offset = 20, .payload_len = 4, .payload_number = 17, .identification = 0x1234,
                    .fragment_offset = 65528, .fragment = WOLFAREN_MIDDLE_FRAGMENT, .end = WOLFAREN_AT_LATER_FRAGMENT}},
        {.name = "IPv4: a last fragment at 8 * 2 bytes, whose payload isn't an authentication header",
         .version = 4, .number = 51, .stated_len = 35, .fragment_bits = 2,
         .after = {17, 1, 0, 0, 0, 0, 0, 1, 0, 0, 0, 2, 9, 9, 9}, .after_len = 15,
         .wanted = {.stated_len = 35, .payload_offset = 20, .payload_len = 15, .payload_number = 51,
                    .identification = 0x1234, .fragment_offset = 16, .fragment = WOLFAREN_LAST_FRAGMENT,
                    .end = WOLFAREN_AT_LATER_FRAGMENT}},
    };
    check_rows(rows, sizeof rows / sizeof rows[0]);
}

static void ipv4_headers_that_are_not_whole(void)
{
    static const struct row rows[] = {
        {.name = "IPv4: an authentication header of 12 bytes, of which 4 are here",
         .version = 4, .number = 51, .stated_len = 32, .after = {17, 1}, .after_len = 4,
         .wanted = {.stated_len = 32, .payload_offset = 20, .payload_len = 4, .missing = 8, .payload_number = 51,
                    .fault = {12, 4, 20, WOLFAREN_TOO_SHORT, WOLFAREN_NO_LAYER, WOLFAREN_AUTHENTICATION_HEADER,
                              WOLFAREN_SLICE, 0},
                    .end = WOLFAREN_AT_TRUNCATED_HEADER}},
        {.name = "IPv4: an authentication header in a packet with room for 4 bytes",
         .version = 4, .number = 51, .stated_len = 24, .after = {17, 1}, .after_len = 12,
         .wanted = {.stated_len = 24, .payload_offset = 20, .payload_len = 4, .padding = 8, .payload_number = 51,
                    .fault = {12, 4, 20, WOLFAREN_TOO_SHORT, WOLFAREN_NO_LAYER, WOLFAREN_AUTHENTICATION_HEADER,
                              WOLFAREN_IPV4_TOTAL_LENGTH, 0},
                    .end = WOLFAREN_AT_FAULT}},
        {.name = "IPv4: an authentication header of length 0",
         .version = 4, .number = 51, .stated_len = 32, .after_len = 12,
         .wanted = {.stated_len = 32, .payload_offset = 20, .payload_len = 12, .payload_number = 51,
                    .fault = {.offset = 20, .kind = WOLFAREN_ZERO_PAYLOAD_LEN},
                    .end = WOLFAREN_AT_FAULT}},
        {.name = "IPv4: a total length below the length of the header",
         .version = 4, .number = 17, .stated_len = 19, .after_len = 4,
         .wanted = {.stated_len = 19, .payload_offset = 20, .padding = 4, .payload_number = 17,
                    .fault = {20, 19, 0, WOLFAREN_TOO_SHORT, WOLFAREN_NO_LAYER, WOLFAREN_IPV4_PACKET,
                              WOLFAREN_IPV4_TOTAL_LENGTH, 0},
                    .end = WOLFAREN_AT_FAULT}},
    };
    check_rows(rows, sizeof rows / sizeof rows[0]);
}

/* Checks bytes that don't start with an IP header: they are padding, and 59 means that no header follows. */
static void check_no_packet(const char *name, const uint8_t *bytes, size_t len, uint16_t end,
                            const struct wolfaren_fault *fault)
{
    const struct wolfaren_dissection wanted = {.padding = len, .fault = *fault, .payload_number = 59, .end = end};
    check_dissection(name, bytes, len, &wanted, NULL);
}

static void no_ip_header(void)
{
    uint8_t bytes[IPV6_LEN] = {0x60};
    struct wolfaren_fault fault = {1, 0, 0, WOLFAREN_TOO_SHORT, 0, WOLFAREN_IP_HEADER, WOLFAREN_SLICE, 0};
    check_no_packet("no bytes", bytes, 0, WOLFAREN_AT_TRUNCATED_HEADER, &fault);
    struct wolfaren_dissection found;
    memset(&found, 0xff, sizeof found);
    wolfaren_dissect(NULL, 0, NULL, 0, &found);
    check(found.version == 0 && found.fault.required_len == 1 && found.padding == 0, "no bytes", "a null pointer");
    for (size_t len = 1; len < IPV6_LEN; len++) {
        fault = (struct wolfaren_fault){40, len, 0, WOLFAREN_TOO_SHORT, 0, WOLFAREN_IPV6_HEADER, WOLFAREN_SLICE, 0};
        check_no_packet("a part of an IPv6 header", bytes, len, WOLFAREN_AT_TRUNCATED_HEADER, &fault);
    }
    bytes[0] = 0x46;
    for (size_t len = 1; len < 24; len++) {
        fault = (struct wolfaren_fault){24, len, 0, WOLFAREN_TOO_SHORT, 0, WOLFAREN_IPV4_HEADER, WOLFAREN_SLICE, 0};
        check_no_packet("a part of an IPv4 header", bytes, len, WOLFAREN_AT_TRUNCATED_HEADER, &fault);
    }
    for (uint8_t ihl = 0; ihl < 5; ihl++) {
        bytes[0] = (uint8_t)(0x40 | ihl);
        fault = (struct wolfaren_fault){.kind = WOLFAREN_IPV4_HEADER_LENGTH, .value = ihl};
        check_no_packet("an internet header length below 5", bytes, 1 + 9 * (size_t)ihl, WOLFAREN_AT_FAULT, &fault);
    }
    bytes[0] = 0x5f;
    fault = (struct wolfaren_fault){.kind = WOLFAREN_UNSUPPORTED_IP_VERSION, .value = 5};
    check_no_packet("version 5", bytes, 1, WOLFAREN_AT_FAULT, &fault);
    check_no_packet("version 5", bytes, sizeof bytes, WOLFAREN_AT_FAULT, &fault);
}

/* A header of a chain that is truncated at every byte. It needs `first_len` bytes until the byte with its length is here. */
struct link {
    struct wolfaren_header header;
    size_t first_len;
    uint8_t layer;
    uint8_t header_layer;
};

/*
 * Checks a packet without payload that is truncated to every length from its IP header on. Its headers have to lie
 * within `stated_len` bytes: those that don't are faulty if the packet states its length (`len_source`), or else
 * truncated.
 */
static void check_each_length(const char *name, const struct row *row, const struct link *links, size_t count,
                              uint8_t len_source)
{
    uint8_t bytes[IPV6_LEN + MAX_AFTER];
    struct wolfaren_header headers[MAX_HEADERS] = {{0, 0, 0, 0}};
    const size_t whole_len = write_packet(row, bytes), base_len = whole_len - row->after_len;
    const bool is_stated = len_source != WOLFAREN_SLICE;
    for (size_t i = 0; i < count; i++) headers[i] = links[i].header;
    size_t whole = 0;
    for (size_t len = base_len; len <= whole_len; len++) {
        while (whole < count && links[whole].header.offset + links[whole].header.len <= len) whole++;
        const size_t at = whole > 0 ? links[whole - 1].header.offset + links[whole - 1].header.len : base_len;
        const size_t stated_len = is_stated ? len : whole_len;
        struct wolfaren_dissection wanted = {
            .base_len = base_len, .stated_len = stated_len, .headers = whole, .payload_offset = at,
            .payload_len = len - at, .missing = stated_len - len, .version = row->version,
            .payload_number = whole > 0 ? links[whole - 1].header.next_header : row->number};
        if (whole < count) {
            const struct link *next = &links[whole];
            const size_t needed = len - at < 2 ? next->first_len : next->header.len;
            wanted.fault = (struct wolfaren_fault){needed, len - at, at, WOLFAREN_TOO_SHORT, next->header_layer,
                                                   next->layer, len_source, 0};
            wanted.end = is_stated ? WOLFAREN_AT_FAULT : WOLFAREN_AT_TRUNCATED_HEADER;
        }
        bytes[row->version == 4 ? 3 : 5] = (uint8_t)(row->version == 4 ? stated_len : stated_len - base_len);
        if (stated_len == base_len && row->version == 6) {
            /* Payload length 0 states nothing. */
            wanted.stated_len = 0;
            wanted.end = WOLFAREN_AT_TRUNCATED_HEADER;
            wanted.fault.len_source = WOLFAREN_SLICE;
        }
        check_dissection(name, bytes, len, &wanted, headers);
    }
}

static void truncated_at_every_byte(void)
{
    /* Hop-by-hop options of 16 bytes, a routing header of 8, an authentication header of 24, and UDP. */
    struct row ipv6 = {.version = 6, .number = 0, .stated_len = 48, .after = {43, 1}, .after_len = 48};
    ipv6.after[16] = 51;
    ipv6.after[24] = 17;
    ipv6.after[25] = 4;
    const struct link six[] = {
        {{40, 16, 0, 43}, 8, WOLFAREN_IPV6_EXTENSION_HEADER, WOLFAREN_HOP_BY_HOP_HEADER},
        {{56, 8, 43, 51}, 8, WOLFAREN_IPV6_EXTENSION_HEADER, WOLFAREN_ROUTING_HEADER},
        {{64, 24, 51, 17}, 12, WOLFAREN_AUTHENTICATION_HEADER, WOLFAREN_AUTHENTICATION_HEADER},
    };
    check_each_length("a truncated IPv6 chain", &ipv6, six, 3, WOLFAREN_SLICE);
    check_each_length("an IPv6 chain beyond the payload length", &ipv6, six, 3, WOLFAREN_IPV6_PAYLOAD_LENGTH);

    struct row ipv4 = {.version = 4, .number = 51, .stated_len = 44, .after = {6, 4}, .after_len = 24};
    const struct link four[] = {{{20, 24, 51, 6}, 12, WOLFAREN_AUTHENTICATION_HEADER, WOLFAREN_NO_LAYER}};
    check_each_length("a truncated IPv4 chain", &ipv4, four, 1, WOLFAREN_SLICE);
    check_each_length("an IPv4 chain beyond the total length", &ipv4, four, 1, WOLFAREN_IPV4_TOTAL_LENGTH);
}

int main(void)
{
    ipv6_payloads_and_fragments();
    ipv6_headers_that_are_not_whole();
    ipv4_payloads_and_fragments();
    ipv4_headers_that_are_not_whole();
    no_ip_header();
    truncated_at_every_byte();
    return 0;
}
