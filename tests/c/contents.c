/*
 * Tests wolfaren_next_option, wolfaren_routing_fields and wolfaren_routing_address: in a packet, with bytes that end anywhere,
 * and with cursors from anywhere.
 */
#include "wolfaren.h"

#include <stdio.h>
#include <stdlib.h>
#include <string.h>

static void expect(bool holds, const char *what)
{
    if (holds) return;
    fprintf(stderr, "contents: failed: %s\n", what);
    exit(1);
}

/*
 * Destination options: Pad1, home address (RFC 6275, section 6.3), PadN. Then a routing header of type 4 (RFC 8754) with two
 * addresses, none left.
 */
enum { OPTIONS_LEN = 24, ROUTING_LEN = 40, BYTES = OPTIONS_LEN + ROUTING_LEN };
static const uint8_t headers[BYTES] = {43, 2, 0, 0xc9, 16, 0x20, 1, 0xd, 0xb8, [20] = 7, 1, 1, 0,
                                       17, 4, 4, 0, 1, [OPTIONS_LEN + 23] = 8, [OPTIONS_LEN + 39] = 9};
static const uint8_t destination[16] = {0xfe, 0x80, [15] = 1};

static void test_options(void)
{
    /* a copy that ends where its memory ends, so that the sanitizer sees any byte read after it */
    uint8_t *bytes = malloc(OPTIONS_LEN);
    expect(bytes != NULL, "memory");
    memcpy(bytes, headers, OPTIONS_LEN);
    struct wolfaren_cursor chain = {0, WOLFAREN_DESTINATION_OPTIONS};
    struct wolfaren_header header;
    expect(wolfaren_next_header(&chain, bytes, OPTIONS_LEN, &header), "a header");
    struct wolfaren_option_cursor cursor = {header.offset + 2, header.offset + header.len};
    struct wolfaren_option option;
    expect(wolfaren_next_option(&cursor, bytes, OPTIONS_LEN, &option), "Pad1");
    expect(option.offset == 2 && option.data_offset == 3 && option.data_len == 0 && option.option_type == 0, "Pad1's fields");
    expect(wolfaren_next_option(&cursor, bytes, OPTIONS_LEN, &option), "a home address");
    expect(option.offset == 3 && option.data_offset == 5 && option.data_len == 16 && option.option_type == 0xc9, "its fields");
    expect(option.if_unknown == WOLFAREN_DISCARD_AND_REPORT_UNICAST && option.may_change == 0, "what its type says");
    expect(wolfaren_next_option(&cursor, bytes, OPTIONS_LEN, &option), "PadN");
    expect(option.offset == 21 && option.data_len == 1 && option.if_unknown == WOLFAREN_SKIP_OPTION, "PadN's fields");
    const struct wolfaren_option stays = option;
    expect(!wolfaren_next_option(&cursor, bytes, OPTIONS_LEN, &option), "no other option");
    expect(cursor.offset == OPTIONS_LEN && cursor.end == OPTIONS_LEN, "the end");
    expect(option.offset == stays.offset && option.data_len == stays.data_len, "nothing is stored");
    free(bytes);
}

static void test_malformed_options(void)
{
    struct wolfaren_option option;
    for (size_t end = 4; end < 21; end++) {
        /* the header ends here, or the bytes do */
        struct wolfaren_option_cursor short_header = {3, end}, short_bytes = {3, OPTIONS_LEN};
        expect(!wolfaren_next_option(&short_header, headers, BYTES, &option), "the option goes past the header");
        expect(!wolfaren_next_option(&short_bytes, headers, end, &option), "the option goes past the bytes");
        expect(short_header.offset == 3 && short_bytes.offset == 3, "where the malformed option is");
    }
    static const struct wolfaren_option_cursor anywhere[] = {{0, 0}, {9, 8}, {BYTES, SIZE_MAX}, {SIZE_MAX, SIZE_MAX}};
    for (size_t i = 0; i < sizeof anywhere / sizeof anywhere[0]; i++) {
        struct wolfaren_option_cursor cursor = anywhere[i];
        expect(!wolfaren_next_option(&cursor, headers, BYTES, &option), "no option at the cursor");
        expect(cursor.offset == anywhere[i].offset && cursor.end == anywhere[i].end, "the cursor stays");
    }
    struct wolfaren_option_cursor none = {0, 8};
    expect(!wolfaren_next_option(&none, NULL, 0, &option), "no bytes, no option");
}

static void test_routing(void)
{
    const uint8_t *routing = headers + OPTIONS_LEN;
    struct wolfaren_routing fields;
    uint8_t address[16], wanted[16] = {[15] = 8};
    expect(wolfaren_routing_fields(routing, ROUTING_LEN, &fields), "a routing header");
    expect(fields.len == ROUTING_LEN && fields.routing_type == 4 && fields.segments_left == 0, "its fields");
    expect(fields.addresses == 2 && fields.address_len == 16 && fields.last_address_len == 16, "its addresses");
    expect(fields.next_header == 17, "its next header");
    expect(wolfaren_routing_address(routing, ROUTING_LEN, 0, destination, address), "the first address");
    expect(memcmp(address, wanted, 16) == 0, "its bytes");
    wanted[15] = 9;
    expect(wolfaren_routing_address(routing, ROUTING_LEN, 1, destination, address), "the second address");
    expect(memcmp(address, wanted, 16) == 0, "its bytes");
    expect(!wolfaren_routing_address(routing, ROUTING_LEN, 2, destination, address), "no third one");
    expect(!wolfaren_routing_address(routing, ROUTING_LEN, SIZE_MAX, destination, address), "nor any other");
    expect(memcmp(address, wanted, 16) == 0, "nothing is stored");
    for (size_t len = 0; len < ROUTING_LEN; len++) {
        expect(!wolfaren_routing_fields(len > 0 ? routing : NULL, len, &fields), "no fields of a truncated header");
        expect(!wolfaren_routing_address(routing, len, 0, destination, address), "no address of a truncated header");
    }
}

static void test_compressed_addresses(void)
{
    /* type 3 (RFC 6554): 15 bytes left out of each address, 2 bytes of padding */
    const uint8_t bytes[16] = {59, 1, 3, 6, 0xff, 0x20, 0, 0, 1, 2, 3, 4, 5, 6, 0, 0};
    struct wolfaren_routing fields;
    uint8_t address[16], wanted[16];
    expect(wolfaren_routing_fields(bytes, sizeof bytes, &fields) && fields.addresses == 6, "six addresses");
    expect(fields.address_len == 1 && fields.last_address_len == 1, "of a byte each");
    for (size_t i = 0; i < 6; i++) {
        memcpy(wanted, destination, 16);
        wanted[15] = bytes[8 + i];
        expect(wolfaren_routing_address(bytes, sizeof bytes, i, destination, address), "an address");
        expect(memcmp(address, wanted, 16) == 0, "the destination's first bytes and its own");
    }
}

int main(void)
{
    test_options();
    test_malformed_options();
    test_routing();
    test_compressed_addresses();
    return 0;
}
