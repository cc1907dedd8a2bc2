/* Tests what the lines don't cover: short arrays, null, error texts, cursors anywhere, fields of single headers, names, versions. */
#include "wolfaren.h"

#include <stdio.h>
#include <stdlib.h>
#include <string.h>

/* Hop-by-hop options, destination options, routing, fragment, authentication and destination options. */
static const uint8_t SIX[52] = {60, 0, 0, 0, 0, 0, 0, 0, 43, 0, 0, 0, 0, 0, 0, 0, 44, 0, 0, 0, 0, 0, 0, 0, 51, 0,
                                0,  0, 0, 0, 0, 0, 60, 1, 0, 0, 0, 0, 0, 0, 0, 0, 0, 0, 17, 0, 0, 0, 0, 0, 0, 0};

static const struct wolfaren_header SPANS[6] = {{0, 8, 0, 60},   {8, 8, 60, 43},   {16, 8, 43, 44},
                                               {24, 8, 44, 51}, {32, 12, 51, 60}, {44, 8, 60, 17}};

static void check(bool holds, const char *what)
{
    if (!holds) {
        fprintf(stderr, "edges: %s\n", what);
        exit(1);
    }
}

static bool same_header(const struct wolfaren_header *a, const struct wolfaren_header *b)
{
    return a->offset == b->offset && a->len == b->len && a->number == b->number && a->next_header == b->next_header;
}

/* Arrays allocated with exactly their length: none, one less than the count, the count, and more. */
static void arrays_of_each_length(void)
{
    const struct wolfaren_header stays = {7, 7, 7, 7};
    for (size_t room = 0; room <= 8; room++) {
        struct wolfaren_header *headers = malloc(room == 0 ? 1 : room * sizeof *headers);
        check(headers != NULL, "memory");
        for (size_t i = 0; i < room; i++) {
            headers[i] = stays;
        }
        struct wolfaren_chain chain;
        wolfaren_parse_chain(0, SIX, sizeof SIX, room == 0 ? NULL : headers, room, &chain);
        check(chain.headers == 6 && chain.len == 52 && chain.next_header == 17, "a chain in an array of any length");
        for (size_t i = 0; i < room; i++) {
            check(same_header(&headers[i], i < 6 ? &SPANS[i] : &stays), "the headers that fit");
        }
        free(headers);
    }
}

/* Runs: six headers fit; a second routing header, third destination options, and what isn't a header don't. */
static void runs_of_headers(void)
{
    struct wolfaren_header headers[7];
    memcpy(headers, SPANS, sizeof SPANS);
    headers[6] = SPANS[2];
    check(wolfaren_run_len(headers, 7) == 6 && wolfaren_run_len(&headers[6], 1) == 1, "a routing header after six");
    headers[6].number = 60;
    check(wolfaren_run_len(headers, 7) == 6 && wolfaren_run_len(headers, 3) == 3, "destination options after six");
    headers[1].number = 17;
    check(wolfaren_run_len(headers, 7) == 1 && wolfaren_run_len(&headers[1], 6) == 0, "not an extension header");
    check(wolfaren_run_len(NULL, 0) == 0, "a run of none");
}

static void nothing_at_all(void)
{
    struct wolfaren_chain chain;
    wolfaren_parse_chain(17, NULL, 0, NULL, 0, &chain);
    check(chain.headers == 0 && chain.next_header == 17 && chain.fault.kind == WOLFAREN_NO_FAULT, "no bytes, no header");
    wolfaren_parse_ipv4_chain(51, NULL, 0, NULL, 0, &chain);
    check(chain.fault.kind == WOLFAREN_TOO_SHORT && chain.fault.required_len == 12, "no bytes for an authentication header");
    struct wolfaren_packet packet;
    struct wolfaren_payload payload;
    struct wolfaren_fault fault = {.kind = 200};
    check(!wolfaren_parse_packet(NULL, 0, NULL, 0, &packet, &fault), "no bytes, no packet");
    check(fault.kind == WOLFAREN_TOO_SHORT && fault.layer == WOLFAREN_IP_HEADER, "the error for no bytes");
    check(!wolfaren_parse_packet_lax(NULL, 0, NULL, 0, &packet, &fault), "no bytes, no truncated packet");
    check(!wolfaren_find_payload(NULL, 0, &payload, &fault), "no bytes, no payload");
    check(!wolfaren_find_payload_lax(NULL, 0, &payload, &fault) && fault.required_len == 1, "no bytes, no truncated payload");
    struct wolfaren_fragment fragment;
    struct wolfaren_authentication auth;
    check(!wolfaren_fragment_fields(NULL, 0, &fragment), "no bytes, no fragment header");
    check(!wolfaren_authentication_fields(NULL, 0, &auth), "no bytes, no authentication header");
}

static void texts(void)
{
    const char *words = "not enough bytes for the destination options header at offset 0: 8 needed, 0 there";
    struct wolfaren_chain chain;
    wolfaren_parse_chain(60, NULL, 0, NULL, 0, &chain);
    char text[WOLFAREN_TEXT_ROOM];
    check(wolfaren_fault_text(&chain.fault, text, sizeof text) == strlen(words), "a text's length");
    check(strcmp(text, words) == 0, "a text");
    memset(text, 'x', sizeof text);
    check(wolfaren_fault_text(&chain.fault, text, strlen(words)) == strlen(words), "the length of a text without room");
    check(text[0] == 'x', "nothing is written if the text doesn't fit");
    check(wolfaren_fault_text(&chain.fault, NULL, 0) == strlen(words), "the length of a text without an array");
    chain.fault.kind = 200;
    check(wolfaren_fault_text(&chain.fault, text, sizeof text) == 0 && text[0] == 0, "an unknown kind");
    chain.fault.kind = WOLFAREN_TOO_SHORT;
    chain.fault.layer = 200;
    check(wolfaren_fault_text(&chain.fault, text, sizeof text) == 0, "an unknown layer");
}

static void cursors_from_anywhere(void)
{
    struct wolfaren_header header = {7, 7, 7, 7};
    const struct wolfaren_header stays = header;
    struct wolfaren_cursor cursor = {SIZE_MAX, WOLFAREN_DESTINATION_OPTIONS};
    check(!wolfaren_next_header(&cursor, SIX, sizeof SIX, &header), "no header after the bytes");
    check(cursor.offset == SIZE_MAX && cursor.number == 60 && same_header(&header, &stays), "nothing is written");
    struct wolfaren_fault fault;
    wolfaren_fault_at(&cursor, SIX, sizeof SIX, &fault);
    check(fault.kind == WOLFAREN_TOO_SHORT && fault.offset == SIZE_MAX && fault.len == 0, "an error after the bytes");
    cursor.offset = 8;
    cursor.number = WOLFAREN_HOP_BY_HOP;
    wolfaren_fault_at(&cursor, SIX, sizeof SIX, &fault);
    check(fault.kind == WOLFAREN_HOP_BY_HOP_NOT_AT_START && fault.offset == 8, "misplaced hop-by-hop options");
    char text[WOLFAREN_TEXT_ROOM];
    const char *words = "the hop-by-hop options header at offset 8 doesn't follow the IPv6 header directly";
    check(wolfaren_fault_text(&fault, text, sizeof text) == strlen(words) && strcmp(text, words) == 0, "their text");
    cursor.number = WOLFAREN_DESTINATION_OPTIONS;
    check(wolfaren_next_header(&cursor, SIX, sizeof SIX, &header) && same_header(&header, &SPANS[1]), "a step");
    check(cursor.offset == 16 && cursor.number == WOLFAREN_ROUTING, "the cursor after a step");
}

static void fields_of_single_headers(void)
{
    const uint8_t bytes[8] = {17, 0, 0, 0xe1, 1, 2, 3, 4};
    struct wolfaren_fragment fragment;
    check(wolfaren_fragment_fields(bytes, sizeof bytes, &fragment), "a fragment header");
    check(fragment.fragment_offset == 224 && fragment.more_fragments == 1, "where a fragment lies");
    check(fragment.identification == 0x01020304 && fragment.next_header == 17, "a fragment's packet");
    const uint8_t auth_bytes[12] = {17, 1, 0xff, 0xff, 0, 0, 0, 1, 0, 0, 0, 2};
    struct wolfaren_authentication auth;
    check(wolfaren_authentication_fields(auth_bytes, sizeof auth_bytes, &auth), "an authentication header");
    check(auth.len == 12 && auth.spi == 1 && auth.sequence_number == 2 && auth.next_header == 17, "its fields");
}

/* Writes the six headers without the routing header, with enough and with too little room, and with a wrong header. */
static void headers_that_are_written(void)
{
    struct wolfaren_header headers[5] = {SPANS[0], SPANS[1], SPANS[3], SPANS[4], SPANS[5]};
    check(wolfaren_link_headers(headers, 5, 6) == 0, "the number of the first header");
    check(headers[1].next_header == 44 && headers[4].next_header == 6, "links");
    check(wolfaren_link_headers(NULL, 0, 6) == 6, "linking no headers");
    uint8_t *out = malloc(44);
    check(out != NULL, "memory");
    memset(out, 9, 44);
    size_t written = 7;
    check(!wolfaren_write_headers(SIX, sizeof SIX, headers, 5, out, 43, &written) && written == 44, "room for 43");
    check(out[0] == 9 && out[43] == 9, "nothing is written");
    check(wolfaren_write_headers(SIX, sizeof SIX, headers, 5, out, 44, &written) && written == 44, "room for 44");
    struct wolfaren_chain chain;
    wolfaren_parse_chain(0, out, 44, NULL, 0, &chain);
    check(chain.headers == 5 && chain.len == 44 && chain.next_header == 6, "the output is a chain");
    free(out);
    headers[2].len = 16;
    check(!wolfaren_write_headers(SIX, sizeof SIX, headers, 5, NULL, 0, &written) && written == 0, "no header");
    check(wolfaren_write_headers(NULL, 0, NULL, 0, NULL, 0, &written) && written == 0, "nothing to write");
}

static void a_truncated_packet(void)
{
    uint8_t bytes[48] = {0x60, 0, 0, 0, 0, 100, 60, 64};
    bytes[40] = 17;
    struct wolfaren_packet packet = {.headers = 9};
    struct wolfaren_header header = {7, 7, 7, 7};
    struct wolfaren_fault fault = {.kind = 200};
    check(!wolfaren_parse_packet(bytes, sizeof bytes, &header, 1, &packet, &fault), "a strict parse");
    check(fault.kind == WOLFAREN_TOO_SHORT && fault.layer == WOLFAREN_IPV6_PACKET, "the error");
    check(packet.headers == 9 && header.offset == 7, "left unchanged on error");
    fault.kind = 200;
    check(wolfaren_parse_packet_lax(bytes, sizeof bytes, &header, 1, &packet, &fault), "a lax parse");
    check(packet.version == 6 && packet.headers == 1 && packet.len_source == WOLFAREN_SLICE, "its result");
    check(packet.payload_offset == 48 && packet.payload_len == 0 && header.offset == 40, "its parts");
    check(fault.kind == 200, "left unchanged on success");
    uint8_t ipv4[21] = {0x45, 0, 0, 22, 0, 0, 0, 0, 64, 17};
    check(!wolfaren_parse_packet_lax(ipv4, sizeof ipv4, &header, 1, &packet, &fault), "a truncated IPv4 packet");
    check(fault.kind == WOLFAREN_TOO_SHORT && fault.required_len == 22 && fault.len == 21, "its error");
}

/* The payload of a packet with three bytes of payload, of a fragment, and of a truncated packet. */
static void payloads(void)
{
    uint8_t bytes[51] = {0x60, 0, 0, 0, 0, 11, 44, 64};
    bytes[40] = 17;
    struct wolfaren_payload payload = {.len = 9};
    struct wolfaren_fault fault = {.kind = 200};
    check(wolfaren_find_payload(bytes, sizeof bytes, &payload, &fault) && fault.kind == 200, "a payload");
    check(payload.base_len == 40 && payload.offset == 48 && payload.len == 3, "where it lies");
    check(payload.version == 6 && payload.number == 17 && payload.fragmented == 0, "what it is");
    bytes[43] = 1;
    check(wolfaren_find_payload(bytes, sizeof bytes, &payload, &fault) && payload.fragmented == 1, "a fragment");
    check(!wolfaren_find_payload(bytes, 50, &payload, &fault) && payload.len == 3, "a truncated payload");
    check(fault.kind == WOLFAREN_TOO_SHORT && fault.required_len == 51 && fault.len == 50, "the error of a truncated payload");
    check(wolfaren_find_payload_lax(bytes, 50, &payload, &fault) && payload.len == 2, "the rest of a payload");
    check(payload.len_source == WOLFAREN_SLICE, "the length source");
}

static void check_name(const char *name, const char *wanted)
{
    if (strcmp(name, wanted) != 0) {
        fprintf(stderr, "edges: the name %s, expected %s\n", name, wanted);
        exit(1);
    }
}

/* The names of kinds, of layers and length sources as error texts have them, and of numbers as IANA lists them. */
static void names_of_codes(void)
{
    static const char *const KINDS[] = {"", "TooShort", "HopByHopNotAtStart", "ZeroPayloadLen", "UnsupportedIpVersion",
                                        "Ipv4HeaderLength", ""};
    static const char *const LAYERS[] = {"", "IpHeader", "Ipv4Header", "Ipv4Packet", "IpAuthHeader", "Ipv6Header", "Ipv6Packet",
                                         "Ipv6ExtHeader", "Ipv6HopByHopHeader", "Ipv6DestOptionsHeader", "Ipv6RouteHeader",
                                         "Ipv6FragHeader"};
    static const char *const TEXTS[] = {"", "IP header", "IPv4 header", "IPv4 packet", "authentication header", "IPv6 header",
                                        "IPv6 packet", "extension header", "hop-by-hop options header",
                                        "destination options header", "routing header", "fragment header"};
    static const char *const SOURCES[] = {"", "Slice", "Ipv4HeaderTotalLen", "Ipv6HeaderPayloadLen", ""};
    static const struct {
        uint8_t number;
        const char *name;
    } NUMBERS[] = {{0, "HOPOPT"}, {1, "ICMP"},        {4, "IPv4"},        {6, "TCP"},      {17, "UDP"},
                   {41, "IPv6"},  {43, "IPv6-Route"}, {44, "IPv6-Frag"},  {50, "ESP"},     {51, "AH"},
                   {61, ""},      {58, "IPv6-ICMP"},  {59, "IPv6-NoNxt"}, {60, "IPv6-Opts"}, {132, "SCTP"},
                   {139, "HIP"},  {140, "Shim6"},     {148, ""},          {255, ""}};
    for (uint8_t kind = 0; kind < 7; kind++) {
        check_name(wolfaren_kind_name(kind), KINDS[kind]);
    }
    for (uint8_t source = 0; source < 5; source++) {
        check_name(wolfaren_len_source_name(source), SOURCES[source]);
    }
    check_name(wolfaren_kind_name(255), "");
    check_name(wolfaren_layer_name(WOLFAREN_NO_LAYER), "");
    check_name(wolfaren_layer_name(200), "");
    for (uint8_t layer = 1; layer < 12; layer++) {
        check_name(wolfaren_layer_name(layer), LAYERS[layer]);
        const struct wolfaren_fault fault = {.kind = WOLFAREN_TOO_SHORT, .layer = layer, .len_source = WOLFAREN_SLICE};
        char text[WOLFAREN_TEXT_ROOM], words[WOLFAREN_TEXT_ROOM];
        check(wolfaren_fault_text(&fault, text, sizeof text) > 0, "the text of a layer");
        snprintf(words, sizeof words, "not enough bytes for the %s at offset 0: 0 needed, 0 there", TEXTS[layer]);
        check_name(words, text);
    }
    for (size_t i = 0; i < sizeof NUMBERS / sizeof NUMBERS[0]; i++) {
        check_name(wolfaren_number_name(NUMBERS[i].number), NUMBERS[i].name);
    }
    struct wolfaren_name name;
    wolfaren_find_number_name(6, &name);
    check(name.size == 4 && strcmp(name.text, "TCP") == 0, "a name's size");
}

static void version_of_the_library(void)
{
    check(wolfaren_version() == WOLFAREN_VERSION, "the library's version is the header's");
    check(wolfaren_abi() == WOLFAREN_ABI, "the library's checksum is the header's");
}

int main(void)
{
    arrays_of_each_length();
    runs_of_headers();
    nothing_at_all();
    texts();
    cursors_from_anywhere();
    fields_of_single_headers();
    headers_that_are_written();
    a_truncated_packet();
    payloads();
    names_of_codes();
    version_of_the_library();
    return 0;
}
