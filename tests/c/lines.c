/*
 * Answers lines `exts6 N HEX`, `exts4 N HEX` and `packet HEX` like the program ipexts, with the calls of wolfaren.h.
 * `steps6 N HEX` has the same answer as exts6, but uses a cursor. `payload HEX` has the same answer as packet, but uses
 * the call that only finds the payload. Every line must be valid.
 */
#include "wolfaren.h"

#include <stdio.h>
#include <stdlib.h>
#include <string.h>

enum { MOST_BYTES = 4096, MOST_HEADERS = 512 };

static const char *layer_name(uint8_t layer)
{
    switch (layer) {
    case WOLFAREN_IP_HEADER: return "IpHeader";
    case WOLFAREN_IPV4_HEADER: return "Ipv4Header";
    case WOLFAREN_IPV4_PACKET: return "Ipv4Packet";
    case WOLFAREN_AUTHENTICATION_HEADER: return "IpAuthHeader";
    case WOLFAREN_IPV6_HEADER: return "Ipv6Header";
    case WOLFAREN_IPV6_PACKET: return "Ipv6Packet";
    case WOLFAREN_IPV6_EXTENSION_HEADER: return "Ipv6ExtHeader";
    case WOLFAREN_HOP_BY_HOP_HEADER: return "Ipv6HopByHopHeader";
    case WOLFAREN_DESTINATION_OPTIONS_HEADER: return "Ipv6DestOptionsHeader";
    case WOLFAREN_ROUTING_HEADER: return "Ipv6RouteHeader";
    case WOLFAREN_FRAGMENT_HEADER: return "Ipv6FragHeader";
    default: return "?";
    }
}

static const char *source_name(uint32_t source)
{
    switch (source) {
    case WOLFAREN_SLICE: return "Slice";
    case WOLFAREN_IPV4_TOTAL_LENGTH: return "Ipv4HeaderTotalLen";
    case WOLFAREN_IPV6_PAYLOAD_LENGTH: return "Ipv6HeaderPayloadLen";
    default: return "?";
    }
}

static const char *header_name(uint32_t number)
{
    switch (number) {
    case WOLFAREN_HOP_BY_HOP: return "hopopt";
    case WOLFAREN_ROUTING: return "route";
    case WOLFAREN_FRAGMENT: return "frag";
    case WOLFAREN_AUTHENTICATION: return "auth";
    case WOLFAREN_DESTINATION_OPTIONS: return "dstopts";
    default: return "?";
    }
}

static void print_fault(const struct wolfaren_fault *fault)
{
    switch (fault->kind) {
    case WOLFAREN_NO_FAULT:
        printf("ok");
        break;
    case WOLFAREN_TOO_SHORT:
        printf("fault len %zu of %zu %s %s at %zu", fault->required_len, fault->len, source_name(fault->len_source),
               layer_name(fault->layer), fault->offset);
        break;
    case WOLFAREN_HOP_BY_HOP_NOT_AT_START:
        printf("fault HopByHopNotAtStart");
        break;
    case WOLFAREN_ZERO_PAYLOAD_LEN:
        printf("fault ZeroPayloadLen");
        break;
    case WOLFAREN_UNSUPPORTED_IP_VERSION:
        printf("fault UnsupportedIpVersion %u", (unsigned)fault->value);
        break;
    case WOLFAREN_IPV4_HEADER_LENGTH:
        printf("fault Ipv4HeaderLengthSmallerThanHeader %u", (unsigned)fault->value);
        break;
    default:
        printf("?");
    }
}

static void print_header(const struct wolfaren_header *header)
{
    printf("%zu %s %zu\n", header->offset, header_name(header->number), header->len);
}

static void print_end(uint32_t number, size_t rest, const struct wolfaren_fault *fault, bool has_layer)
{
    printf("next %u rest %zu\n", (unsigned)number, rest);
    print_fault(fault);
    if (has_layer && fault->kind != WOLFAREN_NO_FAULT) {
        printf(" in %s", layer_name(fault->header));
    }
    printf("\n");
}

static void answer_chain(bool is_ipv6, uint8_t first, const uint8_t *bytes, size_t len)
{
    struct wolfaren_header headers[MOST_HEADERS];
    struct wolfaren_chain chain;
    if (is_ipv6) {
        wolfaren_parse_chain(first, bytes, len, headers, MOST_HEADERS, &chain);
    } else {
        wolfaren_parse_ipv4_chain(first, bytes, len, headers, MOST_HEADERS, &chain);
    }
    for (size_t i = 0; i < chain.headers; i++) {
        print_header(&headers[i]);
    }
    print_end(chain.next_header, len - chain.len, &chain.fault, is_ipv6);
}

static void answer_steps(uint8_t first, const uint8_t *bytes, size_t len)
{
    struct wolfaren_cursor cursor = {0, first};
    struct wolfaren_header header;
    while (wolfaren_next_header(&cursor, bytes, len, &header)) {
        print_header(&header);
    }
    struct wolfaren_fault fault;
    wolfaren_fault_at(&cursor, bytes, len, &fault);
    print_end(cursor.number, len - cursor.offset, &fault, true);
}

static void print_packet(const struct wolfaren_payload *payload)
{
    printf("ipv%u header %zu exts %zu payload %zu\n", (unsigned)payload->version, payload->base_len,
           payload->offset - payload->base_len, payload->len);
    printf("next %u fragmented %s source %s\nok\n", (unsigned)payload->number, payload->fragmented ? "yes" : "no",
           source_name(payload->len_source));
}

static void answer_packet(const uint8_t *bytes, size_t len)
{
    struct wolfaren_packet packet;
    struct wolfaren_fault fault;
    if (!wolfaren_parse_packet(bytes, len, NULL, 0, &packet, &fault)) {
        print_fault(&fault);
        printf("\n");
        return;
    }
    const struct wolfaren_payload payload = {
        packet.base_len, packet.payload_offset, packet.payload_len, packet.version, packet.payload_number,
        packet.fragmented, packet.len_source,
    };
    print_packet(&payload);
}

static void answer_payload(const uint8_t *bytes, size_t len)
{
    struct wolfaren_payload payload;
    struct wolfaren_fault fault;
    if (wolfaren_find_payload(bytes, len, &payload, &fault)) {
        print_packet(&payload);
        return;
    }
    print_fault(&fault);
    printf("\n");
}

/* Returns the bytes of the digits in an allocation of exactly their length, so that reads past them are detected. */
static uint8_t *bytes_of(const char *digits, size_t *len)
{
    *len = strcmp(digits, "-") == 0 ? 0 : strlen(digits) / 2;
    uint8_t *bytes = malloc(*len == 0 ? 1 : *len);
    if (bytes == NULL) {
        exit(2);
    }
    for (size_t i = 0; i < *len; i++) {
        const char pair[3] = {digits[2 * i], digits[2 * i + 1], 0};
        bytes[i] = (uint8_t)strtoul(pair, NULL, 16);
    }
    return bytes;
}

static void answer(const char *form, uint8_t number, const char *digits)
{
    size_t len;
    uint8_t *bytes = bytes_of(digits, &len);
    if (strcmp(form, "packet") == 0) {
        answer_packet(len == 0 ? NULL : bytes, len);
    } else if (strcmp(form, "payload") == 0) {
        answer_payload(len == 0 ? NULL : bytes, len);
    } else if (strcmp(form, "steps6") == 0) {
        answer_steps(number, len == 0 ? NULL : bytes, len);
    } else {
        answer_chain(strcmp(form, "exts6") == 0, number, len == 0 ? NULL : bytes, len);
    }
    free(bytes);
}

int main(void)
{
    static char line[2 * MOST_BYTES + 32];
    while (fgets(line, sizeof line, stdin) != NULL) {
        line[strcspn(line, "\n")] = 0;
        const char *form = strtok(line, " ");
        const char *number = form[0] == 'p' ? "0" : strtok(NULL, " ");
        answer(form, (uint8_t)strtoul(number, NULL, 10), strtok(NULL, " "));
    }
    return 0;
}
