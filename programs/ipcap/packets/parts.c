#include "packets/parts.h"

void parse_packet(struct parts *parts, const uint8_t *bytes, size_t len)
{
    parts->bytes = bytes;
    parts->len = len;
    wolfaren_dissect(bytes, len, parts->headers, STORED_HEADERS, &parts->packet);
}

bool visit_header(const struct parts *parts, struct header_walk *walk)
{
    const struct wolfaren_header *last = &walk->header;
    struct wolfaren_cursor cursor = {last->offset + last->len, last->next_header};
    if (walk->visited == parts->packet.headers) return false;
    if (walk->visited < STORED_HEADERS) walk->header = parts->headers[walk->visited];
    /* only IPv6 has so many headers */
    else if (!wolfaren_next_header(&cursor, parts->bytes, parts->packet.payload_offset, &walk->header)) return false;
    walk->visited++;
    return true;
}

enum chain_end end_of_chain(const struct parts *parts)
{
    if (parts->packet.end == WOLFAREN_AT_FAULT) return CHAIN_FAULTY;
    return parts->packet.end == WOLFAREN_AT_TRUNCATED_HEADER ? CHAIN_TRUNCATED : CHAIN_WHOLE;
}

bool has_fault(const struct parts *parts)
{
    return parts->packet.end == WOLFAREN_AT_FAULT;
}

bool is_fragment(const struct parts *parts)
{
    return parts->packet.fragment != WOLFAREN_NOT_FRAGMENTED && parts->packet.fragment != WOLFAREN_ATOMIC_FRAGMENT;
}

bool find_fragment_header(const struct parts *parts, struct wolfaren_header *found)
{
    enum { FIELDS_AT = 2, NOT_ATOMIC = 0xfff9 };
    struct header_walk walk = {0};
    bool is_found = false;
    while (visit_header(parts, &walk)) {
        const uint8_t *fields = parts->bytes + walk.header.offset + FIELDS_AT;
        if (walk.header.number != WOLFAREN_FRAGMENT) continue;
        const bool is_atomic = !((fields[0] << 8 | fields[1]) & NOT_ATOMIC);
        if (!is_found || !is_atomic) *found = walk.header;
        if (!is_atomic) return true;
        is_found = true;
    }
    return is_found;
}

size_t fault_offset(const struct parts *parts)
{
    const struct wolfaren_fault *fault = &parts->packet.fault;
    return fault->kind == WOLFAREN_TOO_SHORT ? fault->offset : parts->packet.payload_offset;
}

uint8_t faulty_layer(const struct wolfaren_fault *fault)
{
    /* the one layer that an error of each kind can be in, but for bytes that are missing */
    static const uint8_t layers[] = {
        [WOLFAREN_HOP_BY_HOP_NOT_AT_START] = WOLFAREN_HOP_BY_HOP_HEADER,
        [WOLFAREN_ZERO_PAYLOAD_LEN] = WOLFAREN_AUTHENTICATION_HEADER,
        [WOLFAREN_UNSUPPORTED_IP_VERSION] = WOLFAREN_IP_HEADER,
        [WOLFAREN_IPV4_HEADER_LENGTH] = WOLFAREN_IPV4_HEADER,
    };
    if (fault->kind != WOLFAREN_TOO_SHORT && fault->kind < sizeof layers) return layers[fault->kind];
    return fault->header != WOLFAREN_NO_LAYER ? fault->header : fault->layer;
}
