/* Each function for a tunnel skips its headers, and names the document that defines them. */
#include "capture/tunnel.h"

#include "capture/rest.h"

/* Leaves out the bytes after the first `len`. */
static void shorten(struct rest *rest, size_t len)
{
    if (rest->len > len) rest->len = len;
}

static void set_packet(struct inner *inner, const struct rest *rest, size_t offset)
{
    inner->bytes = rest->bytes + offset;
    inner->len = rest->len - offset;
}

/* Notes the number of a tunnel. */
static void identify(struct inner *inner, uint32_t identifier)
{
    inner->has_identifier = true;
    inner->identifier = identifier;
}

/* Reads a number of 4 bytes, most significant byte first. */
static uint32_t long_number_at(const uint8_t *bytes)
{
    return (uint32_t)number_at(bytes) << 16 | number_at(bytes + 2);
}

/* Notes what was found in a frame, or after an EtherType. */
static void set_found(struct inner *inner, const struct rest *rest, const struct wolfaren_frame *frame)
{
    inner->is_ip = frame->end == WOLFAREN_FRAME_IP;
    inner->protocol = protocol_of(frame);
    inner->found = *frame;
    set_packet(inner, rest, frame->offset);
}

/* Finds the packet in an Ethernet frame. */
static void find_in_frame(const struct rest *rest, struct inner *inner)
{
    enum { ETHERNET = 1 };
    struct wolfaren_frame frame;
    if (!wolfaren_find_ip(ETHERNET, rest->bytes, rest->len, &frame)) return;
    set_found(inner, rest, &frame);
    inner->vlans = vlans_of(&frame);
}

/* Finds the packet after an EtherType. */
static void find_by_type(const struct rest *rest, unsigned type, struct inner *inner)
{
    enum { ETHERNET_FRAME = 0x6558 };
    struct wolfaren_frame frame;
    if (type == ETHERNET_FRAME) {
        find_in_frame(rest, inner);
        return;
    }
    wolfaren_find_ip_after((uint16_t)type, rest->bytes, rest->len, &frame);
    set_found(inner, rest, &frame);
}

/* RFC 2003, RFC 4213, RFC 2473: the packet follows the outer IP header and its extension headers. */
static bool find_in_ip(struct rest *rest, struct inner *inner)
{
    inner->is_ip = true;
    set_packet(inner, rest, 0);
    return true;
}

/*
 * RFC 2784 and RFC 2890: flags, version 0 and an EtherType, and then four bytes for each field that a flag announces.
 * The other flags that RFC 2784 forbids are those of RFC 1701, such as that of source routes.
 */
static bool find_in_gre(struct rest *rest, struct inner *inner)
{
    enum { LEN = 4, TYPE_AT = 2, FIELD_LEN = 4 };
    enum { HAS_CHECKSUM = 0x8000, HAS_KEY = 0x2000, HAS_SEQUENCE = 0x1000, FORBIDDEN = 0x4c00, VERSION = 0x0007 };
    static const unsigned fields[] = {HAS_CHECKSUM, HAS_KEY, HAS_SEQUENCE};
    const uint8_t *header = rest->bytes;
    if (!skip(rest, LEN) || (number_at(header) & (FORBIDDEN | VERSION))) return false;
    for (size_t i = 0; i < sizeof fields / sizeof *fields; i++) {
        const uint8_t *field = rest->bytes;
        if (!(number_at(header) & fields[i])) continue;
        if (!skip(rest, FIELD_LEN)) return false;
        if (fields[i] == HAS_KEY) identify(inner, long_number_at(field));
    }
    find_by_type(rest, number_at(header + TYPE_AT), inner);
    return true;
}

/* 3GPP TS 29.281, section 5.2.1: extension headers, each with its length in units of 4 bytes and the next type. */
static bool skip_gtp_u_extensions(struct rest *rest, uint8_t type)
{
    enum { UNIT = 4 };
    while (type != 0) {
        const uint8_t *extension = rest->bytes;
        size_t len = rest->len > 0 ? (size_t)extension[0] * UNIT : 0;
        if (len == 0 || !skip(rest, len)) return false;
        type = extension[len - 1];
    }
    return true;
}

/* 3GPP TS 29.281, section 5.1: version 1, no GTP', and a G-PDU, whose packet has no number that says what it is. */
static bool find_in_gtp_u(struct rest *rest, struct inner *inner)
{
    enum { LEN = 8, TYPE_AT = 1, LENGTH_AT = 2, ENDPOINT_AT = 4, G_PDU = 255, OPTIONAL_LEN = 4, NEXT_TYPE_AT = 3 };
    enum { VERSION_AND_TYPE = 0xf0, VERSION_1_GTP = 0x30, HAS_OPTIONAL = 0x07, HAS_EXTENSIONS = 0x04 };
    const uint8_t *header = rest->bytes;
    if (!skip(rest, LEN) || (header[0] & VERSION_AND_TYPE) != VERSION_1_GTP || header[TYPE_AT] != G_PDU) return false;
    shorten(rest, number_at(header + LENGTH_AT));
    identify(inner, long_number_at(header + ENDPOINT_AT));
    const uint8_t *optional = rest->bytes;
    if ((header[0] & HAS_OPTIONAL) && !skip(rest, OPTIONAL_LEN)) return false;
    if ((header[0] & HAS_EXTENSIONS) && !skip_gtp_u_extensions(rest, optional[NEXT_TYPE_AT])) return false;
    unsigned version = rest->len > 0 ? rest->bytes[0] >> 4 : 0;
    inner->is_ip = version == 4 || version == 6;
    inner->found.end = inner->is_ip ? WOLFAREN_FRAME_IP : WOLFAREN_FRAME_OTHER;
    set_packet(inner, rest, 0);
    return true;
}

/* RFC 7348, section 5: a flag that says that there is a network identifier, and then an Ethernet frame. */
static bool find_in_vxlan(struct rest *rest, struct inner *inner)
{
    enum { LEN = 8, HAS_IDENTIFIER = 0x08, NETWORK_AT = 4 };
    const uint8_t *header = rest->bytes;
    if (!skip(rest, LEN) || !(header[0] & HAS_IDENTIFIER)) return false;
    identify(inner, long_number_at(header + NETWORK_AT) >> 8);
    find_in_frame(rest, inner);
    return true;
}

/* RFC 8926, section 3.4: version 0, the length of the options in units of 4 bytes, no control packet, an EtherType. */
static bool find_in_geneve(struct rest *rest, struct inner *inner)
{
    enum { LEN = 8, VERSION = 0xc0, OPTIONS_LEN = 0x3f, UNIT = 4, FLAGS_AT = 1, IS_CONTROL = 0x80, TYPE_AT = 2, NETWORK_AT = 4 };
    const uint8_t *header = rest->bytes;
    if (!skip(rest, LEN) || (header[0] & VERSION) || (header[FLAGS_AT] & IS_CONTROL)) return false;
    if (!skip(rest, (size_t)(header[0] & OPTIONS_LEN) * UNIT)) return false;
    identify(inner, long_number_at(header + NETWORK_AT) >> 8);
    find_by_type(rest, number_at(header + TYPE_AT), inner);
    return true;
}

static const char *const names[] = {[TUNNEL_IP] = "",         [TUNNEL_GRE] = "GRE",       [TUNNEL_GTP_U] = "GTP-U",
                                    [TUNNEL_VXLAN] = "VXLAN", [TUNNEL_GENEVE] = "Geneve"};

const char *tunnel_name(enum tunnel tunnel)
{
    return names[tunnel];
}

enum { NUMBER_UDP = 17 };

/* By which numbers a tunnel is recognized. */
static const struct {
    enum tunnel tunnel;
    uint8_t number;   /* the protocol number of the payload */
    uint16_t port;    /* the destination port of UDP, otherwise 0 */
    uint8_t version;  /* the IP version that the protocol number stands for, or 0 */
    bool (*find)(struct rest *rest, struct inner *inner);
} tunnels[] = {
    {TUNNEL_IP, 4, 0, 4, find_in_ip},
    {TUNNEL_IP, 41, 0, 6, find_in_ip},
    {TUNNEL_GRE, 47, 0, 0, find_in_gre},
    {TUNNEL_GTP_U, NUMBER_UDP, 2152, 0, find_in_gtp_u},
    {TUNNEL_VXLAN, NUMBER_UDP, 4789, 0, find_in_vxlan},
    {TUNNEL_GENEVE, NUMBER_UDP, 6081, 0, find_in_geneve},
};

/* RFC 768. A length of 0 states none, which only jumbograms may have (RFC 2675, section 4). */
static bool skip_udp(struct rest *rest, bool is_ipv6, unsigned *port)
{
    enum { LEN = 8, PORT_AT = 2, LENGTH_AT = 4 };
    const uint8_t *header = rest->bytes;
    if (!skip(rest, LEN)) return false;
    unsigned stated = number_at(header + LENGTH_AT);
    *port = number_at(header + PORT_AT);
    if (stated == 0) return is_ipv6;
    if (stated < LEN) return false;
    shorten(rest, stated - LEN);
    return true;
}

bool find_inner(const struct parts *parts, struct inner *inner)
{
    const struct wolfaren_dissection *packet = &parts->packet;
    struct rest rest = {.bytes = parts->bytes + packet->payload_offset, .len = packet->payload_len};
    unsigned port = 0;
    if (packet->end != WOLFAREN_AT_PAYLOAD) return false;
    if (packet->payload_number == NUMBER_UDP && !skip_udp(&rest, packet->version == 6, &port)) return false;
    for (size_t i = 0; i < sizeof tunnels / sizeof *tunnels; i++) {
        if (tunnels[i].number != packet->payload_number || tunnels[i].port != port) continue;
        *inner = (struct inner){.tunnel = tunnels[i].tunnel,
                                .protocol = {.version = tunnels[i].version},
                                .found = {.version = tunnels[i].version}};
        return tunnels[i].find(&rest, inner);
    }
    return false;
}
