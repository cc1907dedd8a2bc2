#include "packets/details.h"

#include <stddef.h>

#include "capture/rest.h"
#include "counts/protocol_key.h"

enum { NUMBER_ICMP = 1, NUMBER_TCP = 6, NUMBER_ICMP6 = 58 };

/* Whether the payload begins with an upper-layer header. */
static bool has_upper_layer(const struct parts *parts)
{
    return parts->packet.end == WOLFAREN_AT_PAYLOAD;
}

/* Returns a byte of the payload, or -1 if it isn't there. */
static int payload_byte(const struct parts *parts, size_t at)
{
    return at < parts->packet.payload_len ? parts->bytes[parts->packet.payload_offset + at] : -1;
}

bool find_port(const struct parts *parts, bool is_destination, unsigned *port)
{
    static const uint8_t numbers[] = {NUMBER_TCP, 17, 33, 132, 136};
    bool has_ports = false;
    for (size_t i = 0; i < sizeof numbers; i++) has_ports |= parts->packet.payload_number == numbers[i];
    int high = payload_byte(parts, is_destination ? 2 : 0), low = payload_byte(parts, is_destination ? 3 : 1);
    if (!has_ports || !has_upper_layer(parts) || low < 0) return false;
    *port = (unsigned)high << 8 | (unsigned)low;
    return true;
}

void put_port(struct writer *writer, const struct parts *parts, bool is_destination)
{
    unsigned port;
    if (!find_port(parts, is_destination, &port)) return;
    put_byte(writer, '.');
    put_number(writer, port);
}

/* The letters of the flags of TCP, from the lowest bit on. */
static const char flag_letters[] = "FSRP.UEW";

/* Writes the flags of a TCP header (RFC 9293, section 3.1; RFC 3168, section 6.1). */
static void put_flags(struct writer *writer, const struct parts *parts)
{
    enum { FLAGS_AT = 13 };
    int flags = payload_byte(parts, FLAGS_AT);
    if (flags < 0) return;
    put_text(writer, ", Flags [");
    if (flags == 0) put_text(writer, "none");
    for (int i = 0; flag_letters[i] != '\0'; i++)
        if (flags >> i & 1) put_byte(writer, flag_letters[i]);
    put_byte(writer, ']');
}

/* The types of ICMP: RFC 792, RFC 950, RFC 1256. */
static const char *const icmp_types[] = {
    [0] = "echo reply", [3] = "unreachable", [4] = "source quench", [5] = "redirect", [8] = "echo request",
    [9] = "router advertisement", [10] = "router solicitation", [11] = "time exceeded", [12] = "parameter problem",
    [13] = "time stamp query", [14] = "time stamp reply", [15] = "information request", [16] = "information reply",
    [17] = "address mask request", [18] = "address mask",
};

/* The types of ICMPv6 in the registry of IANA. */
static const char *const icmp6_types[] = {
    [1] = "destination unreachable", [2] = "packet too big", [3] = "time exceeded", [4] = "parameter problem",
    [128] = "echo request", [129] = "echo reply", [130] = "multicast listener query", [131] = "multicast listener report",
    [132] = "multicast listener done", [133] = "router solicitation", [134] = "router advertisement",
    [135] = "neighbor solicitation", [136] = "neighbor advertisement", [137] = "redirect", [138] = "router renumbering",
    [139] = "node information query", [140] = "node information reply", [141] = "inverse neighbor solicitation",
    [142] = "inverse neighbor advertisement", [143] = "multicast listener report v2", [144] = "ha discovery request",
    [145] = "ha discovery reply", [146] = "mobile router solicitation", [147] = "mobile router advertisement", [155] = "RPL",
};

/* Writes the type of an ICMP message, and the code unless it is 0. */
static void put_icmp(struct writer *writer, const struct parts *parts, bool is_icmp6)
{
    const char *const *names = is_icmp6 ? icmp6_types : icmp_types;
    size_t count = is_icmp6 ? sizeof icmp6_types / sizeof *icmp6_types : sizeof icmp_types / sizeof *icmp_types;
    int type = payload_byte(parts, 0), code = payload_byte(parts, 1);
    if (type < 0) return;
    const char *name = (size_t)type < count ? names[type] : NULL;
    put_text(writer, is_icmp6 ? ", ICMP6, " : ", ICMP ");
    put_text(writer, name ? name : is_icmp6 ? "unknown icmp6 type (" : "type-#");
    if (!name) put_number(writer, (uint64_t)type);
    if (!name && is_icmp6) put_byte(writer, ')');
    if (code <= 0) return;
    put_text(writer, ", code ");
    put_number(writer, (uint64_t)code);
}

/* Writes which fragment an IPv4 packet is (RFC 791, section 3.1). */
static void put_ipv4_fragment(struct writer *writer, const struct parts *parts)
{
    enum { ID_AT = 4, OFFSET_AT = 6, OFFSET = 0x1fff, UNIT = 8 };
    static const struct {
        unsigned bit;
        const char *name;
    } flags[] = {{0x2000, "+"}, {0x4000, "DF"}, {0x8000, "rsvd"}};
    unsigned fields = number_at(parts->bytes + OFFSET_AT);
    bool is_any = false;
    put_text(writer, ", id ");
    put_number(writer, number_at(parts->bytes + ID_AT));
    put_text(writer, ", offset ");
    put_number(writer, (fields & OFFSET) * UNIT);
    put_text(writer, ", flags [");
    for (size_t i = 0; i < sizeof flags / sizeof *flags; i++) {
        if (!(fields & flags[i].bit)) continue;
        put_text(writer, is_any ? ", " : "");
        put_text(writer, flags[i].name);
        is_any = true;
    }
    put_text(writer, is_any ? "], length " : "none], length ");
    put_number(writer, parts->packet.stated_len > 0 ? parts->packet.stated_len : parts->len);
}

/* Writes which fragment an IPv6 packet is (RFC 8200, section 4.5): identification, offset and length. */
static void put_ipv6_fragment(struct writer *writer, const struct parts *parts)
{
    enum { FIELDS_AT = 2, OFFSET = 0xfff8, ID_AT = 4, ID_DIGITS = 8 };
    struct wolfaren_header header;
    if (!find_fragment_header(parts, &header)) return;
    const uint8_t *bytes = parts->bytes + header.offset;
    size_t stated = parts->packet.stated_len, end = stated > 0 ? stated : parts->len, begin = header.offset + header.len;
    put_text(writer, ", frag (0x");
    put_hexadecimal(writer, (uint64_t)number_at(bytes + ID_AT) << 16 | number_at(bytes + ID_AT + 2), ID_DIGITS);
    put_byte(writer, ':');
    put_number(writer, number_at(bytes + FIELDS_AT) & OFFSET);
    put_byte(writer, '|');
    put_number(writer, end > begin ? end - begin : 0);
    put_byte(writer, ')');
}

void put_details(struct writer *writer, const struct parts *parts)
{
    const struct wolfaren_dissection *packet = &parts->packet;
    if (packet->version == 4 && is_fragment(parts)) put_ipv4_fragment(writer, parts);
    if (packet->version == 6) put_ipv6_fragment(writer, parts);
    if (!has_upper_layer(parts)) return;
    if (packet->payload_number == NUMBER_TCP) put_flags(writer, parts);
    if (packet->payload_number == NUMBER_ICMP) put_icmp(writer, parts, false);
    if (packet->payload_number == NUMBER_ICMP6) put_icmp(writer, parts, true);
}

/* Names of EtherTypes, as tcpdump has them. */
static const struct {
    uint16_t number;
    const char *name;
} ethertypes[] = {
    {0x0600, "NS"}, {0x0707, "GeoNet (old)"}, {0x0806, "ARP"}, {0x1000, "Trail"}, {0x1111, "CALM FAST"}, {0x6001, "MOP DL"},
    {0x6002, "MOP RC"}, {0x6003, "DN"}, {0x6004, "LAT"}, {0x6007, "SCA"}, {0x6558, "TEB"}, {0x8035, "Reverse ARP"},
    {0x8038, "Lanbridge"}, {0x803c, "DEC DNS"}, {0x803e, "DEC DTS"}, {0x805b, "VEXP"}, {0x805c, "VPROD"},
    {0x809b, "Appletalk"}, {0x80f3, "Appletalk ARP"}, {0x8137, "IPX"}, {0x8808, "MPCP"}, {0x8809, "Slow Protocols"},
    {0x880b, "PPP"}, {0x8847, "MPLS unicast"}, {0x8848, "MPLS multicast"}, {0x8863, "PPPoE D"}, {0x8864, "PPPoE S"},
    {0x886f, "MS NLB heartbeat"}, {0x888e, "EAPOL"}, {0x8899, "Realtek protocols"}, {0x88a2, "AoE"}, {0x88ca, "TIPC"},
    {0x88cc, "LLDP"}, {0x88e5, "802.1AE MACsec"}, {0x88f7, "PTP"}, {0x8902, "CFM"}, {0x893a, "IEEE1905.1"},
    {0x8947, "GeoNet"}, {0x894f, "NSH"}, {0x9000, "Loopback"}, {0xabcd, "CFM (old)"},
    {0xd28b, "Arista Vendor Specific Protocol"}, {0xfefe, "OSI"},
};

const char *protocol_name(const struct protocol *protocol)
{
    if (protocol->kind != WOLFAREN_ETHERTYPE) return "";
    for (size_t i = 0; i < sizeof ethertypes / sizeof *ethertypes; i++)
        if (ethertypes[i].number == protocol->number) return ethertypes[i].name;
    return "";
}

/* Writes an EtherType by its name and its number. */
static void put_ethertype(struct writer *writer, const struct protocol *protocol)
{
    const char *name = protocol_name(protocol);
    put_text(writer, ", ethertype ");
    put_text(writer, *name ? name : "Unknown");
    put_text(writer, " (0x");
    put_hexadecimal(writer, protocol->number, 4);
    put_byte(writer, ')');
}

void put_protocol(struct writer *writer, const struct protocol *protocol)
{
    struct key key;
    char text[CHAIN_TEXT_ROOM];
    if (protocol->kind == WOLFAREN_ETHERTYPE) {
        put_ethertype(writer, protocol);
    } else if (protocol_key(protocol, &key)) {
        write_protocol(key.bytes, key.len, text);
        put_text(writer, ", ");
        put_text(writer, text);
    }
}
