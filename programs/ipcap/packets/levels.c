#include "packets/levels.h"

#include <string.h>

#include "capture/rest.h"
#include "conditions/matching.h"
#include "wolfaren.h"

enum { MOST_LEN = 0xffff };

/* Where fields are in the headers of IP, UDP, GRE and GTP-U. */
enum { IPV4_LEN_AT = 2, IPV4_CHECKSUM_AT = 10, IPV6_LEN_AT = 4, IPV6_LEN = 40 };
enum { NUMBER_UDP = 17, UDP_LEN = 8, UDP_LEN_AT = 4, UDP_CHECKSUM_AT = 6 };
enum { GRE_CHECKSUM_AT = 4, GRE_HAS_CHECKSUM = 0x80, GTP_U_LEN = 8, GTP_U_LEN_AT = 2 };

void begin_levels(struct levels *levels, const struct packet *packet)
{
    levels->count = 1;
    levels->of[0].offset = packet->ip_offset;
    levels->of[0].len = packet->header.caplen - packet->ip_offset;
}

/* Returns the length that the UDP header of a packet states. */
static size_t udp_len(const struct level *level, const uint8_t *frame)
{
    return number_at(frame + level->payload_offset + UDP_LEN_AT);
}

/* Returns why what a packet carries can't be replaced. */
static uint8_t refusal_of(const struct level *level, const struct parts *parts, const uint8_t *frame)
{
    const size_t end = level->payload_offset + level->payload_len;
    if (is_fragment(parts)) return WOLFAREN_REFUSED_FRAGMENTED;
    if (parts->packet.missing > 0) return WOLFAREN_REFUSED_MISSING;
    if (level->stated_len == 0 || (level->has_udp && udp_len(level, frame) == 0)) return WOLFAREN_REFUSED_NO_LENGTH;
    if (level->has_udp && udp_len(level, frame) > level->payload_len) return WOLFAREN_REFUSED_MISSING;
    if (level->inner.tunnel != TUNNEL_GTP_U) return WOLFAREN_NOT_REFUSED;
    const size_t len = number_at(frame + level->header_offset + GTP_U_LEN_AT);
    return level->header_offset + GTP_U_LEN + len > end ? WOLFAREN_REFUSED_MISSING : WOLFAREN_NOT_REFUSED;
}

/* Notes what carries the next packet. */
static void set_carrier(struct level *level, const struct parts *parts, const uint8_t *frame)
{
    const struct wolfaren_dissection *packet = &parts->packet;
    level->version = packet->version;
    level->base_len = packet->base_len;
    level->stated_len = packet->stated_len;
    level->payload_offset = level->offset + packet->payload_offset;
    level->payload_len = packet->payload_len;
    level->has_udp = packet->payload_number == NUMBER_UDP;
    level->header_offset = level->payload_offset + (level->has_udp ? UDP_LEN : 0);
    level->is_authenticated = false;
    struct header_walk walk = {0};
    while (!level->is_authenticated && visit_header(parts, &walk))
        level->is_authenticated = walk.header.number == WOLFAREN_AUTHENTICATION;
    level->refusal = refusal_of(level, parts, frame);
}

bool enter_level(struct levels *levels, const struct parts *parts, struct packet *packet)
{
    struct level *last = &levels->of[levels->count - 1];
    if (levels->count == LEVELS || !find_inner(parts, &last->inner) || !last->inner.is_ip) return false;
    set_carrier(last, parts, packet->frame);
    enter_tunnel(packet, &last->inner);
    levels->of[levels->count++] = (struct level){.offset = packet->ip_offset, .len = last->inner.len};
    return true;
}

uint8_t refuse_growth(const struct levels *levels, size_t index, ptrdiff_t growth, bool may_be_invalid)
{
    for (size_t i = 0; i < index; i++) {
        const struct level *level = &levels->of[i];
        const ptrdiff_t len = (ptrdiff_t)level->stated_len + growth - (level->version == 6 ? IPV6_LEN : 0);
        if (level->refusal != WOLFAREN_NOT_REFUSED) return level->refusal;
        if (level->is_authenticated && !may_be_invalid) return WOLFAREN_REFUSED_AUTHENTICATED;
        if (len > MOST_LEN) return WOLFAREN_REFUSED_TOO_LONG;
    }
    return WOLFAREN_NOT_REFUSED;
}

bool is_covered(const struct levels *levels, size_t index)
{
    for (size_t i = 0; i < index; i++)
        if (levels->of[i].is_authenticated) return true;
    return false;
}

/* Returns the sum of 16-bit words, as for a checksum (RFC 1071), without carries. An odd byte is the first one of a word. */
static uint64_t sum_of(const uint8_t *bytes, size_t len)
{
    uint64_t sum = 0;
    for (size_t i = 0; i + 1 < len; i += 2) sum += number_at(bytes + i);
    return len % 2 == 1 ? sum + ((uint64_t)bytes[len - 1] << 8) : sum;
}

/* Adds the carries of a sum to it. */
static unsigned fold(uint64_t sum)
{
    while (sum > 0xffff) sum = (sum & 0xffff) + (sum >> 16);
    return (unsigned)sum;
}

static void put_field(uint8_t *field, size_t value)
{
    field[0] = (uint8_t)(value >> 8);
    field[1] = (uint8_t)value;
}

/* Adds to a length field. */
static void add_to_field(uint8_t *field, ptrdiff_t growth)
{
    put_field(field, (size_t)((ptrdiff_t)number_at(field) + growth));
}

/* What the checksums of a packet cover, as sums with the checksums themselves. */
struct sums {
    uint64_t base, udp, gre;
};

static bool has_gre_checksum(const struct level *level, const uint8_t *frame)
{
    return level->inner.tunnel == TUNNEL_GRE && (frame[level->header_offset] & GRE_HAS_CHECKSUM);
}

/* Returns the sum of what the checksum of GRE covers. */
static uint64_t sum_of_gre(const struct level *level, const uint8_t *frame)
{
    return sum_of(frame + level->header_offset, level->payload_offset + level->payload_len - level->header_offset);
}

/* Returns the sum of what that of UDP covers, but for the addresses, which stay. The pseudo-header has the length too (RFC 768). */
static uint64_t sum_of_udp(const struct level *level, const uint8_t *frame)
{
    return sum_of(frame + level->payload_offset, udp_len(level, frame)) + udp_len(level, frame);
}

static struct sums sums_of(const struct level *level, const uint8_t *frame)
{
    struct sums sums = {.base = sum_of(frame + level->offset, level->base_len)};
    if (level->has_udp) sums.udp = sum_of_udp(level, frame);
    if (has_gre_checksum(level, frame)) sums.gre = sum_of_gre(level, frame);
    return sums;
}

/* Changes a checksum from one sum to another (RFC 1624, section 3). */
static void update_checksum(uint8_t *field, uint64_t before, uint64_t after)
{
    const unsigned sum = fold((uint64_t)(number_at(field) ^ 0xffff) + (fold(before) ^ 0xffff) + fold(after));
    put_field(field, sum ^ 0xffff);
}

/* As above. The checksum 0 says that there is none, and one that would be 0 is written as 0xffff (RFC 768). */
static void update_udp_checksum(uint8_t *field, uint64_t before, uint64_t after)
{
    if (number_at(field) == 0) return;
    update_checksum(field, before, after);
    if (number_at(field) == 0) put_field(field, 0xffff);
}

/* Lets the lengths and the checksums of a packet follow what it carries. */
static void follow(struct level *level, uint8_t *frame, const struct sums *before, ptrdiff_t growth)
{
    uint8_t *base = frame + level->offset, *udp = frame + level->payload_offset, *header = frame + level->header_offset;
    level->len += (size_t)growth;
    level->stated_len += (size_t)growth;
    level->payload_len += (size_t)growth;
    if (level->inner.tunnel == TUNNEL_GTP_U) add_to_field(header + GTP_U_LEN_AT, growth);
    if (has_gre_checksum(level, frame)) update_checksum(header + GRE_CHECKSUM_AT, before->gre, sum_of_gre(level, frame));
    if (level->has_udp) {
        add_to_field(udp + UDP_LEN_AT, growth);
        update_udp_checksum(udp + UDP_CHECKSUM_AT, before->udp, sum_of_udp(level, frame));
    }
    add_to_field(base + (level->version == 6 ? IPV6_LEN_AT : IPV4_LEN_AT), growth);
    if (level->version == 4) update_checksum(base + IPV4_CHECKSUM_AT, before->base, sum_of(base, level->base_len));
}

void replace_packet(struct levels *levels, size_t index, uint8_t *frame, size_t *len, size_t old_len, const uint8_t *bytes,
                    size_t new_len)
{
    struct sums before[LEVELS];
    const ptrdiff_t growth = (ptrdiff_t)new_len - (ptrdiff_t)old_len;
    uint8_t *place = frame + levels->of[index].offset;
    for (size_t i = 0; i < index; i++) before[i] = sums_of(&levels->of[i], frame);
    memmove(place + new_len, place + old_len, *len - levels->of[index].offset - old_len);
    memcpy(place, bytes, new_len);
    *len += (size_t)growth;
    levels->of[index].len += (size_t)growth;
    for (size_t i = index; i-- > 0;) follow(&levels->of[i], frame, &before[i], growth);
}
