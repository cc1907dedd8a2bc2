#include "packets/address.h"

#include <string.h>

/* Where the source address is in the headers of both versions; the destination address follows it. */
static const struct {
    size_t offset;
    size_t len;
} places[] = {[4] = {12, 4}, [6] = {8, 16}};

/* The groups of 16 bits in an IPv6 address. */
enum { GROUPS = 8 };

static void put_ipv4(struct writer *writer, const uint8_t *address)
{
    for (int i = 0; i < 4; i++) {
        if (i > 0) put_byte(writer, '.');
        put_number(writer, address[i]);
    }
}

/* The longest run of groups that are 0, and the first one of several: all groups before `end` from `begin` on. */
struct zeros {
    int begin;
    int end;
};

/* Finds the groups that `::` stands for, of which there are at least two (RFC 5952, section 4.2). */
static struct zeros find_zeros(const uint16_t groups[GROUPS])
{
    struct zeros longest = {0, 0};
    for (int i = 0, begin = 0; i < GROUPS; i++) {
        if (groups[i] != 0)
            begin = i + 1;
        else if (i + 1 - begin > longest.end - longest.begin)
            longest = (struct zeros){begin, i + 1};
    }
    return longest.end - longest.begin > 1 ? longest : (struct zeros){GROUPS, GROUPS};
}

/* Whether the last two groups are an IPv4 address: one that is mapped or compatible (RFC 4291, section 2.5.5). */
static bool has_ipv4(const uint16_t groups[GROUPS], struct zeros zeros)
{
    return zeros.begin == 0 && (zeros.end == 6 || (zeros.end == 5 && groups[5] == 0xffff));
}

/* Writes a group without leading zeros. */
static void put_group(struct writer *writer, uint16_t group)
{
    size_t digits = 1;
    while (digits < 4 && group >> 4 * digits > 0) digits++;
    put_hexadecimal(writer, group, digits);
}

static void put_ipv6(struct writer *writer, const uint8_t *address)
{
    uint16_t groups[GROUPS];
    for (size_t i = 0; i < GROUPS; i++) groups[i] = (uint16_t)(address[2 * i] << 8 | address[2 * i + 1]);
    struct zeros zeros = find_zeros(groups);
    int count = has_ipv4(groups, zeros) ? GROUPS - 2 : GROUPS;
    for (int i = 0; i < count; i++) {
        if (i == zeros.begin) put_text(writer, "::");
        if (i >= zeros.begin && i < zeros.end) continue;
        if (i > 0 && i != zeros.end) put_byte(writer, ':');
        put_group(writer, groups[i]);
    }
    if (count == GROUPS) return;
    if (zeros.end < count) put_byte(writer, ':');
    put_ipv4(writer, address + 2 * (size_t)count);
}

void put_address_bytes(struct writer *writer, unsigned version, const uint8_t *address)
{
    (version == 4 ? put_ipv4 : put_ipv6)(writer, address);
}

void put_address(struct writer *writer, const struct parts *parts, bool is_destination)
{
    uint16_t version = parts->packet.version;
    const uint8_t *address = parts->bytes + places[version].offset + (is_destination ? places[version].len : 0);
    put_address_bytes(writer, version, address);
}
