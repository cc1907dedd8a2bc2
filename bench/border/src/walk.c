// The least work that a dissection can do for a filter: a walk to the payload of a packet that is neither truncated nor a
// later fragment. It writes no result but a digest.
#include <stddef.h>
#include <stdint.h>

// The digest of everything else, as in sums.rs.
static const uint64_t NO_PACKET = 2;

// Returns the digest of where the payload lies, as in sums.rs.
static uint64_t place(uint8_t number, size_t offset, size_t len) {
    return 9 * (9 * (uint64_t)number + offset) + len;
}

// Returns the field of two bytes.
static size_t field(const uint8_t *bytes) {
    return (size_t)bytes[0] << 8 | bytes[1];
}

// Returns the length of the header with this number that begins the bytes (RFC 8200, section 4; RFC 4302, section 2.2).
static size_t header_len(uint8_t number, const uint8_t *bytes) {
    return number == 44 ? 8 : number == 51 ? 4 * ((size_t)bytes[1] + 2) : 8 * ((size_t)bytes[1] + 1);
}

static uint64_t walk_ipv6(const uint8_t *bytes, size_t len) {
    if (len < 40) return NO_PACKET;
    size_t stated = field(bytes + 4), end = stated == 0 ? len : 40 + stated, at = 40;
    if (end > len) return NO_PACKET;
    uint8_t number = bytes[6];
    while (number == 0 || number == 43 || number == 44 || number == 51 || number == 60) {
        if (number == 0 && at != 40) return NO_PACKET;
        if (end - at < 8 || (number == 51 && bytes[at + 1] == 0)) return NO_PACKET;
        size_t header = header_len(number, bytes + at);
        if (end - at < header) return NO_PACKET;
        int is_later = number == 44 && field(bytes + at + 2) >> 3 != 0;
        number = bytes[at];
        at += header;
        if (is_later) break;
    }
    return place(number, at, end - at);
}

static uint64_t walk_ipv4(const uint8_t *bytes, size_t len) {
    size_t at = 4 * (size_t)(bytes[0] & 15);
    if (at < 20 || len < at) return NO_PACKET;
    size_t end = field(bytes + 2);
    if (end < at || end > len) return NO_PACKET;
    uint8_t number = bytes[9];
    int is_later = (field(bytes + 6) & 0x1fff) != 0;
    if (number == 51 && !is_later) {
        if (end - at < 12 || bytes[at + 1] == 0) return NO_PACKET;
        size_t header = header_len(number, bytes + at);
        if (end - at < header) return NO_PACKET;
        number = bytes[at];
        at += header;
    }
    return place(number, at, end - at);
}

uint64_t walk_packet(const uint8_t *bytes, size_t len) {
    if (len == 0) return NO_PACKET;
    switch (bytes[0] >> 4) {
    case 4: return walk_ipv4(bytes, len);
    case 6: return walk_ipv6(bytes, len);
    default: return NO_PACKET;
    }
}
