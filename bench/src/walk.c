// The least work that a walk over IPv6 extension headers can do: it only finds where each chain ends.
#include <stddef.h>
#include <stdint.h>

// Returns the length of the chain that starts with `number` (RFC 8200, section 4). Stops where bytes are missing.
static size_t chain_len(uint8_t number, const uint8_t *bytes, size_t len) {
    size_t at = 0;
    while (number == 0 || number == 43 || number == 44 || number == 51 || number == 60) {
        if (len - at < 8) break;
        size_t header = number == 44 ? 8
            : number == 51 ? 4 * ((size_t)bytes[at + 1] + 2)
            : 8 * ((size_t)bytes[at + 1] + 1);
        if (len - at < header) break;
        number = bytes[at];
        at += header;
    }
    return at;
}

uint64_t walk_chain(uint8_t number, const uint8_t *bytes, size_t len) {
    return chain_len(number, bytes, len);
}

uint64_t walk_packets(const uint8_t *packets, size_t len, const size_t *ends, size_t count) {
    uint64_t sum = 0;
    size_t start = 0;
    for (size_t i = 0; i < count && ends[i] <= len; i++) {
        const uint8_t *packet = packets + start;
        sum += chain_len(packet[6], packet + 40, ends[i] - start - 40);
        start = ends[i];
    }
    return sum;
}
