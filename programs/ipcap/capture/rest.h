/* What is left of a payload while headers are skipped. */
#ifndef IPCAP_REST_H
#define IPCAP_REST_H

#include <stdbool.h>
#include <stddef.h>
#include <stdint.h>

struct rest {
    const uint8_t *bytes;
    size_t len;
};

/* Skips `count` bytes, unless there are fewer. */
static inline bool skip(struct rest *rest, size_t count)
{
    if (rest->len < count) return false;
    rest->bytes += count;
    rest->len -= count;
    return true;
}

/* Returns the number in two bytes, the most significant of which is the first. */
static inline unsigned number_at(const uint8_t *bytes)
{
    return (unsigned)bytes[0] << 8 | bytes[1];
}

#endif
