#include "capture/compression.h"

#include <string.h>

/* The first bytes of a format. */
struct magic {
    const struct compression *compression;
    uint8_t bytes[COMPRESSION_MAGIC];
    size_t len;
};

/* RFC 1952, section 2.3.1; RFC 8878, section 3.1.1, and 3.1.2 as pzstd uses it; The .xz File Format, section 2.1.1 */
static const struct magic magics[] = {
    {&gzip, {0x1f, 0x8b}, 2},
    {&zstd, {0x28, 0xb5, 0x2f, 0xfd}, 4},
    {&zstd, {0x50, 0x2a, 0x4d, 0x18}, 4},
    {&xz, {0xfd, '7', 'z', 'X', 'Z', 0x00}, 6},
};

const struct compression *find_compression(const uint8_t *bytes, size_t len)
{
    for (size_t i = 0; i < sizeof magics / sizeof *magics; i++)
        if (len >= magics[i].len && memcmp(bytes, magics[i].bytes, magics[i].len) == 0) return magics[i].compression;
    return NULL;
}
