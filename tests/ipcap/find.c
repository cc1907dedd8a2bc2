/*
 * find: reads lines with the number of a link layer and the bytes of a frame in hexadecimal. For each, prints where an IP
 * packet is found in the first 0, 1 and so on up to all bytes of the frame, or -1 where none is.
 */
#include <stdio.h>
#include <stdlib.h>
#include <string.h>

#include "wolfaren.h"

enum { MAX_FRAME = 4096 };

/* Returns where IP is found in a copy of the bytes, after which no byte may be read, or -1. */
static int place_of_ip(unsigned layer, const uint8_t *bytes, size_t len)
{
    struct wolfaren_frame found;
    uint8_t *frame = malloc(len);
    if (!frame && len > 0) abort();
    if (len > 0) memcpy(frame, bytes, len);
    if (!wolfaren_find_ip(layer, frame, len, &found)) exit(1);
    free(frame);
    if (found.offset > len) abort();
    return found.end == WOLFAREN_FRAME_IP ? (int)found.offset : -1;
}

/* Reads a frame in hexadecimal, and returns its length. */
static size_t read_frame(uint8_t bytes[MAX_FRAME])
{
    size_t len = 0;
    while (len < MAX_FRAME && scanf("%2hhx", &bytes[len]) == 1) len++;
    return len;
}

int main(void)
{
    unsigned number;
    static uint8_t bytes[MAX_FRAME];
    while (scanf("%u:", &number) == 1) {
        size_t frame_len = read_frame(bytes);
        if (getchar() != '.') return 1;
        for (size_t len = 0; len <= frame_len; len++) printf("%d ", place_of_ip(number, bytes, len));
        putchar('\n');
    }
    return 0;
}
