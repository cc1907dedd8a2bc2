/*
 * follow: reads lines with the bytes of an IP packet in hexadecimal and a full stop. For each, prints how many packets or
 * other frames tunnels carry in the first 0, 1 and so on up to all bytes, and then, after semicolons, those in all bytes.
 */
#include <stdio.h>
#include <stdlib.h>
#include <string.h>

#include "capture/tunnel.h"
#include "counts/chain_text.h"
#include "counts/protocol_key.h"
#include "packets/parts.h"

enum { MAX_PACKET = 1 << 16 };

/* Prints the chain of a packet in tunnels, or the protocol that a tunnel carries. */
static void print_inner(const struct path *path, const struct parts *parts, const struct inner *inner)
{
    struct key key;
    char text[CHAIN_TEXT_ROOM] = "other";
    if (!inner->is_ip && protocol_key(&inner->protocol, &key)) write_protocol(key.bytes, key.len, text);
    if (inner->is_ip && parts->packet.version == 0) strcpy(text, "no header");
    if (inner->is_ip && parts->packet.version != 0) write_chain(path, parts, text);
    printf(";%s", text);
}

/* Follows tunnels in a copy of the bytes, after which no byte may be read. Returns how many there are. */
static unsigned follow(const uint8_t *bytes, size_t len, bool is_printed)
{
    struct parts parts = {0};
    struct path path = {0};
    struct inner inner = {.is_ip = true};
    uint8_t *packet = malloc(len);
    if (!packet && len > 0) abort();
    if (len > 0) memcpy(packet, bytes, len);
    parse_packet(&parts, packet, len);
    while (path.tunnels < PATH_TUNNELS && inner.is_ip && find_inner(&parts, &inner)) {
        extend_path(&path, &parts, inner.tunnel);
        if (inner.is_ip) parse_packet(&parts, inner.bytes, inner.len);
        if (is_printed) print_inner(&path, &parts, &inner);
    }
    free(packet);
    return path.tunnels;
}

/* Reads a packet in hexadecimal, and returns its length. */
static size_t read_bytes(uint8_t bytes[MAX_PACKET])
{
    size_t len = 0;
    while (len < MAX_PACKET && scanf("%2hhx", &bytes[len]) == 1) len++;
    return len;
}

int main(void)
{
    static uint8_t bytes[MAX_PACKET];
    for (size_t packet_len; packet_len = read_bytes(bytes), getchar() == '.';) {
        for (size_t len = 0; len <= packet_len; len++) printf("%u ", follow(bytes, len, false));
        follow(bytes, packet_len, true);
        putchar('\n');
    }
    return !feof(stdin);
}
