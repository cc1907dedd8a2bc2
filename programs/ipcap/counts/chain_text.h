/* Converts chains, as the library counts them, to text and back. */
#ifndef IPCAP_CHAIN_TEXT_H
#define IPCAP_CHAIN_TEXT_H

#include <stdbool.h>
#include <stddef.h>
#include <stdint.h>

#include "capture/tunnel.h"
#include "packets/parts.h"
#include "wolfaren.h"

/* The maximum number of tunnels in a path: packets may be eight deep. */
enum { PATH_TUNNELS = 7 };

/* The bytes of an outer packet in a path: IP version and tunnel, number of headers, and their numbers. */
enum { PATH_KIND_AT, PATH_COUNT_AT, PATH_NUMBERS_AT };

/* A buffer size that is large enough for the text of every key and its terminating null byte. */
enum { CHAIN_TEXT_ROOM = 320 };

/* The outer packets of a packet in tunnels, from the outermost on. */
struct path {
    uint8_t bytes[PATH_TUNNELS * (PATH_NUMBERS_AT + STORED_HEADERS)]; /* none begins a packet with 4 or 6, as a chain begins */
    size_t len; /* how many of the bytes are used */
    unsigned tunnels;
};

/* The key of a chain, as in struct wolfaren_chain_count. */
struct key {
    size_t len;
    uint8_t bytes[WOLFAREN_CHAIN_KEY_LEN];
};

/* Makes it the path of a packet in no tunnel. Its bytes are left as they are, since each packet of a capture needs a path. */
static inline void begin_path(struct path *path)
{
    path->len = 0;
    path->tunnels = 0;
}

/* Adds an outer packet to the end of a path, which has less than PATH_TUNNELS tunnels. */
void extend_path(struct path *path, const struct parts *parts, enum tunnel tunnel);

/*
 * Formats the chain of a packet after a path, or of a key, as text: the IP version, the numbers of the headers, an arrow, the number after the chain,
 * and ` fault` or ` truncated` if the chain is incomplete. Example: `IPv6 0,43 -> 44 fault`. Before the chain come the
 * outer packets: of each, IP version, headers, and the name of the tunnel. Example: `IPv6 44 GRE > IPv4 > IPv6 -> 17`.
 * `write_chain` returns false if the packet's chain and path don't fit into a key.
 */
bool write_chain(const struct path *path, const struct parts *parts, char text[CHAIN_TEXT_ROOM]);
void write_key(const uint8_t *key, size_t len, char text[CHAIN_TEXT_ROOM]);

/*
 * Parse text in the format of `write_key` into a key: of a chain without a path, and of one with a path. Return false
 * if it isn't in that format.
 */
bool read_chain(const char *text, struct key *key);
bool read_inner_chain(const char *text, struct key *key);

/* Returns the IP version of a chain that was counted. */
uint8_t version_of(const struct wolfaren_chain_count *chain);

/* Compares two struct wolfaren_chain_count for printing: by descending count, and equal counts by the chain. */
int compare_chains(const void *left, const void *right);

#endif
