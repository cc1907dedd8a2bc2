/* Blocks of pcapng files in which each packet has its number in a comment. */
#ifndef IPCAP_NUMBERED_H
#define IPCAP_NUMBERED_H

#include <stdbool.h>
#include <stddef.h>
#include <stdint.h>

#include "capture/capture.h"

/* How long the head of a file with one interface is at most. */
enum { NUMBERED_HEAD = 64 };

/* The block of a packet. All zeros are none. */
struct numbered {
    const char *origin; /* the name of the file, which follows the number, or null */
    uint8_t *block;
    size_t len;
    size_t room; /* allocated for the block */
};

/*
 * Writes a section header and the description of an interface to `head`, and returns their length. The link type is one of
 * libpcap's DLT_ values. Timestamps are in nanoseconds if `is_fine`, otherwise in microseconds.
 */
size_t write_numbered_head(uint8_t head[NUMBERED_HEAD], int link_type, uint32_t snap_len, bool is_fine);

/*
 * Makes an enhanced packet block of the first interface for the packet that was read last. Its timestamp is in nanoseconds if
 * `is_fine`, otherwise in microseconds. Returns false if memory runs out.
 */
bool make_numbered(struct numbered *numbered, const struct capture *capture, const struct packet *packet, bool is_fine);

/*
 * Copies the block of the packet that was read last, and adds the comment to its options. A simple packet block, which has
 * none, becomes an enhanced one with the time 0. A block that would have more than MOST_BLOCK bytes is copied without the
 * comment, and `*is_numbered` is then false. Returns false if memory runs out.
 */
bool copy_numbered(struct numbered *numbered, const struct capture *capture, const struct packet *packet, bool *is_numbered);

/* Releases the memory. */
void end_numbered(struct numbered *numbered);

#endif
