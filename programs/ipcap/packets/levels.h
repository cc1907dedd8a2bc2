/*
 * The packets in a frame, each in a tunnel of the one before it. If one of them is replaced, the lengths and checksums of those
 * that carry it follow.
 */
#ifndef IPCAP_LEVELS_H
#define IPCAP_LEVELS_H

#include <stdbool.h>
#include <stddef.h>
#include <stdint.h>

#include "capture/capture.h"
#include "capture/tunnel.h"
#include "counts/chain_text.h"
#include "packets/parts.h"

enum { LEVELS = PATH_TUNNELS + 1 };

/* A packet in a frame. Offsets count from the start of the frame. */
struct level {
    size_t offset;         /* where it begins */
    size_t len;            /* number of its bytes, and of those after it in what carries it */
    /* what follows is only known of a packet that carries another one */
    struct inner inner;    /* what it carries */
    unsigned version;
    size_t base_len;       /* length of the IP header in bytes */
    size_t stated_len;     /* length of the packet in bytes as that states it */
    size_t payload_offset; /* where the payload begins, which may be a UDP header */
    size_t payload_len;
    size_t header_offset;  /* where the tunnel's header begins */
    bool has_udp;
    bool is_authenticated; /* an authentication header covers what it carries */
    uint8_t refusal;       /* why that can't be replaced: an enum wolfaren_refusal */
};

/* From the outermost one on. */
struct levels {
    size_t count;
    struct level of[LEVELS];
};

/* Makes the packet in a frame the only one. */
void begin_levels(struct levels *levels, const struct packet *packet);

/*
 * Adds the IP packet in a tunnel of the last one, `packet`, which was dissected, and makes `packet` that one. Returns false if there
 * is none, or if it is too deep.
 */
bool enter_level(struct levels *levels, const struct parts *parts, struct packet *packet);

/*
 * Returns why the packet with this index can't become longer by so many bytes, or shorter if the number is negative: an enum
 * wolfaren_refusal. With `may_be_invalid`, authentication headers are no reason.
 */
uint8_t refuse_growth(const struct levels *levels, size_t index, ptrdiff_t growth, bool may_be_invalid);

/* Whether an authentication header of an outer packet covers the one with this index. */
bool is_covered(const struct levels *levels, size_t index);

/*
 * Replaces the first `old_len` bytes of the packet with this index by others, in a frame that has room for them, and which has
 * `*len` bytes. Of the outer packets, lengths follow, and so do checksums: those of IPv4, of GRE, and of UDP unless it is 0. A
 * checksum that was wrong is still wrong.
 */
void replace_packet(struct levels *levels, size_t index, uint8_t *frame, size_t *len, size_t old_len, const uint8_t *bytes,
                    size_t new_len);

#endif
