/* Changes the extension headers of packets. */
#ifndef IPCAP_CHANGES_H
#define IPCAP_CHANGES_H

#include <stdbool.h>
#include <stddef.h>
#include <stdint.h>

#include "capture/capture.h"
#include "commands/budget.h"
#include "packets/parts.h"
#include "packets/refusals.h"
#include "wolfaren.h"

/* All zeros are one that changes nothing. */
struct rewriter {
    struct wolfaren_request request; /* what is changed; whether headers may be invalid is the next field */
    bool breaks_authentication;      /* packets that keep an authentication header are changed, too */
    bool has_tunnels;                /* packets in tunnels are changed, too */
    uint64_t refused[REFUSALS];      /* number of packets that weren't changed, by the library's refusal */
    uint64_t without_checksums;      /* number of packets that were, but whose transport checksums don't hold any more */
    uint64_t without_check_values;   /* number of those whose authentication headers have a wrong integrity check value */
    struct parts parts;              /* of the packet that is looked at */
    struct account *account;         /* from which memory is taken */
    uint8_t *buffer;                 /* of the last packet that was changed: twice `room` bytes */
    size_t room;
};

/*
 * Changes a packet that was read: leaves headers out, then clears reserved bits, then orders the headers. Packets in its tunnels
 * are changed before the one that carries them. Everything else in its frame and its block stays. A packet that is refused is as
 * it was, and counted. What the packet refers to is
 * valid until the next call. If memory runs out, or the budget does, reports that and returns false.
 */
bool rewrite_packet(struct rewriter *rewriter, struct packet *packet);

/*
 * Reports how many packets of the capture were refused, by reason, and how many have checksums or check values that no longer
 * hold.
 */
void report_rewrites(const struct rewriter *rewriter, const char *name);

void end_rewriter(struct rewriter *rewriter);

#endif
