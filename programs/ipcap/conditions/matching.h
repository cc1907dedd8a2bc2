/* Decides which packets meet a condition, by themselves or by what is in their tunnels. */
#ifndef IPCAP_MATCHING_H
#define IPCAP_MATCHING_H

#include <stdbool.h>

#include "capture/capture.h"
#include "capture/tunnel.h"
#include "packets/parts.h"

struct matcher {
    const struct wolfaren_filter *condition; /* null if every packet meets it */
    bool has_tunnels;                        /* a packet also meets it if one in its tunnels does */
    struct parts parts;                      /* all zeros before the first call */
};

/* Decides whether a packet meets the condition. One whose link layer isn't supported meets none. */
bool decide(struct matcher *matcher, const struct packet *packet);

/* Dissects the IP packet of a captured packet. */
void parse_captured(struct parts *parts, const struct packet *packet);

/* Makes a packet that which a tunnel in it carries, in the same frame. */
void enter_tunnel(struct packet *packet, const struct inner *inner);

#endif
