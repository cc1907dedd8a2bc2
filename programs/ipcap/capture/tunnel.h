/* Tunnels: packets whose payload carries another packet. */
#ifndef IPCAP_TUNNEL_H
#define IPCAP_TUNNEL_H

#include <stdbool.h>
#include <stddef.h>
#include <stdint.h>

#include "capture/protocol.h"
#include "packets/parts.h"

enum tunnel { TUNNEL_IP, TUNNEL_GRE, TUNNEL_GTP_U, TUNNEL_VXLAN, TUNNEL_GENEVE };

/* What a tunnel carries. */
struct inner {
    enum tunnel tunnel;
    bool is_ip;
    const uint8_t *bytes; /* of an IP packet: its bytes, and what follows it in the payload of the outer packet */
    size_t len;
    struct protocol protocol;    /* the last number that says what the tunnel carries */
    struct wolfaren_frame found; /* what was found in the frame that it carries, or by that number */
    uint32_t vlans;              /* the identifiers of the VLAN tags of its frame, as `vlans_of` returns them, if it carries frames */
    bool has_identifier;         /* the tunnel has a number: the key of GRE, the endpoint's of GTP-U, the network's of VXLAN and Geneve */
    uint32_t identifier;
};

/* Returns the name of a tunnel, which is empty for IP in IP. */
const char *tunnel_name(enum tunnel tunnel);

/*
 * Finds what a dissected packet carries, if its payload begins with the headers of a tunnel. Returns false if there are
 * none, or if they are truncated, malformed, or those of a control message. No payload is found in a later fragment, or
 * after a fault or a truncated header.
 */
bool find_inner(const struct parts *parts, struct inner *inner);

#endif
