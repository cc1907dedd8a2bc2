/* What the frames of link layers carry. */
#ifndef IPCAP_PROTOCOL_H
#define IPCAP_PROTOCOL_H

#include <stdbool.h>
#include <stddef.h>
#include <stdint.h>

#include "wolfaren.h"

/* The number by which a header says what follows it. */
struct protocol {
    unsigned kind; /* WOLFAREN_NO_NUMBER .. */
    uint32_t number;
    unsigned version; /* the IP version that the number stands for, or 0 */
};

/* Returns the last number in the headers of a frame. */
struct protocol protocol_of(const struct wolfaren_frame *frame);

/*
 * Returns the VLAN identifiers of a frame: that of the first tag in the bits from 12 to 23, and that of the second one in the
 * bits below. A tag that isn't there has the identifier 0, as one that names no VLAN.
 */
uint32_t vlans_of(const struct wolfaren_frame *frame);

/* Whether the frames of a link layer, one of libpcap's DLT_ values, can be read. */
bool is_supported(int link_type);

/* Whether the `len` bytes of a packet begin with one IP version, 4 or 6, where its protocol stands for the other. */
bool is_mismatched(const struct protocol *protocol, const uint8_t *packet, size_t len);

#endif
