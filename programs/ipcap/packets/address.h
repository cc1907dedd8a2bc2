/* The addresses of IP headers as text. */
#ifndef IPCAP_ADDRESS_H
#define IPCAP_ADDRESS_H

#include <stdbool.h>

#include "output/writer.h"
#include "packets/parts.h"

/*
 * Writes the source or the destination address of a packet with an IP header, as the system's `inet_ntop` does: an IPv6
 * address by RFC 5952, section 4.
 */
void put_address(struct writer *writer, const struct parts *parts, bool is_destination);

/* Writes the address of an IP version in these bytes. */
void put_address_bytes(struct writer *writer, unsigned version, const uint8_t *address);

#endif
