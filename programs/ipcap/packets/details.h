/*
 * What a line says of a packet besides its addresses, its length and its chain: ports, flags of TCP, types of ICMP messages
 * and fragments. Numbers and names are written as tcpdump writes them.
 */
#ifndef IPCAP_DETAILS_H
#define IPCAP_DETAILS_H

#include "capture/protocol.h"
#include "output/writer.h"
#include "packets/parts.h"

/*
 * Stores the source or the destination port, if the packet has it, and returns whether it does: the payload is that of TCP, UDP,
 * DCCP, SCTP or UDP-Lite, not a later fragment, and has both bytes of the port.
 */
bool find_port(const struct parts *parts, bool is_destination, unsigned *port);

/* Writes that port after a point, if the packet has it. */
void put_port(struct writer *writer, const struct parts *parts, bool is_destination);

/* Writes which fragment the payload is, and the flags of a TCP header or the type of an ICMP message that it begins with. */
void put_details(struct writer *writer, const struct parts *parts);

/* Returns the name of what a frame carries, as tcpdump has it, or an empty string if it isn't in our list. */
const char *protocol_name(const struct protocol *protocol);

/* Writes what a frame without an IP packet carries, if its headers say so. */
void put_protocol(struct writer *writer, const struct protocol *protocol);

#endif
