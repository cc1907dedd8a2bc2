/* Dissects a captured IP packet, and visits its extension headers. */
#ifndef IPCAP_PARTS_H
#define IPCAP_PARTS_H

#include <stdbool.h>
#include <stddef.h>
#include <stdint.h>

#include "wolfaren.h"

/* How a chain ends. */
enum chain_end {
    CHAIN_WHOLE,    /* complete: what follows is a payload, or the part of one */
    CHAIN_FAULTY,   /* the next extension header is malformed, or doesn't fit within the packet's stated length */
    CHAIN_TRUNCATED /* the next extension header is incomplete here, but not by the packet's stated length */
};

/* How many extension headers of a packet are stored. A packet may have millions. */
enum { STORED_HEADERS = 64 };

/* A packet and its dissection. Fill it with zeros before its first use. */
struct parts {
    const uint8_t *bytes; /* the captured bytes of the packet, and what follows it in the frame */
    size_t len;
    struct wolfaren_dissection packet;
    struct wolfaren_header headers[STORED_HEADERS]; /* the first extension headers; further elements have any values */
};

/* Dissects the packet at the start of the `len` bytes. */
void parse_packet(struct parts *parts, const uint8_t *bytes, size_t len);

/* A walk through the extension headers of a packet, also those that aren't stored. Fill it with zeros to start. */
struct header_walk {
    size_t visited;                /* number of headers visited so far */
    struct wolfaren_header header; /* the last of these */
};

/* Visits the next extension header. Returns false after the last one. */
bool visit_header(const struct parts *parts, struct header_walk *walk);

/* Returns how the chain of a packet ends. */
enum chain_end end_of_chain(const struct parts *parts);

/* Whether the packet has an error: a header that is merely truncated is none. */
bool has_fault(const struct parts *parts);

/* Whether the payload is a fragment. A fragment header that leaves the payload whole doesn't make it one. */
bool is_fragment(const struct parts *parts);

/*
 * Finds the fragment header of an IPv6 packet that makes the payload a fragment, or else that of an atomic fragment. Returns
 * false if there is none.
 */
bool find_fragment_header(const struct parts *parts, struct wolfaren_header *found);

/* Returns where the faulty or truncated header begins, or the packet that has the error. */
size_t fault_offset(const struct parts *parts);

/* Returns the header or packet that has an error, or a truncated header: a value of `layer` in struct wolfaren_fault. */
uint8_t faulty_layer(const struct wolfaren_fault *fault);

#endif
