/* The JSON object and the row of values that describe a captured packet: its frame, its dissection and its headers. */
#ifndef IPCAP_RECORD_H
#define IPCAP_RECORD_H

#include "capture/capture.h"
#include "counts/chain_text.h"
#include "output/writer.h"
#include "packets/parts.h"

/*
 * Writes a line with a JSON object. `path` is that of a packet in tunnels, or null if tunnels aren't followed; the number of
 * the tunnels is then left out, also in the two calls below.
 */
void put_object(struct writer *writer, const struct capture *capture, const struct packet *packet,
                const struct parts *parts, const struct path *path);

/* Writes a line with the names of the values of each row, separated by commas. */
void put_names(struct writer *writer, bool has_tunnels);

/*
 * Writes a line with the values, separated by commas. A value is empty if the packet doesn't have it. The numbers of the
 * headers are separated by spaces.
 */
void put_row(struct writer *writer, const struct capture *capture, const struct packet *packet,
             const struct parts *parts, const struct path *path);

#endif
