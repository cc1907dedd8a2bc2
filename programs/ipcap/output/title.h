/* The line that describes a captured packet. */
#ifndef IPCAP_TITLE_H
#define IPCAP_TITLE_H

#include <stdint.h>

#include "capture/capture.h"
#include "counts/chain_text.h"
#include "output/writer.h"
#include "packets/parts.h"

/*
 * Writes the time of a packet as in RFC 3339, with as many digits as the capture has. A time that has no such form is
 * written as the number of seconds since the epoch.
 */
void put_time(struct writer *writer, const struct capture *capture, const struct packet *packet);

/* Returns the length of a frame before the snap length truncated it. */
uint32_t frame_len(const struct packet *packet);

/*
 * Writes a line with the number, the time, the addresses, the lengths, the chain and the details of a packet, or of one in its
 * tunnels, whose path it then has.
 */
void put_title(struct writer *writer, const struct capture *capture, const struct packet *packet,
               const struct parts *parts, const struct path *path);

#endif
