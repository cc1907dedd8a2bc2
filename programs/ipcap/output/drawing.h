/* Draws IP packets: their bytes in hexadecimal, with the headers marked below them. */
#ifndef IPCAP_DRAWING_H
#define IPCAP_DRAWING_H

#include <stdbool.h>

#include "output/writer.h"
#include "packets/parts.h"

/* Draws a packet, in colour if `in_color` is set. */
void put_drawing(struct writer *writer, const struct parts *parts, bool in_color);

#endif
