/* Converts what a frame carries to table keys and to text. */
#ifndef IPCAP_PROTOCOL_KEY_H
#define IPCAP_PROTOCOL_KEY_H

#include <stdbool.h>

#include "capture/protocol.h"
#include "counts/chain_text.h"
#include "counts/key_counts.h"

/* Writes the key of a protocol. Returns false if its number is unknown. */
bool protocol_key(const struct protocol *protocol, struct key *key);

/* Formats the protocol of a key as text, for example `EtherType 0x0806`. */
void write_protocol(const uint8_t *key, size_t len, char text[CHAIN_TEXT_ROOM]);

/* Parses text in the format of `write_protocol` into a key. Returns false if it isn't in that format. */
bool read_protocol(const char *text, struct key *key);

/* Compares two struct wolfaren_chain_count of protocols for printing: by descending count, and equal counts by the key. */
int compare_protocols(const void *left, const void *right);

#endif
