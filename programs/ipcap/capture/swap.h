/* Headers of frames whose numbers are in the byte order of the machine that captured them. */
#ifndef IPCAP_SWAP_H
#define IPCAP_SWAP_H

#include <stddef.h>
#include <stdint.h>

/*
 * Swaps the bytes of such numbers in a frame, so that they are in the other byte order: the heads of a netfilter log's attributes,
 * and the identifier of a CAN frame in a cooked capture. The link type is one of libpcap's DLT_ values.
 */
void swap_header(int link_type, uint8_t *frame, size_t len);

#endif
