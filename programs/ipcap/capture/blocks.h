/* Numbers of pcapng blocks, which are in the byte order of their section. Only the section header says which that is. */
#ifndef IPCAP_BLOCKS_H
#define IPCAP_BLOCKS_H

#include <stdbool.h>
#include <stddef.h>
#include <stdint.h>

/* Returns the number of 4 bytes, whose least significant byte is the first one if `is_little`. */
uint32_t block_number(const uint8_t *place, bool is_little);

/* Stores a number in 4 bytes. */
void put_block_number(uint8_t *place, uint32_t number, bool is_little);

/* Returns a length with the padding that follows so many bytes of a block. */
uint32_t padded_len(uint32_t len);

#endif
