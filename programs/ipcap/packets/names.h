/* Finds the codes of the library's words, and numbers. */
#ifndef IPCAP_NAMES_H
#define IPCAP_NAMES_H

#include <stdbool.h>
#include <stddef.h>
#include <stdint.h>

/* Find the kind and the layer whose word has these `len` bytes. Return false if there is none. */
bool find_kind(const char *name, size_t len, uint8_t *kind);
bool find_layer(const char *name, size_t len, uint8_t *layer);

/* Reads a decimal number from 0 to 255 without leading zeros, and advances `text` past it. Returns false on failure. */
bool read_byte_number(const char **text, uint8_t *number);

#endif
