/* The words of conditions. */
#ifndef IPCAP_WORDS_H
#define IPCAP_WORDS_H

#include <stdbool.h>
#include <stddef.h>

/* Whether a byte separates words. */
bool is_space(char byte);

/* Returns the length of the word at the start of the `len` bytes: of signs, of a space, or of the bytes up to either. */
size_t word_len(const char *word, size_t len);

/* Whether the word at the start of `size` bytes is all of them, and this one. */
bool is_word(const char *word, size_t size, const char *wanted);

#endif
