/*
 * Reads the arguments of options. Each call stores the value at `place`, which points to the type that the call names,
 * and returns true. Returns false if the argument is malformed.
 */
#ifndef IPCAP_ARGUMENTS_H
#define IPCAP_ARGUMENTS_H

#include <stdbool.h>
#include <stdint.h>

/* What `read_memory_argument` reads, for messages. */
#define MEMORY_WORDS "a number of bytes of at least 64M, such as 512M or 2G"

/* Numbers from `first` up to `last`, including both. */
struct number_range {
    uint64_t first;
    uint64_t last;
};

/* Sets a `bool`. For options without an argument. */
bool set_flag(const char *argument, void *place);

/* Stores the argument itself: a `const char *`. */
bool read_text_argument(const char *argument, void *place);

/* Reads a decimal number above 0: a `uint64_t`. */
bool read_count_argument(const char *argument, void *place);

/* Reads a number of bytes, at least LEAST_MEMORY, which may end in K, M or G for powers of 1024: a `uint64_t`. */
bool read_memory_argument(const char *argument, void *place);

/* Reads a number above 0, or two with a hyphen between them, such as `5-10`: a `struct number_range`. */
bool read_range_argument(const char *argument, void *place);

/*
 * Reads the name or the number of an extension header, as terms of filters have them: sets the bit with that number of a
 * `uint64_t`. The bits that are set stay.
 */
bool read_header_argument(const char *argument, void *place);

/*
 * Reads a time: a `struct timespec`. It is a date and a time of day as in RFC 3339, in UTC if no offset is given, or a
 * number of seconds since the epoch. Both may have a fraction of up to 9 digits.
 */
bool read_time_argument(const char *argument, void *place);

#endif
